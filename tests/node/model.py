"""A model of the machine that decides the next command of a node, of a lock's text, of the names of staged batches and of a node that starts, written from
docs/NODE.md, for tests/library/node.py.

A command and an outcome are tuples: the name, and then the arguments.
"""
import re
import typing


class State(typing.NamedTuple):
    """A state of the log: its timestamp, that of the state from which it was made, and a salt that distinguishes it from others of that timestamp."""

    moment: int
    before: int
    salt: int



READING = ("Reading",)
# The command that follows one that is done, by its name, with the arguments that it has of it.
DONE = {"Staging": ("Swapping", 1, 2, 3), "Swapping": ("Putting", 2, 3), "Deleting": ("Stepping", 1), "Putting": ("Placing", 1), "Placing": ("Heading", 1),
        "Heading": ("Answering", 1), "Answering": ("Reading",)}  # fmt: skip


def after(command, outcome):
    """The command that follows a command after its outcome. An outcome that does not belong to it gives it again."""
    verb, told = command[0], outcome[0]
    if told == "Lost" and verb != "Reading":
        return ("Stepping", command[1]) if verb == "Deleting" else READING
    if told == "Done" and verb in DONE:
        name, *places = DONE[verb]
        return (name, *(command[place] for place in places))
    if (verb, told) == ("Reading", "Read"):
        return ("Looking", outcome[1])
    if (verb, told) == ("Looking", "Published"):
        return ("Stepping", command[1])
    if (verb, told) == ("Looking", "Bundle"):
        return ("Putting", command[1], outcome[1])
    if (verb, told) == ("Stepping", "Stepped") and outcome[1].before == command[1].moment < outcome[1].moment:
        return ("Staging", command[1], *outcome[1:])
    if (verb, told) == ("Stepping", "Listed"):
        seen, staged = command[1], outcome[1]
        is_past = staged.before < seen.moment and (staged.moment, staged.salt) != (seen.moment, seen.salt)
        return ("Deleting", seen, staged) if is_past else command
    return command


# A lock's text, whose second line may be anything. Its digits are read in either case, and those of a name only in lower case.
TEXT = re.compile(rb"growth ([0-9a-fA-F]{16})([0-9a-fA-F]{16}).{256}\nnode .*\nsalt ([0-9a-fA-F]{16})([0-9a-fA-F]{16})\n", re.DOTALL)
NAME = re.compile(rb"staging/([0-9a-f]{16})([0-9a-f]{16})([0-9a-f]{16})")


def said(text):
    """The number of entries of a lock's text, and its state, or None."""
    found = TEXT.fullmatch(text)
    if not found:
        return None
    size, timestamp, before, salt = (int(digits, 16) for digits in found.groups())
    return size, State(timestamp, before if before < timestamp else 0, salt)


def state_of_name(name):
    """The state whose staged batch has a name, or None."""
    found = NAME.fullmatch(name)
    return found and State(*(int(digits, 16) for digits in found.groups()))


def name_of(state):
    return f"staging/{state.moment:016x}{state.before:016x}{state.salt:016x}".encode()


def next_text(line, node, before, salt):
    return line + b"\nnode " + node + f"\nsalt {before:016x}{salt:016x}\n".encode()


def reaches(head, other):
    """Whether a head is another one, or may come after it."""
    return head == other or head[0] >= other[0] and head[1] > other[1]


def reaches_other(head, other):
    """The same of a head with its root beside the lock's, or of none."""
    return other is None or (other[1] if head == other[0] else reaches(head, other[0]))


def beginning(text, found):
    """Returns the name of the code of a node that finds this when it starts. A head is a size, a timestamp and a root. The text is None if there is no lock."""
    if text is not None and not said(text):
        return "BAD_LOCK_TEXT"
    others = [one and (one[:2], text is not None and text[39:103] == one[2].hex().encode()) for one in map(found.get, ("seen", "signed", "published", "listed"))]
    seen, signed, published, listed = others
    if text is None:
        nothing = not found["has_object"] and all(one is None for one in (seen, signed, published, listed))
        return "CREATES_LOCK" if found["creates"] and nothing else "LOCK_GONE"
    size, state = said(text)
    head = (size, state.moment)
    if not reaches_other(head, seen):
        return "BEHIND_SEEN"
    if found["guarded"] and not reaches_other(head, signed):
        return "TWO_ROOTS" if head == signed[0] else "BEHIND_SIGNED"
    if found["guarded"] and listed and not (signed and reaches(signed[0], listed[0])):
        return "SIGNED_BEHIND_LISTED"
    if not reaches_other(head, listed):
        return "BEHIND_LISTED"
    if not reaches_other(head, published):
        return "BEHIND_PUBLISHED"
    return "OK"
