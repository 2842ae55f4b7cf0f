#!/usr/bin/env python3
"""Compares the node's calls of libwagtenib, as gcc makes it of dist/, with tests/node/model.py over random calls.

    node.py [--calls 50000] [--seed 1]

Of random commands and outcomes, most of which do not belong together, the next command must be the model's. Of random lock texts, names of staged batches and
starts, right and damaged, the answer must be the model's. Each code of the node must come at least once. Without gcc for this processor it says so.
"""
import sys

from comparing import TESTS, Fault, begin, wagtenib
from wagtenib import NodeDoes, NodeTold

sys.path.insert(0, str(TESTS / "node"))
# (the folder above is on the path only now)
import model  # noqa: E402

MOST = (1 << 64) - 1
# The commands of the machine: which number each has, and which of `seen`, `next` and `objects` it is about.
COMMANDS = {
    "Reading": (NodeDoes.READ_LOCK, ()),
    "Looking": (NodeDoes.LOOK_FOR_HEAD, ("seen",)),
    "Stepping": (NodeDoes.MAKE_STEP, ("seen",)),
    "Staging": (NodeDoes.STAGE_BATCH, ("seen", "next", "objects")),
    "Swapping": (NodeDoes.SWAP_LOCK, ("seen", "next", "objects")),
    "Deleting": (NodeDoes.DELETE_BATCH, ("seen", "next")),
    "Putting": (NodeDoes.PUT_OBJECTS, ("next", "objects")),
    "Placing": (NodeDoes.ADD_TO_INDEX, ("next",)),
    "Heading": (NodeDoes.PUBLISH_HEAD, ("next",)),
    "Answering": (NodeDoes.ANSWER_ALL, ("next",)),
}
OUTCOMES = {
    "Done": (NodeTold.DONE, ()),
    "Lost": (NodeTold.LOST, ()),
    "Read": (NodeTold.LOCK_READ, ("state",)),
    "Published": (NodeTold.PUBLISHED, ()),
    "Bundle": (NodeTold.BATCH_READ, ("objects",)),
    "Stepped": (NodeTold.STEP_MADE, ("state", "objects")),
    "Listed": (NodeTold.BATCH_LISTED, ("state",)),
}
# The codes of the node that a call must have returned.
CODES, CREATES = ("BAD_LOCK_TEXT", "BAD_BATCH_NAME", "LOCK_GONE", "BEHIND_SEEN", "BEHIND_SIGNED", "TWO_ROOTS", "SIGNED_BEHIND_LISTED", "BEHIND_LISTED", "BEHIND_PUBLISHED"), "creates the lock"


def in_call(value):
    """A state or a number of the machine, as the package has it."""
    return wagtenib.NodeState(*value) if isinstance(value, tuple) else value


def command_of(node):
    """A node of the machine, as the package has its command."""
    does, about = COMMANDS[node[0]]
    return wagtenib.NodeCommand(does, **dict(zip(about, map(in_call, node[1:]))))


def outcome_of(outcome):
    told, about = OUTCOMES[outcome[0]]
    return wagtenib.NodeOutcome(told, **dict(zip(about, map(in_call, outcome[1:]))))


class Calls:
    """Random calls, and what must come of them."""

    def __init__(self, comparison):
        self.chance, self.compare, self.came = comparison.chance, comparison.call, comparison.came

    def number(self):
        return self.chance.choice((0, 1, 2, 3, 4, 5, self.chance.getrandbits(64), MOST))

    def state(self):
        return model.State(self.number(), self.number(), self.number())

    def damaged(self, text):
        """A text that is right, or wrong in one way."""
        at, how = self.chance.randrange(len(text)), self.chance.randrange(8)
        if how == 0:
            return text[:at] + bytes([text[at] ^ 1 << self.chance.randrange(8)]) + text[at + 1 :]
        return {1: text[:at], 2: text + b"\n", 3: text[1:]}.get(how, text)

    def next(self):
        """A command and an outcome, which need not belong together."""
        verb, told = self.chance.choice(list(COMMANDS)), self.chance.choice(list(OUTCOMES))
        values = {"seen": self.state(), "next": self.state(), "state": self.state(), "objects": self.number()}
        node, outcome = (verb, *(values[one] for one in COMMANDS[verb][1])), (told, *(values[one] for one in OUTCOMES[told][1]))
        due = command_of(model.after(node, outcome))
        self.compare(f"after {outcome} of {node}", due, lambda: wagtenib.node_next(command_of(node), outcome_of(outcome)))

    def lock(self):
        """A lock's text with its size, timestamp and root."""
        size, timestamp, root = self.number(), self.number(), self.chance.randbytes(32)
        line = f"growth {size:016x}{timestamp:016x}{root.hex()}".encode() + self.chance.choice((b"0", b"f", b"\xff")) * 192
        node = self.chance.choice((b"", b"-", b"http://node.example:8443", b"\nsalt ", self.chance.randbytes(9)))
        return line, node, size, timestamp, root

    def text(self):
        line, node, _, _, _ = self.lock()
        before, salt = self.number(), self.number()
        text = model.next_text(line, node, before, salt)
        self.compare("a lock's text", text, lambda: wagtenib.lock_text(line, node, before, salt))
        text = self.damaged(text)
        found = model.said(text)
        due = (wagtenib.NodeState(*found[1]), found[0]) if found else Fault("BAD_LOCK_TEXT")
        self.compare(f"the lock's text {text!r}", due, lambda: wagtenib.lock_state(text))

    def name(self):
        state = self.state()
        name = model.name_of(state)
        self.compare("a name", name, lambda: wagtenib.batch_name(wagtenib.NodeState(*state)))
        name = self.damaged(name)
        found = model.state_of_name(name)
        self.compare(f"the name {name!r}", wagtenib.NodeState(*found) if found else Fault("BAD_BATCH_NAME"), lambda: wagtenib.batch_state(name))

    def start(self):
        line, node, size, timestamp, root = self.lock()
        text = None if self.chance.random() < 0.2 else model.next_text(line, node, max(timestamp - 1, 0), 7)
        if text and self.chance.random() < 0.1:
            text = self.chance.choice((b"", self.damaged(text)))

        def head():
            """A head near the lock's, or none."""
            if self.chance.random() < 0.6:
                return None
            near = lambda n: min(max(n + self.chance.choice((-1, 0, 0, 0, 1)), 0), MOST)
            return near(size), near(timestamp), self.chance.choice((root, root, self.chance.randbytes(32)))

        found = {"seen": head(), "signed": head(), "published": head(), "listed": head()}
        found |= {flag: self.chance.random() < 0.4 for flag in ("guarded", "has_object", "creates")}
        if text is None and self.chance.random() < 0.5:
            found |= {"seen": None, "signed": None, "published": None, "listed": None}
        due = model.beginning(text, found)
        given = wagtenib.NodeFound(**{key: wagtenib.TreeHead(*one) if isinstance(one, tuple) else one for key, one in found.items()})
        due = {"OK": False, "CREATES_LOCK": True}.get(due, Fault(due))
        self.came[CREATES] += due is True
        self.compare(f"a start with {text!r} and {found}", due, lambda: wagtenib.node_start(text, given))


def main():
    options, comparison = begin("tests/library/node.py", 50_000)
    calls = Calls(comparison)
    for _ in range(options.calls):
        calls.chance.choices((calls.next, calls.text, calls.name, calls.start), (4, 1, 1, 3))[0]()
    comparison.ends({*CODES, CREATES})


if __name__ == "__main__":
    main()
