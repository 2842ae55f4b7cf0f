"""Decides as a witness does (docs/WITNESS.md; C2SP tlog-witness, tlog-cosignature), as the page says it: an oracle for tests beside the proved calls of libwagtenib,
plain and slow. It uses only hashlib for the tree, and shares no code with the calls."""
import base64
import binascii
import collections
import pathlib
import re
import sys

sys.path.insert(0, str(pathlib.Path(__file__).resolve().parent.parent))

from merkle import fault_of_proof, sha256  # noqa: E402

# The last cosignature of a log. The time is in seconds.
Cosigned = collections.namedtuple("Cosigned", "origin size root time")
NUMBER = re.compile("0|[1-9][0-9]*")


def none_yet(origin):
    """The last cosignature before the first one."""
    return Cosigned(origin, 0, sha256(b""), 0)


def number_of(text):
    """The number below 2^64 that a text is, or None."""
    return int(text) if NUMBER.fullmatch(text) and int(text) < 1 << 64 else None


def tree_of(text):
    """The origin, the size and the root that the bytes of a checkpoint say, or None if they are no checkpoint without extension lines."""
    try:
        lines = text.decode().split("\n")
        root = base64.b64decode(lines[2], validate=True) if len(lines) == 4 else b""
    except (UnicodeDecodeError, binascii.Error, ValueError):
        return None
    if len(lines) != 4 or lines[3] or not lines[0] or number_of(lines[1]) is None or len(root) != 32 or base64.b64encode(root).decode() != lines[2]:
        return None
    return lines[0], int(lines[1]), root


def message(time, text):
    """The message that is cosigned of a checkpoint."""
    return f"cosignature/v1\ntime {time}\n".encode() + text


def cosigned_in(state):
    """The cosignature whose message a state is, or None."""
    found = re.fullmatch(rb"cosignature/v1\ntime ([0-9]+)\n(.*)", state, re.S)
    tree = found and tree_of(found[2])
    time = found and number_of(found[1].decode())
    return Cosigned(*tree, time) if tree and time is not None else None


def refusal(last, text, old, proof, time):
    """The name of the code (include/wagtenib.h) for which a checkpoint is not cosigned after the last one, or None."""
    tree = tree_of(text)
    if tree is None:
        return "NO_CHECKPOINT"
    origin, size, root = tree
    if origin != last.origin:
        return "OTHER_ORIGIN"
    if size < old:
        return "OLD_ABOVE"
    if old != last.size:
        return "NOT_LAST"
    if size == last.size and root != last.root:
        return "FORK"
    if size == last.size or last.size == 0:
        if proof:
            return "PROOF_NOT_EMPTY"
    else:
        fault = fault_of_proof(last.size, size, last.root, root, proof)
        if fault:
            return fault.upper().replace("-", "_")
    return "TIME_FALLS" if time == 0 or time < last.time else None


def is_seen_or_later(seen, found):
    """Whether a cosignature is the one that was seen, or a later one of the same log."""
    return found.origin == seen.origin and found.time >= seen.time and (found[1:3] == seen[1:3] or found.size > seen.size)
