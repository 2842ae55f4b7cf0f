"""Which checkpoints a witness cosigns (C2SP tlog-witness). A state is the message that was cosigned last (C2SP tlog-cosignature)."""

from __future__ import annotations

import ctypes
import dataclasses
from collections.abc import Sequence

from ._errors import check
from ._library import load
from ._memory import hashes, number, output, text

# The most bytes of a message before the checkpoint's text.
_BEFORE_TEXT = 41


class _Tree(ctypes.Structure):
    _fields_ = [("tree_size", ctypes.c_uint64), ("time", ctypes.c_uint64), ("root", ctypes.c_uint8 * 32)]


@dataclasses.dataclass(frozen=True)
class WitnessedTree:
    """The tree that a witness cosigned last of a log. The time is in seconds since 1970."""

    tree_size: int
    time: int
    root: bytes


@dataclasses.dataclass(frozen=True)
class WitnessRequest:
    """A request to a witness: the text of a checkpoint, the size that the consistency proof is from, the proof, and the time of the cosignature in seconds."""

    checkpoint: bytes
    old: int
    proof: Sequence[bytes]
    time: int

    def words(self) -> tuple[bytes | int, ...]:
        return *text(self.checkpoint), number(self.old), *hashes(self.proof), number(self.time)


def witness_first(origin: bytes, request: WitnessRequest) -> bytes:
    """Returns the message to cosign exactly if the checkpoint may be the first that is cosigned of the log with this origin. Call it only if the operator added the log,
    and never because a state is missing."""
    code, message = output(_BEFORE_TEXT + len(request.checkpoint), 1, lambda *out: load().wagtenib_witness_first(*text(origin), *request.words(), *out))
    check(code)
    return message


def witness_cosign(state: bytes, request: WitnessRequest) -> bytes:
    """Returns the message to cosign exactly if the checkpoint may be cosigned after the message `state`."""
    code, message = output(_BEFORE_TEXT + len(request.checkpoint), 1, lambda *out: load().wagtenib_witness_cosign(*text(state), *request.words(), *out))
    check(code)
    return message


def witness_state(seen: bytes, state: bytes) -> WitnessedTree:
    """Returns the tree and the time of a state exactly if it is the state `seen`, or that of a later cosignature of the same log."""
    last = _Tree()
    check(load().wagtenib_witness_state(*text(seen), *text(state), ctypes.byref(last)))
    return WitnessedTree(last.tree_size, last.time, bytes(last.root))
