"""A monitor's verdicts on the answers of a log. Its state is bytes, which belong to the caller."""

from __future__ import annotations

import ctypes
import dataclasses
import enum
from collections.abc import Callable, Sequence
from typing import Any

from ._errors import Code, check
from ._guard import TreeHead, _Head
from ._library import load
from ._memory import hashes, number, output, pieces, text

# Every state has room in so many bytes.
_ROOM = 4275


class Verdict(enum.IntEnum):
    """A verdict of a monitor, as include/wagtenib.h numbers it."""

    ACCEPTED = 128
    PENDING = 129
    AGAIN = 130
    OLDER = 131
    SHRUNK = 132
    FORKED = 133
    HEAD_NOT_LATER = 134
    OTHER_ROOT = 135
    GAP = 136
    CONSISTENT = 137
    INCONSISTENT = 138

    @property
    def accuses(self) -> bool:
        """Whether the verdict speaks against the log."""
        return self in (Verdict.SHRUNK, Verdict.FORKED, Verdict.HEAD_NOT_LATER, Verdict.OTHER_ROOT)


_NAMING = (Verdict.OLDER, Verdict.SHRUNK, Verdict.FORKED, Verdict.HEAD_NOT_LATER)


class _Verdict(ctypes.Structure):
    _fields_ = [
        ("leaves_accepted", ctypes.c_uint64),
        ("leaves_read", ctypes.c_uint64),
        ("leaves_wanted", ctypes.c_uint64),
        ("known", _Head),
        ("root", ctypes.c_uint8 * 32),
        ("verdict", ctypes.c_uint32),
        ("fault", ctypes.c_uint32),
    ]


class _Report(ctypes.Structure):
    _fields_ = [
        ("head_timestamp", ctypes.c_uint64),
        ("later_index", ctypes.c_uint64),
        ("later_timestamp", ctypes.c_uint64),
        ("faulty_index", ctypes.c_uint64),
        ("fault", ctypes.c_uint32),
    ]


@dataclasses.dataclass(frozen=True)
class Judgement:
    """A verdict of a monitor, what it names, the numbers of the state after it, and that state. `known` is of OLDER, SHRUNK, FORKED and HEAD_NOT_LATER, `root` of OTHER_ROOT and
    `fault` of INCONSISTENT."""

    verdict: Verdict
    known: TreeHead | None
    root: bytes | None
    fault: Code | None
    accepted: int
    read: int
    wanted: int
    state: bytes


@dataclasses.dataclass(frozen=True)
class EntryReport:
    """The timestamp of the head that waited for the entries (0 if none waited), the first entry that is later than that head, with its timestamp, and the first that
    is no leaf, with its fault. Timestamps are in milliseconds. Both entries are indexes in the log, or None."""

    head_timestamp: int
    later: tuple[int, int] | None
    faulty: tuple[int, Code] | None


def _judged(call: Callable[..., int]) -> Judgement:
    reported = _Verdict()
    code, state = output(_ROOM, 1, lambda *out: call(ctypes.byref(reported), *out))
    check(code)
    verdict = Verdict(reported.verdict)
    known = TreeHead(reported.known.tree_size, reported.known.timestamp, bytes(reported.known.root)) if verdict in _NAMING else None
    root = bytes(reported.root) if verdict == Verdict.OTHER_ROOT else None
    fault = Code(reported.fault) if verdict == Verdict.INCONSISTENT else None
    return Judgement(verdict, known, root, fault, reported.leaves_accepted, reported.leaves_read, reported.leaves_wanted, state)


def monitor_begin() -> bytes:
    """Returns the state of a monitor that was handed nothing. Never call it because a state is missing."""
    code, state = output(_ROOM, 1, load().wagtenib_monitor_begin)
    check(code)
    return state


def monitor_start(head: TreeHead, subtrees: Sequence[bytes]) -> bytes:
    """Returns the state of a monitor that is to trust a head, whose leaves have perfect subtrees with these roots, largest first."""
    trusted = head.in_c()
    code, state = output(_ROOM, 1, lambda *out: load().wagtenib_monitor_start(ctypes.byref(trusted), *hashes(subtrees), *out))
    check(code)
    return state


def monitor_head(state: bytes, head: TreeHead) -> Judgement:
    """Judges a tree head over a state. Keep the state of the judgement before you act on the verdict."""
    judged = head.in_c()
    return _judged(lambda *out: load().wagtenib_monitor_head(*text(state), ctypes.byref(judged), *out))


def monitor_entries(state: bytes, start: int, leaves: Sequence[bytes]) -> tuple[Judgement, EntryReport]:
    """Judges the leaves (MerkleTreeLeaf, RFC 6962, section 3.4) from the index start on. As many are read and reported on as the waiting head has."""
    reported = _Report()
    contents = pieces(leaves)

    def call(verdict: Any, *out: Any) -> int:
        return load().wagtenib_monitor_entries(*text(state), number(start), *contents, verdict, ctypes.byref(reported), *out)

    judged = _judged(call)
    later = (reported.later_index, reported.later_timestamp) if reported.later_timestamp else None
    return judged, EntryReport(reported.head_timestamp, later, (reported.faulty_index, Code(reported.fault)) if reported.fault else None)


def monitor_proof(state: bytes, proof: Sequence[bytes]) -> Judgement:
    """Judges a consistency proof from the accepted head to the waiting one. The state stays the same."""
    return _judged(lambda *out: load().wagtenib_monitor_proof(*text(state), *hashes(proof), *out))


def monitor_older(state: bytes, head: TreeHead, proof: Sequence[bytes]) -> Judgement:
    """Judges a consistency proof from an older head to the accepted one if that has more leaves, otherwise to the waiting one. The state stays the same."""
    judged = head.in_c()
    return _judged(lambda *out: load().wagtenib_monitor_older(*text(state), ctypes.byref(judged), *hashes(proof), *out))


def compare_heads(known: TreeHead, head: TreeHead) -> Verdict | None:
    """Compares two tree heads of one log by their numbers. Returns None if the head has more leaves than the known one, and is later."""
    first, second = known.in_c(), head.in_c()
    code = load().wagtenib_compare_heads(ctypes.byref(first), ctypes.byref(second))
    return Verdict(code) if code else None


def monitor_entry(head_timestamp: int, leaf: bytes) -> tuple[int, bool]:
    """Judges one leaf (MerkleTreeLeaf) beside a tree head with this timestamp. Returns the timestamp of the leaf, and whether it is later, which speaks against the log.

    All timestamps are in milliseconds. The error is that of decode_leaf.
    """
    timestamp = ctypes.c_uint64()
    code = load().wagtenib_monitor_entry(number(head_timestamp), *text(leaf), ctypes.byref(timestamp))
    if code != Code.LATER_ENTRY:
        check(code)
    return timestamp.value, code == Code.LATER_ENTRY
