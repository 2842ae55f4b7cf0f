"""What a log's key may sign. A state is the TreeHeadSignature that was signed last (RFC 6962, section 3.5)."""

from __future__ import annotations

import ctypes
import dataclasses
from collections.abc import Sequence

from ._errors import check
from ._library import load
from ._memory import hash_of, hashes, number, pieces, text

STATE = 50


class _Head(ctypes.Structure):
    _fields_ = [("tree_size", ctypes.c_uint64), ("timestamp", ctypes.c_uint64), ("root", ctypes.c_uint8 * 32)]


@dataclasses.dataclass(frozen=True)
class TreeHead:
    """A tree head without its signature."""

    tree_size: int
    timestamp: int
    root: bytes

    def in_c(self) -> _Head:
        return _Head(number(self.tree_size), number(self.timestamp), (ctypes.c_uint8 * 32)(*hash_of(self.root)))


def guard_first_head(head: TreeHead, named: TreeHead) -> bytes:
    """Returns the bytes to sign exactly if the head may be the first that a log signs."""
    signed = ctypes.create_string_buffer(STATE)
    check(load().wagtenib_guard_first_head(ctypes.byref(head.in_c()), ctypes.byref(named.in_c()), signed))
    return signed.raw


def guard_head(last: bytes, head: TreeHead, proof: Sequence[bytes], max_ahead: int) -> bytes:
    """Returns the bytes to sign exactly if the head may be signed after the one whose TreeHeadSignature is `last`."""
    signed = ctypes.create_string_buffer(STATE)
    check(load().wagtenib_guard_head(*text(last), ctypes.byref(head.in_c()), *hashes(proof), number(max_ahead), signed))
    return signed.raw


def guard_receipt(last: bytes, leaf: bytes, leaf_index: int, path: Sequence[bytes]) -> None:
    """Returns exactly if an SCT of the leaf may be signed after the head whose TreeHeadSignature is `last`."""
    check(load().wagtenib_guard_receipt(*text(last), *text(leaf), number(leaf_index), *hashes(path)))


def guard_receipts(last: bytes, first_index: int, subtrees: Sequence[bytes], leaves: Sequence[bytes]) -> None:
    """Returns exactly if SCTs of all leaves of a step may be signed after the head whose TreeHeadSignature is `last`.

    The leaves have the indexes from first_index on. `subtrees` are the roots of the perfect subtrees of the leaves before them, largest first.
    """
    check(load().wagtenib_guard_receipts(*text(last), number(first_index), *hashes(subtrees), *pieces(leaves)))


def guard_state(seen: bytes, state: bytes) -> TreeHead:
    """Returns the head of a state exactly if it is that of the state `seen`, or a later one."""
    head = _Head()
    check(load().wagtenib_guard_state(*text(seen), *text(state), ctypes.byref(head)))
    return TreeHead(head.tree_size, head.timestamp, bytes(head.root))
