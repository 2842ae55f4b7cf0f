"""Leaves, proofs and roots (RFC 6962, sections 2.1 and 3.4; RFC 9162, sections 2.1.3 and 2.1.4)."""

from __future__ import annotations

import ctypes
import dataclasses
from collections.abc import Sequence

from ._errors import check
from ._library import load
from ._memory import HASH, hash_of, hashes, number, one_hash, text


def leaf_hash(leaf: bytes) -> bytes:
    """Returns SHA-256(00 || leaf)."""
    return one_hash(lambda out: load().wagtenib_leaf_hash(*text(leaf), out))[1]


def verify_inclusion(leaf_hash: bytes, leaf_index: int, tree_size: int, path: Sequence[bytes], root: bytes) -> None:
    """Returns exactly if the audit path leads from the leaf hash to the root."""
    check(load().wagtenib_verify_inclusion(hash_of(leaf_hash), number(leaf_index), number(tree_size), *hashes(path), hash_of(root)))


def verify_consistency(first: int, second: int, first_root: bytes, second_root: bytes, proof: Sequence[bytes]) -> None:
    """Returns exactly if the consistency proof leads to both roots."""
    check(load().wagtenib_verify_consistency(number(first), number(second), hash_of(first_root), hash_of(second_root), *hashes(proof)))


def root(leaf_hashes: Sequence[bytes]) -> bytes:
    """Returns the Merkle Tree Hash of leaves with these hashes."""
    code, found = one_hash(lambda out: load().wagtenib_root(*hashes(leaf_hashes), out))
    check(code)
    return found


class _LeafInfo(ctypes.Structure):
    _fields_ = [("timestamp", ctypes.c_uint64), ("certificate_length", ctypes.c_uint64), ("extensions_length", ctypes.c_uint64), ("entry_type", ctypes.c_uint32)]


@dataclasses.dataclass(frozen=True)
class Leaf:
    """A MerkleTreeLeaf. `issuer_key_hash` is empty if the entry is a certificate."""

    timestamp: int
    entry_type: int
    issuer_key_hash: bytes
    certificate: bytes
    extensions: bytes


def decode_leaf(leaf: bytes) -> Leaf:
    """Returns the fields of a MerkleTreeLeaf exactly if the bytes are one, all of them."""
    info = _LeafInfo()
    check(load().wagtenib_decode_leaf(*text(leaf), ctypes.byref(info)))
    start = 12 + (HASH if info.entry_type else 0)
    begin = start + 3
    return Leaf(info.timestamp, info.entry_type, leaf[12:start], leaf[begin : begin + info.certificate_length], leaf[len(leaf) - info.extensions_length :])


def push(size: int, subtrees: Sequence[bytes], leaf_hash: bytes) -> list[bytes]:
    """Returns the perfect subtrees of size + 1 leaves, of which the last one is appended to those of size leaves."""
    joined, count = hashes(subtrees)
    memory = ctypes.create_string_buffer(joined, len(joined) + HASH)
    length = ctypes.c_size_t()
    check(load().wagtenib_push(number(size), count, memory, count + 1, hash_of(leaf_hash), ctypes.byref(length)))
    return [memory.raw[HASH * i : HASH * (i + 1)] for i in range(length.value)]


def subtrees_root(subtrees: Sequence[bytes]) -> bytes:
    """Returns the Merkle Tree Hash of the leaves whose perfect subtrees these are."""
    return one_hash(lambda out: load().wagtenib_subtrees_root(*hashes(subtrees), out))[1]
