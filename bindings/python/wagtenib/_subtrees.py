"""Subtrees of a tree, whose hashes Merkle Tree Certificates sign (RFC 6962, section 2.1; draft-ietf-plants-merkle-tree-certs)."""

from __future__ import annotations

import ctypes
from collections.abc import Sequence

from ._errors import check
from ._library import load
from ._memory import hash_of, hashes, number, one_hash


def check_subtree(start: int, end: int) -> None:
    """Returns exactly if [start, end) is a subtree."""
    check(load().wagtenib_check_subtree(number(start), number(end)))


def verify_subtree(start: int, end: int, tree_size: int, subtree_hash: bytes, root: bytes, proof: Sequence[bytes]) -> None:
    """Returns exactly if the consistency proof leads from the hash of the subtree [start, end) to the root."""
    check(load().wagtenib_verify_subtree(number(start), number(end), number(tree_size), hash_of(subtree_hash), hash_of(root), *hashes(proof)))


def evaluate_subtree_path(leaf_hash: bytes, leaf_index: int, start: int, end: int, path: Sequence[bytes]) -> bytes:
    """Returns the hash of the subtree [start, end) to which the path leads. The caller must compare it with one that it trusts for this subtree."""
    code, found = one_hash(lambda out: load().wagtenib_evaluate_subtree_path(hash_of(leaf_hash), number(leaf_index), number(start), number(end), *hashes(path), out))
    check(code)
    return found


def cover_range(start: int, end: int) -> list[tuple[int, int]]:
    """Returns the one or two subtrees that cover the leaves from index `start` to `end` - 1, each as its start and its end."""
    first, middle = ctypes.c_uint64(), ctypes.c_uint64()
    check(load().wagtenib_cover_range(number(start), number(end), ctypes.byref(first), ctypes.byref(middle)))
    right = (middle.value, end)
    return [right] if first.value == middle.value else [(first.value, middle.value), right]
