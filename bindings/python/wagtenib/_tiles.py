"""Roots, audit paths and consistency proofs out of tiles (C2SP tlog-tiles; RFC 6962, section 2.1)."""

from __future__ import annotations

from collections.abc import Callable, Sequence

from ._errors import check
from ._library import load
from ._memory import HASH, number, one_hash, output, pieces

_NAMES, _HASHES = 16 * 48, 65


def _names(call: Callable[..., int]) -> list[str]:
    code, names = output(_NAMES, 1, call)
    check(code)
    return names.decode().splitlines()


def _hashes(call: Callable[..., int]) -> list[bytes]:
    code, joined = output(_HASHES, HASH, call)
    check(code)
    return [joined[i : i + HASH] for i in range(0, len(joined), HASH)]


def root_tiles(tree_size: int) -> list[str]:
    """Returns the names of the tiles that the root of the first tree_size leaves is made of, the lowest level first."""
    return _names(lambda *out: load().wagtenib_root_tiles(number(tree_size), *out))


def path_tiles(leaf_index: int, tree_size: int) -> list[str]:
    """Returns the names of the tiles that an audit path is made of."""
    return _names(lambda *out: load().wagtenib_path_tiles(number(leaf_index), number(tree_size), *out))


def proof_tiles(first: int, second: int) -> list[str]:
    """Returns the names of the tiles that a consistency proof is made of."""
    return _names(lambda *out: load().wagtenib_proof_tiles(number(first), number(second), *out))


def root_of_tiles(tree_size: int, tiles: Sequence[bytes]) -> bytes:
    """Returns the root of the first tree_size leaves, from the tiles that root_tiles names, in this order."""
    code, found = one_hash(lambda out: load().wagtenib_root_of_tiles(number(tree_size), *pieces(tiles), out))
    check(code)
    return found


def path_of_tiles(leaf_index: int, tree_size: int, tiles: Sequence[bytes]) -> list[bytes]:
    """Returns the audit path, from the tiles that path_tiles names. verify_inclusion decides whether it leads to a root."""
    return _hashes(lambda *out: load().wagtenib_path_of_tiles(number(leaf_index), number(tree_size), *pieces(tiles), *out))


def proof_of_tiles(first: int, second: int, tiles: Sequence[bytes]) -> list[bytes]:
    """Returns the consistency proof, from the tiles that proof_tiles names. verify_consistency decides whether it leads to two roots."""
    return _hashes(lambda *out: load().wagtenib_proof_of_tiles(number(first), number(second), *pieces(tiles), *out))
