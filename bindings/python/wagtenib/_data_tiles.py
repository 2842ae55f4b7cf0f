"""The entries of a data tile (C2SP static-ct-api, "Log Entries")."""

from __future__ import annotations

import ctypes
import dataclasses
import struct

from ._errors import Code, TileError, check
from ._library import load
from ._memory import HASH, number, output, text

_ENTRIES = 256


@dataclasses.dataclass(frozen=True)
class TileEntry:
    """An entry of a data tile: the MerkleTreeLeaf, which is hashed, the certificate or the precertificate that was submitted, and the SHA-256 fingerprints of its
    issuers in the order of the chain."""

    leaf: bytes
    submitted: bytes
    issuers: tuple[bytes, ...]


def data_tile_leaves(tile: bytes) -> list[TileEntry]:
    """Returns the entries of a data tile, in order. It reads any number of them. compare_data_tile compares them with the tile's name."""
    faulty = ctypes.c_uint64()
    code, rest = output(len(tile) + 40 * _ENTRIES, 1, lambda *out: load().wagtenib_data_tile_leaves(*text(tile), *out, ctypes.byref(faulty)))
    if code in (Code.TRUNCATED, Code.BAD_ENTRY_TYPE, Code.EMPTY_VECTOR, Code.PARTIAL_FINGERPRINT):
        raise TileError(code, faulty.value)
    check(code)
    entries, at = [], 0
    while at < len(rest):
        (length,) = struct.unpack_from(">Q", rest, at)
        behind = at + 8 + length
        start, size, issuers, count = struct.unpack_from(">QQQQ", rest, behind)
        fingerprints = tuple(tile[place : place + HASH] for place in range(issuers, issuers + count, HASH))
        entries.append(TileEntry(rest[at + 8 : behind], tile[start : start + size], fingerprints))
        at = behind + 32
    return entries


def compare_data_tile(name: str, next_index: int, tile: bytes) -> None:
    """Returns exactly if these are the bytes of the data tile of this name ("tile/data/..").

    It must have as many entries as the name says, and the entry at `next_index`. Each entry from that one on must name exactly its own index in its extensions
    (leaf_index, C2SP static-ct-api). Otherwise the error is the first fault. A TileError has the index in the tile of an entry that is none, the number of entries
    (OTHER_ENTRIES), or the first wrong index in the log (WRONG_INDEX).
    """
    index = ctypes.c_uint64()
    code = load().wagtenib_compare_data_tile(*text(name.encode()), number(next_index), *text(tile), ctypes.byref(index))
    if code in (Code.TRUNCATED, Code.BAD_ENTRY_TYPE, Code.EMPTY_VECTOR, Code.PARTIAL_FINGERPRINT, Code.OTHER_ENTRIES, Code.WRONG_INDEX):
        raise TileError(code, index.value)
    check(code)
