"""Values as the library takes them and gives them."""

from __future__ import annotations

import ctypes
from collections.abc import Callable, Sequence
from typing import Any

HASH = 32


def hash_of(given: bytes) -> bytes:
    """A hash, which must have 32 bytes: the library reads as many."""
    if len(given) != HASH:
        raise ValueError(f"a hash has {HASH} bytes, and not {len(given)}")
    return bytes(given)


def number(given: int) -> int:
    """A number, which must have 64 bits: ctypes would cut off the others."""
    if not 0 <= given < 1 << 64:
        raise ValueError(f"a number is from 0 to 2^64 - 1, and not {given}")
    return given


def hashes(given: Sequence[bytes]) -> tuple[bytes, int]:
    """Hashes, one after the other, and how many there are."""
    return b"".join(hash_of(one) for one in given), len(given)


def text(given: bytes) -> tuple[bytes, int]:
    """Bytes and their length."""
    return bytes(given), len(given)


def pieces(given: Sequence[bytes]) -> tuple[Any, ...]:
    """Byte strings, one after the other, their lengths, and how many there are."""
    return *text(b"".join(given)), (ctypes.c_uint64 * max(len(given), 1))(*map(len, given)), len(given)


def one_hash(call: Callable[[Any], int | None]) -> tuple[int, bytes]:
    """The answer of a call that writes a hash, and the hash."""
    out = ctypes.create_string_buffer(HASH)
    return call(out) or 0, out.raw


def output(room: int, size: int, call: Callable[..., int]) -> tuple[int, bytes]:
    """The answer of a call that writes elements of so many bytes, and these. If they have no room, the call is made once more."""
    length = ctypes.c_uint64()
    code = 9
    while code == 9:
        out = ctypes.create_string_buffer(max(room * size, 1))
        code = call(out, room, ctypes.byref(length))
        room = length.value
    return code, out.raw[: length.value * size]
