"""Texts and bytes that are signed, and the numbers by which keys are named."""

from __future__ import annotations

import ctypes
import dataclasses

from ._errors import check
from ._guard import STATE, TreeHead
from ._library import load
from ._memory import hash_of, number, one_hash, output, text

# Room for the size, the root in base64 and the line ends of a checkpoint, and for what is before its text in a message.
_MORE_TEXT, _MORE_MESSAGE = 67, 41


class _Checkpoint(ctypes.Structure):
    _fields_ = [("tree_size", ctypes.c_uint64), ("origin_length", ctypes.c_uint64), ("root", ctypes.c_uint8 * 32)]


@dataclasses.dataclass(frozen=True)
class Checkpoint:
    """The content of a checkpoint's text (C2SP tlog-checkpoint). The origin is in UTF-8."""

    origin: bytes
    tree_size: int
    root: bytes


def checkpoint_text(checkpoint: Checkpoint) -> bytes:
    """Returns the text of a checkpoint without signatures and extension lines."""
    words = (*text(checkpoint.origin), number(checkpoint.tree_size), hash_of(checkpoint.root))
    code, made = output(len(checkpoint.origin) + _MORE_TEXT, 1, lambda *out: load().wagtenib_checkpoint_text(*words, *out))
    check(code)
    return made


def read_checkpoint(given: bytes) -> Checkpoint:
    """Returns what the text of a checkpoint without extension lines says."""
    found = _Checkpoint()
    check(load().wagtenib_read_checkpoint(*text(given), ctypes.byref(found)))
    return Checkpoint(given[: found.origin_length], found.tree_size, bytes(found.root))


def tree_head_signature(head: TreeHead) -> bytes:
    """Returns the bytes under a log's signature of a head (RFC 6962, section 3.5)."""
    signed = ctypes.create_string_buffer(STATE)
    load().wagtenib_tree_head_signature(ctypes.byref(head.in_c()), signed)
    return signed.raw


def cosignature_message(time: int, given: bytes) -> bytes:
    """Returns the bytes under a cosignature of this time, in seconds since 1970, over a note's text (C2SP tlog-cosignature)."""
    code, made = output(len(given) + _MORE_MESSAGE, 1, lambda *out: load().wagtenib_cosignature_message(number(time), *text(given), *out))
    check(code)
    return made


def note_key_id(name: bytes, algorithm: int, public_key: bytes) -> bytes:
    """Returns the 4 bytes by which a note's signature names its key (C2SP signed-note)."""
    if not 0 <= algorithm < 256:
        raise ValueError(f"an algorithm is one byte, and not {algorithm}")
    key_id = ctypes.create_string_buffer(4)
    load().wagtenib_note_key_id(*text(name), algorithm, *text(public_key), key_id)
    return key_id.raw


def log_id(public_key: bytes) -> bytes:
    """Returns the LogID of a log: SHA-256 of its public key in DER (RFC 6962, section 3.2)."""
    return one_hash(lambda out: load().wagtenib_log_id(*text(public_key), out))[1]


def version() -> int:
    """Returns the version of the library, as WAGTENIB_VERSION of include/wagtenib.h."""
    return load().wagtenib_version()
