"""Entries of precertificates, and the leaves that timestamps in certificates promise (RFC 6962, sections 3.1 to 3.4)."""

from __future__ import annotations

import ctypes
import dataclasses
from collections.abc import Sequence

from ._errors import check
from ._library import load
from ._memory import hash_of, hashes, number, output, text


@dataclasses.dataclass(frozen=True)
class Promise:
    """A timestamp in a certificate: the certificate and its issuer's, both in DER, the time in milliseconds, and the CtExtensions."""

    certificate: bytes
    issuer: bytes
    timestamp: int
    extensions: bytes = b""

    def words(self) -> tuple[bytes | int, ...]:
        return *text(self.certificate), *text(self.issuer), number(self.timestamp), *text(self.extensions)


def precertificate_entry(tbs: bytes) -> bytes:
    """Returns the TBSCertificate of a precertificate without its poison extension."""
    field = ctypes.c_uint32()
    code, entry = output(len(tbs), 1, lambda *out: load().wagtenib_precertificate_entry(*text(tbs), *out, ctypes.byref(field)))
    check(code, field.value)
    return entry


def promised_leaf(promise: Promise) -> bytes:
    """Returns the MerkleTreeLeaf that the timestamp promises, which is also what the log signed."""
    field = ctypes.c_uint32()
    room = len(promise.certificate) + len(promise.extensions) + 64
    code, leaf = output(room, 1, lambda *out: load().wagtenib_promised_leaf(*promise.words(), *out, ctypes.byref(field)))
    check(code, field.value)
    return leaf


def check_promise(promise: Promise, leaf_index: int, tree_size: int, path: Sequence[bytes], root: bytes) -> None:
    """Returns exactly if the audit path leads from the leaf that the timestamp promises to the root."""
    field = ctypes.c_uint32()
    words = (*promise.words(), number(leaf_index), number(tree_size), *hashes(path), hash_of(root))
    check(load().wagtenib_check_promise(*words, ctypes.byref(field)), field.value)
