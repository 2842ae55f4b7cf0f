"""The names of certificates, and which watched names are found in them (RFC 5280, section 4, and RFC 9525, section 6.3)."""

from __future__ import annotations

import ctypes
import dataclasses
import enum
import struct
from collections.abc import Iterable

from ._errors import check
from ._library import load
from ._memory import output, text

X509_ENTRY, PRECERT_ENTRY = 0, 1


class NameKind(enum.IntEnum):
    """The kind of a name of a certificate, as include/wagtenib.h numbers it."""

    COMMON_NAME = 1
    BMP_COMMON_NAME = 2
    UNIVERSAL_COMMON_NAME = 3
    DNS_NAME = 4
    MAIL_ADDRESS = 5
    URI = 6
    IP_ADDRESS = 7


class Place(enum.IntEnum):
    """The place of a watched name that is found, as include/wagtenib.h numbers it."""

    ALT_NAME = 1
    COMMON_NAME = 2
    IN_BYTES = 3


@dataclasses.dataclass(frozen=True)
class Name:
    """A name of a certificate, with its bytes as they are there."""

    kind: NameKind
    data: bytes


def certificate_names(entry_type: int, certificate: bytes) -> list[Name]:
    """Returns the names of a certificate (entry type 0), or of the TBSCertificate of a precertificate (1)."""
    field = ctypes.c_uint32()
    code, rest = output(len(certificate), 1, lambda *out: load().wagtenib_certificate_names(entry_type, *text(certificate), *out, ctypes.byref(field)))
    check(code, field.value)
    names = []
    while rest:
        kind, length = struct.unpack_from(">BQ", rest)
        names.append(Name(NameKind(kind), rest[9 : 9 + length]))
        rest = rest[9 + length :]
    return names


def watch_list(names: Iterable[bytes]) -> bytes:
    """Returns the list of these watched names, as watched_names and names_in_bytes take it."""
    return b"".join(struct.pack(">Q", len(name)) + name for name in names)


def watched_names(entry_type: int, certificate: bytes, watched: bytes) -> dict[int, Place]:
    """Returns which of the watched names are found, by their positions in the list, and where each is found."""
    field = ctypes.c_uint32()
    code, found = output(0, 1, lambda *out: load().wagtenib_watched_names(entry_type, *text(certificate), *text(watched), *out, ctypes.byref(field)))
    check(code, field.value)
    return {position: Place(place) for position, place in struct.iter_unpack(">QB", found)}


def names_in_bytes(data: bytes, watched: bytes) -> dict[int, Place]:
    """Returns which of the watched names are somewhere in the bytes, by their positions in the list, each with the place IN_BYTES.

    The bytes may be any bytes: for example a certificate that cannot be read. A watched name is in the bytes if its text is, without regard to the case of ASCII
    letters. Its text is the name without one dot at its end, and without the `*.` or the dot in front.
    """
    code, found = output(0, 1, lambda *out: load().wagtenib_names_in_bytes(*text(data), *text(watched), *out))
    check(code)
    return {position: Place(place) for position, place in struct.iter_unpack(">QB", found)}
