"""The errors: a code of the header, by its name."""

from __future__ import annotations

import enum


class Code(enum.IntEnum):
    """The answers of the library that report a fault, as include/wagtenib.h has them."""

    INDEX_OUT_OF_RANGE = 1
    PATH_TOO_LONG = 2
    PATH_TOO_SHORT = 3
    ROOT_MISMATCH = 4
    EMPTY_PATH = 5
    FIRST_MISMATCH = 6
    SIZES_OUT_OF_RANGE = 7
    OUT_OF_MEMORY = 8
    NO_ROOM = 9
    BAD_ORIGIN = 10
    TRUNCATED = 17
    BAD_VERSION = 18
    BAD_LEAF_TYPE = 19
    BAD_ENTRY_TYPE = 20
    EMPTY_VECTOR = 21
    TRAILING = 22
    SIZE_FALLS = 32
    TIMESTAMP_NOT_LATER = 33
    FORK = 34
    TIMESTAMP_TOO_FAR = 35
    BAD_STATE = 36
    STATE_ROLLED_BACK = 37
    LATER_LEAF = 38
    OTHER_INDEX = 39
    NOT_FIRST = 40
    EDGE = 48
    ENTRIES = 49
    CLOCK_BACK = 50
    LOG_FULL = 51
    DATA_TILE_TOO_LONG = 52
    BUNDLE = 53
    CLAIM = 54
    BAD_BATCH = 55
    TOO_MANY = 56
    EMPTY_TREE = 64
    TOO_MANY_TILES = 65
    MISSING_TILE = 66
    BAD_TILE = 67
    DER_TRUNCATED = 80
    DER_LONG_TAG = 81
    DER_INDEFINITE_LENGTH = 82
    DER_LONG_LENGTH = 83
    DER_PADDED_LENGTH = 84
    DER_OTHER_TAG = 85
    DER_TRAILING = 86
    NO_EXTENSION = 87
    SECOND_EXTENSION = 88
    BAD_POISON = 89
    TBS_TOO_LONG = 90
    EXTENSIONS_TOO_LONG = 91
    NO_CHECKPOINT = 96
    OTHER_ORIGIN = 97
    OLD_ABOVE = 98
    NOT_LAST = 99
    PROOF_NOT_EMPTY = 100
    TIME_FALLS = 101
    BAD_COMMAND = 112
    BAD_OUTCOME = 113
    BAD_LOCK_TEXT = 114
    BAD_BATCH_NAME = 115
    CREATES_LOCK = 116
    LOCK_GONE = 117
    BEHIND_SEEN = 118
    BEHIND_SIGNED = 119
    TWO_ROOTS = 120
    SIGNED_BEHIND_LISTED = 121
    BEHIND_LISTED = 122
    BEHIND_PUBLISHED = 123
    PARTIAL_FINGERPRINT = 139
    OTHER_COUNT = 140
    OTHER_LENGTHS = 141
    LATER_ENTRY = 142
    BAD_WATCHED = 144
    NOT_UTF8 = 145
    NO_DATA_TILE = 146
    TILE_AFTER = 147
    TILE_BEFORE = 148
    OTHER_ENTRIES = 149
    WRONG_INDEX = 150
    NOT_A_SUBTREE = 160
    BEYOND_TREE = 161
    EMPTY_RANGE = 162


class Field(enum.IntEnum):
    """The fields of a certificate (RFC 5280, section 4.1), as include/wagtenib.h numbers them. 16 is added for the certificate of the issuer."""

    CERTIFICATE = 1
    TBS_CERTIFICATE = 2
    SIGNATURE_ALGORITHM = 3
    SIGNATURE_VALUE = 4
    VERSION = 5
    SERIAL_NUMBER = 6
    SIGNATURE = 7
    ISSUER = 8
    VALIDITY = 9
    SUBJECT = 10
    SUBJECT_PUBLIC_KEY_INFO = 11
    ISSUER_UNIQUE_ID = 12
    SUBJECT_UNIQUE_ID = 13
    EXTENSIONS = 14
    SUBJECT_ALT_NAME = 15


class Error(ValueError):
    """A fault that the library reported."""

    def __init__(self, code: int, more: str = "") -> None:
        self.code = Code(code)
        super().__init__(self.name.lower().replace("_", "-") + more)

    @property
    def name(self) -> str:
        """The name of the code in the header, without WAGTENIB_."""
        return self.code.name


class TileError(Error):
    """The first fault of a data tile, and the index in the tile of the entry that has it."""

    def __init__(self, code: int, entry: int) -> None:
        self.entry = entry
        super().__init__(code, f" at entry {entry} of the data tile")


class CertificateError(Error):
    """The first reason why a certificate gives nothing, and the field in which it is."""

    def __init__(self, code: int, field: int) -> None:
        self.field = Field(field % 16)
        self.is_of_issuer = field >= 16
        super().__init__(code, f" in {self.field.name.lower()} of the {'issuer' if self.is_of_issuer else 'certificate'}")


def check(code: int, field: int = 0) -> None:
    """Raises the error of an answer that is not 0."""
    if code and field:
        raise CertificateError(code, field)
    if code:
        raise Error(code)
