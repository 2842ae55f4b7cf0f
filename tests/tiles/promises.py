"""The promise of a log about a certificate (RFC 6962, sections 3.1 to 3.4), by hashlib: the model of the calls of libwagtenib over certificates.

entry_of returns the TBSCertificate of a precertificate without the poison, and leaf_of the leaf that a timestamp within a certificate promises. Each raises
Unfit if a certificate gives nothing, with the reason: no-extension, second-extension, bad-poison, too-long, or a fault of DER with its field. The document is
the certificate (or precertificate) or its issuer's.
"""
import hashlib
import pathlib
import sys

sys.path.append(str(pathlib.Path(__file__).resolve().parents[1]))
# (the folder above is on the path only now)
from der import Unread, after, expected, only, written  # noqa: E402

SEQUENCE, OCTETS, NAME, BITS, EXTENSIONS = 0x30, 0x04, 0x06, 0x03, 0xA3
# 1.3.6.1.4.1.11129.2.4.3, the poison, in its one form, and .2, the list of timestamps.
POISON_NAME = bytes.fromhex("2b06010401d679020403")
POISON = bytes.fromhex("3013060a2b06010401d6790204030101ff04020500")
LIST_NAME = bytes.fromhex("2b06010401d679020402")
# The fields of a TBSCertificate before its extensions: the tag, whether it has to be there, and its name in a fault (RFC 5280, 4.1).
BEFORE_KEY = [(0xA0, False, "version"), (0x02, True, "serial"), *((SEQUENCE, True, name) for name in ("algorithm", "issuer", "validity", "subject"))]
KEY = (SEQUENCE, True, "key")
FIELDS = [*BEFORE_KEY, KEY, (0x81, False, "issuer-id"), (0x82, False, "subject-id")]


class Unfit(Exception):
    """Why a certificate gives nothing: the members of the reply's object."""


def extension_at(der):
    """The name and the value of the extension in front, all its bytes, and what follows it."""
    content, whole, rest = expected(SEQUENCE, der, "extensions")
    name, _, behind = expected(NAME, content, "extensions")
    behind = after([(0x01, False, "extensions")], behind)
    return name, only(OCTETS, behind, "extensions"), whole, rest


def cut(tbs, name):
    """The TBSCertificate without the one extension of a name, and that extension."""
    fields = only(SEQUENCE, tbs, "tbs")
    rest = after(FIELDS, fields)
    listed = only(SEQUENCE, only(EXTENSIONS, rest, "extensions"), "extensions") if rest else b""
    kept, found, der = b"", None, listed
    while der:
        called, _, whole, der = extension_at(der)
        if called != name:
            kept += whole
        elif found is not None:
            raise Unfit({"refused": "second-extension"})
        else:
            found = whole
    if found is None:
        raise Unfit({"refused": "no-extension"})
    head = fields[: len(fields) - len(rest)]
    return written(SEQUENCE, head + (written(EXTENSIONS, written(SEQUENCE, kept)) if kept else b"")), found


def tbs_of(certificate):
    fields = only(SEQUENCE, certificate, "certificate")
    _, tbs, rest = expected(SEQUENCE, fields, "tbs")
    only(BITS, expected(SEQUENCE, rest, "outer-algorithm")[2], "signature")
    return tbs


def key_of(tbs):
    return expected(SEQUENCE, after(BEFORE_KEY, only(SEQUENCE, tbs, "tbs")), "key")[1]


def of(document, call, *words):
    """The result of a call over a document, whose name a fault gets."""
    try:
        return call(*words)
    except Unread as unread:
        raise Unfit({"document": document, "fault": unread.args[0], "place": unread.args[1], "refused": "unread"}) from None
    except Unfit as unfit:
        raise Unfit({"document": document, **unfit.args[0]}) from None


def entry_of(tbs):
    """The entry of a precertificate."""
    entry, found = of("certificate", cut, tbs, POISON_NAME)
    if found != POISON:
        raise Unfit({"refused": "bad-poison"})
    return entry


def vector(size, content):
    return len(content).to_bytes(size, "big") + content


def leaf_of(certificate, issuer, moment, extensions):
    """The leaf that a timestamp within a certificate promises."""
    entry = of("certificate", cut, of("certificate", tbs_of, certificate), LIST_NAME)[0]
    key_hash = hashlib.sha256(of("issuer", key_of, of("issuer", tbs_of, issuer))).digest()
    if len(entry) >= 1 << 24:
        raise Unfit({"refused": "too-long"})
    return b"\0\0" + moment.to_bytes(8, "big") + b"\0\1" + key_hash + vector(3, entry) + vector(2, extensions)
