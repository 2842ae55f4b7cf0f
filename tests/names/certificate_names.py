"""The names of certificates, and whether one of them is a watched name: a plain and slow model, which shares no code with the library."""
import ipaddress
import pathlib
import re
import sys

sys.path.append(str(pathlib.Path(__file__).resolve().parents[1]))
# (the folder above is on the path only now)
from der import Unread, after, element, expected, only  # noqa: E402

COMMON_NAME, ALT_NAMES = bytes([85, 4, 3]), bytes([85, 29, 17])
WIDTHS = {30: 2, 28: 4}
# The kinds of names of subjectAltName that are looked for, by their tag (RFC 5280, section 4.2.1.6).
KINDS = {0x81: "mail", 0x82: "dns", 0x86: "uri", 0x87: "address"}


def past(tag, data, field):
    """The bytes after the element of this tag, if the bytes begin with one."""
    return after([(tag, False, field)], data)


def common_names(subject):
    """The common names of a subject's content (RFC 5280, section 4.1.2.4), a byte a character, 255 for those above."""
    while subject:
        attributes, _, subject = expected(49, subject, "subject")
        while attributes:
            pair, _, attributes = expected(48, attributes, "subject")
            identifier, _, value = expected(6, pair, "subject")
            tag, text, _, rest = element(value, "subject")
            if rest:
                raise Unread("trailing", "subject")
            if identifier == COMMON_NAME:
                if tag > 31:
                    raise Unread("other-tag", "subject")
                width = WIDTHS.get(tag, 1)
                yield bytes(min(int.from_bytes(text[i : i + width], "big"), 255) for i in range(0, len(text) - width + 1, width))


def alt_names(extensions):
    """The names of subjectAltName in the list of extensions, each with its kind."""
    while extensions:
        extension, _, extensions = expected(48, extensions, "extensions")
        identifier, _, rest = expected(6, extension, "extensions")
        value = only(4, past(1, rest, "extensions"), "extensions")
        names = only(48, value, "alt-names") if identifier == ALT_NAMES else b""
        while names:
            tag, text, _, names = element(names, "alt-names")
            if tag in (0xA1, 0xA2, 0xA6, 0xA7):
                raise Unread("other-tag", "alt-names")
            if tag in KINDS:
                yield KINDS[tag], text


def names_of(data, bare):
    """The names of subjectAltName, each with its kind, and the common names of a certificate, or of only a TBSCertificate (RFC 5280, section 4.1)."""
    if bare:
        rest = only(48, data, "tbs")
    else:
        rest, _, behind = expected(48, only(48, data, "certificate"), "tbs")
        only(3, expected(48, behind, "outer-algorithm")[2], "signature")
    rest = past(0xA0, rest, "version")
    rest = after([(2, True, "serial"), *((48, True, field) for field in ("algorithm", "issuer", "validity"))], rest)
    subject, _, rest = expected(48, rest, "subject")
    rest = after([(48, True, "key"), (0x81, False, "issuer-id"), (0x82, False, "subject-id")], rest)
    extensions = only(48, only(0xA3, rest, "extensions"), "extensions") if rest else b""
    common = list(common_names(subject))
    return list(alt_names(extensions)), common


def holds_for(name, watched):
    """Whether a certificate's name is reported for a watched one, which has no dot at its end (RFC 9525, section 6.3)."""
    name, below = name.lower().removesuffix(b"."), watched.startswith(b".")
    watched = watched[below:].lower()
    if name == watched or below and name.endswith(b"." + watched):
        return True
    return name[:2] == b"*." and b"." in watched and name[2:] == watched.partition(b".")[2]


def host_of(kind, name):
    """The host in a name of subjectAltName, if it has one."""
    if kind == "dns":
        return name
    if kind == "mail":
        return name.rpartition(b"@")[2] if b"@" in name else None
    authority = re.match(rb"[^:]*://([^/?#]*)", name) if kind == "uri" else None
    return authority and authority[1].rpartition(b"@")[2].partition(b":")[0]


def address_text(name):
    """An address's text (RFC 5952), if it has four octets or sixteen."""
    if len(name) == 16 and name[:12] == bytes(10) + b"\xff\xff":
        return "::ffff:" + str(ipaddress.IPv4Address(name[12:]))
    return str(ipaddress.ip_address(name)) if len(name) in (4, 16) else None


def is_told(kind, name, watched):
    """Whether a name of subjectAltName is reported for a watched one, which has no dot at its end."""
    if kind == "address":
        text = address_text(name)
        return text is not None and text.encode() == watched
    host = host_of(kind, name)
    return host is not None and holds_for(host, watched)
