"""Reads and writes DER (X.690, sections 8.1 and 10.1), for the models of certificates."""


class Unread(Exception):
    """The first fault that reading meets, and the field of the certificate in which it is."""


def size_at(der, place):
    """The length in front, and where its content begins (X.690, 8.1.3 and 10.1: the fewest bytes)."""
    if not der:
        raise Unread("truncated", place)
    first = der[0]
    if first < 128:
        return first, 1
    if first == 128:
        raise Unread("indefinite-length", place)
    if first > 132:
        raise Unread("long-length", place)
    octets = der[1 : first - 127]
    if len(octets) < first - 128:
        raise Unread("truncated", place)
    size = int.from_bytes(octets, "big")
    if size < 128 or octets[0] == 0:
        raise Unread("padded-length", place)
    return size, first - 127


def element(der, place):
    """The tag and the content of the element in front, all its bytes, and what follows it."""
    if not der:
        raise Unread("truncated", place)
    if der[0] % 32 == 31:
        raise Unread("long-tag", place)
    size, begin = size_at(der[1:], place)
    end = 1 + begin + size
    if len(der) < end:
        raise Unread("truncated", place)
    return der[0], der[1 + begin : end], der[:end], der[end:]


def expected(tag, der, place):
    found, content, whole, rest = element(der, place)
    if found != tag:
        raise Unread("other-tag", place)
    return content, whole, rest


def only(tag, der, place):
    content, _, rest = expected(tag, der, place)
    if rest:
        raise Unread("trailing", place)
    return content


def after(fields, der):
    """The bytes after these fields."""
    for tag, has_to, place in fields:
        if has_to or der[:1] == bytes([tag]):
            der = expected(tag, der, place)[2]
    return der


def written(tag, content):
    size = len(content)
    octets = size.to_bytes((size.bit_length() + 7) // 8, "big")
    return bytes([tag]) + (bytes([size]) if size < 128 else bytes([128 + len(octets)]) + octets) + content
