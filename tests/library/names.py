#!/usr/bin/env python3
"""Compares the names that libwagtenib reads, as gcc makes it of dist/, with tests/names/certificate_names.py over random certificates.

    names.py [--calls 3000] [--searches 50000] [--seed 1]

A certificate or a TBSCertificate has random names of every kind, and every other one is damaged. Its names in order, or the first fault with its field, must be the
model's, and so must be the watched names that are found, with their places. Random bytes are searched for random watched names besides, and what is found must be what
a model here finds. Each kind, each place and each fault must come at least once. Without gcc for this processor it says so.
"""
import sys

from comparing import TESTS, Fault, begin, wagtenib
from wagtenib import NameKind, Place

sys.path.insert(0, str(TESTS / "names"))
# (the folder above is on the path only now)
import certificate_names as model  # noqa: E402
from der import written  # noqa: E402

FIELDS = ("certificate", "tbs", "outer-algorithm", "signature", "version", "serial", "algorithm", "issuer", "validity", "subject", "key", "issuer-id", "subject-id",
          "extensions", "alt-names")
KINDS = {"dns": NameKind.DNS_NAME, "mail": NameKind.MAIL_ADDRESS, "uri": NameKind.URI, "address": NameKind.IP_ADDRESS}
# How many bytes a character has in a common name of these kinds.
WIDTHS = {NameKind.COMMON_NAME: 1, NameKind.BMP_COMMON_NAME: 2, NameKind.UNIVERSAL_COMMON_NAME: 4}
STRINGS = {12: "utf-8", 19: "ascii", 22: "ascii", 30: "utf-16-be", 28: "utf-32-be"}
HOSTS = ["example.org", "www.example.org", "*.example.org", "a.b.example.org", "WWW.Example.ORG.", "xn--bcher-kva.example", "*.b.example.org", "org", "*.", "", ".", "a..b"]
URIS = ["https://www.example.org/path?query", "ldap://user@host.example.org:389/", "urn:uuid:1", "https://example.org", "//example.org", "a:b@//c"]
WATCHED = ["example.org", ".example.org", "www.example.org", "www.example.org.", "b.example.org", ".b.example.org", "192.0.2.1", "2001:db8::1", "::ffff:192.0.2.1",
           "org", "host.example.org", "bücher.example", "", ".", "a.b.example.org", "EXAMPLE.org"]
ADDRESSES = [bytes([192, 0, 2, 1]), bytes.fromhex("20010db8000000000000000000000001"), bytes(10) + b"\xff\xff" + bytes([192, 0, 2, 1]), bytes(5), b""]
FAULTS = {"DER_TRUNCATED", "DER_LONG_TAG", "DER_INDEFINITE_LENGTH", "DER_LONG_LENGTH", "DER_PADDED_LENGTH", "DER_OTHER_TAG", "DER_TRAILING"}
# Of these bytes random names and random bytes are made for the search in bytes: few letters, and all bytes that are beside the letters of ASCII.
SEARCHED = b"abyzABYZ@[`{.*-\x00\xc1\xe1\xff"


def der(tag, *parts):
    """An element of DER (X.690, section 8.1)."""
    return written(tag, b"".join(parts))


def attribute(source):
    """An attribute of a subject: a common name, or another one."""
    tag = source.choice([*STRINGS])
    text = source.choice(HOSTS if source.random() < 0.8 else ["www.b\u00fccher.example", "\u65e5\u672c"])
    value = der(tag, text.encode(STRINGS[tag], "replace") + bytes(source.random() < 0.05))
    return der(48, der(6, model.COMMON_NAME if source.random() < 0.7 else b"\x55\x04\x0a"), value)


def general_name(source):
    """A name of subjectAltName."""
    kind = source.randrange(7)
    if kind < 2:
        return der(0x82, source.choice(HOSTS).encode())
    if kind == 2:
        return der(0x81, source.choice(["someone@www.example.org", "nobody", "a@b@example.org", "@example.org"]).encode())
    if kind == 3:
        return der(0x86, source.choice(URIS).encode())
    if kind == 4:
        return der(0x87, source.choice(ADDRESSES))
    return der(source.choice([0xA4, 0xA0, 0x88]), der(48))


def extension(source):
    """An extension: subjectAltName, or another one."""
    is_alt = source.random() < 0.7
    value = der(48, *(general_name(source) for _ in range(source.randrange(6)))) if is_alt else source.randbytes(source.randrange(200))
    critical = [der(1, b"\xff")] if source.random() < 0.3 else []
    return der(48, der(6, model.ALT_NAMES if is_alt else b"\x55\x1d\x0f"), *critical, der(4, value))


def certificate(source, bare):
    """A certificate, or a TBSCertificate."""
    subject = der(48, *(der(49, *(attribute(source) for _ in range(source.choice([1, 1, 2])))) for _ in range(source.randrange(4))))
    parts = [der(0xA0, der(2, b"\x02"))] if source.random() < 0.9 else []
    parts += [der(2, source.randbytes(8)), der(48, der(6, b"\x2a\x03")), der(48), der(48, der(23, b"0")), subject, der(48, source.randbytes(50))]
    parts += [der(tag, b"\x00id") for tag in (0x81, 0x82) if source.random() < 0.1]
    if source.random() < 0.9:
        parts.append(der(0xA3, der(48, *(extension(source) for _ in range(source.randrange(4))))))
    tbs = der(48, *parts)
    return tbs if bare else der(48, tbs, der(48, der(6, b"\x2a\x03")), der(3, b"\x00" + source.randbytes(70)))


def damaged(source, data):
    """The bytes with a fault in them, of one kind or another."""
    at = source.randrange(len(data))
    choice = source.randrange(5)
    if choice == 0:
        return data[:at]
    if choice == 1:
        return data + b"\x00"
    if choice == 2:
        return data[:at] + data[at + 1 :]
    other = source.choice([0x1F, 0x80, 0x81, 0x85, 0xA2, 0x30, 0x00, data[at] ^ 1, source.randrange(256)])
    return data[:at] + bytes([other]) + data[at + 1 :]


def read_by_model(data, bare):
    """The common names and the names of subjectAltName, or the fault with its field."""
    try:
        return model.names_of(data, bare)
    except model.Unread as fault:
        return Fault("DER_" + fault.args[0].upper().replace("-", "_"), (wagtenib.Field(1 + FIELDS.index(fault.args[1])), False))


def narrowed(text, width):
    """The characters of a common name, a byte each, 255 for those above."""
    return bytes(min(int.from_bytes(text[i : i + width], "big"), 255) for i in range(0, len(text) - width + 1, width))


def parts(names):
    """The names that the library read, in the form of the model: those of subjectAltName, and the common names, which come first."""
    common = [name for name in names if name.kind in WIDTHS]
    rest = names[len(common) :] if names[: len(common)] == common else "a common name after another one"
    return [(name.kind, name.data) for name in rest], [narrowed(name.data, WIDTHS[name.kind]) for name in common]


def found_by_model(alt, common, watched):
    """The positions and places of those that are found."""
    found = {}
    for position, name in enumerate(watched):
        sought = name.encode().lower().removesuffix(b".")
        if any(model.is_told(*one, sought) for one in alt):
            found[position] = Place.ALT_NAME
        elif any(model.holds_for(one, sought) for one in common):
            found[position] = Place.COMMON_NAME
    return found


def text_of(name):
    """The text of a watched name, which a search in bytes looks for: without one dot at its end, and without the *. or the dot in front."""
    name = name[:-1] if name[-1:] == b"." else name
    if name[:2] == b"*.":
        return name[2:]
    return name[1:] if name[:1] == b"." else name


def compare_in_bytes(comparison, data, watched):
    """Compares the watched names that are found in the bytes with those whose text Python finds there. (`lower` is about the letters of ASCII only.)"""
    low = data.lower()
    due = {position: Place.IN_BYTES for position, name in enumerate(watched) if text_of(name).lower() in low}
    comparison.call(f"{watched} in the bytes {data.hex()}", due, lambda: wagtenib.names_in_bytes(data, wagtenib.watch_list(watched)))
    comparison.came.update(f"place {place.name}" for place in due.values())


def cut_off(source, watched):
    """A list of watched names that is cut off, and whether it is none."""
    listed = wagtenib.watch_list(watched)
    cut = listed[: source.randrange(len(listed))] if listed else bytes(source.randrange(1, 8))
    return cut, not any(cut == wagtenib.watch_list(watched[:n]) for n in range(len(watched) + 1))


def searched_name(source, data):
    """A name of random bytes, or a part of the data, with other letters or with another byte, and with a dot or a star around it."""
    name = bytes(source.choices(SEARCHED, k=source.choice([0, 1, 2, 3, 8])))
    if data and source.random() < 0.6:
        start = source.randrange(len(data))
        name = data[start : start + source.choice([1, 2, 3, 5, 9, 20, 40, 300])]
    if source.random() < 0.5:
        name = bytes(byte ^ 32 if byte & 64 and source.random() < 0.5 else byte for byte in name)
    if name and source.random() < 0.2:
        at = source.randrange(len(name))
        name = name[:at] + bytes([source.choice(SEARCHED)]) + name[at + 1 :]
    return source.choice([b"", b"", b".", b"*.", b"*", b".."]) + name + source.choice([b"", b"", b".", b".."])


def search_bytes(comparison):
    """Compares one search of random bytes."""
    source = comparison.chance
    data = bytes(source.choices(SEARCHED, k=source.choice([0, 1, 2, 5, 20, 60, 60])))
    if source.random() < 0.02:
        data = source.randbytes(source.randrange(3000))
    watched = [searched_name(source, data) for _ in range(source.randrange(6))]
    compare_in_bytes(comparison, data, watched)
    cut, is_none = cut_off(source, watched)
    if is_none:
        comparison.call(f"the list {cut.hex()} for {data.hex()}", Fault("BAD_WATCHED"), lambda: wagtenib.names_in_bytes(data, cut))


def compare(comparison):
    """Compares one certificate and one list of watched names."""
    source = comparison.chance
    bare = source.random() < 0.5
    data = certificate(source, bare)
    if source.random() < 0.5:
        data = damaged(source, data)
    due = read_by_model(data, bare)
    is_fault = isinstance(due, Fault)
    told = due if is_fault else ([(KINDS[kind], name) for kind, name in due[0]], due[1])
    comparison.call(f"{data.hex()} (bare: {bare})", told, lambda: parts(wagtenib.certificate_names(int(bare), data)))
    watched = source.sample(WATCHED, source.randrange(len(WATCHED)))
    encoded = [name.encode() for name in watched]
    expected = due if is_fault else found_by_model(*due, watched)
    comparison.call(f"{watched} in {data.hex()} (bare: {bare})", expected, lambda: wagtenib.watched_names(int(bare), data, wagtenib.watch_list(encoded)))
    compare_in_bytes(comparison, data, encoded)
    cut, is_none = cut_off(source, encoded)
    if is_none:
        comparison.call(f"the list {cut.hex()}", Fault("BAD_WATCHED"), lambda: wagtenib.watched_names(int(bare), data, cut))
    for call in (lambda: wagtenib.certificate_names(7, data), lambda: wagtenib.watched_names(1 << 31, data, cut)):
        comparison.call("an entry of another type", Fault("BAD_ENTRY_TYPE"), call)
    if not is_fault:
        comparison.came.update([f"kind {kind.name}" for kind, _ in told[0]] + [f"place {place.name}" for place in expected.values()])
        comparison.came["a common name"] += len(due[1])


def main():
    options, comparison = begin("tests/library/names.py", 3000, searches=50_000)
    for _ in range(options.calls):
        compare(comparison)
    for _ in range(options.searches):
        search_bytes(comparison)
    comparison.ends(FAULTS | {f"kind {kind.name}" for kind in KINDS.values()} | {f"place {place.name}" for place in Place} | {"a common name", "BAD_WATCHED", "BAD_ENTRY_TYPE"})


if __name__ == "__main__":
    main()
