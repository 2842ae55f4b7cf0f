#!/usr/bin/env python3
"""Compares the entries that libwagtenib reads of data tiles, and its comparison of a tile with its name, as gcc makes it of dist/, with a model over random tiles.

    data_tiles.py [--calls 50000] [--seed 1]

The model is written from C2SP static-ct-api ("Log Entries") and RFC 6962 (section 3.4). Most tiles are damaged in one of many ways. The entries, or the first fault and
the index of its entry, must be the model's. Each fault must come at least once. Without gcc for this processor it says so.
"""
import re

from comparing import Fault, begin, wagtenib

# The faults of an entry, and those of a tile and its name. Each must come at least once.
FAULTS = {"TRUNCATED", "BAD_ENTRY_TYPE", "EMPTY_VECTOR", "PARTIAL_FINGERPRINT"}
ANSWERS = {"NO_DATA_TILE", "TILE_AFTER", "TILE_BEFORE", "OTHER_ENTRIES", "WRONG_INDEX"}
NAME = re.compile(r"tile/data/((?:x\d{3}/)*\d{3})(?:\.p/([1-9]\d?\d?))?")


class BadEntry(Exception):
    """The first fault of an entry, by its name in the header."""


def opaque(size, data):
    """Bytes with their length in so many bytes (RFC 5246, section 4.3)."""
    return len(data).to_bytes(size, "big") + data


def some(source):
    """Bytes, at least one."""
    return source.randbytes(source.choice([1, 1, 2, 40, 700]))


def extension(index):
    """The CtExtensions with a leaf_index."""
    return b"\0\0\5" + index.to_bytes(5, "big")


def entry(source, extensions=None):
    """The bytes of a TileLeaf."""
    text = source.randbytes(8)
    is_precertificate = source.random() < 0.5
    text += b"\x00\x01" + source.randbytes(32) if is_precertificate else b"\x00\x00"
    text += opaque(3, some(source)) + opaque(2, source.choice([b"", bytes.fromhex("0000050000000007"), source.randbytes(300)]) if extensions is None else extensions)
    if is_precertificate:
        text += opaque(3, some(source))
    return text + opaque(2, source.randbytes(32 * source.choice([0, 1, 2, 3, 9])))


def damaged(source, tile):
    """The bytes with a fault in them, of one kind or another."""
    if not tile:
        return source.randbytes(source.randrange(1, 30))
    at = source.randrange(len(tile)) if source.random() < 0.5 else source.randrange(min(20, len(tile)))
    choice = source.randrange(5)
    if choice == 0:
        return tile[:at]
    if choice == 1:
        return tile + source.randbytes(source.randrange(1, 30))
    if choice == 2:
        return tile[:at] + tile[at + 1 :]
    if choice == 3:
        return tile[:at] + bytes(3) + tile[at + 3 :]
    return tile[:at] + bytes([source.choice([tile[at] ^ 1, source.randrange(256)])]) + tile[at + 1 :]


class Reader:
    """The rest of a tile."""

    def __init__(self, tile):
        self.tile, self.at = tile, 0

    def take(self, count):
        if self.at + count > len(self.tile):
            raise BadEntry("TRUNCATED")
        self.at += count
        return self.tile[self.at - count : self.at]

    def number(self, size):
        return int.from_bytes(self.take(size), "big")

    def certificate(self):
        size = self.number(3)
        if not size:
            raise BadEntry("EMPTY_VECTOR")
        return self.take(size)


def read_entry(reader):
    """The leaf, what was submitted and the fingerprints, of the entry that comes next."""
    start = reader.at
    reader.take(8)
    kind = reader.number(2)
    if kind > 1:
        raise BadEntry("BAD_ENTRY_TYPE")
    if kind:
        reader.take(32)
    submitted = reader.certificate()
    reader.take(reader.number(2))
    leaf = b"\x00\x00" + reader.tile[start : reader.at]
    if kind:
        submitted = reader.certificate()
    size = reader.number(2)
    if size % 32:
        raise BadEntry("PARTIAL_FINGERPRINT")
    fingerprints = reader.take(size)
    return wagtenib.TileEntry(leaf, submitted, tuple(fingerprints[i : i + 32] for i in range(0, size, 32)))


def read_by_model(tile):
    """The entries, or the first fault with the index of its entry."""
    reader, entries = Reader(tile), []
    while reader.at < len(tile):
        try:
            entries.append(read_entry(reader))
        except BadEntry as fault:
            return Fault(fault.args[0], len(entries))
    return entries


def compare(comparison):
    """Compares one tile."""
    source = comparison.chance
    tile = b"".join(entry(source) for _ in range(source.choice([0, 1, 1, 2, 3, 5])))
    if source.random() < 0.6:
        tile = damaged(source, tile)
    due = read_by_model(tile)
    if not isinstance(due, Fault) and sum(40 + len(one.leaf) for one in due) > len(tile) + 40 * len(due):
        comparison.fail(f"the tile {tile.hex()} needs more room than the header says")
    comparison.call(tile.hex(), due, lambda: wagtenib.data_tile_leaves(tile))


def name_of(index, width):
    """The name of the data tile with this index and number of entries (C2SP static-ct-api, "Log Entries")."""
    groups = [f"{index % 1000:03}"]
    while index := index // 1000:
        groups.insert(0, f"x{index % 1000:03}")
    return f"tile/data/{'/'.join(groups)}" + (f".p/{width}" if width < 256 else "")


def named(name):
    """The index and the number of entries of the data tile with this name, or None."""
    found = NAME.fullmatch(name)
    if not found:
        return None
    index, width = int(found[1].replace("x", "").replace("/", "")), int(found[2] or 256)
    # (a tile's entries have indexes below 2^40)
    return (index, width) if name_of(index, width) == name and width <= 256 and 256 * index + width <= 1 << 40 else None


def compared_by_model(name, after, tile):
    """None if it is the tile of this name, or the fault with the index that comes with it."""
    of = named(name)
    if of is None:
        return Fault("NO_DATA_TILE")
    first, width = 256 * of[0], of[1]
    if after < first:
        return Fault("TILE_AFTER")
    if after >= first + width:
        return Fault("TILE_BEFORE")
    entries = read_by_model(tile)
    if isinstance(entries, Fault):
        return entries
    if len(entries) != width:
        return Fault("OTHER_ENTRIES", len(entries))
    for index in range(after, first + width):
        # (the extensions end the leaf)
        if not entries[index - first].leaf.endswith(opaque(2, extension(index))):
            return Fault("WRONG_INDEX", index)
    return None


def compare_name(comparison):
    """Compares one tile with its name."""
    source = comparison.chance
    index, width = source.choice([0, 1, 999, 1000, 1234567, (1 << 32) - 1]), source.choice([1, 2, 3, 5])
    first = 256 * index
    written = [first + i for i in range(width + source.choice([0, 0, 0, 0, -1, 1]))]
    wrong = source.randrange(width + 1) if source.random() < 0.3 else None
    tile = b"".join(entry(source, extension((one + (i == wrong)) % (1 << 40))) for i, one in enumerate(written))
    if source.random() < 0.2:
        tile = damaged(source, tile)
    name = name_of(index, width)
    if source.random() < 0.2:
        at = source.randrange(len(name))
        name = source.choice([name[:at] + name[at + 1 :], name[:at] + source.choice("0x/.p19") + name[at:], name.replace("data", "0"), name_of(index, 256) + ".p/256"])
    after = max(0, first + source.choice([0, 0, 0, width - 1, width, -1, source.randrange(width)]))
    due = compared_by_model(name, after, tile)
    comparison.came[f"{due.name if due else None} of a name"] += 1
    comparison.call(f"{name} from {after} on with {tile.hex()}", due, lambda: wagtenib.compare_data_tile(name, after, tile))


def main():
    options, comparison = begin("tests/library/data_tiles.py", 50_000)
    for _ in range(options.calls):
        compare(comparison)
        compare_name(comparison)
    comparison.ends(FAULTS | {f"{answer} of a name" for answer in FAULTS | ANSWERS | {None}})


if __name__ == "__main__":
    main()
