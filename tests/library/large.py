#!/usr/bin/env python3
"""Makes calls of libwagtenib that take much memory for what they are given, by the Python package of bindings/python, for refusals.py: large arguments, and many small parts.

    large.py

Each call must succeed, or be refused by the name that is given here.
"""
import pathlib
import sys

ROOT = pathlib.Path(__file__).resolve().parent.parent.parent
sys.path[:0] = [str(ROOT / "bindings" / "python"), str(ROOT / "tests" / "tiles"), str(ROOT / "tests")]
# (the folders above are on the path only now)
import merkle  # noqa: E402
import promises  # noqa: E402
import wagtenib  # noqa: E402
from wagtenib import Submission  # noqa: E402

HOUR, ORIGIN, LARGE = 3_600_000, "log.example", 1 << 18


def refused(name, call):
    """The call must be refused by this name."""
    try:
        call()
    except wagtenib.Error as fault:
        if fault.name == name:
            return
        name = f"{name}, but {fault.name} came"
    sys.exit(f"tests/library/large.py: a call was to be refused by {name}")


def batches():
    """Batches of many small submissions, of few large ones, and of repeats."""
    yield [Submission(number.to_bytes(2, "big")) for number in range(4096)]
    yield [Submission(number.to_bytes(2, "big"), bytes(32), b"p") for number in range(4096)]
    yield [Submission(number.to_bytes(2, "big"), chain=[bytes(32)] * 8) for number in range(2000)]
    yield [Submission(bytes([number]) * 20_000, chain=[bytes(32)] * 2047) for number in range(16)]
    yield [Submission(bytes([number]) * LARGE, bytes(32), bytes([number]) * LARGE) for number in range(4)]
    yield [Submission(b"x")] * 4096
    yield []


def try_steps():
    """Steps from a log without leaves, from one with large partial tiles, and over many tiles at once."""
    begin = wagtenib.step_begin(1000)
    for batch in batches():
        made = wagtenib.step(ORIGIN, begin, [], batch, 1001, HOUR)
        wagtenib.step_resume(ORIGIN, made.state, made.bundle)
        refused("BUNDLE", lambda made=made: wagtenib.step_resume(ORIGIN, made.state, made.bundle + b"x"))
    for few in ([Submission(bytes([number])) for number in range(255)], [Submission(bytes([number]) * 30_000) for number in range(255)]):
        made = wagtenib.step(ORIGIN, begin, [], few, 1001, HOUR)
        contents = {one.name: made.bundle[one.start : one.start + one.length] for one in made.published.objects}
        edge = [contents[name] for name in wagtenib.step_needs(made.state)]
        for batch in ([], [Submission(b"x")], [Submission(number.to_bytes(2, "big")) for number in range(4096)]):
            wagtenib.step(ORIGIN, made.state, edge, batch, 1002, HOUR)
        leaves = [receipt.signed for receipt in made.receipts]
        wagtenib.step_claim(made.state, 7, 1001, merkle.path(7, leaves), few[7])
        refused("CLAIM", lambda made=made, few=few: wagtenib.step_claim(made.state, 7, 1001, [bytes(32)] * 9000, few[7]))
    refused("EDGE", lambda: wagtenib.step(ORIGIN, begin, [b""] * 50_000, [], 1001, HOUR))
    refused("EDGE", lambda: wagtenib.step(ORIGIN, begin, [bytes(LARGE)] * 4, [], 1001, HOUR))


def extension(length):
    return promises.written(0x30, promises.written(6, b"\x2a\x03") + promises.written(4, bytes(length)))


def try_certificates():
    """Certificates with one large extension, and with many small ones."""
    fields = b"\2\1\7" + b"\x30\0" * 5
    listed = promises.written(0x30, promises.written(6, promises.LIST_NAME) + promises.written(4, bytes(40)))
    for others in (b"", extension(LARGE), extension(0) * 20_000):
        tbs = lambda *own: promises.written(0x30, fields + promises.written(0xA3, promises.written(0x30, others + b"".join(own))))
        wagtenib.precertificate_entry(tbs(promises.POISON))
        certificate = promises.written(0x30, tbs(listed) + promises.written(0x30, b"") + promises.written(3, b"\0"))
        for extensions in (b"", bytes(65_535)):
            promise = wagtenib.Promise(certificate, certificate, 7, extensions)
            leaf = wagtenib.promised_leaf(promise)
            wagtenib.check_promise(promise, 0, 1, [], wagtenib.leaf_hash(leaf))


def try_texts():
    """A lock's text of a long line, and checkpoints of a log with a long name."""
    wagtenib.lock_text(b"l" * LARGE, b"n" * LARGE, 7, 9)
    origin = b"o" * LARGE
    text = origin + b"\n0\n47DEQpj8HBSa+/TImW+5JCeuQeRkm5NMpJWZG3hSuFU=\n"
    message = wagtenib.witness_first(origin, wagtenib.WitnessRequest(text, 0, [], 7))
    wagtenib.witness_cosign(message, wagtenib.WitnessRequest(text, 0, [], 8))
    refused("PROOF_NOT_EMPTY", lambda: wagtenib.witness_cosign(message, wagtenib.WitnessRequest(text, 0, [bytes(32)] * 9000, 8)))
    wagtenib.witness_state(message, message)


def try_tiles():
    """The tiles of a large tree, and tiles that it does not have."""
    for size in (1, 255, 256, 65_535, (1 << 40) - 1, (1 << 64) - 1):
        names = wagtenib.root_tiles(size)
        tiles = [bytes(32 * int(name.partition(".p/")[2] or 256)) for name in names]
        wagtenib.root_of_tiles(size, tiles)
        names = wagtenib.path_tiles(0, size)
        wagtenib.path_of_tiles(0, size, [bytes(32 * int(name.partition(".p/")[2] or 256)) for name in names])
        if size > 1:
            names = wagtenib.proof_tiles(size - 1, size)
            wagtenib.proof_of_tiles(size - 1, size, [bytes(32 * int(name.partition(".p/")[2] or 256)) for name in names])
    refused("TOO_MANY_TILES", lambda: wagtenib.root_of_tiles(255, [b""] * 50_000))
    refused("BAD_TILE", lambda: wagtenib.root_of_tiles(255, [bytes(LARGE)]))


def try_data_tiles():
    """A tile of many entries that are as small as they can be, one of large entries, and one whose last entry is cut."""
    small = bytes(10) + promises.vector(3, b"x") + promises.vector(2, b"") + promises.vector(2, b"")
    large = bytes(9) + b"\1" + bytes(32) + promises.vector(3, bytes(LARGE)) + promises.vector(2, bytes(65_535)) + promises.vector(3, bytes(LARGE))
    large += promises.vector(2, bytes(32 * 2047))
    for tile in (small * 20_000, large * 4, large + small * 9000):
        wagtenib.data_tile_leaves(tile)
        refused("TRUNCATED", lambda tile=tile: wagtenib.data_tile_leaves(tile[:-1]))


def main():
    for make in (try_steps, try_certificates, try_texts, try_tiles, try_data_tiles):
        make()
    wagtenib.root([bytes(32)] * 9000)


if __name__ == "__main__":
    main()
