#!/usr/bin/env python3
"""Compares the proofs, the leaves, the tiles and the certificates of libwagtenib, as gcc makes it of dist/, with models.

    proofs.py [--calls 2000] [--seed 1]

The first vectors are those of the RFC 6962 tree of eight leaves that Certificate Transparency's own tests use. Random proofs, right and damaged, are compared with
tests/merkle.py, also those of subtrees, and random certificates with tests/tiles/promises.py. Roots, audit paths and consistency proofs out of tiles are compared with the recursion over all
leaves, and the names of the tiles with tests/tiles/reading.py. Contents that are missing, too short, too long or too many, and numbers that can't be together, must be
refused. Each fault must come at least once. Without gcc for this processor it says so.
"""
import sys
import typing

from comparing import TESTS, Fault, begin, wagtenib

sys.path.insert(0, str(TESTS / "tiles"))
# (the folders are on the path only now)
import merkle  # noqa: E402
import promises  # noqa: E402
import reading  # noqa: E402
from trees import levels, name  # noqa: E402

# The leaves of the tree of eight, and the roots of its first leaves (certificate-transparency's merkletree tests).
LEAVES = [bytes.fromhex(one) for one in ("", "00", "10", "2021", "3031", "40414243", "5051525354555657", "606162636465666768696a6b6c6d6e6f")]
ROOTS = {
    0: "e3b0c44298fc1c149afbf4c8996fb92427ae41e4649b934ca495991b7852b855",
    1: "6e340b9cffb37a989ca544e6bb780a2c78901d3fb33738768511a30617afa01d",
    8: "5dc9da79a70659a9ad559cb701ded9a2ab9d823aad2f4960cfe370eff4604328",
}
FIELDS = dict(zip(("certificate", "tbs", "outer-algorithm", "signature", "version", "serial", "algorithm", "issuer", "validity", "subject", "key", "issuer-id", "subject-id", "extensions"), wagtenib.Field))
FAULTS = {
    "INDEX_OUT_OF_RANGE", "PATH_TOO_LONG", "PATH_TOO_SHORT", "ROOT_MISMATCH", "EMPTY_PATH", "FIRST_MISMATCH", "SIZES_OUT_OF_RANGE", "EMPTY_TREE", "MISSING_TILE",
    "TOO_MANY_TILES", "BAD_TILE", "DER_TRUNCATED", "DER_LONG_TAG", "DER_INDEFINITE_LENGTH", "DER_LONG_LENGTH", "DER_PADDED_LENGTH", "DER_OTHER_TAG", "DER_TRAILING",
    "NO_EXTENSION", "SECOND_EXTENSION", "BAD_POISON", "EXTENSIONS_TOO_LONG", "NOT_A_SUBTREE", "BEYOND_TREE", "EMPTY_RANGE", "OK",
}  # fmt: skip
# Of how many leaves the logs are whose tiles are read.
SMALL, LARGER = (*range(1, 33), *range(254, 260)), (511, 512, 513, 1025, 65_535, 65_536, 65_537, 65_793, 66_049)
MOST = (1 << 64) - 1


def fault_of(fault):
    return fault and Fault(fault.upper().replace("-", "_"))


def try_vectors(comparison):
    hashes = [wagtenib.leaf_hash(leaf) for leaf in LEAVES]
    for size, due in ROOTS.items():
        comparison.same(f"the root of {size}", wagtenib.root(hashes[:size]).hex(), due)
    subtrees = []
    for size, one in enumerate(hashes):
        subtrees = wagtenib.push(size, subtrees, one)
        comparison.same(f"the subtrees of {size + 1}", wagtenib.subtrees_root(subtrees), merkle.root(LEAVES[: size + 1]))
    wagtenib.verify_inclusion(hashes[0], 0, 1, [], bytes.fromhex(ROOTS[1]))
    wagtenib.verify_inclusion(hashes[5], 5, 8, merkle.path(5, LEAVES), bytes.fromhex(ROOTS[8]))
    wagtenib.verify_consistency(1, 8, bytes.fromhex(ROOTS[1]), bytes.fromhex(ROOTS[8]), merkle.proof(1, LEAVES))


def try_leaves(comparison):
    """A leaf in the form of RFC 6962, section 3.4, and each way of being none."""
    certificate = b"\0\0" + (7).to_bytes(8, "big") + b"\0\0" + promises.vector(3, b"DER") + promises.vector(2, b"xy")
    pre = b"\0\0" + (9).to_bytes(8, "big") + b"\0\1" + bytes(range(32)) + promises.vector(3, b"TBS") + promises.vector(2, b"")
    comparison.call("a leaf", wagtenib.Leaf(7, 0, b"", b"DER", b"xy"), lambda: wagtenib.decode_leaf(certificate))
    comparison.call("a precertificate's leaf", wagtenib.Leaf(9, 1, bytes(range(32)), b"TBS", b""), lambda: wagtenib.decode_leaf(pre))
    wrong = {"TRUNCATED": pre[:-1], "BAD_VERSION": b"\1" + pre[1:], "BAD_LEAF_TYPE": b"\0\1" + pre[2:], "BAD_ENTRY_TYPE": pre[:11] + b"\2" + pre[12:], "EMPTY_VECTOR": certificate[:12] + bytes(5), "TRAILING": pre + b"\0"}
    for due, leaf in wrong.items():
        comparison.call(f"a leaf that is {due}", Fault(due), lambda leaf=leaf: wagtenib.decode_leaf(leaf))


def damaged(chance, hashes):
    return chance.choice((hashes, hashes, hashes[:-1], [*hashes, bytes(32)], [], [*hashes[1:], chance.randbytes(32)], [chance.randbytes(32), *hashes[1:]]))


def try_proofs(comparison, calls):
    chance = comparison.chance
    leaves = [chance.randbytes(chance.randrange(40)) for _ in range(40)]
    for _ in range(calls):
        size = chance.randrange(1, len(leaves) + 1)
        index, root = chance.choice((chance.randrange(size), size, size + 7)), merkle.root(leaves[:size])
        path = damaged(chance, merkle.path(index, leaves[:size]) if index < size else [])
        leaf = leaves[chance.choice((index, 0)) % len(leaves)]
        due = fault_of(merkle.fault_of_path(leaf, index, size, path, root))
        comparison.call(f"the path of {index} in {size}", due, lambda: wagtenib.verify_inclusion(wagtenib.leaf_hash(leaf), index, size, path, root))
        first = chance.choice((0, chance.randrange(1, size + 1), size))
        roots = merkle.root(leaves[:first]), chance.choice((root, root, bytes(32)))
        proof = damaged(chance, merkle.proof(first, leaves[:size]) if first else [])
        due = fault_of(merkle.fault_of_proof(first, size, *roots, proof))
        comparison.call(f"the proof from {first} to {size}", due, lambda: wagtenib.verify_consistency(first, size, *roots, proof))


def try_subtrees(comparison, calls):
    """Proofs and paths of subtrees, right and damaged, also of ranges that are none; and the covers of ranges of any size."""
    chance = comparison.chance
    tree = merkle.Tree([chance.randbytes(32) for _ in range(70)])
    for _ in range(calls):
        size = chance.randrange(1, 70)
        start, end = chance.choice(merkle.cover(*sorted(chance.sample(range(size + 1), 2))))
        root, subtree_hash = tree.root(0, size), tree.root(start, end)
        proof, index = damaged(chance, tree.subtree_proof(start, end, 0, size)), chance.choice((start, end - 1, chance.randrange(start, end), end))
        path = damaged(chance, tree.path(index, start, end) if index < end else [])
        given = chance.choice((subtree_hash, subtree_hash, subtree_hash, bytes(32)))
        start, end, size = chance.choice(((start, end, size), (start, end, size), (start, end, end - 1), (start + 1, end + 1, size + 1), (end, start, size)))
        due = fault_of(merkle.fault_of_subtree(start, end, size, given, root, proof))
        comparison.call(f"the proof of [{start}, {end}) in {size}", due, lambda: wagtenib.verify_subtree(start, end, size, given, root, proof))
        comparison.call(f"[{start}, {end})", fault_of(None if merkle.is_subtree(start, end) else "not-a-subtree"), lambda: wagtenib.check_subtree(start, end))
        found = fault_of(merkle.fault_of_subtree_path(index, start, end, path)) or merkle.root_by_path(tree.hashes[index], index - start, end - start, path)
        comparison.call(f"the path of {index} in [{start}, {end})", found, lambda: wagtenib.evaluate_subtree_path(tree.hashes[index], index, start, end, path))
        near = [chance.getrandbits(chance.randint(1, 64)) for _ in range(2)]
        first, over = chance.choice((near, sorted(near), [near[0], min(near[0] + chance.randrange(5), MOST)]))
        due = merkle.cover(first, over)
        comparison.call(f"the cover of [{first}, {over})", fault_of(due) if isinstance(due, str) else due, lambda: wagtenib.cover_range(first, over))
    # (the largest trees, whose proofs take the most steps)
    for start, end, size in ((0, (1 << 63) + 1, MOST), (0, MOST - 1, MOST), (MOST - 1, MOST, MOST), (1 << 63, MOST, MOST), (0, 1 << 63, 1 << 63)):
        for count in range(66):
            proof, index = [bytes(32)] * count, end - 1
            due = fault_of(merkle.fault_of_subtree(start, end, size, bytes(32), bytes(32), proof))
            comparison.call(f"a proof of {count} for [{start}, {end}) in {size}", due, lambda: wagtenib.verify_subtree(start, end, size, bytes(32), bytes(32), proof))
            found = fault_of(merkle.fault_of_subtree_path(index, start, end, proof)) or merkle.root_by_path(bytes(32), index - start, end - start, proof)
            comparison.call(f"a path of {count} in [{start}, {end})", found, lambda: wagtenib.evaluate_subtree_path(bytes(32), index, start, end, proof))


def extension(chance, name, value):
    critical = chance.choice((b"", b"\1\1\xff"))
    return promises.written(0x30, promises.written(6, name) + critical + promises.written(4, value))


def tbs_of(chance):
    """A TBSCertificate with the poison and a list of timestamps, each not at all, once or twice, and others, or damaged."""
    listed = [extension(chance, chance.randbytes(3), chance.randbytes(chance.choice((0, 5, 200)))) for _ in range(chance.randrange(3))]
    poison = chance.choice((promises.POISON, promises.POISON, promises.POISON, promises.POISON[:-1] + b"\1"))
    listed += [poison] * chance.choice((0, 1, 1, 1, 1, 2)) + [extension(chance, promises.LIST_NAME, b"timestamps")] * chance.choice((0, 1, 1, 1, 1, 2))
    chance.shuffle(listed)
    fields = [(promises.written(0xA0, b"\2\1\2"), 0.5), (promises.written(2, b"\7"), 1), *[(promises.written(0x30, chance.randbytes(3)), 1)] * 5, (promises.written(0x81, b"a"), 0.3), (promises.written(0x82, b"b"), 0.3)]
    content = b"".join(one for one, often in fields if chance.random() < often)
    if listed or chance.random() < 0.5:
        content += promises.written(0xA3, promises.written(0x30, b"".join(listed)))
    return promises.written(0x30, content)


def bent(chance, der):
    """DER that is right as a rule, or with a byte changed, cut off or put in."""
    at, how = chance.randrange(len(der)), chance.randrange(9)
    wrong = chance.choice((0, 0x1F, 0x30, 0x80, 0x81, 0x82, 0x85, 0xFF))
    return {0: der[:at] + bytes([wrong]) + der[at + 1 :], 1: der[:at], 2: der + b"\0", 3: bytes([der[0], wrong]) + der[2:]}.get(how, der)


def due_of(call):
    """What the model gives of a certificate."""
    try:
        return call()
    except promises.Unfit as unfit:
        reply = unfit.args[0]
        fault = f"der-{reply['fault']}" if reply["refused"] == "unread" else reply["refused"]
        return fault_of(fault)._replace(where=(FIELDS[reply.get("place", "extensions")], reply.get("document") == "issuer"))


def try_certificates(comparison, calls):
    chance = comparison.chance
    for _ in range(calls):
        tbs = bent(chance, tbs_of(chance))
        comparison.call(f"the entry of {tbs.hex()}", due_of(lambda: promises.entry_of(tbs)), lambda: wagtenib.precertificate_entry(tbs))
        whole = lambda: promises.written(0x30, tbs_of(chance) + promises.written(0x30, b"") + promises.written(3, b"\0signature"))
        certificate, issuer, moment, extensions = bent(chance, whole()), bent(chance, whole()), chance.randrange(1 << 64), chance.randbytes(chance.choice((0, 8, 65_535)))
        promise = wagtenib.Promise(certificate, issuer, moment, extensions)
        due = due_of(lambda: promises.leaf_of(certificate, issuer, moment, extensions))
        comparison.call(f"the leaf of {certificate.hex()} and {issuer.hex()}", due, lambda: wagtenib.promised_leaf(promise))
        leaves = [b"one", b"two", due if isinstance(due, bytes) else b"three"]
        index, path = chance.choice((2, 2, 1)), merkle.path(2, leaves)
        fault = due if isinstance(due, Fault) else fault_of(merkle.fault_of_path(leaves[2], index, 3, path, merkle.root(leaves)))
        comparison.call("whether it is there", fault, lambda: wagtenib.check_promise(promise, index, 3, path, merkle.root(leaves)))
    long = wagtenib.Promise(b"", b"", 0, bytes(65_536))
    for call in (lambda: wagtenib.promised_leaf(long), lambda: wagtenib.check_promise(long, 0, 1, [], bytes(32))):
        comparison.call("extensions that are too long", Fault("EXTENSIONS_TOO_LONG"), call)


class Kind(typing.NamedTuple):
    """A kind of reading of tiles: the package's two functions, the model's two, which numbers can be together, and how others are refused."""

    names: typing.Callable
    made: typing.Callable
    tiles: typing.Callable
    due: typing.Callable
    fits: typing.Callable
    fault: str


ROOT, PATH, PROOF = KINDS = (
    Kind(wagtenib.root_tiles, wagtenib.root_of_tiles, reading.root_tiles, lambda tree, size: tree.root(0, size), lambda size: size > 0, "EMPTY_TREE"),
    Kind(
        wagtenib.path_tiles, wagtenib.path_of_tiles, reading.path_tiles,
        lambda tree, index, size: tree.path(index, 0, size), lambda index, size: index < size, "INDEX_OUT_OF_RANGE",
    ),
    Kind(
        wagtenib.proof_tiles, wagtenib.proof_of_tiles, reading.proof_tiles,
        lambda tree, first, size: tree.proof(first, 0, size), lambda first, size: 0 < first < size, "SIZES_OUT_OF_RANGE",
    ),
)  # fmt: skip


def due_of_tiles(kind, numbers, contents):
    """The model's result for contents, or the fault."""
    if not kind.fits(*numbers):
        return Fault(kind.fault)
    tiles = kind.tiles(*numbers)
    if len(contents) > len(tiles):
        return Fault("TOO_MANY_TILES")
    try:
        return kind.due(reading.Tree(numbers[-1], tiles, contents), *numbers)
    except reading.BadTile as bad:
        return fault_of(bad.args[0])


def try_tiles(comparison, kind, numbers, content, bend):
    """Compares the names of the tiles, and what is made of their contents, also if these are bent."""
    tiles = kind.tiles(*numbers) if kind.fits(*numbers) else []
    due = [name(*tile) for tile in tiles] if kind.fits(*numbers) else Fault(kind.fault)
    comparison.call(f"{kind.names.__name__}{numbers}", due, lambda: kind.names(*numbers))
    contents = bend([content(*tile) for tile in tiles])
    comparison.call(f"{kind.made.__name__}{numbers}", due_of_tiles(kind, numbers, contents), lambda: kind.made(*numbers, contents))


def try_logs(comparison):
    """Reads the tiles of logs of a few leaves and of some larger ones: what is made of them is what the recursion over all leaves gives."""
    chance, hashes = comparison.chance, [merkle.leaf_hash(number.to_bytes(4, "big")) for number in range(max(LARGER))]
    tree, of_levels = merkle.Tree(hashes), levels(hashes)

    def content(level, index, width):
        return b"".join(of_levels[level][256 * index : 256 * index + width])

    for size in (*SMALL, *LARGER):
        some = {0, 1, 254, 255, 256, 257, size // 2, size - 257, size - 2, size - 1, chance.randrange(size)}
        for index in range(size) if size <= 30 else some & {*range(size)}:
            for kind, numbers in ((ROOT, (size,)), (PATH, (index, size)), (PROOF, (index, size))):
                try_tiles(comparison, kind, numbers, content, lambda contents: contents)
                if kind.fits(*numbers):
                    comparison.same(f"the model's {kind.made.__name__}{numbers}", due_of_tiles(kind, numbers, [content(*tile) for tile in kind.tiles(*numbers)]), kind.due(tree, *numbers))


def bent_contents(chance, contents):
    """The contents, or some of them bent: one less or more, one of another length, two exchanged."""
    way = chance.randrange(9)
    if not contents or way == 0:
        return [*contents, b""]
    at, other = chance.randrange(len(contents)), chance.randrange(len(contents))
    if way == 1:
        return contents[:at]
    if way in (2, 3):
        longer = contents[at] + bytes(chance.choice([1, 32]))
        return [*contents[:at], longer if way == 2 else contents[at][: -chance.choice([1, 32])], *contents[at + 1 :]]
    if way == 4:
        contents[at], contents[other] = contents[other], contents[at]
    return contents


def try_made_up(comparison, calls):
    """Reads made-up tiles of trees of any size, right ones and damaged ones."""
    chance = comparison.chance
    for _ in range(calls):
        near = [1, 255, 256, 257, 65_536, 1 << 24, 1 << 32, 1 << 63, MOST, chance.getrandbits(chance.randint(1, 64))]
        size = min(max(chance.choice(near) + chance.choice([-1, 0, 0, 1, 300]), 0), MOST)
        number = min(max(chance.choice([0, 1, size // 2, size - 1, size, 1 << chance.randrange(64), chance.randint(0, size)]), 0), MOST)
        kind = chance.choice(KINDS)
        try_tiles(comparison, kind, (size,) if kind is ROOT else (number, size), lambda _, __, width: chance.randbytes(32 * width), lambda contents: bent_contents(chance, contents))


def main():
    options, comparison = begin("tests/library/proofs.py", 2000)
    try_vectors(comparison)
    try_leaves(comparison)
    try_proofs(comparison, options.calls)
    try_subtrees(comparison, options.calls)
    try_certificates(comparison, options.calls)
    try_logs(comparison)
    try_made_up(comparison, options.calls)
    for kind, numbers in ((ROOT, (0,)), (PATH, (0, 0)), (PATH, (8, 7)), (PROOF, (0, 7)), (PROOF, (7, 7))):
        try_tiles(comparison, kind, numbers, None, lambda contents: contents)
    for kind in (PATH, PROOF):
        comparison.same("the last tile of the largest tree", kind.names(MOST - 1, MOST)[-1], "tile/7/000.p/255")
    comparison.ends(FAULTS)


if __name__ == "__main__":
    main()
