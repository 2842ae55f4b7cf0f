"""Writes the cases for verify.c and verify.py: every true path and proof of the Certificate Transparency reference
tree of eight leaves, and damaged ones, with the answer that the damage calls for. The tree is computed by tests/merkle.py, and none of libwagtenib.
With --header it writes C tables of the leaves and roots instead.
"""
import os
import sys

sys.path.insert(0, os.path.join(os.path.dirname(__file__), "..", "..", "tests"))
from merkle import leaf_hash, path, proof, root  # noqa: E402

# The published vectors of the Certificate Transparency reference tree: its eight leaves, and the root of all eight.
LEAVES = [bytes.fromhex(text) for text in (
    "", "00", "10", "2021", "3031", "40414243", "5051525354555657", "606162636465666768696a6b6c6d6e6f")]
ROOT = "5dc9da79a70659a9ad559cb701ded9a2ab9d823aad2f4960cfe370eff4604328"
OK, OUT_OF_RANGE, TOO_LONG, TOO_SHORT, ROOT_MISMATCH, EMPTY, FIRST_MISMATCH, SIZES = range(8)


def flipped(value, bit=0):
    return bytes([value[0] ^ 1 << bit]) + value[1:]


def inclusion(wanted, index, size, leaf, top, hashes):
    print("inclusion", wanted, index, size, leaf.hex(), top.hex(), *(h.hex() for h in hashes))


def consistency(wanted, first, second, old, new, hashes):
    print("consistency", wanted, first, second, old.hex(), new.hex(), *(h.hex() for h in hashes))


def inclusions(index, size):
    leaf, top, hashes = leaf_hash(LEAVES[index]), root(LEAVES[:size]), path(index, LEAVES[:size])
    inclusion(OK, index, size, leaf, top, hashes)
    inclusion(OUT_OF_RANGE, size, size, leaf, top, hashes)
    inclusion(TOO_LONG, index, size, leaf, top, hashes + [top])
    inclusion(ROOT_MISMATCH, index, size, leaf, flipped(top, 7), hashes)
    inclusion(ROOT_MISMATCH, index, size, flipped(leaf), top, hashes)
    if hashes:
        inclusion(TOO_SHORT, index, size, leaf, top, hashes[:-1])
    for i in range(len(hashes)):
        inclusion(ROOT_MISMATCH, index, size, leaf, top, hashes[:i] + [flipped(hashes[i], 3)] + hashes[i + 1:])


def consistencies(first, second):
    old, new, hashes = root(LEAVES[:first]), root(LEAVES[:second]), proof(first, LEAVES[:second])
    consistency(OK, first, second, old, new, hashes)
    consistency(SIZES, second, first, new, old, hashes)
    consistency(SIZES, 0, second, old, new, hashes)
    consistency(SIZES, second, second, new, new, hashes)
    consistency(EMPTY, first, second, old, new, [])
    consistency(TOO_LONG, first, second, old, new, hashes + [old])
    # If the first size is a power of two, the walk begins with the first root itself, and so ends at another second root.
    power = first & (first - 1) == 0
    consistency(ROOT_MISMATCH if power else FIRST_MISMATCH, first, second, flipped(old), new, hashes)
    consistency(ROOT_MISMATCH, first, second, old, flipped(new), hashes)
    if len(hashes) > 1:
        consistency(TOO_SHORT, first, second, old, new, hashes[:-1])


def table(values):
    return ",\n".join("    {" + ", ".join(f"0x{b:02x}" for b in value) + "}" for value in values)


assert root(LEAVES).hex() == ROOT
if sys.argv[1:] == ["--header"]:
    print("#include <stdint.h>\n\nstatic const uint8_t LEAF_HASHES[8][32] = {\n" + table(map(leaf_hash, LEAVES)) + "};")
    print("static const uint8_t ROOTS[9][32] = {\n" + table(root(LEAVES[:n]) for n in range(9)) + "};")
else:
    for n in range(1, 9):
        for m in range(n):
            inclusions(m, n)
        for m in range(1, n):
            consistencies(m, n)
