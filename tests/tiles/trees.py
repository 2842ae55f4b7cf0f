"""Tiles of hashes (C2SP tlog-tiles, "Merkle Tree")."""
from merkle import Tree


def name(level, index, width):
    """The name of a tile of hashes."""
    groups = f"{index % 1000:03}"
    while index >= 1000:
        index //= 1000
        groups = f"x{index % 1000:03}/{groups}"
    return f"tile/{level}/{groups}" + (f".p/{width}" if width < 256 else "")


def levels(leaves):
    """The hashes of the levels 0 to 7: of each level that at an index is MTH of 256^level leaves."""
    found = [leaves]
    for _ in range(7):
        below = found[-1]
        found.append([Tree(below[at : at + 256]).root(0, 256) for at in range(0, len(below) - 255, 256)])
    return found
