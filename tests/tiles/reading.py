"""Audit paths, consistency proofs and roots out of a log's tiles, by hashlib: the model of the calls of libwagtenib over tiles.

path_tiles, proof_tiles and root_tiles give the tiles that each is made of in the tree of so many leaves (C2SP tlog-tiles), in the order of tiles_for_path,
tiles_for_proof and tiles_for_root in ct_tiles. A Tree of their contents, in that order, gives PATH, PROOF and MTH (RFC 6962, section 2.1). The first tile
that has no contents is a missing-tile, and one whose bytes aren't 32 for each of its hashes is a bad-tile. The caller must check the answer against roots
that it has: nothing here decides whether the tiles are a log's.
"""
from trees import name
from merkle import Ranges, node_hash, split


class BadTile(Exception):
    """Why contents are refused: missing-tile or bad-tile, and the tile's name."""


def level_tiles(level, first, own, last, size):
    """The tiles of one level with so many hashes (level_tiles in ct_tiles/specs/Needed.antt)."""
    indexes = [own // 256] if own // 256 < last // 256 and first // 256 == own // 256 else []
    if last % 256 or level == 0:
        indexes.append(last // 256)
    return [(level, index, min(256, size - 256 * index)) for index in indexes]


def tiles_of(first, own, last, size):
    """The level, the index and the width of each tile, the lowest level first."""
    return [tile for level in range(8) for tile in level_tiles(level, *(number >> 8 * level for number in (first, own, last, size)))]


def path_tiles(index, size):
    return tiles_of(index, index, size - 1, size)


def proof_tiles(first, size):
    return tiles_of(first, first - 1, size - 1, size)


def root_tiles(size):
    return tiles_of(size - 1, size - 1, size - 1, size)


class Tree(Ranges):
    """The tree of so many leaves, of which these tiles are at hand, with these contents."""

    def __init__(self, size, tiles, contents):
        self.size, self.hashes = size, {}
        for at, (level, index, width) in enumerate(tiles):
            if at >= len(contents):
                raise BadTile("missing-tile", name(level, index, width))
            if len(contents[at]) != 32 * width:
                raise BadTile("bad-tile", name(level, index, width))
            for place in range(width):
                self.hashes[level, 256 * index + place] = contents[at][32 * place : 32 * place + 32]

    def root(self, begin, end):
        """MTH(D[begin : end]) of a subtree of this tree. It is a tile's hash if the subtree has as many leaves as the tile and ends before the last leaf."""
        level, over = divmod((end - begin).bit_length() - 1, 8)
        if over == 0 and end - begin == 1 << 8 * level and (end < self.size or level == 0):
            return self.hashes[level, begin >> 8 * level]
        half = begin + split(end - begin)
        return node_hash(self.root(begin, half), self.root(half, end))
