"""A tiled log by its definition (docs/GROWTH.md): the oracle of the calls of libwagtenib over steps.

Roots are by the recursion of RFC 6962, section 2.1, hash tiles by their definition (C2SP tlog-tiles, "Merkle Tree"), and leaves and data tiles field by field (leaves.py).
"""
import base64

from leaves import Submission, signed_bytes, tile_leaf, vector
from merkle import Ranges, leaf_hash, node_hash, sha256, split
from states import State, written
from trees import name

MOST = 1 << 40


def bundle_of(objects):
    """The objects of a step, one after the other, and the place of each: its name, where its content begins, how long it is, and its SHA-256."""
    bundle, places = b"", []
    for called, content in objects:
        bundle += vector(2, called.encode()) + vector(4, content)
        places.append((called, len(bundle) - len(content), len(content), sha256(content)))
    return bundle, places


class Log(Ranges):
    """A log after a step. It knows the hashes of its leaves from some index on, the roots of the full subtrees before these, and its partial data tile."""

    def __init__(self, origin, timestamp, size=0):
        self.origin, self.timestamp, self.size, self.data = origin, timestamp, size, b""
        # The roots of subtrees of 256^level leaves, by level and index.
        self.known = {}
        self.line = written(State(0, timestamp, sha256(b""), bytes(32), sha256(b""), bytes(32)))

    @classmethod
    def made_up(cls, chance, origin, timestamp, size):
        """A log of so many leaves, of which only the edge exists, with the contents of the edge by their names."""
        log, contents = cls(origin, timestamp, size), {}
        for level, index, width in log.edge():
            content = contents[name(level, index, width)] = chance.randbytes(32 * width)
            if level == "data":
                log.data = content
            else:
                log.known.update({(level, 256 * index + at): content[32 * at : 32 * at + 32] for at in range(width)})
        log.line = written(State(size, timestamp, log.root(0, size), chance.randbytes(32), sha256(log.data), chance.randbytes(32)))
        return log, contents

    def root(self, begin, end):
        """MTH(D[begin : end])."""
        count = end - begin
        if count == 0:
            return sha256(b"")
        level = (count.bit_length() - 1) // 8
        if count == 1 << 8 * level and (level, begin >> 8 * level) in self.known:
            return self.known[level, begin >> 8 * level]
        half = begin + split(count)
        return node_hash(self.root(begin, half), self.root(half, end))

    def edge(self):
        """The partial tiles: of hashes by level, and then that of entries. Each is its level, its index and its width."""
        counts = [(level, self.size >> 8 * level) for level in range(8)]
        found = [(level, count // 256, count % 256) for level, count in counts if count % 256]
        return found + ([("data", self.size // 256, self.size % 256)] if self.size % 256 else [])

    def hash_tiles(self, before):
        """The hash tiles that are new or wider than in the log of so many leaves, each with its name and its content."""
        for level in range(8):
            old, new = before >> 8 * level, self.size >> 8 * level
            for index in range(old // 256, (new + 255) // 256):
                width = min(256, new - 256 * index)
                if width > min(256, old - 256 * index):
                    places = range(256 * index, 256 * index + width)
                    yield name(level, index, width), b"".join(self.root(place << 8 * level, place + 1 << 8 * level) for place in places)

    def published(self, places):
        """The bytes that are signed for the head, the checkpoint's text, and the places of the objects in the bundle."""
        root = self.root(0, self.size)
        signed = b"\0\1" + self.timestamp.to_bytes(8, "big") + self.size.to_bytes(8, "big") + root
        return signed, checkpoint_of(self.origin, self.size, root), places

    def step(self, batch, now):
        """Takes in a batch at a time. Returns what the step must give: the published parts, the bundle, and for each submission the index and the leaf of its entry.
        A repeat has those of the first submission of its identity."""
        before, firsts, tiles = self.size, {}, []
        for submission in batch:
            firsts.setdefault(submission.identity(), submission)
        found, leaves = {}, []
        for index, (identity, submission) in enumerate(firsts.items(), before):
            found[identity] = index, signed_bytes(submission, now, index)
            self.known[0, index] = leaf_hash(found[identity][1])
            leaves.append(tile_leaf(submission, now, index))
        self.size, self.timestamp = before + len(firsts), now
        for index, leaf in enumerate(leaves, before):
            self.data += leaf
            if index % 256 == 255:
                tiles.append((name("data", index // 256, 256), self.data))
                self.data = b""
        if leaves and self.data:
            tiles.append((name("data", self.size // 256, self.size % 256), self.data))
        objects = [*self.hash_tiles(before), *tiles]
        bundle, places = bundle_of(objects)
        self.line = written(State(self.size, now, self.root(0, self.size), sha256(bundle), sha256(self.data), sha256(self.line.encode())))
        return self.published(places), bundle, [found[submission.identity()] for submission in batch], dict(objects)


def checkpoint_of(origin, size, root):
    """The text of a checkpoint (C2SP tlog-checkpoint)."""
    return f"{origin}\n{size}\n{base64.b64encode(root).decode()}\n"


def submission_of(given):
    """A submission of the package, as leaves.py has it."""
    return Submission(given.signed, given.issuer_key_hash, given.precertificate, tuple(given.chain))
