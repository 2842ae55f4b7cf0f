"""A model of a log's guard, written from docs/GUARD.md: a second program beside the proved guard, plain and slow, with only hashlib.

A head is its number of leaves, its timestamp and its root.
"""
from merkle import fault_of_path, fault_of_proof, leaf_hash, node_hash, split


class Refused(Exception):
    """Why a head or a receipt is refused: the name, and the fault of a proof or of a leaf if there is one."""


def goes_on(seen, last):
    """Whether a head is the one that was seen before, or a later one with as many leaves or more."""
    return last == seen or (last[0] >= seen[0] and last[1] > seen[1])


def leaf_fault(leaf):
    """The first fault of a leaf's bytes from the left (MerkleTreeLeaf, RFC 6962, section 3.4)."""
    def number(at, width):
        return int.from_bytes(leaf[at : at + width], "big") if at + width <= len(leaf) else None

    for at, fault in ((0, "bad-version"), (1, "bad-leaf-type")):
        if number(at, 1) != 0:
            return "truncated" if at >= len(leaf) else fault
    if len(leaf) < 12:
        return "truncated"
    kind = number(10, 2)
    if kind > 1:
        return "bad-entry-type"
    at = 12 + 32 * kind
    length = number(at, 3)
    if length is None:
        return "truncated"
    if length == 0:
        return "empty-vector"
    at += 3 + length
    extensions = number(at, 2) if at <= len(leaf) else None
    if extensions is None or at + 2 + extensions > len(leaf):
        return "truncated"
    return "trailing" if at + 2 + extensions < len(leaf) else None


def extensions_of(leaf):
    """The extensions of a leaf's bytes."""
    at = 12 + 32 * int.from_bytes(leaf[10:12], "big")
    return leaf[at + 3 + int.from_bytes(leaf[at : at + 3], "big") + 2 :]


def index_extension(index):
    """The one extension that names an index in a log (leaf_index, C2SP static-ct-api), or None where 40 bits have no room for it."""
    return b"\0\0\5" + index.to_bytes(5, "big") if index < 1 << 40 else None


def perfect_sizes(count):
    """The sizes of the perfect subtrees of so many leaves, largest first."""
    return [1 << bit for bit in reversed(range(count.bit_length())) if count >> bit & 1]


def root_after(first, subtrees, leaves):
    """The root of a tree (RFC 6962, section 2.1): of so many leaves, given by the roots of their perfect subtrees, and of the leaves after them. None if these are too few or too many."""
    sizes = perfect_sizes(first)
    if len(sizes) != len(subtrees):
        return None
    known = {(first + at, first + at + 1): leaf_hash(leaf) for at, leaf in enumerate(leaves)}
    begin = 0
    for size, subtree in zip(sizes, subtrees):
        known[begin, begin + size] = subtree
        begin += size

    def root(begin, end):
        if (begin, end) in known:
            return known[begin, end]
        middle = begin + split(end - begin)
        return node_hash(root(begin, middle), root(middle, end))

    return root(0, first + len(leaves))


class Guard:
    """A guard after a head."""

    def __init__(self, last):
        self.last = last

    def pass_head(self, head, proof, ahead):
        """Approves a head, whose timestamp may be at most so many milliseconds after the last one's, and takes it as the last one."""
        last = self.last
        if head[1] > last[1] + ahead:
            raise Refused("timestamp-too-far")
        if head != last:
            if head[0] < last[0]:
                raise Refused("size-falls")
            if head[1] <= last[1]:
                raise Refused("timestamp-not-later")
            if head[0] == last[0]:
                if head[2] != last[2]:
                    raise Refused("fork")
            elif last[0] > 0:
                fault = fault_of_proof(last[0], head[0], last[2], head[2], proof)
                if fault:
                    raise Refused("inconsistent", fault)
        self.last = head

    def pass_receipt(self, leaf, index, path):
        """Approves the receipt of a leaf at an index."""
        fault = leaf_fault(leaf)
        if fault:
            raise Refused("no-leaf", fault)
        fault = fault_of_path(leaf, index, self.last[0], path, self.last[2])
        if fault:
            raise Refused("not-there", fault)
        self.pass_leaf(leaf, index)

    def pass_leaf(self, leaf, index):
        """Approves a leaf that the tree has at an index."""
        if int.from_bytes(leaf[2:10], "big") > self.last[1]:
            raise Refused("later-leaf")
        if extensions_of(leaf) not in (b"", index_extension(index)):
            raise Refused("other-index")

    def pass_receipts(self, first, subtrees, leaves):
        """Approves the receipts of all leaves of a step, which are the last ones of the head's tree."""
        if not leaves or first + len(leaves) != self.last[0]:
            raise Refused("not-there", "index-out-of-range")
        if root_after(first, subtrees, leaves) != self.last[2]:
            raise Refused("not-there", "root-mismatch")
        for index, leaf in enumerate(leaves, first):
            fault = leaf_fault(leaf)
            if fault:
                raise Refused("no-leaf", fault)
            self.pass_leaf(leaf, index)
