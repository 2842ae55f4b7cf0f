"""The tree of RFC 6962, section 2.1, and the checking of proofs with the fault of a false one, by plain recursion. Nothing but hashlib is used, and no code of a
crate.
"""
import hashlib


def sha256(message):
    return hashlib.sha256(message).digest()


def leaf_hash(leaf):
    return sha256(b"\x00" + leaf)


def node_hash(left, right):
    return sha256(b"\x01" + left + right)


def split(n):
    """The largest power of two smaller than n."""
    return 1 << ((n - 1).bit_length() - 1)


class Ranges:
    """Paths and proofs in a tree D that gives MTH(D[begin : end]) as root(begin, end)."""

    def path(self, index, begin, end):
        """PATH(index - begin, D[begin : end])."""
        if end - begin == 1:
            return []
        half = begin + split(end - begin)
        if index < half:
            return self.path(index, begin, half) + [self.root(half, end)]
        return self.path(index, half, end) + [self.root(begin, half)]

    def proof(self, first, begin, end, whole=True):
        """SUBPROOF(first - begin, D[begin : end], whole)."""
        if first == end:
            return [] if whole else [self.root(begin, end)]
        half = begin + split(end - begin)
        if first <= half:
            return self.proof(first, begin, half, whole) + [self.root(half, end)]
        return self.proof(first, half, end, False) + [self.root(begin, half)]

    def subtree_proof(self, start, end, begin, over, known=True):
        """SUBTREE_SUBPROOF(start - begin, end - begin, D[begin : over], known) (draft-ietf-plants-merkle-tree-certs)."""
        if (start, end) == (begin, over):
            return [] if known else [self.root(begin, over)]
        half = begin + split(over - begin)
        if end <= half:
            return self.subtree_proof(start, end, begin, half, known) + [self.root(half, over)]
        if half <= start:
            return self.subtree_proof(start, end, half, over, known) + [self.root(begin, half)]
        return self.subtree_proof(half, end, half, over, False) + [self.root(begin, half)]


class Tree(Ranges):
    """The tree of a list of leaves with these hashes. It computes the root of each subtree once."""

    def __init__(self, hashes):
        self.hashes, self.known = list(hashes), {}

    def root(self, begin, end):
        """MTH(D[begin : end])."""
        if (begin, end) not in self.known:
            if end - begin < 2:
                self.known[begin, end] = self.hashes[begin] if end > begin else sha256(b"")
            else:
                half = begin + split(end - begin)
                self.known[begin, end] = node_hash(self.root(begin, half), self.root(half, end))
        return self.known[begin, end]


def root(leaves):
    """MTH(leaves)."""
    return Tree(map(leaf_hash, leaves)).root(0, len(leaves))


def path(m, leaves):
    """PATH(m, leaves)."""
    return Tree(map(leaf_hash, leaves)).path(m, 0, len(leaves))


def proof(m, leaves):
    """PROOF(m, leaves), which is SUBPROOF(m, leaves, true)."""
    return Tree(map(leaf_hash, leaves)).proof(m, 0, len(leaves))


def path_length(m, n):
    """How many hashes PATH(m, D) has for n leaves D."""
    if n == 1:
        return 0
    k = split(n)
    return 1 + (path_length(m, k) if m < k else path_length(m - k, n - k))


def root_by_path(found, m, n, hashes):
    """MTH of n leaves of which that at m has the hash `found`, and PATH is these hashes."""
    if n == 1:
        return found
    k = split(n)
    if m < k:
        return node_hash(root_by_path(found, m, k, hashes[:-1]), hashes[-1])
    return node_hash(hashes[-1], root_by_path(found, m - k, n - k, hashes[:-1]))


def fault_of_path(leaf, m, n, hashes, wanted):
    """Why the path doesn't lead from the leaf at m to the wanted root of n leaves, or None."""
    if m >= n:
        return "index-out-of-range"
    length = path_length(m, n)
    if len(hashes) != length:
        return "path-too-long" if len(hashes) > length else "path-too-short"
    return None if root_by_path(leaf_hash(leaf), m, n, hashes) == wanted else "root-mismatch"


def proof_length(m, n, whole=True):
    """How many hashes SUBPROOF(m, D, whole) has for n leaves D."""
    if m == n:
        return 0 if whole else 1
    k = split(n)
    return 1 + (proof_length(m, k, whole) if m <= k else proof_length(m - k, n - k, False))


def roots_by_proof(m, n, known, hashes, whole=True):
    """MTH of the first m and of all n leaves, for which SUBPROOF gives these hashes. If the whole tree is asked for, the first root is the known one."""
    if m == n:
        return (known, known) if whole else (hashes[-1], hashes[-1])
    k = split(n)
    if m <= k:
        old, new = roots_by_proof(m, k, known, hashes[:-1], whole)
        return old, node_hash(new, hashes[-1])
    old, new = roots_by_proof(m - k, n - k, known, hashes[:-1], False)
    return node_hash(hashes[-1], old), node_hash(hashes[-1], new)


def fault_of_proof(first, second, first_root, second_root, hashes):
    """Why the proof doesn't lead to both roots, or None."""
    if not 0 < first < second:
        return "sizes-out-of-range"
    if not hashes:
        return "empty-path"
    length = proof_length(first, second)
    if len(hashes) != length:
        return "path-too-long" if len(hashes) > length else "path-too-short"
    old, new = roots_by_proof(first, second, first_root, hashes)
    return "first-mismatch" if old != first_root else "root-mismatch" if new != second_root else None


def includes(leaf, m, n, hashes, wanted):
    """Whether the path leads from the leaf at m to the wanted root of n leaves."""
    return fault_of_path(leaf, m, n, hashes, wanted) is None


def extends(first, second, first_root, second_root, hashes):
    """Whether the hashes prove that the tree of size second extends that of size first."""
    return fault_of_proof(first, second, first_root, second_root, hashes) is None


def is_subtree(start, end):
    """Whether [start, end) is a subtree: start is a multiple of the smallest power of two that is not below its length."""
    return start < end and start % (1 << (end - start - 1).bit_length()) == 0


def evaluate_subtree(start, end, n, found, hashes):
    """The hash of the subtree and the root of n leaves to which the hashes lead by the draft's loop over bits, or the fault of their number. `found` is the known hash."""
    first, second, last, hashes = start, end - 1, n - 1, list(hashes)
    while first != second and (end == n or second & 1):
        first, second, last = first >> 1, second >> 1, last >> 1
    if first != second:
        if not hashes:
            return "path-too-short"
        found = hashes.pop(0)
    old = new = found
    for one in hashes:
        if last == 0:
            return "path-too-long"
        if second & 1 or second == last:
            old, new = node_hash(one, old) if first < second else old, node_hash(one, new)
            while not second & 1:
                first, second, last = first >> 1, second >> 1, last >> 1
        else:
            new = node_hash(new, one)
        first, second, last = first >> 1, second >> 1, last >> 1
    return "path-too-short" if last else (old, new)


def fault_of_subtree(start, end, n, subtree_hash, wanted, hashes):
    """Why the consistency proof doesn't lead from the hash of the subtree [start, end) to the wanted root of n leaves, or None."""
    if not is_subtree(start, end):
        return "not-a-subtree"
    if end > n:
        return "beyond-tree"
    found = evaluate_subtree(start, end, n, subtree_hash, hashes)
    if isinstance(found, str):
        return found
    return "first-mismatch" if found[0] != subtree_hash else "root-mismatch" if found[1] != wanted else None


def fault_of_subtree_path(index, start, end, hashes):
    """Why the path of the leaf at the index leads to no hash of the subtree [start, end), or None."""
    if not is_subtree(start, end):
        return "not-a-subtree"
    if not start <= index < end:
        return "index-out-of-range"
    length = path_length(index - start, end - start)
    return None if len(hashes) == length else "path-too-long" if len(hashes) > length else "path-too-short"


def cover(start, end):
    """The one or two subtrees that cover the leaves from `start` to end - 1 (the draft's find_subtrees), or the fault of the range."""
    if start >= end:
        return "empty-range"
    last = end - 1
    if start == last:
        return [(start, end)]
    level = (start ^ last).bit_length() - 1
    mask = (1 << level) - 1
    middle = last & ~mask
    return [(start & ~((1 << (~start & mask).bit_length()) - 1), middle), (middle, end)]
