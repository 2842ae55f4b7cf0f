package wagtenib_test

import (
	"crypto/sha256"
	"errors"
	"math/bits"
	"slices"
	"testing"

	"wagtenib/bindings/go/wagtenib"
)

// subtreeNodeHash and treeHash are MTH of RFC 6962, section 2.1, over leaf hashes.
func subtreeNodeHash(left, right wagtenib.Hash) wagtenib.Hash {
	return sha256.Sum256(slices.Concat([]byte{1}, left[:], right[:]))
}

func split(n uint64) uint64 { return 1 << (bits.Len64(n-1) - 1) }

func treeHash(leaves []wagtenib.Hash) wagtenib.Hash {
	if len(leaves) == 1 {
		return leaves[0]
	}
	k := split(uint64(len(leaves)))
	return subtreeNodeHash(treeHash(leaves[:k]), treeHash(leaves[k:]))
}

// subproof is SUBTREE_SUBPROOF of draft-ietf-plants-merkle-tree-certs, section 4.4, with the hash nearest the leaves
// first.
func subproof(start, end uint64, leaves []wagtenib.Hash, isKnown bool) []wagtenib.Hash {
	n := uint64(len(leaves))
	if start == 0 && end == n {
		if isKnown {
			return nil
		}
		return []wagtenib.Hash{treeHash(leaves)}
	}
	k := split(n)
	switch {
	case end <= k:
		return append(subproof(start, end, leaves[:k], isKnown), treeHash(leaves[k:]))
	case k <= start:
		return append(subproof(start-k, end-k, leaves[k:], isKnown), treeHash(leaves[:k]))
	}
	return append(subproof(0, end-k, leaves[k:], false), treeHash(leaves[:k]))
}

// auditPath is PATH of RFC 6962, section 2.1.1.
func auditPath(index uint64, leaves []wagtenib.Hash) []wagtenib.Hash {
	if len(leaves) == 1 {
		return nil
	}
	k := split(uint64(len(leaves)))
	if index < k {
		return append(auditPath(index, leaves[:k]), treeHash(leaves[k:]))
	}
	return append(auditPath(index-k, leaves[k:]), treeHash(leaves[:k]))
}

// isSubtree reports whether a range is a subtree, by the smallest power of two that is not below its length.
func isSubtree(start, end uint64) bool {
	return start < end && start%(1<<bits.Len64(end-start-1)) == 0
}

// TestSubtreesOfSmallTrees checks all ranges of all trees of up to 24 leaves: each true proof is accepted, and each
// range that is no subtree, each other length and each changed hash is refused by its first fault.
func TestSubtreesOfSmallTrees(t *testing.T) {
	var leaves []wagtenib.Hash
	for n := uint64(1); n <= 24; n++ {
		leaves = append(leaves, wagtenib.LeafHash([]byte{byte(n)}))
		root := treeHash(leaves)
		for start := range n + 2 {
			for end := range n + 2 {
				s := wagtenib.Subtree{Start: start, End: end}
				due := error(nil)
				if !isSubtree(start, end) {
					due = wagtenib.ErrNotASubtree
				}
				if err := s.Check(); err != due {
					t.Fatalf("%v: %v, but %v is due", s, err, due)
				}
				switch {
				case due != nil:
					if err := wagtenib.VerifySubtree(s, n, root, root, nil); err != due {
						t.Fatalf("%v of %d: %v", s, n, err)
					}
				case end > n:
					if err := wagtenib.VerifySubtree(s, n, root, root, nil); err != wagtenib.ErrBeyondTree {
						t.Fatalf("%v of %d: %v", s, n, err)
					}
				default:
					checksSubtree(t, s, leaves, root)
				}
			}
		}
	}
}

// checksSubtree checks the proofs of a subtree of the leaves, and what is refused in their place.
func checksSubtree(t *testing.T, s wagtenib.Subtree, leaves []wagtenib.Hash, root wagtenib.Hash) {
	t.Helper()
	n, part := uint64(len(leaves)), leaves[s.Start:s.End]
	hash, proof := treeHash(part), subproof(s.Start, s.End, leaves, true)
	refused := func(what string, due error, hash, root wagtenib.Hash, proof []wagtenib.Hash) {
		t.Helper()
		if err := wagtenib.VerifySubtree(s, n, hash, root, proof); !errors.Is(err, due) {
			t.Fatalf("%v of %d, %s: %v, but %v is due", s, n, what, err, due)
		}
	}
	refused("the true proof", nil, hash, root, proof)
	refused("a hash more", wagtenib.ErrPathTooLong, hash, root, append(slices.Clip(proof), root))
	if len(proof) > 0 {
		refused("a hash less", wagtenib.ErrPathTooShort, hash, root, proof[1:])
		refused("another root", wagtenib.ErrRootMismatch, hash, flipped(root), proof)
	} else {
		refused("another root", wagtenib.ErrRootMismatch, hash, flipped(root), nil)
	}
	for at := range proof {
		changed := slices.Clone(proof)
		changed[at] = flipped(changed[at])
		if err := wagtenib.VerifySubtree(s, n, hash, root, changed); err != wagtenib.ErrRootMismatch &&
			err != wagtenib.ErrFirstMismatch {
			t.Fatalf("%v of %d with another hash %d: %v", s, n, at, err)
		}
	}
	for i := range part {
		index, path := s.Start+uint64(i), auditPath(uint64(i), part)
		got, err := wagtenib.EvaluateSubtreePath(leaves[index], index, s, path)
		if err != nil || got != hash {
			t.Fatalf("leaf %d of %v: %x, %v, but the hash is %x", index, s, got, err, hash)
		}
		_, err = wagtenib.EvaluateSubtreePath(leaves[index], index, s, append(slices.Clip(path), root))
		if err != wagtenib.ErrPathTooLong {
			t.Fatalf("leaf %d of %v with a hash more: %v", index, s, err)
		}
	}
	for _, index := range []uint64{s.Start - 1, s.End, 1<<64 - 1} {
		if _, err := wagtenib.EvaluateSubtreePath(hash, index, s, nil); err != wagtenib.ErrIndexOutOfRange {
			t.Fatalf("leaf %d of %v: %v", index, s, err)
		}
	}
}

// TestCoversRanges checks what CoverRange promises, for small ranges and for the largest ones.
func TestCoversRanges(t *testing.T) {
	for _, base := range []uint64{0, 1<<32 - 40, 1<<63 - 40, 1<<64 - 82} {
		for start := base; start < base+80; start++ {
			for end := base; end <= base+80; end++ {
				cover, err := wagtenib.CoverRange(start, end)
				switch {
				case start >= end:
					if err != wagtenib.ErrEmptyRange {
						t.Fatalf("[%d, %d): %v", start, end, err)
					}
				case err != nil:
					t.Fatalf("[%d, %d): %v", start, end, err)
				case end-start == 1:
					if len(cover) != 1 || cover[0] != (wagtenib.Subtree{Start: start, End: end}) {
						t.Fatalf("[%d, %d): %v", start, end, cover)
					}
				default:
					left, right := cover[0], cover[1]
					full := left.End - left.Start
					if len(cover) != 2 || left.Check() != nil || right.Check() != nil || left.End != right.Start ||
						right.End != end || left.Start > start || start >= left.End || full&(full-1) != 0 ||
						end-left.Start >= 2*(end-start) {
						t.Fatalf("[%d, %d): %v", start, end, cover)
					}
				}
			}
		}
	}
}

// TestSubtreesOfLargeIndexes checks ranges at the end of 64 bits, for which a power of two may have no 64-bit number.
func TestSubtreesOfLargeIndexes(t *testing.T) {
	const most = 1<<64 - 1
	for s, isOne := range map[wagtenib.Subtree]bool{
		{Start: 0, End: most}:              true,
		{Start: 1, End: most}:              false,
		{Start: 1 << 63, End: most}:        true,
		{Start: 1 << 62, End: most}:        false,
		{Start: 1<<63 + 1, End: most}:      false,
		{Start: most - 1, End: most}:       true,
		{Start: most, End: most}:           false,
		{Start: 1 << 62, End: 1 << 63}:     true,
		{Start: 1 << 62, End: 1<<63 + 1}:   false,
		{Start: 3 << 61, End: 1 << 63}:     true,
		{Start: 3 << 61, End: 1<<63 + 1}:   false,
		{Start: most &^ 7, End: most}:      true,
		{Start: most&^7 - 1, End: most}:    false,
		{Start: most &^ 7, End: most &^ 7}: false,
	} {
		if err := s.Check(); (err == nil) != isOne {
			t.Errorf("%v: %v", s, err)
		}
	}
}
