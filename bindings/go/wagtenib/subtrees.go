//go:build linux && (amd64 || arm64)

package wagtenib

// #cgo nocallback wagtenib_check_subtree
// #cgo noescape wagtenib_check_subtree
// #cgo nocallback wagtenib_verify_subtree
// #cgo noescape wagtenib_verify_subtree
// #cgo nocallback wagtenib_evaluate_subtree_path
// #cgo noescape wagtenib_evaluate_subtree_path
// #cgo nocallback wagtenib_cover_range
// #cgo noescape wagtenib_cover_range
// #include "wagtenib.h"
import "C"

// Subtree is a range of leaves of one list, from index Start, counted from 0, to End - 1. There is at least one leaf,
// and Start is a multiple of the smallest power of two that is not below the number of leaves. The hash of a subtree is
// the Merkle Tree Hash of its leaves (RFC 6962, section 2.1). Merkle Tree Certificates sign such hashes
// (draft-ietf-plants-merkle-tree-certs).
type Subtree struct{ Start, End uint64 }

// Check returns nil exactly if the range is that of a subtree, and otherwise ErrNotASubtree.
func (s Subtree) Check() error {
	return result(C.wagtenib_check_subtree(C.uint64_t(s.Start), C.uint64_t(s.End)))
}

// VerifySubtree checks the consistency proof of a subtree. It returns nil exactly if the proof leads from the hash of
// the subtree to the root of a tree of size leaves. The first hash of the proof is nearest the leaves. If the subtree is
// the whole tree, the proof has no hashes. Otherwise VerifySubtree returns the first error of ErrNotASubtree,
// ErrBeyondTree, ErrPathTooLong, ErrPathTooShort, ErrFirstMismatch (the proof leads to another hash of the subtree) and
// ErrRootMismatch.
func VerifySubtree(s Subtree, size uint64, hash, root Hash, proof []Hash) error {
	return result(C.wagtenib_verify_subtree(C.uint64_t(s.Start), C.uint64_t(s.End), C.uint64_t(size), ofHash(&hash),
		ofHash(&root), ofHashes(proof), C.size_t(len(proof))))
}

// EvaluateSubtreePath returns the hash of the subtree to which the path of the leaf at index leads: the audit path of
// index - Start in the tree of the subtree's leaves (RFC 9162, section 2.1.3.2). The caller must compare the hash with
// one that it trusts for the same subtree, because the path does not show to which subtree it belongs. The error is nil,
// or the first of ErrNotASubtree, ErrIndexOutOfRange (the leaf is not in the subtree), ErrPathTooLong and
// ErrPathTooShort.
func EvaluateSubtreePath(leafHash Hash, index uint64, s Subtree, path []Hash) (hash Hash, err error) {
	err = result(C.wagtenib_evaluate_subtree_path(ofHash(&leafHash), C.uint64_t(index), C.uint64_t(s.Start),
		C.uint64_t(s.End), ofHashes(path), C.size_t(len(path)), ofHash(&hash)))
	return hash, err
}

// CoverRange returns the subtrees that cover the leaves from index start to end - 1: one if it is one leaf, and
// otherwise two, side by side. The first one has a power of two of leaves, and may begin before start. The second one
// ends at end. Together they have fewer than twice as many leaves as the range. The error is nil or ErrEmptyRange.
func CoverRange(start, end uint64) ([]Subtree, error) {
	var first, middle C.uint64_t
	if err := result(C.wagtenib_cover_range(C.uint64_t(start), C.uint64_t(end), &first, &middle)); err != nil {
		return nil, err
	}
	right := Subtree{uint64(middle), end}
	if first == middle {
		return []Subtree{right}, nil
	}
	return []Subtree{{uint64(first), uint64(middle)}, right}, nil
}
