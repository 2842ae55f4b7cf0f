//go:build linux && (amd64 || arm64)

package wagtenib

// #cgo nocallback wagtenib_guard_first_head
// #cgo noescape wagtenib_guard_first_head
// #cgo nocallback wagtenib_guard_head
// #cgo noescape wagtenib_guard_head
// #cgo nocallback wagtenib_guard_receipt
// #cgo noescape wagtenib_guard_receipt
// #cgo nocallback wagtenib_guard_receipts
// #cgo noescape wagtenib_guard_receipts
// #cgo nocallback wagtenib_guard_state
// #cgo noescape wagtenib_guard_state
// #include "wagtenib.h"
import "C"

import "unsafe"

// TreeHeadBytes is the number of bytes of a TreeHeadSignature (RFC 6962, section 3.5).
const TreeHeadBytes = 50

// TreeHead is a tree head without its signature (RFC 6962, section 3.5).
type TreeHead struct {
	TreeSize  uint64 // leaves
	Timestamp uint64 // milliseconds since 1970
	Root      Hash
}

// SignedBytes has the bytes that a log signs for a tree head, its TreeHeadSignature. After they are signed, they are
// the state of the guard.
type SignedBytes = [TreeHeadBytes]byte

// inC returns the head in the form of the library.
func (h TreeHead) inC() (head C.struct_wagtenib_head) {
	head.tree_size, head.timestamp = C.uint64_t(h.TreeSize), C.uint64_t(h.Timestamp)
	*(*Hash)(unsafe.Pointer(&head.root)) = h.Root
	return head
}

// ofSigned returns a pointer to the first byte.
func ofSigned(signed *SignedBytes) *C.uint8_t { return (*C.uint8_t)(unsafe.Pointer(signed)) }

// GuardFirstHead decides whether head may be the first head that a log signs. It must be called when the log is
// created, or when the operator asks for it, and never only because a state is missing. It returns the bytes to sign
// exactly if head is that of the empty tree, at any timestamp, or has leaves and is equal to named. Otherwise it
// returns ErrNotFirst. If the operator names no head, named is the zero value.
func GuardFirstHead(head, named TreeHead) (signed SignedBytes, err error) {
	first, other := head.inC(), named.inC()
	err = result(C.wagtenib_guard_first_head(&first, &other, ofSigned(&signed)))
	return signed, err
}

// GuardHead decides whether head may be signed after the head that was signed last, whose signed bytes are last. The
// proof is the consistency proof from the last head to this one (RFC 6962, section 2.1.2). It is not read if their
// sizes are equal or the last size is 0.
//
// It returns the bytes to sign exactly if head is the last head again, or its timestamp is later, by at most maxAhead
// milliseconds, and the proof shows that its tree contains the last one. Otherwise it returns the first reason of
// ErrState, ErrTimestampTooFar, ErrSizeFalls, ErrTimestampNotLater, ErrFork, ErrEmptyPath, ErrPathTooLong,
// ErrPathTooShort, ErrFirstMismatch and ErrRootMismatch.
//
// Before the caller signs the bytes, it must store them in place of last, where only one process at a time can change
// them.
func GuardHead(last []byte, head TreeHead, proof []Hash, maxAhead uint64) (signed SignedBytes, err error) {
	next := head.inC()
	err = result(C.wagtenib_guard_head(ofBytes(last), C.size_t(len(last)), &next, ofHashes(proof), C.size_t(len(proof)),
		C.uint64_t(maxAhead), ofSigned(&signed)))
	return signed, err
}

// GuardReceipt decides whether an SCT of a leaf (MerkleTreeLeaf, RFC 6962, section 3.4) may be signed after the head
// whose signed bytes are last. The bytes that the SCT signs are those of the leaf (section 3.2).
//
// It returns nil exactly if the path leads from the leaf at index to the root of that head, the leaf's timestamp is not
// later than the head's, and its extensions are empty or contain only the index. Otherwise it returns the first reason
// of ErrState, those of DecodeLeaf, those of VerifyInclusion, ErrLaterLeaf and ErrOtherIndex.
func GuardReceipt(last, leaf []byte, index uint64, path []Hash) error {
	return result(C.wagtenib_guard_receipt(ofBytes(last), C.size_t(len(last)), ofBytes(leaf), C.size_t(len(leaf)),
		C.uint64_t(index), ofHashes(path), C.size_t(len(path))))
}

// GuardReceipts decides whether SCTs of all leaves of a step may be signed after the head whose signed bytes are last.
// The leaves have the indexes from first on, and subtrees are the roots of the perfect subtrees of the leaves before
// them, largest first.
//
// It returns nil exactly if the leaves end where the tree of that head ends, they and the subtrees give its root, and
// each leaf's timestamp is not later than the head's, and its extensions are empty or contain only its index. Otherwise
// it returns the first reason of ErrState, ErrMemory, ErrIndexOutOfRange (there are no leaves, or they end elsewhere),
// ErrRootMismatch, and those of DecodeLeaf, ErrLaterLeaf and ErrOtherIndex of the first leaf that may have no SCT.
func GuardReceipts(last []byte, first uint64, subtrees []Hash, leaves [][]byte) error {
	contents, lengths, count := joined(leaves)
	return result(C.wagtenib_guard_receipts(ofBytes(last), C.size_t(len(last)), C.uint64_t(first), ofHashes(subtrees),
		C.size_t(len(subtrees)), ofBytes(contents), C.size_t(len(contents)), lengths, count))
}

// GuardState reads a state, the signed bytes of a head. It returns the head exactly if it is that of the state seen, or
// has a later timestamp and no fewer leaves. Otherwise it returns ErrState, or ErrStateRolledBack if the state's head
// is before that of seen.
func GuardState(seen, state []byte) (TreeHead, error) {
	var head C.struct_wagtenib_head
	if err := result(C.wagtenib_guard_state(ofBytes(seen), C.size_t(len(seen)), ofBytes(state), C.size_t(len(state)),
		&head)); err != nil {
		return TreeHead{}, err
	}
	return TreeHead{TreeSize: uint64(head.tree_size), Timestamp: uint64(head.timestamp),
		Root: *(*Hash)(unsafe.Pointer(&head.root))}, nil
}
