//go:build linux && (amd64 || arm64)

package wagtenib

// #cgo nocallback wagtenib_leaf_hash
// #cgo noescape wagtenib_leaf_hash
// #cgo nocallback wagtenib_verify_inclusion
// #cgo noescape wagtenib_verify_inclusion
// #cgo nocallback wagtenib_verify_consistency
// #cgo noescape wagtenib_verify_consistency
// #cgo nocallback wagtenib_root
// #cgo noescape wagtenib_root
// #cgo nocallback wagtenib_decode_leaf
// #cgo noescape wagtenib_decode_leaf
// #cgo nocallback wagtenib_push
// #cgo noescape wagtenib_push
// #cgo nocallback wagtenib_subtrees_root
// #cgo noescape wagtenib_subtrees_root
// #include "wagtenib.h"
import "C"

// LeafHash returns the hash of a leaf, SHA-256(00 || leaf) (RFC 6962, section 2.1). The leaf is a MerkleTreeLeaf
// (section 3.4), or any bytes.
func LeafHash(leaf []byte) (hash Hash) {
	C.wagtenib_leaf_hash(ofBytes(leaf), C.size_t(len(leaf)), ofHash(&hash))
	return hash
}

// VerifyInclusion checks an audit path (RFC 9162, section 2.1.3.2). It returns nil exactly if the path leads from
// leafHash at index, counted from 0, to the root of a tree of size leaves. Otherwise it returns the first error of
// ErrIndexOutOfRange, ErrPathTooLong, ErrPathTooShort and ErrRootMismatch.
func VerifyInclusion(leafHash Hash, index, size uint64, path []Hash, root Hash) error {
	return result(C.wagtenib_verify_inclusion(ofHash(&leafHash), C.uint64_t(index), C.uint64_t(size), ofHashes(path),
		C.size_t(len(path)), ofHash(&root)))
}

// VerifyConsistency checks a consistency proof (RFC 9162, section 2.1.4.2). It returns nil exactly if the path leads to
// the root of the first `first` leaves and to that of all `second` leaves. Otherwise it returns the first error of
// ErrSizesOutOfRange, ErrEmptyPath, ErrPathTooLong, ErrPathTooShort, ErrFirstMismatch and ErrRootMismatch.
func VerifyConsistency(first, second uint64, firstRoot, secondRoot Hash, path []Hash) error {
	return result(C.wagtenib_verify_consistency(C.uint64_t(first), C.uint64_t(second), ofHash(&firstRoot),
		ofHash(&secondRoot), ofHashes(path), C.size_t(len(path))))
}

// Root returns the Merkle Tree Hash of leaves with these leaf hashes, in their order (RFC 6962, section 2.1). The error
// is nil or ErrMemory.
func Root(leafHashes []Hash) (root Hash, err error) {
	err = result(C.wagtenib_root(ofHashes(leafHashes), C.size_t(len(leafHashes)), ofHash(&root)))
	return root, err
}

// EntryType is the type of an entry of a log (LogEntryType, RFC 6962, section 3.1).
type EntryType uint16

// The types of entries.
const (
	X509Entry    EntryType = 0 // the entry is a certificate
	PrecertEntry EntryType = 1 // the entry is a precertificate's TBSCertificate
)

// Leaf has the fields of a MerkleTreeLeaf (RFC 6962, section 3.4). Its slices share memory with the bytes from which it
// was decoded.
type Leaf struct {
	Timestamp     uint64    // milliseconds since 1970
	EntryType     EntryType // X509Entry or PrecertEntry
	IssuerKeyHash []byte    // of a PrecertEntry: the SHA-256 hash of the issuer's key, 32 bytes
	Certificate   []byte    // of an X509Entry: the certificate in DER; of a PrecertEntry: the TBSCertificate in DER
	Extensions    []byte    // the CtExtensions, without their length
}

// The lengths of a leaf's fields, in bytes (RFC 6962, section 3.4).
const (
	headerBytes     = 12 // the version, the type of the leaf, the timestamp and the type of the entry
	lengthBytes     = 3  // the length of a certificate, which is an opaque<1..2^24-1>
	issuerHashBytes = HashSize
)

// DecodeLeaf reads a MerkleTreeLeaf (RFC 6962, section 3.4). It returns the fields exactly if all bytes are one leaf.
// Otherwise it returns the first error from the left: ErrTruncated, ErrBadVersion, ErrBadLeafType, ErrBadEntryType,
// ErrEmptyVector or ErrTrailing.
func DecodeLeaf(leaf []byte) (Leaf, error) {
	var info C.struct_wagtenib_leaf_info
	if err := result(C.wagtenib_decode_leaf(ofBytes(leaf), C.size_t(len(leaf)), &info)); err != nil {
		return Leaf{}, err
	}
	found := Leaf{Timestamp: uint64(info.timestamp), EntryType: EntryType(info.entry_type)}
	rest := leaf[headerBytes:]
	if found.EntryType == PrecertEntry {
		found.IssuerKeyHash, rest = rest[:issuerHashBytes:issuerHashBytes], rest[issuerHashBytes:]
	}
	rest = rest[lengthBytes:]
	length := uint64(info.certificate_length)
	found.Certificate = rest[:length:length]
	found.Extensions = leaf[uint64(len(leaf))-uint64(info.extensions_length):]
	return found, nil
}

// Push appends a leaf to a tree, of which the caller keeps only the roots of its perfect subtrees, largest first.
// `size` is the number of leaves so far, and subtrees are the roots of these. A tree begins with size 0 and no
// subtrees. Push returns the roots of the tree of size + 1 leaves. It may write to the array of subtrees, as append
// does, so the caller must not use the old slice after the call. A tree has at most 64 subtrees.
func Push(size uint64, subtrees []Hash, leafHash Hash) []Hash {
	count := len(subtrees)
	subtrees = append(subtrees, Hash{})
	var length C.size_t
	// There is an unused element, so the library always has room.
	C.wagtenib_push(C.uint64_t(size), C.size_t(count), ofHashes(subtrees), C.size_t(len(subtrees)), ofHash(&leafHash),
		&length)
	return subtrees[:length]
}

// SubtreesRoot returns the Merkle Tree Hash of the leaves whose perfect subtrees have these roots, largest first (RFC
// 6962, section 2.1).
func SubtreesRoot(subtrees []Hash) (root Hash) {
	C.wagtenib_subtrees_root(ofHashes(subtrees), C.size_t(len(subtrees)), ofHash(&root))
	return root
}
