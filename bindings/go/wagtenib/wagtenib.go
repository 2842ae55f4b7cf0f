//go:build linux && (amd64 || arm64)

// Package wagtenib calls the proved functions of libwagtenib, a library for Certificate Transparency logs, in this
// process.
//
// The functions check proofs (RFC 6962, RFC 9162) and make the decisions of a log, a node, a reader, a witness and a
// signer's guard. Their code is the assembly in this folder, which is compiled from the proved crates of the
// repository. A build needs only the files in this folder, and Go 1.24, cgo and a C compiler.
//
// A call keeps no state, does no input or output, and returns for every input, by proof. It may be made from any number
// of goroutines at once. Nothing may write to its arguments during the call.
//
// A call runs on the stack of a thread of the operating system, and uses at most 16 KB of it. The threads of Go have 8
// MB with glibc (ulimit -s).
package wagtenib

// #cgo CFLAGS: -std=c11 -O2
// #include "wagtenib.h"
import "C"

import (
	"fmt"
	"unsafe"
)

// HashSize is the number of bytes of a hash (SHA-256).
const HashSize = 32

// Hash is the SHA-256 hash of a leaf or of a tree (RFC 6962, section 2.1).
type Hash = [HashSize]byte

// Code is an answer of the library (wagtenib.h) that reports an error. It is the type of all errors of this package,
// except that a *CertificateError or a *TileError wraps it.
type Code uint32

// The faults of an audit path, of a consistency proof and of a leaf, the reasons for which a call has no reply, and
// those of the guard, of the step, of tiles, of certificates, of the witness, of watched names and of texts.
const (
	// ErrIndexOutOfRange means that the index of the leaf is not below the size of the tree.
	ErrIndexOutOfRange Code = C.WAGTENIB_INDEX_OUT_OF_RANGE
	// ErrPathTooLong means that hashes are left after the last level of the tree.
	ErrPathTooLong Code = C.WAGTENIB_PATH_TOO_LONG
	// ErrPathTooShort means that the hashes end before the last level of the tree.
	ErrPathTooShort Code = C.WAGTENIB_PATH_TOO_SHORT
	// ErrRootMismatch means that the hashes lead to another root.
	ErrRootMismatch Code = C.WAGTENIB_ROOT_MISMATCH
	// ErrEmptyPath means that the consistency proof has no hashes.
	ErrEmptyPath Code = C.WAGTENIB_EMPTY_PATH
	// ErrFirstMismatch means that the consistency proof leads to another first root.
	ErrFirstMismatch Code = C.WAGTENIB_FIRST_MISMATCH
	// ErrSizesOutOfRange means that the sizes of a consistency proof are not 0 < first < second.
	ErrSizesOutOfRange Code = C.WAGTENIB_SIZES_OUT_OF_RANGE
	// ErrMemory means that malloc returned no memory.
	ErrMemory Code = C.WAGTENIB_OUT_OF_MEMORY
	// ErrOrigin means that the origin is not UTF-8, or has a line end.
	ErrOrigin Code = C.WAGTENIB_BAD_ORIGIN
	// ErrTruncated means that the leaf ends before a field is complete.
	ErrTruncated Code = C.WAGTENIB_TRUNCATED
	// ErrBadVersion means that the version is not 0 (v1).
	ErrBadVersion Code = C.WAGTENIB_BAD_VERSION
	// ErrBadLeafType means that the leaf type is not 0 (timestamped_entry).
	ErrBadLeafType Code = C.WAGTENIB_BAD_LEAF_TYPE
	// ErrBadEntryType means that the entry type is neither 0 (x509_entry) nor 1 (precert_entry).
	ErrBadEntryType Code = C.WAGTENIB_BAD_ENTRY_TYPE
	// ErrEmptyVector means that a certificate or TBSCertificate has no bytes.
	ErrEmptyVector Code = C.WAGTENIB_EMPTY_VECTOR
	// ErrTrailing means that bytes follow the leaf.
	ErrTrailing Code = C.WAGTENIB_TRAILING
	// ErrSizeFalls means that the head has fewer leaves than the last one.
	ErrSizeFalls Code = C.WAGTENIB_SIZE_FALLS
	// ErrTimestampNotLater means that the head differs from the last one, and its timestamp is not later.
	ErrTimestampNotLater Code = C.WAGTENIB_TIMESTAMP_NOT_LATER
	// ErrFork means that the head has the size of the last one, and another root.
	ErrFork Code = C.WAGTENIB_FORK
	// ErrTimestampTooFar means that the timestamp of the head or the step is too far after the last one.
	ErrTimestampTooFar Code = C.WAGTENIB_TIMESTAMP_TOO_FAR
	// ErrState means that a state is malformed. For example, the state of a guard is not the TreeHeadSignature of a
	// head.
	ErrState Code = C.WAGTENIB_BAD_STATE
	// ErrStateRolledBack means that a state is older than one that was seen.
	ErrStateRolledBack Code = C.WAGTENIB_STATE_ROLLED_BACK
	// ErrLaterLeaf means that the leaf's timestamp is later than that of the last head.
	ErrLaterLeaf Code = C.WAGTENIB_LATER_LEAF
	// ErrOtherIndex means that the leaf has extensions other than only its index.
	ErrOtherIndex Code = C.WAGTENIB_OTHER_INDEX
	// ErrNotFirst means that the head is neither that of the empty tree nor the one that the operator named.
	ErrNotFirst Code = C.WAGTENIB_NOT_FIRST
	// ErrEdge means that the partial tiles are not those of the state, or the edge is not a list of contents.
	ErrEdge Code = C.WAGTENIB_EDGE
	// ErrEntries means that the partial data tile is not that of the state.
	ErrEntries Code = C.WAGTENIB_ENTRIES
	// ErrClockBack means that the timestamp of the step is not later than that of the state.
	ErrClockBack Code = C.WAGTENIB_CLOCK_BACK
	// ErrLogFull means that the log would have more than 2^40 leaves.
	ErrLogFull Code = C.WAGTENIB_LOG_FULL
	// ErrDataTileTooLong means that a data tile would have 2^32 bytes or more.
	ErrDataTileTooLong Code = C.WAGTENIB_DATA_TILE_TOO_LONG
	// ErrBundle means that the bundle is not that of the state.
	ErrBundle Code = C.WAGTENIB_BUNDLE
	// ErrClaim means that the path does not lead from the claimed entry to the root of the state.
	ErrClaim Code = C.WAGTENIB_CLAIM
	// ErrBatch means that the bytes are not a list of submissions, or not one submission.
	ErrBatch Code = C.WAGTENIB_BAD_BATCH
	// ErrTooMany means that the batch has more than 4,096 submissions.
	ErrTooMany Code = C.WAGTENIB_TOO_MANY
	// ErrEmptyTree means that a tree without leaves has no tiles.
	ErrEmptyTree Code = C.WAGTENIB_EMPTY_TREE
	// ErrTooManyTiles means that there are more tiles than the call needs.
	ErrTooManyTiles Code = C.WAGTENIB_TOO_MANY_TILES
	// ErrMissingTile means that there are fewer tiles than the call needs.
	ErrMissingTile Code = C.WAGTENIB_MISSING_TILE
	// ErrBadTile means that a tile does not have 32 bytes for each of its hashes.
	ErrBadTile Code = C.WAGTENIB_BAD_TILE
	// ErrDERTruncated means that the bytes end before a DER element is complete.
	ErrDERTruncated Code = C.WAGTENIB_DER_TRUNCATED
	// ErrDERLongTag means that the tag of a DER element has more than one byte.
	ErrDERLongTag Code = C.WAGTENIB_DER_LONG_TAG
	// ErrDERIndefiniteLength means that the length of an element is indefinite, which DER does not allow.
	ErrDERIndefiniteLength Code = C.WAGTENIB_DER_INDEFINITE_LENGTH
	// ErrDERLongLength means that the length of a DER element has more than four bytes after the first.
	ErrDERLongLength Code = C.WAGTENIB_DER_LONG_LENGTH
	// ErrDERPaddedLength means that the length of an element has more bytes than it needs, which DER does not allow.
	ErrDERPaddedLength Code = C.WAGTENIB_DER_PADDED_LENGTH
	// ErrDEROtherTag means that a DER element has another tag than its field must have.
	ErrDEROtherTag Code = C.WAGTENIB_DER_OTHER_TAG
	// ErrDERTrailing means that bytes follow the last DER element.
	ErrDERTrailing Code = C.WAGTENIB_DER_TRAILING
	// ErrNoExtension means that the certificate does not have the extension.
	ErrNoExtension Code = C.WAGTENIB_NO_EXTENSION
	// ErrSecondExtension means that the certificate has the extension twice.
	ErrSecondExtension Code = C.WAGTENIB_SECOND_EXTENSION
	// ErrBadPoison means that the poison is not critical, or its value is not NULL.
	ErrBadPoison Code = C.WAGTENIB_BAD_POISON
	// ErrTBSTooLong means that the TBSCertificate has 2^24 bytes or more.
	ErrTBSTooLong Code = C.WAGTENIB_TBS_TOO_LONG
	// ErrExtensionsTooLong means that the extensions of a timestamp have 2^16 bytes or more.
	ErrExtensionsTooLong Code = C.WAGTENIB_EXTENSIONS_TOO_LONG
	// ErrNoCheckpoint means that the text is not that of a checkpoint without extension lines.
	ErrNoCheckpoint Code = C.WAGTENIB_NO_CHECKPOINT
	// ErrOtherOrigin means that the checkpoint belongs to another log than the state.
	ErrOtherOrigin Code = C.WAGTENIB_OTHER_ORIGIN
	// ErrOldAbove means that the old size is greater than the size of the checkpoint.
	ErrOldAbove Code = C.WAGTENIB_OLD_ABOVE
	// ErrNotLast means that the old size is not that of the tree that was cosigned last.
	ErrNotLast Code = C.WAGTENIB_NOT_LAST
	// ErrProofNotEmpty means that there is a proof, although both trees are the same or the last one has no leaves.
	ErrProofNotEmpty Code = C.WAGTENIB_PROOF_NOT_EMPTY
	// ErrTimeFalls means that the time of a cosignature is 0, or earlier than that of the last one.
	ErrTimeFalls Code = C.WAGTENIB_TIME_FALLS
	// ErrPartialFingerprint means that the length of an entry's fingerprints is not a multiple of 32.
	ErrPartialFingerprint Code = C.WAGTENIB_PARTIAL_FINGERPRINT
	// ErrOtherCount means that there are not as many subtrees as a tree of the head's size has.
	ErrOtherCount Code = C.WAGTENIB_OTHER_COUNT
	// ErrOtherLengths means that the lengths of the entries do not add up to that of their bytes.
	ErrOtherLengths Code = C.WAGTENIB_OTHER_LENGTHS
	// ErrWatched means that the bytes are not a list of watched names.
	ErrWatched Code = C.WAGTENIB_BAD_WATCHED
	// ErrNotUTF8 means that the text is not UTF-8.
	ErrNotUTF8 Code = C.WAGTENIB_NOT_UTF8
	// ErrLaterEntry means that the entry is later than the head.
	ErrLaterEntry Code = C.WAGTENIB_LATER_ENTRY
	// ErrNoDataTile means that the name is not that of a data tile.
	ErrNoDataTile Code = C.WAGTENIB_NO_DATA_TILE
	// ErrTileAfter means that the data tile begins after the next entry.
	ErrTileAfter Code = C.WAGTENIB_TILE_AFTER
	// ErrTileBefore means that the data tile ends before the next entry.
	ErrTileBefore Code = C.WAGTENIB_TILE_BEFORE
	// ErrOtherEntries means that the data tile has another number of entries than its name says.
	ErrOtherEntries Code = C.WAGTENIB_OTHER_ENTRIES
	// ErrWrongIndex means that the extensions of an entry of the data tile do not contain exactly its own index.
	ErrWrongIndex Code = C.WAGTENIB_WRONG_INDEX
	// ErrNotASubtree means that the range of leaves is not a subtree.
	ErrNotASubtree Code = C.WAGTENIB_NOT_A_SUBTREE
	// ErrBeyondTree means that the subtree ends beyond the tree.
	ErrBeyondTree Code = C.WAGTENIB_BEYOND_TREE
	// ErrEmptyRange means that the range has no leaves.
	ErrEmptyRange Code = C.WAGTENIB_EMPTY_RANGE
)

// The errors of a node's commands and of a lock's text, and the reasons why a node must not continue when it starts.
const (
	// ErrCommand means that no command of a node has this number.
	ErrCommand Code = C.WAGTENIB_BAD_COMMAND
	// ErrOutcome means that no outcome of a command has this number.
	ErrOutcome Code = C.WAGTENIB_BAD_OUTCOME
	// ErrLockText means that the bytes are not the text of a lock.
	ErrLockText Code = C.WAGTENIB_BAD_LOCK_TEXT
	// ErrBatchName means that the bytes are not the name of a staged batch.
	ErrBatchName Code = C.WAGTENIB_BAD_BATCH_NAME
	// ErrCreatesLock means that the node must create the lock of a new log.
	ErrCreatesLock Code = C.WAGTENIB_CREATES_LOCK
	// ErrLockGone means that there is no lock, and either the node may not create one or parts of a log exist.
	ErrLockGone Code = C.WAGTENIB_LOCK_GONE
	// ErrBehindSeen means that this machine saw a later head than the lock's, or another one with its size and
	// timestamp.
	ErrBehindSeen Code = C.WAGTENIB_BEHIND_SEEN
	// ErrBehindSigned means that a later head than the lock's was signed.
	ErrBehindSigned Code = C.WAGTENIB_BEHIND_SIGNED
	// ErrTwoRoots means that another head with the lock's size and timestamp was signed.
	ErrTwoRoots Code = C.WAGTENIB_TWO_ROOTS
	// ErrSignedBehindListed means that the store lists a later head than the last one that was signed.
	ErrSignedBehindListed Code = C.WAGTENIB_SIGNED_BEHIND_LISTED
	// ErrBehindListed means that the store lists a later head than the lock's, or another one with its size and
	// timestamp.
	ErrBehindListed Code = C.WAGTENIB_BEHIND_LISTED
	// ErrBehindPublished means that a later head than the lock's is published, or another one with its size and
	// timestamp.
	ErrBehindPublished Code = C.WAGTENIB_BEHIND_PUBLISHED
)

var texts = map[Code]string{
	ErrIndexOutOfRange:     "the index of the leaf is not below the size of the tree",
	ErrPathTooLong:         "the proof has more hashes than the tree has levels for it",
	ErrPathTooShort:        "the proof has fewer hashes than the tree has levels for it",
	ErrRootMismatch:        "the proof leads to another root",
	ErrEmptyPath:           "the consistency proof has no hashes",
	ErrFirstMismatch:       "the consistency proof leads to another first root",
	ErrSizesOutOfRange:     "the sizes of a consistency proof must be 0 < first < second",
	ErrMemory:              "out of memory (malloc refused)",
	ErrOrigin:              "the origin is not UTF-8, or has a line end",
	ErrTruncated:           "the leaf ends before a field is whole",
	ErrBadVersion:          "the leaf's version is not 0 (v1)",
	ErrBadLeafType:         "the leaf's type is not 0 (timestamped_entry)",
	ErrBadEntryType:        "the leaf's entry type is neither 0 (x509_entry) nor 1 (precert_entry)",
	ErrEmptyVector:         "the leaf's certificate or TBSCertificate has no bytes",
	ErrTrailing:            "bytes follow the leaf",
	ErrSizeFalls:           "the head has fewer leaves than the last one",
	ErrTimestampNotLater:   "the head differs from the last one, and its timestamp is not later",
	ErrFork:                "the head has the size of the last one, and another root",
	ErrTimestampTooFar:     "the head's timestamp is too far beyond the last one's",
	ErrState:               "the bytes are not a state of a guard, a witness, a log or a monitor",
	ErrStateRolledBack:     "the state's head is before that of a state that was seen",
	ErrLaterLeaf:           "the leaf's timestamp is later than the last head's",
	ErrOtherIndex:          "the leaf has extensions, and they are not only its index",
	ErrNotFirst:            "the head is neither that of the empty tree nor the named one",
	ErrEdge:                "the partial tiles are not those of the state, or the edge is not a list of contents",
	ErrEntries:             "the partial data tile is not that of the state",
	ErrClockBack:           "the timestamp of the step is not later than the state's",
	ErrLogFull:             "the log would have more than 2^40 leaves",
	ErrDataTileTooLong:     "a data tile would have 2^32 bytes or more",
	ErrBundle:              "the bundle is not that of the state",
	ErrClaim:               "the path does not lead from the claimed entry to the root of the state",
	ErrBatch:               "the bytes are not a list of submissions, or not one submission",
	ErrTooMany:             "the batch has more than 4,096 submissions",
	ErrEmptyTree:           "a tree without leaves has no tiles",
	ErrTooManyTiles:        "more tiles are given than are needed",
	ErrMissingTile:         "fewer tiles are given than are needed",
	ErrBadTile:             "a tile does not have 32 bytes for each of its hashes",
	ErrDERTruncated:        "the bytes end before an element of DER is whole",
	ErrDERLongTag:          "the tag of an element of DER has more than one byte",
	ErrDERIndefiniteLength: "the length of an element is indefinite, which DER does not allow",
	ErrDERLongLength:       "the length of an element of DER has more than four bytes after the first",
	ErrDERPaddedLength:     "the length of an element has more bytes than it needs, which DER does not allow",
	ErrDEROtherTag:         "an element of DER has another tag than its field must have",
	ErrDERTrailing:         "bytes follow the last element of DER",
	ErrNoExtension:         "the certificate does not have the extension",
	ErrSecondExtension:     "the certificate has the extension twice",
	ErrBadPoison:           "the poison is not critical, or its value is not NULL",
	ErrTBSTooLong:          "the TBSCertificate has 2^24 bytes or more",
	ErrExtensionsTooLong:   "the extensions of a timestamp have 2^16 bytes or more",
	ErrNoCheckpoint:        "the text is not that of a checkpoint without extension lines",
	ErrOtherOrigin:         "the checkpoint is of another log than the state",
	ErrOldAbove:            "the old size is above the checkpoint's",
	ErrNotLast:             "the old size is not that of the tree that was cosigned last",
	ErrProofNotEmpty:       "there is a proof, although both trees are the same or the last one has no leaves",
	ErrTimeFalls:           "the time of a cosignature is 0, or earlier than that of the last one",
	ErrPartialFingerprint:  "the length of the issuers' fingerprints is not a multiple of 32 bytes",
	ErrOtherCount:          "there are not as many subtrees as a tree of the head's size has",
	ErrOtherLengths:        "the lengths of the entries do not add up to that of their bytes",
	ErrWatched:             "the bytes are not a list of watched names",
	ErrNotUTF8:             "the text is not UTF-8",
	ErrLaterEntry:          "the entry is later than the head",
	ErrNoDataTile:          "the name is not that of a data tile",
	ErrTileAfter:           "the data tile begins after the next entry",
	ErrTileBefore:          "the data tile ends before the next entry",
	ErrOtherEntries:        "the data tile has another number of entries than its name says",
	ErrWrongIndex:          "an entry of the data tile does not name its own index in its extensions",
	ErrNotASubtree:         "the range of leaves is not a subtree",
	ErrBeyondTree:          "the subtree ends beyond the tree",
	ErrEmptyRange:          "the range has no leaves",
	ErrCommand:             "no command of a node has this number",
	ErrOutcome:             "no outcome of a command has this number",
	ErrLockText:            "the bytes are not the text of a lock",
	ErrBatchName:           "the bytes are not the name of a staged batch",
	ErrCreatesLock:         "the node must create the lock of a new log",
	ErrLockGone:            "there is no lock, and none may be created",
	ErrBehindSeen:          "this machine saw a later head than the lock's, or another one with its size and timestamp",
	ErrBehindSigned:        "a later head than the lock's was signed",
	ErrTwoRoots:            "another head with the lock's size and timestamp was signed",
	ErrSignedBehindListed:  "the store lists a later head than the last one that was signed",
	ErrBehindListed:        "the store lists a later head than the lock's, or another one with its size and timestamp",
	ErrBehindPublished:     "a later head than the lock's is published, or another one with its size and timestamp",
}

// Error returns a sentence about the error.
func (c Code) Error() string {
	if text, ok := texts[c]; ok {
		return "wagtenib: " + text
	}
	return fmt.Sprintf("wagtenib: the library answered %d, which this package does not expect", uint32(c))
}

// result returns the error of an answer, which is nil for WAGTENIB_OK.
func result(code C.uint32_t) error {
	if code == C.WAGTENIB_OK {
		return nil
	}
	return Code(code)
}

// noBytes is the target of the pointer to an argument without bytes, because no pointer may be NULL.
var noBytes Hash

// ofBytes returns a pointer to the first byte.
func ofBytes(bytes []byte) *C.uint8_t {
	if len(bytes) == 0 {
		return ofHash(&noBytes)
	}
	return (*C.uint8_t)(unsafe.Pointer(unsafe.SliceData(bytes)))
}

// ofHash returns a pointer to the first byte of a hash.
func ofHash(hash *Hash) *C.uint8_t { return (*C.uint8_t)(unsafe.Pointer(hash)) }

// ofHashes returns a pointer to the first byte of hashes, which follow each other.
func ofHashes(hashes []Hash) *C.uint8_t {
	if len(hashes) == 0 {
		return ofHash(&noBytes)
	}
	return (*C.uint8_t)(unsafe.Pointer(unsafe.SliceData(hashes)))
}

// ofText returns a pointer to the first byte of a text, which the library only reads.
func ofText(text string) *C.uint8_t {
	return ofBytes(unsafe.Slice(unsafe.StringData(text), len(text)))
}
