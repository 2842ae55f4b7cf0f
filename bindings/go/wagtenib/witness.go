//go:build linux && (amd64 || arm64)

package wagtenib

// #cgo nocallback wagtenib_witness_first
// #cgo noescape wagtenib_witness_first
// #cgo nocallback wagtenib_witness_cosign
// #cgo noescape wagtenib_witness_cosign
// #cgo nocallback wagtenib_witness_state
// #cgo noescape wagtenib_witness_state
// #include "wagtenib.h"
import "C"

import "unsafe"

// maxBeforeText is the maximum number of bytes before the checkpoint's text in a message: "cosignature/v1", "time ", a
// time of at most 20 digits, and two line ends.
const maxBeforeText = 41

// WitnessedTree is the tree that a witness cosigned last of a log, with the time.
type WitnessedTree struct {
	TreeSize uint64 // leaves
	Time     uint64 // seconds since 1970
	Root     Hash
}

// cosigned makes a call that writes a message over a checkpoint's text.
func cosigned(text string, call func(out *C.uint8_t, room C.size_t, length *C.uint64_t) C.uint32_t) (message []byte,
	err error) {
	var length C.uint64_t
	message = make([]byte, maxBeforeText+len(text))
	if err := result(call(ofBytes(message), C.size_t(len(message)), &length)); err != nil {
		return nil, err
	}
	return message[:length:length], nil
}

// WitnessFirst decides whether a witness may cosign a checkpoint as the first one of the log with this origin. It must
// be called only if the witness was configured to witness the log and never cosigned a tree of it, and never because a
// state is missing. The old size, the proof, the time and the errors are those of WitnessCosign.
//
// It returns the message to cosign (C2SP tlog-cosignature), which is the witness's state from now on.
func WitnessFirst(origin, checkpoint string, old uint64, proof []Hash, time uint64) (message []byte, err error) {
	return cosigned(checkpoint, func(out *C.uint8_t, room C.size_t, length *C.uint64_t) C.uint32_t {
		return C.wagtenib_witness_first(ofText(origin), C.size_t(len(origin)), ofText(checkpoint), C.size_t(len(checkpoint)),
			C.uint64_t(old), ofHashes(proof), C.size_t(len(proof)), C.uint64_t(time), out, room, length)
	})
}

// WitnessCosign decides whether a witness may cosign a checkpoint (C2SP tlog-witness) after the one that it cosigned
// last, whose message is state. The checkpoint is the text of the note, old is the size from which the consistency
// proof leads, and time is that of the cosignature in seconds since 1970.
//
// It returns the message to cosign exactly if the checkpoint belongs to the same log, old is the size of the last tree,
// the proof leads from that tree to the checkpoint's tree, and the time is neither 0 nor earlier than the last one. The
// proof must be empty if both trees are the same or the last one has no leaves. Otherwise it returns the first reason
// of ErrState, ErrNoCheckpoint, ErrOtherOrigin, ErrOldAbove, ErrNotLast, ErrFork, ErrProofNotEmpty, ErrEmptyPath,
// ErrPathTooLong, ErrPathTooShort, ErrFirstMismatch, ErrRootMismatch and ErrTimeFalls; or ErrMemory.
//
// Before the caller cosigns the message, it must store it in place of state, where only one process at a time can
// change it.
func WitnessCosign(state []byte, checkpoint string, old uint64, proof []Hash, time uint64) (message []byte, err error) {
	return cosigned(checkpoint, func(out *C.uint8_t, room C.size_t, length *C.uint64_t) C.uint32_t {
		return C.wagtenib_witness_cosign(ofBytes(state), C.size_t(len(state)), ofText(checkpoint), C.size_t(len(checkpoint)),
			C.uint64_t(old), ofHashes(proof), C.size_t(len(proof)), C.uint64_t(time), out, room, length)
	})
}

// WitnessState reads a state, the message that was cosigned last. It returns the tree and the time exactly if the state
// is that of seen, or that of a later cosignature of the same log, whose time is not earlier and whose tree is the same
// or has more leaves. Otherwise it returns ErrState, ErrStateRolledBack or ErrMemory. To read a state without comparing
// it, pass it twice.
func WitnessState(seen, state []byte) (WitnessedTree, error) {
	var last C.struct_wagtenib_witnessed_tree
	if err := result(C.wagtenib_witness_state(ofBytes(seen), C.size_t(len(seen)), ofBytes(state), C.size_t(len(state)),
		&last)); err != nil {
		return WitnessedTree{}, err
	}
	return WitnessedTree{TreeSize: uint64(last.tree_size), Time: uint64(last.time),
		Root: *(*Hash)(unsafe.Pointer(&last.root))}, nil
}
