//go:build linux && (amd64 || arm64)

package wagtenib

// #cgo nocallback wagtenib_monitor_begin
// #cgo noescape wagtenib_monitor_begin
// #cgo nocallback wagtenib_monitor_start
// #cgo noescape wagtenib_monitor_start
// #cgo nocallback wagtenib_monitor_head
// #cgo noescape wagtenib_monitor_head
// #cgo nocallback wagtenib_monitor_entries
// #cgo noescape wagtenib_monitor_entries
// #cgo nocallback wagtenib_monitor_proof
// #cgo noescape wagtenib_monitor_proof
// #cgo nocallback wagtenib_monitor_older
// #cgo noescape wagtenib_monitor_older
// #cgo nocallback wagtenib_compare_heads
// #cgo noescape wagtenib_compare_heads
// #cgo nocallback wagtenib_monitor_entry
// #cgo noescape wagtenib_monitor_entry
// #include "wagtenib.h"
import "C"

import (
	"crypto/sha256"
	"fmt"
	"math/bits"
	"slices"
	"unsafe"
)

// maxMonitorState is the maximum number of bytes of a monitor's state: the version, two heads, two timestamps, two times
// 64 hashes, and the hash of all of these.
const maxMonitorState = 1 + 2*49 + 2*8 + 2*(16+64*HashSize) + HashSize

// Verdict is a verdict of a monitor on an answer of a log.
type Verdict uint32

// The verdicts of a monitor.
const (
	// VerdictAccepted means that the waiting head is that of all leaves that were read, and is accepted.
	VerdictAccepted Verdict = C.WAGTENIB_ACCEPTED
	// VerdictPending means that the waiting head has more leaves than were read.
	VerdictPending Verdict = C.WAGTENIB_PENDING
	// VerdictAgain means that the head has the size and the root of a known head.
	VerdictAgain Verdict = C.WAGTENIB_AGAIN
	// VerdictOlder means that the head has fewer leaves than a known head, and an earlier timestamp. MonitorOlder decides.
	VerdictOlder Verdict = C.WAGTENIB_OLDER
	// VerdictShrunk means that the head has fewer leaves than a known head, and no earlier timestamp.
	VerdictShrunk Verdict = C.WAGTENIB_SHRUNK
	// VerdictForked means that the head has the size of a known head, and another root.
	VerdictForked Verdict = C.WAGTENIB_FORKED
	// VerdictNotLater means that the head has more leaves than a known head, and no later timestamp.
	VerdictNotLater Verdict = C.WAGTENIB_HEAD_NOT_LATER
	// VerdictOtherRoot means that the waiting head has another root than the leaves that were read.
	VerdictOtherRoot Verdict = C.WAGTENIB_OTHER_ROOT
	// VerdictGap means that the entries begin at another index, or no head waits, or there are no two heads for a proof.
	VerdictGap Verdict = C.WAGTENIB_GAP
	// VerdictConsistent means that the proof leads from the accepted head to the waiting one, or from an older head to a
	// known one.
	VerdictConsistent Verdict = C.WAGTENIB_CONSISTENT
	// VerdictInconsistent means that the proof does not lead there. It accuses nobody: the log did not sign the proof.
	VerdictInconsistent Verdict = C.WAGTENIB_INCONSISTENT
)

var verdictNames = map[Verdict]string{
	VerdictAccepted:     "accepted",
	VerdictPending:      "pending",
	VerdictAgain:        "again",
	VerdictOlder:        "older",
	VerdictShrunk:       "shrunk",
	VerdictForked:       "fork",
	VerdictNotLater:     "time-not-later",
	VerdictOtherRoot:    "root-mismatch",
	VerdictGap:          "gap",
	VerdictConsistent:   "consistent",
	VerdictInconsistent: "inconsistent",
}

// String returns the name of a verdict.
func (v Verdict) String() string {
	if name, ok := verdictNames[v]; ok {
		return name
	}
	return fmt.Sprintf("verdict %d", uint32(v))
}

// Accuses reports whether a verdict says that the log did wrong.
func (v Verdict) Accuses() bool {
	switch v {
	case VerdictShrunk, VerdictForked, VerdictNotLater, VerdictOtherRoot:
		return true
	}
	return false
}

// Judgement is a verdict of a monitor, with the numbers of the state after it.
type Judgement struct {
	Verdict  Verdict
	Fault    error    // the fault of an inconsistent proof, otherwise nil
	Known    TreeHead // the known head that VerdictOlder, VerdictShrunk, VerdictForked and VerdictNotLater name
	Root     Hash     // the root of the leaves that were read, for VerdictOtherRoot
	Accepted uint64   // leaves of the accepted head
	Read     uint64   // leaves that were read: the index of the next one that is wanted
	Wanted   uint64   // leaves of the waiting head, or Read if no head waits
}

// LaterEntry is an entry that is later than the head of its tree.
type LaterEntry struct {
	Index     uint64
	Timestamp uint64 // milliseconds since 1970
}

// FaultyEntry is an entry that is not a leaf.
type FaultyEntry struct {
	Index uint64
	Fault error // as of DecodeLeaf
}

// EntryReport has the timestamp of the head that waited for the entries (0 if none waited), the first entry that is
// later than that head, and the first that is not a leaf. Each entry is nil if there is none.
type EntryReport struct {
	HeadTimestamp uint64 // in milliseconds
	Later         *LaterEntry
	Faulty        *FaultyEntry
}

// judged makes a call that writes a verdict and a state.
func judged(call func(verdict *C.struct_wagtenib_monitor_verdict, out *C.uint8_t, room C.size_t,
	length *C.uint64_t) C.uint32_t) (Judgement, []byte, error) {
	var verdict C.struct_wagtenib_monitor_verdict
	state, code := output(maxMonitorState, func(out *C.uint8_t, room C.size_t, length *C.uint64_t) C.uint32_t {
		return call(&verdict, out, room, length)
	})
	if err := result(code); err != nil {
		return Judgement{}, nil, err
	}
	known := TreeHead{TreeSize: uint64(verdict.known.tree_size), Timestamp: uint64(verdict.known.timestamp),
		Root: *(*Hash)(unsafe.Pointer(&verdict.known.root))}
	return Judgement{Verdict: Verdict(verdict.verdict), Fault: result(verdict.fault), Known: known,
		Root:     *(*Hash)(unsafe.Pointer(&verdict.root)),
		Accepted: uint64(verdict.leaves_accepted), Read: uint64(verdict.leaves_read),
		Wanted: uint64(verdict.leaves_wanted)}, state, nil
}

// MonitorBegin returns the state of a monitor that has read nothing. The error is nil or ErrMemory. It must never be
// called because a state is missing.
func MonitorBegin() (state []byte, err error) {
	state, code := output(maxMonitorState, func(out *C.uint8_t, room C.size_t, length *C.uint64_t) C.uint32_t {
		return C.wagtenib_monitor_begin(out, room, length)
	})
	return state, result(code)
}

// MonitorStart returns the state of a monitor that trusts a head. The head counts as accepted, and reading continues
// from the leaf with the index head.TreeSize. The caller must have verified the head's signature. The subtrees are the
// roots of the perfect subtrees of the head's leaves, largest first, in the form of Push. LastSubtrees returns them.
//
// If the head belongs to a list of leaves, each head that is accepted later belongs to a beginning of one list, which
// begins with these leaves (assuming no SHA-256 collision). The monitor reports nothing about these leaves, because it
// has not read them.
//
// The error is nil, ErrOtherCount, ErrRootMismatch or ErrMemory.
func MonitorStart(head TreeHead, subtrees []Hash) (state []byte, err error) {
	trusted := head.inC()
	state, code := output(maxMonitorState, func(out *C.uint8_t, room C.size_t, length *C.uint64_t) C.uint32_t {
		return C.wagtenib_monitor_start(&trusted, ofHashes(subtrees), C.size_t(len(subtrees)), out, room, length)
	})
	return state, result(code)
}

// LastSubtrees returns the roots of the perfect subtrees of a tree, largest first, from the leaf hash of its last leaf
// and that leaf's audit path (RFC 6962, section 2.1.1). It does not check them, but MonitorStart does. The error is
// ErrPathTooShort if the path has fewer hashes than the smallest subtree has levels, otherwise nil.
func LastSubtrees(leafHash Hash, size uint64, path []Hash) ([]Hash, error) {
	if size == 0 {
		return nil, nil
	}
	levels := bits.TrailingZeros64(size)
	if len(path) < levels {
		return nil, ErrPathTooShort
	}
	smallest := leafHash
	for _, left := range path[:levels] {
		smallest = sha256.Sum256(slices.Concat([]byte{1}, left[:], smallest[:]))
	}
	subtrees := append(slices.Clone(path[levels:]), smallest)
	slices.Reverse(subtrees[:len(subtrees)-1])
	return subtrees, nil
}

// MonitorHead judges a tree head over a state. It compares the head with the accepted head and with the one that waits
// for its entries, each with the earliest and the newest timestamp that it was handed out with. If the head is larger
// and later than both, it waits from then on (unless another one already waits), and is compared with the leaves that
// were read. After VerdictAgain the next state has the timestamp of this head.
//
// It returns the verdict and the next state. The error is nil, ErrState or ErrMemory. The caller must store the next
// state before it acts on the verdict.
func MonitorHead(state []byte, head TreeHead) (found Judgement, next []byte, err error) {
	judgedHead := head.inC()
	return judged(func(verdict *C.struct_wagtenib_monitor_verdict, out *C.uint8_t, room C.size_t,
		length *C.uint64_t) C.uint32_t {
		return C.wagtenib_monitor_head(ofBytes(state), C.size_t(len(state)), &judgedHead, verdict, out, room, length)
	})
}

// MonitorEntries judges the leaves (MerkleTreeLeaf, RFC 6962, section 3.4) from the index start on. It reads at most as
// many as the waiting head has, and compares that head with all leaves that were read. Entries that it does not read
// are not in the report. The next state and the errors are those of MonitorHead.
func MonitorEntries(state []byte, start uint64, leaves [][]byte) (found Judgement, report EntryReport, next []byte,
	err error) {
	contents, lengths, count := joined(leaves)
	var reported C.struct_wagtenib_entry_report
	found, next, err = judged(func(verdict *C.struct_wagtenib_monitor_verdict, out *C.uint8_t, room C.size_t,
		length *C.uint64_t) C.uint32_t {
		return C.wagtenib_monitor_entries(ofBytes(state), C.size_t(len(state)), C.uint64_t(start), ofBytes(contents),
			C.size_t(len(contents)), lengths, count, verdict, &reported, out, room, length)
	})
	report.HeadTimestamp = uint64(reported.head_timestamp)
	if reported.later_timestamp != 0 {
		report.Later = &LaterEntry{Index: uint64(reported.later_index), Timestamp: uint64(reported.later_timestamp)}
	}
	if reported.fault != 0 {
		report.Faulty = &FaultyEntry{Index: uint64(reported.faulty_index), Fault: result(reported.fault)}
	}
	return found, report, next, err
}

// MonitorProof judges a consistency proof (RFC 6962, section 2.1.2) from the accepted head to the waiting one. The
// state does not change. The results are those of MonitorHead.
func MonitorProof(state []byte, proof []Hash) (found Judgement, next []byte, err error) {
	return judged(func(verdict *C.struct_wagtenib_monitor_verdict, out *C.uint8_t, room C.size_t,
		length *C.uint64_t) C.uint32_t {
		return C.wagtenib_monitor_proof(ofBytes(state), C.size_t(len(state)), ofHashes(proof), C.size_t(len(proof)), verdict,
			out, room, length)
	})
}

// MonitorOlder judges a consistency proof (RFC 6962, section 2.1.2) from a head with VerdictOlder to the accepted head if
// that has more leaves, otherwise to the waiting one. The verdict is VerdictConsistent or VerdictInconsistent, or
// VerdictGap if neither has more leaves. A head of no leaves needs no proof. The state does not change. The results are
// those of MonitorHead.
func MonitorOlder(state []byte, head TreeHead, proof []Hash) (found Judgement, next []byte, err error) {
	judgedHead := head.inC()
	return judged(func(verdict *C.struct_wagtenib_monitor_verdict, out *C.uint8_t, room C.size_t,
		length *C.uint64_t) C.uint32_t {
		return C.wagtenib_monitor_older(ofBytes(state), C.size_t(len(state)), &judgedHead, ofHashes(proof),
			C.size_t(len(proof)), verdict, out, room, length)
	})
}

// CompareHeads compares two tree heads of one log by their numbers. It returns 0 if the head has more leaves than the
// known one and is later. Otherwise it returns VerdictAgain or VerdictOlder, or one of the verdicts that accuse:
// VerdictShrunk, VerdictForked or VerdictNotLater (RFC 6962, section 3.5). After 0 and VerdictOlder a consistency proof
// decides whether the heads are of one list.
func CompareHeads(known, head TreeHead) Verdict {
	knownInC, headInC := known.inC(), head.inC()
	return Verdict(C.wagtenib_compare_heads(&knownInC, &headInC))
}

// MonitorEntry judges one leaf (MerkleTreeLeaf, RFC 6962, section 3.4) by the timestamp of a tree head. It returns the
// timestamp of the leaf. All timestamps are in milliseconds. The error is nil if the leaf is no later than the head,
// ErrLaterEntry if it is later, which means that the log did wrong, or an error of DecodeLeaf.
func MonitorEntry(headTimestamp uint64, leaf []byte) (timestamp uint64, err error) {
	var found C.uint64_t
	err = result(C.wagtenib_monitor_entry(C.uint64_t(headTimestamp), ofBytes(leaf), C.size_t(len(leaf)), &found))
	return uint64(found), err
}
