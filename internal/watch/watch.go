// Package watch follows Certificate Transparency logs: it reads their tree heads and entries. The proved library judges
// each answer.
//
// A monitor reads every entry of a log, and compares the hash of all of them with the root that the log signed. This
// package does this for tiled logs (C2SP static-ct-api) and for logs of RFC 6962, for many logs at once. It hands the
// entries to a Keeper, which searches and stores them.
package watch

import (
	"time"

	"wagtenib/bindings/go/wagtenib"
	"wagtenib/internal/ct"
)

// LogID is the SHA-256 hash of the public key of a log (RFC 6962, section 3.2).
type LogID [32]byte

// Log describes a log that is watched.
type Log struct {
	ID            LogID
	Name          string // for people: the description in a log list, or the host
	Origin        string // the origin of a tiled log's checkpoints (C2SP static-ct-api); empty for a log of RFC 6962
	URL           string // the monitoring prefix of a tiled log, or the base of "ct/v1/"; without a slash at its end
	PublicKey     []byte // SubjectPublicKeyInfo, in DER
	MaxMergeDelay time.Duration
	State         string // of the log list: "usable", "readonly" and so on; empty if the log is in none
}

// IsTiled reports whether the log is read by tiles (C2SP static-ct-api). Otherwise it is read by the calls of RFC 6962.
func (l Log) IsTiled() bool { return l.Origin != "" }

// Head is a tree head with the bytes that prove to others that the log signed it, as received.
type Head = ct.SignedHead

// Tree holds the signed heads of one tree, which has one size and one root.
type Tree struct {
	Head          // the newest that was seen
	Earliest Head // the earliest that was seen; it has no bytes in the store of an earlier ctwatch
}

// newTree returns a tree of which one head was seen.
func newTree(head Head) Tree { return Tree{head, head} }

// earliest returns the earliest head of the tree.
func (t Tree) earliest() Head {
	if len(t.Earliest.Signed) == 0 {
		return t.Head
	}
	return t.Earliest
}

// with returns the tree after one more of its heads was seen.
func (t Tree) with(head Head) Tree {
	if t.Earliest = t.earliest(); head.Timestamp < t.Earliest.Timestamp {
		t.Earliest = head
	}
	if head.Timestamp > t.Timestamp {
		t.Head = head
	}
	return t
}

// isSame reports whether two trees have the same heads.
func (t Tree) isSame(other Tree) bool {
	return t.TreeHead == other.TreeHead && t.Earliest.TreeHead == other.Earliest.TreeHead
}

// Unplaced is a signed head that the log did not show to be consistent with the known trees.
type Unplaced struct {
	Head
	Since time.Time // when it was first seen
}

// Entry is an entry of a log.
type Entry struct {
	Index          uint64
	Timestamp      uint64 // milliseconds since 1970
	Type           wagtenib.EntryType
	Leaf           []byte     // MerkleTreeLeaf (RFC 6962, section 3.4)
	Certificate    []byte     // DER: the certificate, or the TBSCertificate of a precertificate
	Precertificate []byte     // DER of the precertificate as it was submitted; nil for a certificate
	Chain          [][]byte   // DER of the issuers; only set for a log of RFC 6962
	Fingerprints   [][32]byte // the SHA-256 hashes of the issuers; only set for a tiled log
	Fault          error      // why the leaf cannot be read; only Index and Leaf are set then
}

// State describes how far a log was read and judged. It is stored together with what was found in the entries up to it,
// so that a monitor that is killed continues there.
type State struct {
	Monitor  []byte     // the state of the library's monitor
	Accepted Tree       // the newest tree whose leaves were all read and have its root
	Waiting  Tree       // the tree whose entries are being read
	Unplaced []Unplaced // the oldest first
	Read     uint64     // the index of the entry that is read next
	Start    uint64     // the index at which reading began: 0, or the size of the log when the log was added
	// Withheld is when the log first failed to hand out the next entry of the waiting head. It is zero after an entry.
	Withheld time.Time
}

// Evidence shows that a log did something wrong. Others can check it without this monitor.
type Evidence struct {
	Time    time.Time
	Verdict string            // "forked", "shrunk", "late merge" and so on
	Text    string            // what happened, in a sentence or two
	Files   map[string][]byte // by file names: the signed heads, the proof, the entries
}

// Status describes the progress of one log, and its last fault. It is not stored.
type Status struct {
	Log      Log
	Head     wagtenib.TreeHead // the newest head that the log signed
	Read     uint64            // the number of entries up to which the log was read
	Accepted uint64            // the number of entries of the accepted head
	Answered time.Time         // when the log last gave a correct answer
	Fault    error             // why reading cannot continue now; nil if it can
}

// A Keeper stores what is read of logs. One goroutine for each log calls its methods. It searches entries before their
// head is accepted: a finding must not wait until the whole log was read.
type Keeper interface {
	// Load returns the state of a log that was stored last. It is the zero State if there is none.
	Load(id LogID) (State, error)
	// Keep searches the entries, which follow those of the last call. It stores what it finds together with the next
	// state. After it has returned nil, a kill loses none of this. If it returns an error, it has stored nothing.
	Keep(log Log, next State, entries []Entry) error
	// Accuse stores the evidence against a log together with the next state, and has an alert sent.
	Accuse(log Log, next State, evidence Evidence) error
	// Report receives the newest status of a log, which it may show.
	Report(status Status)
}
