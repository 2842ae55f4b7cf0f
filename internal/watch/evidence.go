package watch

import (
	"crypto/sha256"
	"encoding/json"
	"fmt"
	"slices"
	"strings"
	"time"

	"wagtenib/bindings/go/wagtenib"
	"wagtenib/internal/ct"
)

// The verdicts of evidence. `ctaudit evidence` checks the files of each (wagtenib/internal/audit/judge).
const (
	VerdictFork      = "fork"       // two roots of one size
	VerdictShrunk    = "shrunk"     // fewer leaves, and no earlier timestamp
	VerdictNotLater  = "not later"  // more leaves, and no later timestamp (RFC 6962, section 3.5)
	VerdictOtherRoot = "other root" // the leaves that were read have another root than the head
	// a signed tree does not begin with the smaller tree that the log signed too
	VerdictOtherHistory = "other history"
	// a head that was signed after the entry's maximum merge delay does not cover the entry
	VerdictLateMerge   = "late merge"
	VerdictLaterEntry  = "later entry"  // an entry is later than the head that covers it (RFC 6962, section 3.5)
	VerdictWrongIndex  = "wrong index"  // an entry names another index than its own (C2SP static-ct-api)
	VerdictNoLeaf      = "no leaf"      // an entry is not a MerkleTreeLeaf (RFC 6962, section 3.4)
	VerdictDamagedTile = "damaged tile" // an entry of a data tile differs from the entry of the log's tree
	// the newest head is older than the maximum merge delay (RFC 6962, section 3.5)
	VerdictOldHead = "old head"
	VerdictSigner  = "bad signature" // a head that the log's key did not sign
	// a head that fewer witnesses cosigned than the policy requires (C2SP tlog-cosignature)
	VerdictFewCosigned = "few cosignatures"
	VerdictPromise     = "broken promise" // the log does not have an entry that an SCT promised (RFC 6962, section 3)
	// an SCT that is later than the time at which it was seen
	VerdictFuture = "future promise"
	// the deadline of an SCT is over, and the log shows only a head from before it, which is too old
	VerdictOverdue = "overdue promise"
	// a log signed a head, and did not hand out the entries that it covers within the maximum merge delay
	VerdictWithheld = "withheld entries"
	// This is no accusation: the log gave no proof that leads from one signed head to another one.
	VerdictNotProved = "not proved"
	// This is not a fault: the log has an entry. The owner of a name can show others that a certificate was logged.
	VerdictEntry = "entry"
)

// The names of the files of evidence.
const (
	FileAbout = "evidence.json" // the type About, in JSON
	FileFirst = "head-1"        // the head that was known before, as received
	FileHead  = "head-2"        // the head that the evidence is about, as received
	FileLeaf  = "leaf"          // the MerkleTreeLeaf, or the bytes that the log gave for one
	FileTile  = "tile"          // the data tile, as received
	FileProof = "proof.json"    // the type Inclusion or Consistency, in JSON
	FileSCT   = "sct"           // a SignedCertificateTimestamp (RFC 6962, section 3.2)
	FileKeys  = "witnesses"     // the verifier keys of the witnesses of a policy, one a line
)

// About holds the content of evidence.json.
type About struct {
	Verdict       string `json:"verdict"`
	Text          string `json:"text"`
	Time          string `json:"time"` // when it was seen (RFC 3339)
	Name          string `json:"log_name"`
	URL           string `json:"log_url"`
	Origin        string `json:"origin,omitempty"` // the checkpoints' origin; empty if the heads are answers to get-sth
	Key           []byte `json:"key"`              // SubjectPublicKeyInfo, in DER
	MaxMergeDelay uint64 `json:"max_merge_delay"`  // milliseconds
}

// A PolicyError reports why a head does not meet a policy of witnesses.
type PolicyError struct {
	Text  string
	Files map[string][]byte // files for the evidence: the policy
}

// Error returns a text that says what is missing.
func (e *PolicyError) Error() string { return e.Text }

// Inclusion holds the content of proof.json for an entry: the audit path of the leaf in the tree of head-2. The names
// are those of RFC 6962, section 4.5.
type Inclusion struct {
	LeafIndex uint64   `json:"leaf_index"`
	TreeSize  uint64   `json:"tree_size"`
	LeafHash  []byte   `json:"leaf_hash"`
	AuditPath [][]byte `json:"audit_path"`
}

// Consistency holds the content of proof.json for two heads: the proof that the log gave (RFC 6962, section 4.4), and
// the root from which it leads to that of head-2, if that is not the root of head-1.
type Consistency struct {
	Consistency [][]byte `json:"consistency"`
	FirstRoot   []byte   `json:"first_root,omitempty"`
}

// AccusedError is the error of a pass in which the log did something wrong. The Keeper has the evidence.
type AccusedError struct{ Verdict, Text string }

// Error returns the verdict and what happened.
func (e *AccusedError) Error() string { return "watch: " + e.Verdict + ": " + e.Text }

// NewEvidence returns evidence against a log with these files, to which it adds evidence.json. It returns an error only
// if the log has values that JSON cannot hold.
func NewEvidence(log Log, found time.Time, verdict, text string, files map[string][]byte) (Evidence, error) {
	about := About{Verdict: verdict, Text: text, Time: found.UTC().Format(time.RFC3339), Name: log.Name, URL: log.URL,
		Origin: log.Origin,
		Key:    log.PublicKey, MaxMergeDelay: uint64(log.MaxMergeDelay.Milliseconds())}
	content, err := json.MarshalIndent(about, "", "  ")
	if err != nil {
		return Evidence{}, fmt.Errorf("watch: evidence: %w", err)
	}
	files[FileAbout] = append(content, '\n')
	return Evidence{Time: found, Verdict: verdict, Text: text, Files: files}, nil
}

// Key returns a hash of the verdict and of all files except evidence.json. Two pieces of evidence against one log show
// the same if they have the same key. Of a head, only the origin, size and root count, because a log that did wrong
// signs them again and again. Only an old head counts with all its bytes, because a log can stop more than once at the
// same size. If a head is not proved, only that head counts, because the known head grows.
func (e Evidence) Key() [sha256.Size]byte {
	names := make([]string, 0, len(e.Files))
	for name := range e.Files {
		if name != FileAbout && (name == FileFirst || e.Verdict != VerdictNotProved) {
			names = append(names, name)
		}
	}
	slices.Sort(names)
	hash := sha256.New()
	fmt.Fprintf(hash, "%q", e.Verdict)
	for _, name := range names {
		content := e.Files[name]
		if (name == FileFirst || name == FileHead) && e.Verdict != VerdictOldHead {
			content = treeOf(content)
		}
		fmt.Fprintf(hash, "%q%x", name, sha256.Sum256(content))
	}
	return [sha256.Size]byte(hash.Sum(nil))
}

// treeOf returns what a head says about the tree: its origin if it has one, its size and its root. If the bytes are not
// a head, it returns them unchanged. It verifies no signature.
func treeOf(head []byte) []byte {
	text, _, _ := strings.Cut(string(head), "\n\n")
	if checkpoint, err := wagtenib.ReadCheckpoint(text + "\n"); err == nil {
		return fmt.Appendf(nil, "%q %d %x", checkpoint.Origin, checkpoint.TreeSize, checkpoint.Root)
	}
	if sth, err := ct.ReadSTH(head); err == nil {
		return fmt.Appendf(nil, "%d %x", sth.TreeSize, sth.Root)
	}
	return head
}

// bytesOf returns hashes as byte slices, which JSON encodes in base64.
func bytesOf(hashes []wagtenib.Hash) [][]byte {
	found := make([][]byte, len(hashes))
	for i := range hashes {
		found[i] = slices.Clone(hashes[i][:])
	}
	return found
}
