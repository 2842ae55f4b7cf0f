package watch

import (
	"context"
	"crypto/sha256"
	"encoding/json"
	"fmt"

	"wagtenib/bindings/go/wagtenib"
)

// Contradiction is what two heads of a log show that contradict each other: the verdict, a sentence, and the files of
// evidence.
type Contradiction struct {
	Verdict, Text string
	Files         map[string][]byte
}

// Contradict compares two heads that a log signed, in both orders. It returns nil if their sizes, roots and timestamps
// do not contradict each other. The library decides.
func Contradict(a, b Head) *Contradiction {
	found := wagtenib.CompareHeads(a.TreeHead, b.TreeHead)
	if !found.Accuses() {
		a, b = b, a
		found = wagtenib.CompareHeads(a.TreeHead, b.TreeHead)
	}
	c := &Contradiction{Files: map[string][]byte{FileFirst: a.Signed, FileHead: b.Signed}}
	switch found {
	case wagtenib.VerdictForked:
		c.Verdict, c.Text = VerdictFork, fmt.Sprintf("the log signed two roots of %d leaves: %x and %x", b.TreeSize, a.Root,
			b.Root)
	case wagtenib.VerdictShrunk:
		c.Verdict, c.Text = VerdictShrunk, fmt.Sprintf("the log signed %d leaves at %d, and %d leaves at %d, which is not "+
			"earlier", a.TreeSize, a.Timestamp, b.TreeSize, b.Timestamp)
	case wagtenib.VerdictNotLater:
		c.Verdict, c.Text = VerdictNotLater, fmt.Sprintf("the log signed %d leaves at %d, and %d leaves at %d, which is not "+
			"later", a.TreeSize, a.Timestamp, b.TreeSize, b.Timestamp)
	default:
		return nil
	}
	return c
}

// otherHistory asks the log for the root that the first leaves of a known tree have, and for a proof from that root to
// the known tree. If the log's own answers show that the known tree does not begin with the tree of the older head, the
// two signed heads contradict each other. The result is nil if the answers do not show this.
func otherHistory(ctx context.Context, from source, older, known Head, proof []wagtenib.Hash) *Contradiction {
	c := &Contradiction{Verdict: VerdictOtherHistory, Files: map[string][]byte{FileFirst: older.Signed,
		FileHead: known.Signed}}
	if older.TreeSize == 0 {
		if older.Root == emptyRoot {
			return nil
		}
		c.Text = fmt.Sprintf("the log signed the root %x of no leaves, which is not that of the empty tree", older.Root)
		c.Files = map[string][]byte{FileHead: older.Signed}
		return c
	}
	root, err := from.beginning(ctx, older.TreeSize, known.TreeHead)
	if err != nil || root == older.Root || wagtenib.VerifyConsistency(older.TreeSize, known.TreeSize, root, known.Root,
		proof) != nil {
		return nil
	}
	if c.Files[FileProof], err = json.Marshal(Consistency{bytesOf(proof), root[:]}); err != nil {
		return nil
	}
	c.Text = fmt.Sprintf("the log signed the root %x of %d leaves, and its tree of %d leaves begins with %d leaves that "+
		"have the root %x", older.Root, older.TreeSize, known.TreeSize, older.TreeSize, root)
	return c
}

// emptyRoot is the root of no leaves (RFC 6962, section 2.1).
var emptyRoot = wagtenib.Hash(sha256.Sum256(nil))

// notProved returns what to store of two heads if the log does not show that the tree of one begins with that of the
// other. It accuses nobody. The proof is the log's answer; it is nil if the log gave none.
func notProved(older, known Head, proof []wagtenib.Hash, why error) (*Contradiction, error) {
	c := &Contradiction{Verdict: VerdictNotProved, Files: map[string][]byte{FileFirst: older.Signed,
		FileHead: known.Signed}}
	c.Text = fmt.Sprintf("this is no accusation: the log signed heads of %d and %d leaves, and gave no proof that leads from "+
		"one to the other (%v)", older.TreeSize, known.TreeSize, why)
	if proof == nil {
		return c, nil
	}
	var err error
	c.Files[FileProof], err = json.Marshal(Consistency{Consistency: bytesOf(proof)})
	return c, err
}

// Compare compares two heads that a log signed: by their sizes, roots and timestamps, and otherwise by a proof that the
// log gives. It returns nil if they are consistent. The verdict is VerdictNotProved, which accuses nobody, if the log
// gives no proof that leads from one to the other. The error says why the log could not be asked.
func (r *Reader) Compare(ctx context.Context, a, b Head) (*Contradiction, error) {
	if found := Contradict(a, b); found != nil {
		return found, nil
	}
	if a.TreeSize > b.TreeSize {
		a, b = b, a
	}
	switch a.TreeSize {
	case 0:
		return otherHistory(ctx, r.source, a, b, nil), nil
	case b.TreeSize:
		return nil, nil
	}
	proof, err := r.source.consistency(ctx, a.TreeSize, b.TreeSize)
	if err != nil {
		if isAnswer(err) {
			return notProved(a, b, nil, err)
		}
		return nil, err
	}
	fault := wagtenib.VerifyConsistency(a.TreeSize, b.TreeSize, a.Root, b.Root, proof)
	if fault == nil {
		return nil, nil
	}
	if found := otherHistory(ctx, r.source, a, b, proof); found != nil {
		return found, nil
	}
	return notProved(a, b, proof, fault)
}
