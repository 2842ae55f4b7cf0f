package signer

import (
	"crypto/sha256"
	"encoding/json"
	"errors"
	"fmt"

	"wagtenib/bindings/go/wagtenib"
	"wagtenib/internal/ct"
)

// NoHead is the text of a guard's state before the first head. Only the creation of a log may write it.
const NoHead = `{"guard":1,"last":null}`

// stateLine is the text of a guard's state, with its keys in byte order.
type stateLine struct {
	Guard int          `json:"guard"`
	Last  *ct.HeadJSON `json:"last"`
}

// State is a guard's state: the head that the guard approved last. A lock keeps it as a text (docs/GUARD.md).
type State struct {
	text string
	// last is nil before the first head.
	last *ct.TreeHead
	// signed is the TreeHeadSignature of last (RFC 6962, section 3.5), or empty before the first head.
	signed []byte
}

// stateOf returns the state whose last head is this one.
func stateOf(last *ct.TreeHead) (State, error) {
	text, err := json.Marshal(stateLine{1, ct.NewHeadJSON(last)})
	if err != nil {
		return State{}, fmt.Errorf("signer: %w", err)
	}
	state := State{text: string(text), last: last}
	if last != nil {
		state.signed = messageOf(*last)
	}
	return state, nil
}

// ReadState returns the state of a lock's text. Each state has one text, byte for byte, and every other text is
// ErrState.
func ReadState(text string) (State, error) {
	var line stateLine
	if err := json.Unmarshal([]byte(text), &line); err != nil {
		return State{}, fmt.Errorf("%w: %v: %.200q", ErrState, err, text)
	}
	last, err := line.Last.Head()
	if err != nil {
		return State{}, fmt.Errorf("%w: %v: %.200q", ErrState, err, text)
	}
	state, err := stateOf(last)
	if err == nil && state.text != text {
		err = fmt.Errorf("%w: the text differs from the only one of this state, %s: %.200q", ErrState, state.text, text)
	}
	return state, err
}

// Text returns the text that a lock keeps.
func (s State) Text() string { return s.text }

// Last returns the last head, or nil before the first one.
func (s State) Last() *ct.TreeHead { return s.last }

// Signed returns the bytes that are signed for the last head. A signer must sign them only after the lock has the
// state.
func (s State) Signed() []byte { return s.signed }

// CheckSince returns ErrState if the state was rolled back since an earlier reading, seen. The state must be the same
// as seen, or a later one.
func (s State) CheckSince(seen State) error {
	if seen.last == nil {
		seen = s
	}
	if seen.last == nil {
		return nil
	}
	if _, err := wagtenib.GuardState(seen.signed, s.signed); err != nil {
		return fmt.Errorf("%w: it was rolled back: it was %.200s, and is %.200s", ErrState, seen.text, s.text)
	}
	return nil
}

// Begin returns the state after the head of the empty tree, whose timestamp is a millisecond before that of the log's
// first head with leaves. It returns ErrState if the state has a head already, since no lock may lose its head.
func (s State) Begin(first ct.TreeHead) (State, error) {
	empty := ct.TreeHead{Root: sha256.Sum256(nil)}
	if first.Timestamp > 0 {
		empty.Timestamp = first.Timestamp - 1
	}
	return s.afterFirst(empty)
}

// MustBegin reports whether the log must begin with the head of the empty tree before this head can be approved.
func (s State) MustBegin(head ct.TreeHead) bool { return s.last == nil && head.TreeSize > 0 }

// afterFirst returns the state after the first head, which must be that of the empty tree.
func (s State) afterFirst(head ct.TreeHead) (State, error) {
	if s.last != nil {
		return State{}, fmt.Errorf("%w: the log has a head already", ErrState)
	}
	signed, err := wagtenib.GuardFirstHead(head, ct.TreeHead{})
	if err != nil {
		return State{}, headRefusal(err)
	}
	return approved(signed)
}

// After returns the state after a head, whose signed bytes may then be signed. The proof leads from the last head to
// it. The head's timestamp may be at most maxAhead milliseconds after the last one's. A head that the guard does not
// approve is a Refusal.
func (s State) After(head ct.TreeHead, consistency [][32]byte, maxAhead uint64) (State, error) {
	if s.last == nil {
		return s.afterFirst(head)
	}
	signed, err := wagtenib.GuardHead(s.signed, head, consistency, maxAhead)
	if err != nil {
		return State{}, headRefusal(err)
	}
	return approved(signed)
}

// approved returns the state after a head that the guard approved. It takes the bytes that the guard wrote for signing,
// and the text of the state is that of the head in these bytes.
func approved(signed wagtenib.SignedBytes) (State, error) {
	head, err := wagtenib.GuardState(signed[:], signed[:])
	if err != nil {
		return State{}, fmt.Errorf("signer: the guard: %w", err)
	}
	state, err := stateOf(&head)
	state.signed = signed[:]
	return state, err
}

// CheckReceipt returns a Refusal if the bytes of a timestamp's leaf may not be signed after the last head.
func (s State) CheckReceipt(receipt Receipt) error {
	if s.last == nil {
		return Refusal{Name: "no-head"}
	}
	return receiptRefusal(wagtenib.GuardReceipt(s.signed, receipt.Leaf, receipt.Index, receipt.Path))
}

// CheckStep returns a Refusal if the bytes of any leaf of a step may not be signed after the last head.
func (s State) CheckStep(step Step) error {
	if s.last == nil {
		return Refusal{Name: "no-head"}
	}
	return receiptRefusal(wagtenib.GuardReceipts(s.signed, step.First, step.Subtrees, step.Leaves))
}

// headRefusals and receiptRefusals hold the names of the guard's refusals (docs/GUARD.md). proofFaults and leafFaults
// hold the names of the faults in refusals.
var (
	headRefusals = map[wagtenib.Code]string{wagtenib.ErrSizeFalls: "size-falls",
		wagtenib.ErrTimestampNotLater: "timestamp-not-later", wagtenib.ErrFork: "fork",
		wagtenib.ErrTimestampTooFar: TooFar.Name, wagtenib.ErrNotFirst: "not-first"}
	receiptRefusals = map[wagtenib.Code]string{wagtenib.ErrLaterLeaf: "later-leaf",
		wagtenib.ErrOtherIndex: "other-index"}
	proofFaults = map[wagtenib.Code]string{wagtenib.ErrIndexOutOfRange: "index-out-of-range",
		wagtenib.ErrPathTooLong: "path-too-long", wagtenib.ErrPathTooShort: "path-too-short",
		wagtenib.ErrRootMismatch: "root-mismatch", wagtenib.ErrEmptyPath: "empty-path",
		wagtenib.ErrFirstMismatch: "first-mismatch", wagtenib.ErrSizesOutOfRange: "sizes-out-of-range"}
	leafFaults = map[wagtenib.Code]string{wagtenib.ErrTruncated: "truncated", wagtenib.ErrBadVersion: "bad-version",
		wagtenib.ErrBadLeafType:  "bad-leaf-type",
		wagtenib.ErrBadEntryType: "bad-entry-type", wagtenib.ErrEmptyVector: "empty-vector",
		wagtenib.ErrTrailing: "trailing"}
)

// refusalOf returns the Refusal for an error of the guard, or another error if it is none. plain holds the names of the
// refusals without a fault. withFault holds the faults of the other refusals, by the names of the refusals.
func refusalOf(err error, plain map[wagtenib.Code]string, withFault map[string]map[wagtenib.Code]string) error {
	var code wagtenib.Code
	if err == nil || !errors.As(err, &code) {
		return err
	}
	if name, ok := plain[code]; ok {
		return Refusal{Name: name}
	}
	for name, faults := range withFault {
		if fault, ok := faults[code]; ok {
			return Refusal{name, fault}
		}
	}
	if code == wagtenib.ErrState {
		return fmt.Errorf("%w: %v", ErrState, err)
	}
	return fmt.Errorf("signer: the guard: %w", err)
}

func headRefusal(err error) error {
	return refusalOf(err, headRefusals, map[string]map[wagtenib.Code]string{"inconsistent": proofFaults})
}

func receiptRefusal(err error) error {
	return refusalOf(err, receiptRefusals, map[string]map[wagtenib.Code]string{"no-leaf": leafFaults,
		"not-there": proofFaults})
}
