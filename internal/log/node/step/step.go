// Package step makes the steps of a log, by the proved functions in this process (docs/GROWTH.md). It compares each
// reply with its request.
package step

import (
	"crypto/sha256"
	"errors"
	"fmt"

	"wagtenib/bindings/go/wagtenib"
)

// MaxAhead is the maximum number of milliseconds by which a step's timestamp is later than its line's, unless a caller
// has a reason for more: an hour.
const MaxAhead = 3_600_000

// ErrReply is the error of a reply that does not fit its request.
var ErrReply = errors.New("step: the reply does not fit the request")

// Refusal is the reason for which a request was refused. Nothing has changed then.
type Refusal wagtenib.Code

// The refusals.
const (
	BadBatch  = Refusal(wagtenib.ErrBatch)
	TooMany   = Refusal(wagtenib.ErrTooMany)
	BadState  = Refusal(wagtenib.ErrState)
	TooFar    = Refusal(wagtenib.ErrTimestampTooFar)
	Edge      = Refusal(wagtenib.ErrEdge)
	Entries   = Refusal(wagtenib.ErrEntries)
	ClockBack = Refusal(wagtenib.ErrClockBack)
	Full      = Refusal(wagtenib.ErrLogFull)
	TooLong   = Refusal(wagtenib.ErrDataTileTooLong)
	Bundle    = Refusal(wagtenib.ErrBundle)
	NoClaim   = Refusal(wagtenib.ErrClaim)
)

// texts are the texts of the refusals.
var texts = map[Refusal]string{
	BadBatch:  "the batch is not a list of submissions",
	TooMany:   "the batch has more than 4,096 submissions",
	BadState:  "the line is not that of a state",
	TooFar:    "the timestamp is too much later than that of the state",
	Edge:      "the partial tiles are not those of the state",
	Entries:   "the partial data tile is not that of the state",
	ClockBack: "the timestamp is not later than that of the state",
	Full:      "the log would have more than 2^40 entries",
	TooLong:   "a data tile would have 2^32 bytes or more",
	Bundle:    "the staged batch is not that of the state",
	NoClaim:   "the path does not lead to the root of the state",
}

// Error returns the text of the refusal.
func (r Refusal) Error() string { return "refused: " + texts[r] }

// Functions are the functions that make steps: the proved ones, or others in tests.
type Functions struct {
	Begin func(timestamp uint64) (state string, err error)
	Needs func(state string) (names []string, err error)
	Step  func(origin, state string, edge, batch []byte, now, maxAhead uint64) (*wagtenib.Step, error)
	Claim func(state string, index, timestamp uint64, path []wagtenib.Hash,
		submission []byte) (signed []byte, err error)
	Resume func(origin, state string, bundle []byte) (*wagtenib.Published, error)
}

// Proved are the proved functions.
func Proved() Functions {
	return Functions{wagtenib.StepBegin, wagtenib.StepNeeds, wagtenib.MakeStep, wagtenib.StepClaim, wagtenib.StepResume}
}

// Stepper makes the steps of one log. It keeps nothing of the log from one call to the next. Its methods may be called
// at once.
type Stepper struct {
	origin    string
	functions Functions
}

// New returns the stepper of the log with this origin (C2SP tlog-checkpoint).
func New(origin string) *Stepper { return Over(origin, Proved()) }

// Over returns a stepper over other functions than the proved ones, for tests.
func Over(origin string, functions Functions) *Stepper { return &Stepper{origin, functions} }

// refused returns the error of a call.
func refused(err error) error {
	var code wagtenib.Code
	if !errors.As(err, &code) || code == wagtenib.ErrMemory {
		return fmt.Errorf("step: %w", err)
	}
	if _, ok := texts[Refusal(code)]; ok {
		return Refusal(code)
	}
	return fmt.Errorf("step: %w", err)
}

// checkHead returns an error unless the head that is published with a state is that of the state, and has a note.
func checkHead(p wagtenib.Published, s State) error {
	if p.Signed != wagtenib.TreeHeadSignature(s.TreeHead) {
		return fmt.Errorf("%w: the head is not that of the state", ErrReply)
	}
	if p.Checkpoint == "" {
		return fmt.Errorf("%w: the head has no note", ErrReply)
	}
	return nil
}

// Begin returns the line of a log without entries.
func (s *Stepper) Begin(timestamp uint64) (string, error) {
	line, err := s.functions.Begin(timestamp)
	if err != nil {
		return "", refused(err)
	}
	if state, err := ParseState(line); err != nil || state.TreeSize != 0 || state.Timestamp != timestamp ||
		!state.IsBegin() {
		return "", fmt.Errorf("%w: the state is not that of a log without entries", ErrReply)
	}
	return line, nil
}

// Needs returns the names of the objects that a step from this line takes: its edge.
func (s *Stepper) Needs(line string) ([]string, error) {
	names, err := s.functions.Needs(line)
	if err != nil {
		return nil, refused(err)
	}
	for _, name := range names {
		if err := checkTile(name); err != nil {
			return nil, err
		}
	}
	return names, nil
}

// Stepped is the result of a step.
type Stepped struct {
	// Checkpoint is the text of the head's note, without a signature (C2SP tlog-checkpoint).
	Checkpoint string
	// Line is the line of the new state, and Bundle the content of the staged batch.
	Line   string
	Bundle []byte
	// Receipts has one receipt for each submission of the batch, in its order. A submission that is in the batch twice
	// has the receipt of the first one both times.
	Receipts []wagtenib.Receipt
	// State is the state of the line, and Objects are the objects to publish, which are parts of the bundle.
	State   State
	Objects []Object
}

// Step returns the state after a batch, with the objects that it publishes. The edge has the contents of the objects
// that Needs names, in that order. Now is the step's timestamp in milliseconds. If it is later than the line's by more
// than maxAhead, the error is TooFar.
func (s *Stepper) Step(line string, edge [][]byte, batch []wagtenib.Submission, now, maxAhead uint64) (*Stepped, error) {
	before, err := ParseState(line)
	if err != nil {
		return nil, err
	}
	submissions, err := batchBytes(batch)
	if err != nil {
		return nil, err
	}
	reply, err := s.functions.Step(s.origin, line, edgeBytes(edge), submissions, now, maxAhead)
	if err != nil {
		return nil, refused(err)
	}
	return stepped(reply, line, before.TreeSize, len(batch), now)
}

// stepped returns the result of a step, after it compared the reply with its request: the line before, the number of
// entries of the log, the number of submissions, and the timestamp.
func stepped(reply *wagtenib.Step, line string, size uint64, batch int, now uint64) (*Stepped, error) {
	state, err := ParseState(reply.State)
	if err != nil {
		return nil, fmt.Errorf("%w: %v", ErrReply, err)
	}
	if len(reply.Receipts) != batch {
		return nil, fmt.Errorf("%w: %d receipts of %d entries", ErrReply, len(reply.Receipts), batch)
	}
	before := size
	for i, r := range reply.Receipts {
		if r.LeafIndex == size {
			size++
		}
		if r.LeafIndex < before || r.LeafIndex >= size || r.Timestamp != now || len(r.Signed) == 0 {
			return nil, fmt.Errorf("%w: receipt %d is not one of an entry of this batch", ErrReply, i)
		}
	}
	if state.TreeSize != size || state.Timestamp != now || state.Before != Digest(line) ||
		state.Bundle != sha256.Sum256(reply.Bundle) {
		return nil, fmt.Errorf("%w: the state is not that after this batch", ErrReply)
	}
	objects, err := objectsIn(reply.Bundle, reply.Objects)
	if err != nil {
		return nil, err
	}
	if err := checkHead(reply.Published, state); err != nil {
		return nil, err
	}
	return &Stepped{reply.Checkpoint, reply.State, reply.Bundle, reply.Receipts, state, objects}, nil
}

// Claim returns the receipt of a submission whose entry has this index in the log of this line. The audit path has the
// hashes from the leaf up (RFC 9162, section 2.1.3.2). If it does not lead from the entry's leaf to the line's root, the
// error is NoClaim.
func (s *Stepper) Claim(line string, index, timestamp uint64, path [][32]byte, submission wagtenib.Submission) (*wagtenib.Receipt, error) {
	asked, err := batchBytes([]wagtenib.Submission{submission})
	if err != nil {
		return nil, err
	}
	signed, err := s.functions.Claim(line, index, timestamp, path, asked)
	if err != nil {
		return nil, refused(err)
	}
	if len(signed) == 0 {
		return nil, fmt.Errorf("%w: the receipt has no bytes to sign", ErrReply)
	}
	return &wagtenib.Receipt{LeafIndex: index, Timestamp: timestamp, Signed: signed}, nil
}

// Resumed is what must be published of a step that was decided.
type Resumed struct {
	// Checkpoint is the text of the head's note, without a signature.
	Checkpoint string
	Objects    []Object
}

// Resume returns what must be published of a state, out of the bundle of the step that made it.
func (s *Stepper) Resume(line string, bundle []byte) (*Resumed, error) {
	state, err := ParseState(line)
	if err != nil {
		return nil, err
	}
	published, err := s.functions.Resume(s.origin, line, bundle)
	if err != nil {
		return nil, refused(err)
	}
	objects, err := objectsIn(bundle, published.Objects)
	if err != nil {
		return nil, err
	}
	if err := checkHead(*published, state); err != nil {
		return nil, err
	}
	return &Resumed{published.Checkpoint, objects}, nil
}
