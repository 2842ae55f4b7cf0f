// Package decider decides what a node of a log does next, by the proved functions for nodes in this process
// (docs/NODE.md). The library knows a state by three numbers. This package keeps the texts and names that belong to
// them.
package decider

import (
	"errors"
	"fmt"

	"wagtenib/bindings/go/wagtenib"
)

// The errors of decisions. Each is found by errors.Is.
var (
	// ErrReply: the library returned a command that is about no state that the node has.
	ErrReply = errors.New("decider: a command of another state")
	// ErrRefused: the outcome is refused as none: a text that is not a lock's, or a name that is not a staged batch's.
	ErrRefused = errors.New("decider: refused")
)

// The commands.
const (
	Read   = "read"
	Look   = "look"
	Step   = "step"
	Stage  = "stage"
	Swap   = "swap"
	Put    = "put"
	Place  = "place"
	Head   = "head"
	Answer = "answer"
	Delete = "delete"
)

// names are the commands' by their numbers.
var names = map[wagtenib.NodeCommandKind]string{
	wagtenib.ReadLock: Read, wagtenib.LookForHead: Look, wagtenib.TakeStep: Step, wagtenib.StageBatch: Stage,
	wagtenib.SwapLock:   Swap,
	wagtenib.PutObjects: Put, wagtenib.AddToIndex: Place, wagtenib.PublishHead: Head, wagtenib.AnswerAll: Answer,
	wagtenib.DeleteBatch: Delete,
}

// Held is a lock's text, and what it says.
type Held struct {
	Text string
	// Batch is the name of the staged batch of the text's step.
	Batch string
	// Timestamp is the head's timestamp in milliseconds, and Size the number of entries.
	Timestamp uint64
	Size      uint64
}

// known is a lock's text with its state.
type known struct {
	held  Held
	state wagtenib.NodeState
}

// readText reads a lock's text.
func readText(text string) (known, error) {
	state, size, err := wagtenib.LockState([]byte(text))
	if err != nil {
		return known{}, fmt.Errorf("%w: %w", ErrRefused, err)
	}
	return known{Held{Text: text, Batch: wagtenib.BatchName(state), Timestamp: state.Timestamp,
		Size: size}, state}, nil
}

// Command is the next command for a node, with its data and the node's state after it.
type Command struct {
	Do string
	// Seen is the text that the command starts from, and New the one that is made of it, or is published.
	Seen, New Held
	// Objects are the objects of New, in the given order.
	Objects []string
	// Batch is the name of the staged batch that must be deleted.
	Batch string

	node wagtenib.NodeCommand
}

// Begin returns the command of a node that starts.
func Begin() *Command { return &Command{Do: Read} }

// Outcome is what came of a command, with its texts and names.
type Outcome struct {
	kind wagtenib.NodeOutcomeKind
	// text is the lock's, and name a staged batch's.
	text, name string
	// line, node and salt are of a step.
	line, node string
	salt       uint64
	objects    []string
}

// Done returns the outcome of a command that is done.
func Done() *Outcome { return &Outcome{kind: wagtenib.WasDone} }

// Lost returns the outcome of a command that is not done, or is not known to be done and is not tried any more.
func Lost() *Outcome { return &Outcome{kind: wagtenib.WasLost} }

// Published returns the outcome if the head of the text that was looked at is published.
func Published() *Outcome { return &Outcome{kind: wagtenib.WasPublished} }

// LockRead returns the outcome if the lock has this text.
func LockRead(text string) *Outcome { return &Outcome{kind: wagtenib.LockRead, text: text} }

// BatchRead returns the outcome if the staged batch of the text that was looked at has these objects.
func BatchRead(objects []string) *Outcome {
	return &Outcome{kind: wagtenib.BatchRead, objects: objects}
}

// StepMade returns the outcome if a step was made to a state's line, with these objects, by the node with this address.
// The salt is a random number.
func StepMade(line, node string, salt uint64, objects []string) *Outcome {
	return &Outcome{kind: wagtenib.StepMade, line: line, node: node, salt: salt, objects: objects}
}

// BatchListed returns the outcome if the store has a staged batch with this name.
func BatchListed(batch string) *Outcome { return &Outcome{kind: wagtenib.BatchListed, name: batch} }

// read returns the outcome as the library takes it, and the text that came with it.
func (o *Outcome) read(command *Command) (given wagtenib.NodeOutcome, came known, err error) {
	given = wagtenib.NodeOutcome{Kind: o.kind, Objects: uint64(len(o.objects))}
	switch o.kind {
	case wagtenib.LockRead:
		came, err = readText(o.text)
		given.State = came.state
	case wagtenib.StepMade:
		var text []byte
		if text, err = wagtenib.LockText([]byte(o.line), []byte(o.node), command.Seen.Timestamp, o.salt); err == nil {
			came, err = readText(string(text))
		}
		given.State = came.state
	case wagtenib.BatchListed:
		if given.State, err = wagtenib.BatchState([]byte(o.name)); err != nil {
			err = fmt.Errorf("%w: %w", ErrRefused, err)
		}
	}
	return given, came, err
}

// Found has the data that a node finds at a start.
type Found struct {
	// Lock is the lock's text, or empty. IsEmptied says that the lock exists, and has no text.
	Lock      string
	IsEmptied bool
	wagtenib.NodeFound
}

// Refusal is why a node does not continue from what it finds.
type Refusal string

// The refusals.
const (
	// Gone: there is no lock, and none may be created, or there is something of a log.
	Gone Refusal = "gone"
	// BehindSeen: this machine saw a later head than the lock's, or another one with its size and timestamp.
	BehindSeen Refusal = "behind-seen"
	// BehindGuard: a later head was signed. TwoRoots: another head with the lock's size and timestamp was signed.
	BehindGuard Refusal = "behind-guard"
	TwoRoots    Refusal = "two-roots"
	// GuardBehind: the store has a later head than the last one that was signed.
	GuardBehind Refusal = "guard-behind"
	// BehindListed: the store has a later head, or another one with the lock's size and timestamp. BehindPublished: such a
	// head is published.
	BehindListed    Refusal = "behind-listed"
	BehindPublished Refusal = "behind-published"
)

func (r Refusal) Error() string { return "decider: " + string(r) }

// refusals are the library's errors of a node that must not start.
var refusals = map[error]Refusal{
	wagtenib.ErrLockGone: Gone, wagtenib.ErrBehindSeen: BehindSeen, wagtenib.ErrBehindSigned: BehindGuard,
	wagtenib.ErrTwoRoots:           TwoRoots,
	wagtenib.ErrSignedBehindListed: GuardBehind, wagtenib.ErrBehindListed: BehindListed,
	wagtenib.ErrBehindPublished: BehindPublished,
}

// Function returns the command that follows a command, as wagtenib.NodeNext does.
type Function func(wagtenib.NodeCommand, wagtenib.NodeOutcome) (wagtenib.NodeCommand, error)

// Decider decides for nodes. It keeps nothing of a node from one call to the next. Its methods may be called at once.
type Decider struct{ next Function }

// New returns a decider.
func New() *Decider { return Over(wagtenib.NodeNext) }

// Over returns a decider over another function than the proved one, for tests.
func Over(function Function) *Decider { return &Decider{function} }

// Next returns the command that follows a command, by its outcome.
func (d *Decider) Next(command *Command, outcome *Outcome) (*Command, error) {
	given, came, err := outcome.read(command)
	if err != nil {
		return nil, err
	}
	node, err := d.next(command.node, given)
	if err != nil {
		return nil, fmt.Errorf("decider: %w", err)
	}
	seen, made := known{command.Seen, command.node.Seen}, known{command.New, command.node.Next}
	next := &Command{Do: names[node.Kind], node: node}
	if next.Do == "" {
		return nil, fmt.Errorf("%w: no command has the number %d", ErrReply, node.Kind)
	}
	switch node.Kind {
	case wagtenib.LookForHead, wagtenib.TakeStep, wagtenib.StageBatch, wagtenib.SwapLock, wagtenib.DeleteBatch:
		next.Seen, err = ofState(node.Seen, seen, came)
	}
	if err != nil {
		return nil, err
	}
	switch node.Kind {
	case wagtenib.StageBatch, wagtenib.SwapLock, wagtenib.PutObjects, wagtenib.AddToIndex, wagtenib.PublishHead,
		wagtenib.AnswerAll:
		next.New, err = ofState(node.Next, made, seen, came)
	case wagtenib.DeleteBatch:
		next.Batch = wagtenib.BatchName(node.Next)
	}
	if err != nil {
		return nil, err
	}
	if next.Objects, err = next.objects(command, outcome); err != nil {
		return nil, err
	}
	return next, nil
}

// ofState returns the text of a state, which must be one of these.
func ofState(state wagtenib.NodeState, all ...known) (Held, error) {
	for _, k := range all {
		if k.held.Text != "" && k.state == state {
			return k.held, nil
		}
	}
	return Held{}, fmt.Errorf("%w: the one at %d ms", ErrReply, state.Timestamp)
}

// objects returns the objects of a command that is about some. They came with the outcome, or were the last command's.
func (c *Command) objects(before *Command, outcome *Outcome) ([]string, error) {
	switch c.node.Kind {
	case wagtenib.StageBatch, wagtenib.SwapLock, wagtenib.PutObjects:
	default:
		return nil, nil
	}
	objects := before.Objects
	if before.Do == Step || before.Do == Look {
		objects = append([]string{}, outcome.objects...)
	}
	if uint64(len(objects)) != c.node.Objects {
		return nil, fmt.Errorf("%w: it has %d objects, and not %d", ErrReply, len(objects), c.node.Objects)
	}
	return objects, nil
}

// Start reports whether a node that finds this must create the lock. If not, it continues from the lock's text. A
// Refusal says that it must do neither.
func (d *Decider) Start(found Found) (creates bool, err error) {
	var lock []byte
	if found.Lock != "" || found.IsEmptied {
		lock = []byte(found.Lock)
	}
	err = wagtenib.NodeStart(lock, found.NodeFound)
	if err == nil || errors.Is(err, wagtenib.ErrCreatesLock) {
		return err != nil, nil
	}
	if refusal, ok := refusals[err]; ok {
		return false, refusal
	}
	return false, fmt.Errorf("%w: %w", ErrRefused, err)
}
