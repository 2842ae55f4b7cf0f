package node

import (
	"context"
	"errors"
	"fmt"
	"strings"

	"golang.org/x/mod/sumdb/tlog"

	"wagtenib/bindings/go/wagtenib"
	"wagtenib/internal/blob"
	"wagtenib/internal/ct"
	"wagtenib/internal/log/node/decider"
	"wagtenib/internal/log/node/step"
)

// pass is one way through the decider's commands, from a text that the lock had. It ends with its round.
type pass struct {
	*Loop
	// from is the state that the command is about: the one that was read, and after the swap the one that was made.
	from    *state
	command *decider.Command
	made    made
	batch   []*Ticket
	// heads is the list of heads for the swap of this pass's own step.
	heads *listing
}

// places holds the rows of a step's entries in the index. The index has other places for those in replaced, which are
// wrong.
type places struct{ rows, replaced []blob.Row }

// made is a step of this node, or another node's out of its staged batch.
type made struct {
	// text is the lock's text that this node's step leads to, and staged the name of its staged batch. Both are empty if
	// another node made the step.
	text, staged string
	content      []byte
	objects      []step.Object
	// checkpoint is the text of the head's note, without a signature.
	checkpoint string
	edge       map[string][]byte
	receipts   []wagtenib.Receipt
	// signatures are those of the timestamps of the receipts, or nil.
	signatures [][]byte
	places
	// isNew says that the step was made in this pass.
	isNew bool
}

// errCommand: the decider gives a command that cannot be carried out here.
var errCommand = errors.New("node: no command of this node")

// goOn reports the outcome of the command to the decider, and takes the next command.
func (p *pass) goOn(outcome *decider.Outcome) error {
	next, err := p.config.Proved.Decider.Next(p.command, outcome)
	if err != nil {
		return fmt.Errorf("node: %w", err)
	}
	p.command = next
	return nil
}

// carryOut carries the command out and takes the next one. It reports false if the round must end and look again.
func (p *pass) carryOut(ctx context.Context) (bool, error) {
	var outcome *decider.Outcome
	var err error
	if p.command.Do != decider.Place {
		// The entries are added to the index beside the objects, and that is timed there.
		defer p.took(p.command.Do, p.config.Machine.Clock.Elapsed())
	}
	switch p.command.Do {
	case decider.Look:
		outcome, err = p.look(ctx)
	case decider.Stage:
		outcome, err = p.stage(ctx)
	case decider.Swap:
		outcome, err = p.swap(ctx)
	case decider.Put:
		outcome, err = p.put(ctx)
	case decider.Place:
		outcome, err = p.place(ctx)
	case decider.Head:
		outcome, err = p.publish(ctx)
	case decider.Answer:
		outcome, err = p.answer(ctx)
	default:
		err = fmt.Errorf("%w: %s", errCommand, p.command.Do)
	}
	if err != nil || outcome == nil {
		return false, err
	}
	return true, p.goOn(outcome)
}

// reach gets to where a step may be made. If the newest state is not published, its own node does that, or this one. It
// reports false if the next round must look again.
func (p *pass) reach(ctx context.Context) (bool, error) {
	if l := p.last; l.stepping != nil && l.published == p.from.line && l.stepping.Seen.Text == p.from.text {
		p.command = l.stepping
		return true, nil
	}
	for p.command.Do != decider.Step {
		if p.command.Do == decider.Read {
			// The state was published here. The text may be old by now, so it is looked at again.
			p.command = p.from.look
		}
		if goes, err := p.carryOut(ctx); !goes || err != nil {
			return false, err
		}
	}
	if p.command.Seen.Text != p.from.text {
		return false, fmt.Errorf("%w: a step from another text", errCommand)
	}
	p.Loop.last.stepping = p.command
	p.stepping.Store(p.command)
	return true, nil
}

// advance has a step made of a batch, and has that decided and published. Beside the making and staging of the step it
// deletes a staged batch, unless the step must list the heads: a step makes at most eight calls to stores.
func (p *pass) advance(ctx context.Context, batch []*Ticket) error {
	p.batch, p.heads = batch, p.listing()
	calls := []func(context.Context) error{p.stagesNext}
	if p.heads.isMade {
		calls = append(calls, p.deletions(1)...)
	}
	if err := p.config.Machine.Parallel(ctx, calls...); err != nil {
		return err
	}
	for p.command.Do != decider.Read {
		if goes, err := p.carryOut(ctx); !goes || err != nil {
			return err
		}
	}
	return nil
}

// stagesNext has the step made and staged.
func (p *pass) stagesNext(ctx context.Context) error {
	if err := p.step(ctx); err != nil {
		return err
	}
	_, err := p.carryOut(ctx)
	return err
}

// look looks whether the head of the state is published. If it is not for a while, the staged batch is read.
func (p *pass) look(ctx context.Context) (*decider.Outcome, error) {
	done, err := p.isPublished(ctx, p.from)
	if err != nil {
		return nil, err
	}
	if done {
		return decider.Published(), nil
	}
	if p.waitsForOther() {
		return nil, nil
	}
	resumed, err := p.resume(ctx, p.from)
	if errors.Is(err, errNoBatch) {
		if newest, learned := p.learn(ctx); learned != nil || newest.text != p.from.text {
			return nil, learned
		}
	}
	if err != nil {
		return nil, err
	}
	rows, err := rowsIn(resumed.Objects)
	if err != nil {
		return nil, err
	}
	if err := p.accept(ctx, p.from, resumed.Objects); err != nil {
		return nil, err
	}
	p.config.Machine.Observer.Count(ResumedStep)
	p.made = made{objects: resumed.Objects, checkpoint: resumed.Checkpoint, places: places{rows: rows}}
	return decider.BatchRead(references(resumed.Objects)), nil
}

// waitsForOther reports whether the node that made the state may still publish it.
func (p *pass) waitsForOther() bool {
	if p.from.node == p.config.Address && p.from.node != "" {
		return false
	}
	return p.config.Machine.Clock.Elapsed()-p.from.readAt < p.config.Pace.Help
}

// step has the proved step made of the batch, over the edge that is remembered, or over the store's if that one is not
// the state's. If the store's is damaged, what the staged batch has of it is put again.
func (p *pass) step(ctx context.Context) error {
	defer p.took(decider.Step, p.config.Machine.Clock.Elapsed())
	stepped, err := p.stepOver(ctx)
	if errors.Is(err, ErrDamaged) && len(p.edge) > 0 {
		p.edge = map[string][]byte{}
		stepped, err = p.stepOver(ctx)
	}
	if errors.Is(err, ErrDamaged) {
		if _, failed := p.restore(ctx, p.from); failed == nil {
			stepped, err = p.stepOver(ctx)
		}
	}
	if err != nil {
		return err
	}
	salt, err := p.config.Machine.Random()
	if err != nil {
		return fmt.Errorf("node: %w", err)
	}
	next := p.from.TreeSize
	p.made.places = places{}
	for i, t := range p.batch {
		// The same entry may be in a batch twice. The second one has the receipt of the first.
		r := stepped.Receipts[i]
		if r.LeafIndex != next {
			continue
		}
		next++
		row := blob.Row{Identity: t.identity, Leaf: blob.Identity(tlog.RecordHash(r.Signed)),
			Place: blob.Place{Index: r.LeafIndex, Timestamp: r.Timestamp}}
		p.made.rows = append(p.made.rows, row)
		if t.misplaced {
			p.made.replaced = append(p.made.replaced, row)
		}
	}
	m := &p.made
	m.isNew, m.content, m.objects, m.receipts = true, stepped.Bundle, stepped.Objects, stepped.Receipts
	m.checkpoint = stepped.Checkpoint
	m.text, m.staged = p.config.textAfter(p.from.Timestamp, stepped.Line, stepped.State, salt)
	outcome := decider.StepMade(stepped.Line, p.config.where(), salt, references(stepped.Objects))
	if err := p.goOn(outcome); err != nil {
		return err
	}
	if p.command.Do != decider.Stage {
		return fmt.Errorf("%w: %s after a step", errCommand, p.command.Do)
	}
	return nil
}

// stepOver has the step made. An edge that is missing or is not the state's is ErrDamaged.
func (p *pass) stepOver(ctx context.Context) (*step.Stepped, error) {
	names, err := p.config.Proved.Steps.Needs(p.from.line)
	if err != nil {
		return nil, fmt.Errorf("node: %w", err)
	}
	contents, calls := make([][]byte, len(names)), make([]func(context.Context) error, len(names))
	read := p.reading(nil)
	for at, name := range names {
		calls[at] = func(ctx context.Context) (err error) {
			contents[at], err = read(ctx, name)
			return err
		}
	}
	if err := p.config.Machine.Parallel(ctx, calls...); err != nil {
		return nil, err
	}
	batch := make([]wagtenib.Submission, 0, len(p.batch))
	for _, t := range p.batch {
		batch = append(batch, t.submission)
	}
	now, ahead, err := p.clock.timestamp(p.from.Timestamp)
	if err != nil {
		return nil, err
	}
	stepped, err := p.config.Proved.Steps.Step(p.from.line, contents, batch, now, ahead)
	switch {
	case errors.Is(err, step.TooFar) || errors.Is(err, step.ClockBack):
		return nil, fmt.Errorf("%w: the step refuses %d ms after %d ms: %v", ErrClock, now, p.from.Timestamp, err)
	case errors.Is(err, step.Edge) || errors.Is(err, step.Entries):
		return nil, fmt.Errorf("%w: %s: %v", ErrDamaged, strings.Join(names, ", "), err)
	case err != nil:
		return nil, fmt.Errorf("node: %w", err)
	}
	p.made.edge = map[string][]byte{}
	for at, name := range names {
		p.made.edge[name] = contents[at]
	}
	return stepped, nil
}

// checkStep returns an error unless the command is about this pass's own step: from the text that was read to the text,
// the staged batch and the objects that it made. No node could go on from a lock with any other text.
func (p *pass) checkStep() error {
	of, m := p.command, &p.made
	if !m.isNew || of.Seen.Text != p.from.text || of.New.Text != m.text || of.New.Batch != m.staged {
		return fmt.Errorf("%w: %s of another step than this round's", errCommand, of.Do)
	}
	return p.checkObjects()
}

// checkObjects returns an error unless the command is about the objects that this pass has.
func (p *pass) checkObjects() error {
	named := references(p.made.objects)
	if len(named) != len(p.command.Objects) {
		return fmt.Errorf("%w: %s of %d objects and not of %d", errCommand, p.command.Do,
			len(p.command.Objects), len(named))
	}
	for i := range named {
		if named[i] != p.command.Objects[i] {
			return fmt.Errorf("%w: %s of %.200q, which is not there", errCommand, p.command.Do, p.command.Objects[i])
		}
	}
	return nil
}

// checkState returns an error unless the command is about the state that this pass is at.
func (p *pass) checkState() error {
	if p.command.New.Text != p.from.text {
		return fmt.Errorf("%w: %s of another text", errCommand, p.command.Do)
	}
	return nil
}

// stage keeps what a step writes, before the lock decides on it.
func (p *pass) stage(ctx context.Context) (*decider.Outcome, error) {
	if err := p.checkStep(); err != nil {
		return nil, err
	}
	// What is in the staged batch is put once more, as objects.
	p.last.written = 2 * len(p.made.content)
	if err := p.config.Stores.Objects.Put(ctx, p.command.New.Batch, p.made.content); err != nil {
		return nil, fmt.Errorf("node: the staged batch: %w", err)
	}
	return decider.Done(), nil
}

// put puts a state's objects under their public names. Beside that it adds its entries to the index, and keeps the
// state as the newest one that this node accepted. None of these needs another one, and the head needs all.
func (p *pass) put(ctx context.Context) (*decider.Outcome, error) {
	if err := errors.Join(p.checkState(), p.checkObjects()); err != nil {
		return nil, err
	}
	calls := []func(context.Context) error{
		func(ctx context.Context) error {
			defer p.took(decider.Place, p.config.Machine.Clock.Elapsed())
			return p.index(ctx)
		},
		func(ctx context.Context) error {
			if p.isAccepted(p.from) {
				return nil
			}
			return p.keep(ctx, p.from)
		},
	}
	for _, object := range p.made.objects {
		calls = append(calls, func(ctx context.Context) error {
			err := p.config.Stores.Objects.Put(ctx, object.Name, object.Content)
			if errors.Is(err, blob.ErrOther) {
				return fmt.Errorf("%w: %w", ErrDamaged, err)
			}
			return err
		})
	}
	if err := p.config.Machine.Parallel(ctx, calls...); err != nil {
		return nil, fmt.Errorf("node: %w", err)
	}
	return decider.Done(), nil
}

// place does nothing: put added the entries to the index beside the objects.
func (p *pass) place(context.Context) (*decider.Outcome, error) {
	return decider.Done(), p.checkState()
}

// publish has a state's head signed, puts it, and says that it is published.
func (p *pass) publish(ctx context.Context) (*decider.Outcome, error) {
	if err := p.checkState(); err != nil {
		return nil, err
	}
	head, err := p.putHead(ctx, p.from, p.made.checkpoint, p.made.objects, p.sign)
	if err != nil {
		return nil, err
	}
	if err := p.raise(ctx, blob.Published{}, head, p.from.line); err != nil {
		return nil, err
	}
	p.last.published = p.from.line
	return decider.Done(), nil
}

// sign signs the timestamps of the batch beside the put of its head, which the guard approved and enough witnesses
// cosigned. Nobody sees them before that head is published. A failure is none yet: answer signs again.
func (p *pass) sign(ctx context.Context) error {
	if len(p.batch) == 0 {
		return nil
	}
	signatures, err := p.signTimestamps(ctx, p.made.receipts, p.from.TreeHead, p.reading(p.made.objects))
	if err == nil {
		p.made.signatures = signatures
	}
	return nil
}

// answer signs the timestamps of the batch, if they are not signed yet, and answers it. Its entries are under a
// published head. After this node's own step, the next round may begin from the state that it made.
func (p *pass) answer(ctx context.Context) (*decider.Outcome, error) {
	if err := p.checkState(); err != nil {
		return nil, err
	}
	if len(p.batch) > 0 && p.made.signatures == nil {
		signatures, err := p.signTimestamps(ctx, p.made.receipts, p.from.TreeHead, p.reading(p.made.objects))
		if err != nil {
			return nil, err
		}
		p.made.signatures = signatures
	}
	for i, t := range p.batch {
		r := p.made.receipts[i]
		p.pool.resolve(t, Answer{SCT: p.sct(r.LeafIndex, r.Timestamp, p.made.signatures[i])})
	}
	p.last.answered, p.seen.isMade = len(p.batch), p.made.isNew
	return decider.Done(), nil
}

// keepEdge remembers what the next step may need: the partial tiles of this step, and those from before that are still
// the edge's.
func (p *pass) keepEdge() {
	p.edge = p.made.edge
	for _, object := range p.made.objects {
		if !strings.Contains(object.Name, ".p/") {
			continue
		}
		level := object.Name[:strings.IndexByte(object.Name[len(ct.TilePrefix):], '/')+len(ct.TilePrefix)+1]
		for name := range p.edge {
			if strings.HasPrefix(name, level) {
				delete(p.edge, name)
			}
		}
		p.edge[object.Name] = object.Content
	}
}
