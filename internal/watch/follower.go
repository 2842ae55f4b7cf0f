package watch

import (
	"bytes"
	"context"
	"crypto/sha256"
	"errors"
	"fmt"
	"time"

	"wagtenib/bindings/go/wagtenib"
	"wagtenib/internal/ct"
	"wagtenib/internal/logclient"
)

// ErrState means that the stored state of a log is damaged.
var ErrState = errors.New("watch: the state of the log is damaged: restore the store from a copy, or remove the log " +
	"from it to read the log from the beginning")

// Options hold the settings for following logs.
type Options struct {
	FromStart bool              // a log that was never read is read from its first entry on, and not from its end
	Pause     time.Duration     // the time between two passes over a log; one minute if it is 0
	Limit     time.Duration     // the time limit of one pass; the next one continues; one hour if it is 0
	Client    logclient.Options // the options of the client of each log
	// Policy returns nil if a tiled log's head meets a policy, such as a quorum of witnesses, and otherwise a
	// *PolicyError. A head that does not meet it is not judged further. Policy may be nil.
	Policy func(head Head) error
	// Mirror returns the mirror of a tiled log. Mirror may be nil, and may return nil: the log then has no mirror.
	Mirror func(log Log) (Mirror, error)
	// Heads returns signed heads that others saw, of any logs. Heads may be nil.
	Heads func(ctx context.Context) [][]byte
	times *Times // of all logs that are followed; nil for one log
}

// A Mirror stores a copy of a tiled log that can be served.
type Mirror interface {
	// Stage stores a data tile that was read, and whose head is not accepted yet.
	Stage(tile logclient.DataTile) error
	// Accept stores the log up to an accepted head.
	Accept(ctx context.Context, head Head) error
}

// Follower follows one log. Its methods must be called by one goroutine at a time.
type Follower struct {
	log     Log
	source  source
	keeper  Keeper
	options Options
	clock   logclient.Clock
	mirror  Mirror
	state   *State // nil if it must be loaded
	// each data tile is compared with the hash tiles before its entries are stored
	comparesTiles bool
	memory        memory
	progress      progress
}

// progress holds the status of the log, and the time of its last report.
type progress struct {
	Status
	reported time.Time
}

// reportInterval is the minimum time between two reports during one pass. A first pass over a large log takes hours.
const reportInterval = 10 * time.Second

// memory holds what a follower remembers since the start of the program.
type memory struct {
	accused map[[sha256.Size]byte]bool // the keys of the evidence
	count   map[string]int             // the number of pieces of evidence for each verdict
	placed  map[[sha256.Size]byte]Head // the heads that were judged, except those of State.Unplaced
	asked   map[[sha256.Size]byte]bool // the heads for which a proof was asked in this pass
	foreign map[[sha256.Size]byte]bool // the hashes of heads that others saw and this log did not sign
}

// maxAccusations is the maximum number of accusations of one log with one verdict. A dishonest log must not fill the
// disk of its monitor.
const maxAccusations = 16

// NewFollower returns a follower of a log. It returns an error if the log's address or key is wrong, or if its mirror
// cannot be opened.
func NewFollower(log Log, keeper Keeper, options Options) (*Follower, error) {
	reader, err := NewReader(log, options.Client)
	if err != nil {
		return nil, err
	}
	if LogID(wagtenib.LogID(log.PublicKey)) != log.ID {
		return nil, fmt.Errorf("watch: %s: the log's ID is not the hash of its key (RFC 6962, section 3.2)", log.Name)
	}
	f := &Follower{log: log, source: reader.source, keeper: keeper, options: options, clock: options.Client.Clock,
		memory: memory{accused: map[[sha256.Size]byte]bool{}, count: map[string]int{}, placed: map[[sha256.Size]byte]Head{},
			foreign: map[[sha256.Size]byte]bool{}},
		progress: progress{Status: Status{Log: log}}}
	if f.clock == nil {
		f.clock = logclient.MachineClock{}
	}
	if f.options.times == nil {
		f.options.times = NewTimes([]Log{log})
	}
	if options.Mirror != nil && log.IsTiled() {
		if f.mirror, err = options.Mirror(log); err != nil {
			return nil, fmt.Errorf("watch: %s: %w", log.Name, err)
		}
		if f.mirror != nil && !options.FromStart {
			return nil, fmt.Errorf("watch: %s: a mirror begins with the first entry: follow the log from its start", log.Name)
		}
	}
	return f, nil
}

// Pass reads the log's newest head, and all entries up to it. It returns nil if the head is accepted. Otherwise it
// returns an *AccusedError, or the reason why it cannot continue now. The next pass continues from the stored state.
// Pass reports the status of the log in each case.
func (f *Follower) Pass(ctx context.Context) error {
	err := f.pass(ctx)
	var accused *AccusedError
	if err != nil && !errors.As(err, &accused) {
		// A call of the Keeper may have failed, so the next pass loads the stored state again.
		f.state = nil
	}
	f.progress.Fault = err
	f.report()
	return err
}

// report reports the status of the log to the Keeper.
func (f *Follower) report() {
	f.progress.reported = f.clock.Now()
	f.keeper.Report(f.progress.Status)
}

func (f *Follower) pass(ctx context.Context) error {
	if err := f.load(); err != nil {
		return err
	}
	f.memory.asked = map[[sha256.Size]byte]bool{}
	head, err := f.source.head(ctx)
	if err != nil {
		return f.headError(head, err)
	}
	f.progress.Answered, f.progress.Head = f.clock.Now(), head.TreeHead
	f.options.times.Add(f.log.ID, head.Timestamp)
	if err := f.judgePolicy(head); err != nil {
		return err
	}
	if f.state.Monitor == nil {
		if err := f.begin(ctx, head); err != nil {
			return err
		}
	}
	old := f.judgeAge(head)
	var accused *AccusedError
	if old != nil && !errors.As(old, &accused) && !errors.Is(old, errUnconfirmed) {
		return old
	}
	err = f.follow(ctx, head)
	// The entries are read before other heads accuse the log: it must not prevent the search by signing one of them.
	if found := f.judgeOthers(ctx, head); err == nil || errors.As(found, &accused) {
		err = found
	}
	if err != nil {
		return err
	}
	if f.mirror != nil && len(f.state.Accepted.Signed) > 0 {
		if err := f.mirror.Accept(ctx, f.state.Accepted.Head); err != nil {
			return fmt.Errorf("watch: %s: mirror: %w", f.log.Name, err)
		}
	}
	return old
}

// follow judges a head, and reads the entries up to the waiting head. If an older head was waiting, the new one is
// judged again after the older one is accepted.
func (f *Follower) follow(ctx context.Context, head Head) error {
	for {
		waited := f.isWaiting()
		if err := f.judgeHead(ctx, head); err != nil {
			return err
		}
		if !f.isWaiting() {
			return nil
		}
		if err := f.readWaiting(ctx); err != nil {
			return err
		}
		if !waited {
			return nil
		}
	}
}

func (f *Follower) isWaiting() bool { return len(f.state.Waiting.Signed) > 0 }

// load loads the stored state of the log, if it is not in memory.
func (f *Follower) load() error {
	if f.state != nil {
		return nil
	}
	state, err := f.keeper.Load(f.log.ID)
	if err != nil {
		return fmt.Errorf("watch: %s: %w", f.log.Name, err)
	}
	f.state = &state
	f.progress.Read, f.progress.Accepted = state.Read, state.Accepted.TreeSize
	return nil
}

// keep hands entries and the next state to the Keeper, which searches the entries and stores both together.
func (f *Follower) keep(next State, entries []Entry) error {
	if err := f.keeper.Keep(f.log, next, entries); err != nil {
		return fmt.Errorf("watch: %s: %w", f.log.Name, err)
	}
	f.state = &next
	f.progress.Read, f.progress.Accepted = next.Read, next.Accepted.TreeSize
	if now := f.clock.Now(); len(entries) > 0 {
		f.progress.Answered = now
		if now.Sub(f.progress.reported) >= reportInterval {
			f.report()
		}
	}
	return nil
}

// accuse stores evidence together with the next state, and returns an *AccusedError. If the same evidence was stored
// before, or too much with this verdict, it stores at most the state.
func (f *Follower) accuse(next State, verdict, text string, files map[string][]byte) error {
	evidence, err := NewEvidence(f.log, f.clock.Now(), verdict, text, files)
	if err != nil {
		return err
	}
	key := evidence.Key()
	if f.memory.accused[key] || f.memory.count[verdict] >= maxAccusations {
		if !bytes.Equal(next.Monitor, f.state.Monitor) {
			if err := f.keep(next, nil); err != nil {
				return err
			}
		}
		return &AccusedError{verdict, text}
	}
	if err := f.keeper.Accuse(f.log, next, evidence); err != nil {
		return fmt.Errorf("watch: %s: %w", f.log.Name, err)
	}
	f.memory.accused[key] = true
	f.memory.count[verdict]++
	f.state = &next
	f.progress.Read, f.progress.Accepted = next.Read, next.Accepted.TreeSize
	return &AccusedError{verdict, text}
}

// headError returns why there is no head to judge. A head that the log's key did not sign is evidence: somebody else
// answers at the log's address, or the log uses another key.
func (f *Follower) headError(head Head, err error) error {
	if errors.Is(err, ct.ErrSigner) {
		return f.accuse(*f.state, VerdictSigner, "the log's address answered with a head that the log's key did not sign: "+
			err.Error(), map[string][]byte{FileHead: head.Signed})
	}
	return fmt.Errorf("watch: %s: %w", f.log.Name, err)
}

// judgePolicy accuses a log whose head does not meet the policy. A log that shows this monitor a history of its own
// cannot get the cosignatures of the policy for it.
func (f *Follower) judgePolicy(head Head) error {
	if f.options.Policy == nil || !f.log.IsTiled() {
		return nil
	}
	err := f.options.Policy(head)
	var missed *PolicyError
	if !errors.As(err, &missed) {
		return err
	}
	files := map[string][]byte{FileHead: head.Signed}
	for name, content := range missed.Files {
		files[name] = content
	}
	return f.accuse(*f.state, VerdictFewCosigned, missed.Text, files)
}

// begin stores the first state, which is before the first entry or after the newest head.
func (f *Follower) begin(ctx context.Context, head Head) error {
	if f.options.FromStart {
		monitor, err := wagtenib.MonitorBegin()
		if err != nil {
			return err
		}
		return f.keep(State{Monitor: monitor}, nil)
	}
	subtrees, err := f.source.subtrees(ctx, head.TreeHead)
	if err != nil {
		return fmt.Errorf("watch: %s: %w", f.log.Name, err)
	}
	monitor, err := wagtenib.MonitorStart(head.TreeHead, subtrees)
	if err != nil {
		return fmt.Errorf("watch: %s: %w: the right edge of the tree: %v", f.log.Name, errDamaged, err)
	}
	return f.keep(State{Monitor: monitor, Accepted: newTree(head), Read: head.TreeSize, Start: head.TreeSize}, nil)
}

// frozenStates holds the states in a log list in which a log need not sign new heads.
var frozenStates = map[string]bool{"readonly": true, "retired": true, "rejected": true}

// judgeAge accuses a log whose newest head is older than its maximum merge delay. RFC 6962, section 3.5, requires a
// newer one on demand. The head must be that old by the machine's clock and by the newest head of the other logs. The
// error wraps errUnconfirmed if no other log has signed a head yet.
func (f *Follower) judgeAge(head Head) error {
	now := f.clock.Now().Truncate(time.Second) // as in evidence
	if f.log.MaxMergeDelay <= 0 || frozenStates[f.log.State] || now.Sub(timeOf(head.Timestamp)) <= f.log.MaxMergeDelay {
		return nil
	}
	passed, isKnown := f.options.times.Passed(f.log.ID, now)
	if !isKnown {
		return fmt.Errorf("%w: %s: its newest head is %v old", errUnconfirmed, f.log.Name,
			now.Sub(timeOf(head.Timestamp)).Round(time.Second))
	}
	age := passed.Sub(timeOf(head.Timestamp))
	if age <= f.log.MaxMergeDelay {
		return nil
	}
	text := fmt.Sprintf("the newest head is %v old by this machine's clock and the heads of other logs, and the maximum "+
		"merge delay is %v", age.Round(time.Second), f.log.MaxMergeDelay)
	return f.accuse(*f.state, VerdictOldHead, text, map[string][]byte{FileHead: head.Signed})
}

// judgeHead judges the newest head. By the verdict, it stores the next state or accuses the log.
func (f *Follower) judgeHead(ctx context.Context, head Head) error {
	found, monitor, err := wagtenib.MonitorHead(f.state.Monitor, head.TreeHead)
	if err != nil {
		return f.stateError(err)
	}
	next := *f.state
	next.Monitor, next.Read = monitor, found.Read
	switch found.Verdict {
	case wagtenib.VerdictPending:
		if f.isWaiting() {
			return f.keepLater(head)
		}
		next.Waiting = newTree(head)
		return f.keep(next, nil)
	case wagtenib.VerdictAccepted:
		next.Accepted, next.Waiting = newTree(head), Tree{}
		if f.isWaiting() {
			next.Accepted = f.state.Waiting
		}
		return f.keep(next, nil)
	case wagtenib.VerdictAgain:
		return f.remember(monitor, head)
	case wagtenib.VerdictOlder:
		return f.judgeOlder(ctx, head)
	}
	return f.accuseHead(next, head, found)
}

// remember stores the timestamp of one more head of a known tree. It stores nothing if the tree's earliest and newest
// heads stay the same.
func (f *Follower) remember(monitor []byte, head Head) error {
	next := *f.state
	next.Monitor = monitor
	if isOf(head, next.Accepted) {
		next.Accepted = next.Accepted.with(head)
	} else {
		next.Waiting = next.Waiting.with(head)
	}
	if bytes.Equal(monitor, f.state.Monitor) && next.Accepted.isSame(f.state.Accepted) &&
		next.Waiting.isSame(f.state.Waiting) {
		return nil
	}
	if err := f.keep(next, nil); err != nil {
		return err
	}
	return f.judgePlaced(head)
}

// isOf reports whether a head is one of a tree.
func isOf(head Head, tree Tree) bool { return head.TreeSize == tree.TreeSize && head.Root == tree.Root }

// accuseHead accuses a log of a head that contradicts one that was known before.
func (f *Follower) accuseHead(next State, head Head, found wagtenib.Judgement) error {
	if found.Verdict == wagtenib.VerdictOtherRoot {
		next.Waiting = Tree{}
		files := map[string][]byte{FileHead: head.Signed}
		if len(f.state.Accepted.Signed) > 0 {
			files[FileFirst] = f.state.Accepted.Signed
		}
		return f.accuse(next, VerdictOtherRoot, fmt.Sprintf("the %d leaves that were read have the root %x, and the log "+
			"signed %x", head.TreeSize, found.Root, head.Root), files)
	}
	if !found.Verdict.Accuses() {
		return fmt.Errorf("watch: %s: the library has an unexpected verdict on a head: %v", f.log.Name, found.Verdict)
	}
	// The library names the head that is contradicted. Only the store of an earlier ctwatch may not have its bytes. Then
	// another head of a known tree may contradict this one too.
	var shown *Contradiction
	for _, known := range []Head{f.state.Accepted.earliest(), f.state.Accepted.Head, f.state.Waiting.earliest(),
		f.state.Waiting.Head} {
		if len(known.Signed) == 0 {
			continue
		}
		if one := Contradict(known, head); one != nil && (shown == nil || known.TreeHead == found.Known) {
			shown = one
		}
	}
	if shown == nil {
		return fmt.Errorf("watch: %s: the head of %d leaves contradicts one of %d leaves, which the store does not have as the "+
			"log signed it", f.log.Name, head.TreeSize, found.Known.TreeSize)
	}
	return f.accuse(next, shown.Verdict, shown.Text, shown.Files)
}

// stateError returns the error for a failed call of the library with the state.
func (f *Follower) stateError(err error) error {
	if errors.Is(err, wagtenib.ErrState) {
		err = ErrState
	}
	return fmt.Errorf("watch: %s: %w", f.log.Name, err)
}
