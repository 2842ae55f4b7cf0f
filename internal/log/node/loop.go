package node

import (
	"context"
	"errors"
	"fmt"
	"time"

	"wagtenib/internal/blob"
	"wagtenib/internal/ct"
	"wagtenib/internal/log/node/decider"
	"wagtenib/internal/log/node/step"
	"wagtenib/internal/log/signer"
)

// Loop is all that one node decides by. Only the goroutine that calls Run may use it, so nothing in it needs a lock.
type Loop struct {
	*Node
	seen seen
	// edge has tiles of the newest state that need not be read again.
	edge   map[string][]byte
	last   last
	clock  timekeeper
	recent recent
	// witnessed has, for each witness, the size that it cosigned last as far as this node knows.
	witnessed []uint64
	// faultSince is when the first of the rounds failed that have failed since, by Elapsed.
	faultSince time.Duration
}

// last is how far this node itself came.
type last struct {
	// published is the line of the newest state that this node knows to be published, and stepping the command to step
	// from it.
	published string
	stepping  *decider.Command
	// signed is the head that the signer signed last for this node, or nil if that is not known.
	signed *ct.TreeHead
	// checkpoint is a head that the object checkpoint had, or nil.
	checkpoint *ct.SignedHead
	// unneeded are the names of staged batches that this node's steps left. The decider has not said yet whether they
	// may be deleted. deletable are the names of those that it said may be deleted.
	unneeded, deletable []string
	// decided says that this round had a step decided by the lock, won or lost. A round that writes nothing does not
	// show that a store takes writes.
	decided bool
	// written is how many bytes this round's step writes, and answered how many submissions it answered.
	written, answered int
}

const (
	minBackoff, maxBackoff = 10 * time.Millisecond, 5 * time.Second
	// startOver is how often the start looks again if other nodes go on meanwhile.
	startOver = 50
	// maxSwaps is how often a swap of unknown outcome is tried.
	maxSwaps  = 5
	swapPause = 20 * time.Millisecond
)

// errMoves: other nodes went on while something was compared. The next round learns it.
var errMoves = errors.New("node: another node went on meanwhile")

// Run makes round after round until the context ends, or until End was called and all that wait are answered. It
// returns nil then. A round that fails is followed by a pause that doubles.
func (l *Loop) Run(ctx context.Context) error {
	pause := minBackoff
	for ctx.Err() == nil {
		if l.pool.isOver() {
			return nil
		}
		if l.pool.isEmpty() {
			// An error is the context's end, which the loop's condition sees.
			_ = l.config.Machine.Clock.Wait(ctx, l.config.Pace.Look, l.pool.wake)
		}
		began := l.config.Machine.Clock.Elapsed()
		err := l.round(ctx)
		if errors.Is(err, errMoves) {
			err = nil
		}
		l.record(err)
		if err == nil {
			pause = minBackoff
			l.rest(ctx, began)
			continue
		}
		_ = l.config.Machine.Clock.Wait(ctx, pause, nil)
		pause = min(2*pause, maxBackoff)
	}
	return fmt.Errorf("node: %w", ctx.Err())
}

// MaxBack is how long the clients that were answered are waited for at most.
const MaxBack = 15 * time.Millisecond

// maxDeletable is how many deletable staged batches may lie in the store before a busy node takes the time to delete
// them.
const maxDeletable = 16

// rest is the pause between a round that had a step decided and the next round. Began is when the round began, by
// Elapsed.
//
//   - It lasts at least until the next step may begin: until Pace.Interval after the round began, or later if the step
//     wrote so much that MaxWritten bytes a second would be exceeded.
//   - Then it waits for as many submissions as the round answered, at most for as long as the round took, and at most
//     MaxBack. Without that, two halves of the clients wait for each other's steps.
//   - It deletes the staged batches that steps left, if there is time until the next step may begin, or if there are
//     maxDeletable of them.
//
// While the node ends, there is no pause.
func (l *Loop) rest(ctx context.Context, began time.Duration) {
	if !l.last.decided || l.pool.isEnding() {
		return
	}
	apart := l.config.Pace.Interval
	if most := l.config.Limits.MaxWritten; most > 0 {
		apart = max(apart, time.Duration(float64(l.last.written)/float64(most)*float64(time.Second)))
	}
	took := l.config.Machine.Clock.Elapsed() - began
	if took < apart || len(l.last.deletable) >= maxDeletable {
		l.deleteStaged(ctx)
	}
	if left := began + apart - l.config.Machine.Clock.Elapsed(); left > 0 {
		// An error is the context's end, which the loop sees.
		_ = l.config.Machine.Clock.Wait(ctx, left, nil)
	}
	until := began + took + min(took, MaxBack)
	for left := until - l.config.Machine.Clock.Elapsed(); left > 0 && l.pool.count() < l.last.answered; {
		if l.config.Machine.Clock.Wait(ctx, left, l.pool.wake) != nil || l.pool.isEnding() {
			return
		}
		left = until - l.config.Machine.Clock.Elapsed()
	}
}

// record keeps what a round failed by, until a step is decided. If waiting does not help, or did not help for a while,
// the waiting submissions are refused.
func (l *Loop) record(err error) {
	if err == nil {
		if l.last.decided {
			l.health.set(nil, false)
		}
		if l.Fault() == nil {
			l.config.Machine.Observer.WentWell()
		}
		return
	}
	now := l.config.Machine.Clock.Elapsed()
	if l.Fault() == nil {
		l.faultSince = now
		l.config.Machine.Observer.Faulted(err)
	}
	isLasting := isHopeless(err) || now-l.faultSince >= l.config.Pace.Patience
	l.health.set(err, isLasting)
	if isLasting {
		l.pool.refuse(err)
	}
}

// isHopeless reports whether waiting a little does not help against an error.
func isHopeless(err error) bool {
	for _, one := range []error{ErrRolledBack, ErrDamaged, ErrIndex, ErrClock, signer.ErrRefused, signer.ErrState} {
		if errors.Is(err, one) {
			return true
		}
	}
	return false
}

// round has the newest state published, and takes the waiting submissions one step further.
func (l *Loop) round(ctx context.Context) error {
	ctx, cancel := l.config.Machine.Clock.Within(ctx, l.config.Pace.Round)
	defer cancel()
	l.last.decided, l.last.written, l.last.answered = false, 0, 0
	began := l.config.Machine.Clock.Elapsed()
	k, err := l.newestState(ctx)
	if err != nil {
		return err
	}
	if l.Leader() != "" {
		l.pool.move()
	}
	p := &pass{Loop: l, from: k, command: k.look}
	if ready, err := p.isReady(ctx); err != nil || !ready {
		return err
	}
	if err := l.findDeletable(); err != nil {
		return err
	}
	batch := l.pool.take()
	defer func() { l.pool.giveBack(batch) }()
	added, err := l.withoutKnown(ctx, k, batch)
	if err != nil {
		return err
	}
	if len(added) == 0 {
		if isDue, err := l.isDue(ctx, k); err != nil || !isDue {
			l.deleteStaged(ctx)
			return err
		}
	}
	l.took("take", began)
	return p.advance(ctx, added)
}

// isReady reports whether a step may be made: the newest state is published, the clock is right, and enough witnesses
// have cosigned the head since this node started.
func (p *pass) isReady(ctx context.Context) (bool, error) {
	// A state that is decided is published by any clock. With a wrong clock the node takes no submission.
	skewed := p.clock.check(p.from.Timestamp)
	ready, err := p.reach(ctx)
	if err == nil && ready && skewed != nil {
		p.askTime(ctx, p.from)
	}
	if err != nil || !ready || skewed != nil {
		return false, errors.Join(err, skewed)
	}
	if err := p.vouch(ctx, p.from); err != nil {
		return false, err
	}
	return true, nil
}

// isDue reports whether a step without entries must be made: the newest head is too old, or a fault is open. Such a
// step asks nothing of the index, so it would not show that the fault is over. So the index is asked first.
func (l *Loop) isDue(ctx context.Context, k *state) (bool, error) {
	if l.Fault() == nil {
		return l.isStale(k), nil
	}
	return true, l.indexWorks(ctx, k)
}

// isStale reports whether a head without new entries is due: none was ever published, or the newest is too old.
func (l *Loop) isStale(k *state) bool {
	return k.IsBegin() || l.config.Machine.Clock.Now().UnixMilli()-int64(
		k.Timestamp) > l.config.Pace.Refresh.Milliseconds()
}

// newestState returns the newest state that this node knows, and reads the lock for it unless the round before made,
// published and answered it.
//
// A step from a state that is not the newest any more is lost at its swap, which costs a staged batch, and the next
// round reads the lock. A swap from a state that is the newest hears the lock as well as a reading does. So a reading
// finds out nothing that the step does not:
//
//   - A lock that was rolled back to an earlier text, or is gone, makes the swap fail, and the next round says so. One
//     that was rolled back to the very text is found by the heads that are listed beside the swap, as after a reading.
//   - The node looks back, and has the newest head cosigned again, only if it has not heard the lock for longer than
//     maxUnheard. Then it does not begin from what it remembers.
//
// So the lock is read if no submission waits, after any failure or lost swap, while a fault is open, and if it was not
// heard for so long.
func (l *Loop) newestState(ctx context.Context) (*state, error) {
	isMade := l.seen.isMade
	l.seen.isMade = false
	if isMade && !l.pool.isEmpty() && l.Fault() == nil &&
		l.config.Machine.Clock.Elapsed()-l.seen.heard <= maxUnheard {
		return l.seen.newest, nil
	}
	return l.learn(ctx)
}

// learn reads the lock. A text that is not a later state's than the one before is refused; if the later one comes back,
// the log goes on.
func (l *Loop) learn(ctx context.Context) (*state, error) {
	before := l.seen.newest
	text, err := l.config.Stores.Lock.Read(ctx)
	if errors.Is(err, blob.ErrAbsent) {
		return nil, fmt.Errorf("%w: it is gone, and had %d entries at %d ms (stop all nodes, and see \"Backup\" in "+
			"OPERATING.md)", ErrRolledBack, before.TreeSize, before.Timestamp)
	}
	if err != nil {
		l.seen.isVouched = false
		return nil, fmt.Errorf("node: the lock: %w", err)
	}
	if l.config.Machine.Clock.Elapsed()-l.seen.heard > maxUnvouched {
		l.seen.isVouched = false
	}
	if text == l.seen.left {
		return nil, fmt.Errorf("%w: it has a text again that another node's step had replaced", ErrRolledBack)
	}
	k := before
	if text != before.text {
		if k, err = l.read(text); err != nil {
			return nil, err
		}
		if err := l.continues(k); err != nil {
			return nil, err
		}
	}
	if l.config.Machine.Clock.Elapsed()-l.seen.heard > maxUnheard {
		// A later text must not be forgotten if looking back fails. It must be forgotten if it is refused: the lock may
		// come back from there.
		l.seen.newest = k
		if err := l.looksBack(ctx, k); err != nil {
			if errors.Is(err, ErrRolledBack) {
				l.seen.newest = before
			}
			return nil, err
		}
	}
	l.hears(k, l.config.Machine.Clock.Elapsed())
	return k, nil
}

// hears keeps a state as the newest one, of which the lock had the text then, by Elapsed.
func (l *Loop) hears(k *state, then time.Duration) {
	l.seen.heard, l.seen.newest = then, k
	l.newest.Store(k)
}

// read takes a text that the lock had, from which the decider says what to do. Either a reading returned it, or this
// node's own swap put it there.
//
// The outcome that is reported is that the lock has the text. The decider's law asks only that the lock had it at some
// time (`MayBeTold count w s (Read k) = Has k w.past` in crates/ct_node/specs/Worlds.antt), since a text that was read
// may be old as well. A swap that was won added the text to that past.
func (l *Loop) read(text string) (*state, error) {
	k, err := parseText(text)
	if err != nil {
		return nil, err
	}
	k.look, err = l.config.Proved.Decider.Next(decider.Begin(), decider.LockRead(text))
	if errors.Is(err, decider.ErrRefused) {
		return nil, fmt.Errorf("%w: the lock's text is not one of a log: %.40q", ErrDamaged, text)
	}
	if err == nil && (k.look.Do != decider.Look || k.look.Seen.Text != text || k.look.Seen.Size != k.TreeSize ||
		k.look.Seen.Timestamp != k.Timestamp) {
		err = fmt.Errorf("%w: %s after a text that was read", errCommand, k.look.Do)
	}
	if err != nil {
		return nil, fmt.Errorf("node: %w", err)
	}
	k.readAt = l.config.Machine.Clock.Elapsed()
	return k, nil
}

// timekeeper gives the timestamps of steps. A timestamp in a log never goes back, and one of the future stops the log
// until then. So the time of day is compared with the time since boot and with the newest head, and there is no
// timestamp while it is wrong.
type timekeeper struct {
	of      Clock
	maxSkew time.Duration
	// sources are other clocks, or nil.
	sources Sources
	// read is the time of day that was read last and may be believed, and since is Elapsed then.
	read  time.Time
	since time.Duration
	// isBelieved says that it was compared with a newest head.
	isBelieved bool
}

// newTimekeeper reads the clock when the node starts, so that the node sees if the clock is set while it starts.
func newTimekeeper(of Machine, maxSkew time.Duration) timekeeper {
	return timekeeper{of: of.Clock, sources: of.Sources, maxSkew: maxSkew, read: of.Clock.Now(),
		since: of.Clock.Elapsed()}
}

// isVouched compares the time of day with other clocks. It reports false if none says what time it is.
func (t *timekeeper) isVouched(now time.Time, elapsed time.Duration) (bool, error) {
	if t.sources == nil {
		return false, nil
	}
	isVouched, err := t.sources.Compare(now, elapsed, !t.isBelieved)
	if err != nil {
		return false, fmt.Errorf("%w: %w", ErrClock, err)
	}
	return isVouched, nil
}

// maxStood is how far a node's first timestamp may be after the newest head's, if only this machine's clock says what
// time it is.
const maxStood = 24 * time.Hour

// check returns ErrClock if the time of day was set since it was believed, or is before the newest head's.
func (t *timekeeper) check(newest uint64) error {
	now, elapsed := t.of.Now(), t.of.Elapsed()
	isVouched, err := t.isVouched(now, elapsed)
	if err != nil {
		return err
	}
	if early := time.UnixMilli(int64(newest)).Sub(now); early > t.maxSkew {
		head := "the log's newest head"
		if isVouched {
			head += ", which is in the future by another clock, too"
		}
		return fmt.Errorf("%w: it is behind %s by %v (set it right)", ErrClock, head, early.Round(time.Millisecond))
	}
	if off := now.Sub(t.read) - (elapsed - t.since); !isVouched && (off > t.maxSkew || -off > t.maxSkew) {
		return fmt.Errorf("%w: it was set by %v while this node ran (set it right)", ErrClock,
			off.Round(time.Millisecond))
	}
	if ahead := now.Sub(time.UnixMilli(int64(newest))); !isVouched && !t.isBelieved && newest > 0 && ahead > maxStood {
		return fmt.Errorf("%w: it is ahead of the log's newest head by %v, and nothing else says what time it is "+
			"(set it right, and name the day by ctserve clock)", ErrClock, ahead.Round(time.Millisecond))
	}
	t.read, t.since, t.isBelieved = now, elapsed, true
	return nil
}

// timestamp returns the one of a step after the newest one, and how far the proved step must let it be beyond that one.
func (t *timekeeper) timestamp(newest uint64) (now, ahead uint64, err error) {
	if err := t.check(newest); err != nil {
		return 0, 0, err
	}
	now = max(uint64(max(t.of.Now().UnixMilli(), 1)), newest+1)
	return now, max(step.MaxAhead, now-newest), nil
}
