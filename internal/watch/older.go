package watch

import (
	"context"
	"crypto/sha256"
	"errors"
	"fmt"
	"slices"
	"time"

	"wagtenib/bindings/go/wagtenib"
	"wagtenib/internal/logclient"
)

// maxUnplaced is the maximum number of heads of one log that are kept because they cannot be placed. The oldest are
// kept: what a log signed first is the hardest to deny.
const maxUnplaced = 16

// maxLag is the time for which a log may refuse the proof for a head: the front end that is asked may lag behind the one
// that showed the known head.
const maxLag = time.Hour

// maxPlaced is the maximum number of heads that a follower remembers as placed. It then forgets all of them, and asks
// for their proofs again.
const maxPlaced = 256

// maxForeign is the maximum number of heads of other logs that a follower remembers, so that it does not verify their
// signatures in each pass.
const maxForeign = 100_000

// isAnswer reports whether an error is an answer of the log: a refusal, or something else than what was asked for.
// Otherwise, the log was not reached or is busy, which says nothing.
func isAnswer(err error) bool {
	return !errors.Is(err, logclient.ErrUnreachable) && !errors.Is(err, logclient.ErrBusy) &&
		!errors.Is(err, logclient.ErrTooSlow) && !errors.Is(err, context.Canceled) &&
		!errors.Is(err, context.DeadlineExceeded)
}

// judgeOlder judges a head that has fewer leaves than a known one and is earlier. It asks for a proof from one to the
// other. If there is none, the log's own answers decide, or the head is kept until they do.
func (f *Follower) judgeOlder(ctx context.Context, head Head) error {
	key := placeOf(head)
	if f.isPlaced(head) || f.memory.asked[key] {
		return nil
	}
	f.memory.asked[key] = true
	if err := f.judgePlaced(head); err != nil {
		return err
	}
	known, isAccepted := f.state.Accepted.Head, true
	if head.TreeSize >= known.TreeSize {
		known, isAccepted = f.state.Waiting.Head, false
	}
	var proof []wagtenib.Hash
	if head.TreeSize > 0 {
		var err error
		if proof, err = f.source.consistency(ctx, head.TreeSize, known.TreeSize); err != nil {
			return f.keepUnplaced(ctx, head, known, nil, err)
		}
	}
	found, _, err := wagtenib.MonitorOlder(f.state.Monitor, head.TreeHead, proof)
	if err != nil {
		return f.stateError(err)
	}
	switch found.Verdict {
	case wagtenib.VerdictConsistent:
		if !isAccepted {
			// The waiting tree may never be accepted. The head is judged again beside the accepted one.
			return f.keepLater(head)
		}
		return f.place(head)
	case wagtenib.VerdictInconsistent:
	default:
		return nil
	}
	if shown := otherHistory(ctx, f.source, head, known, proof); shown != nil {
		return f.accuse(f.without(head), shown.Verdict, shown.Text, shown.Files)
	}
	return f.keepUnplaced(ctx, head, known, proof, found.Fault)
}

// placeOf returns a key of a signed head.
func placeOf(head Head) [sha256.Size]byte {
	return sha256.Sum256(fmt.Appendf(nil, "%d %d %x", head.TreeSize, head.Timestamp, head.Root))
}

// isPlaced reports whether a head was judged before, and need not be kept.
func (f *Follower) isPlaced(head Head) bool {
	_, ok := f.memory.placed[placeOf(head)]
	return ok
}

// judgePlaced compares a head with those that were placed before, and accuses the log if two contradict each other.
func (f *Follower) judgePlaced(head Head) error {
	for _, one := range f.memory.placed {
		if shown := Contradict(one, head); shown != nil {
			next := f.without(head)
			f.remind(head)
			return f.accuse(next, shown.Verdict, shown.Text, shown.Files)
		}
	}
	return nil
}

// remind remembers that a head was judged.
func (f *Follower) remind(head Head) {
	if len(f.memory.placed) >= maxPlaced {
		clear(f.memory.placed)
	}
	f.memory.placed[placeOf(head)] = head
}

// place remembers that a head is consistent with the known ones, and keeps it no longer.
func (f *Follower) place(head Head) error {
	f.remind(head)
	if next := f.without(head); len(next.Unplaced) != len(f.state.Unplaced) {
		return f.keep(next, nil)
	}
	return nil
}

// without returns the state without a head among the unplaced ones.
func (f *Follower) without(head Head) State {
	next := *f.state
	next.Unplaced = slices.DeleteFunc(slices.Clone(next.Unplaced), func(one Unplaced) bool {
		return one.TreeHead == head.TreeHead
	})
	return next
}

// unplaced returns the index of a head among those that cannot be placed, or -1.
func (f *Follower) unplaced(head Head) int {
	return slices.IndexFunc(f.state.Unplaced, func(one Unplaced) bool { return one.TreeHead == head.TreeHead })
}

// with returns the state with a head among the unplaced ones, if there is room.
func (f *Follower) with(head Head) State {
	next := *f.state
	if f.unplaced(head) < 0 && len(next.Unplaced) < maxUnplaced {
		next.Unplaced = append(slices.Clone(next.Unplaced), Unplaced{head, f.clock.Now()})
	}
	return next
}

// keepUnplaced keeps a head for which the log gave no proof, or one that does not lead to the known head. It alerts the
// owner, without an accusation. A refusal causes the alert only after maxLag.
func (f *Follower) keepUnplaced(ctx context.Context, head, known Head, proof []wagtenib.Hash, why error) error {
	if ctx.Err() != nil {
		return ctx.Err()
	}
	if proof == nil {
		at := f.unplaced(head)
		if at < 0 {
			return f.keepLater(head)
		}
		if !isAnswer(why) || f.clock.Now().Sub(f.state.Unplaced[at].Since) < maxLag {
			return nil
		}
	}
	shown, err := notProved(head, known, proof, why)
	if err != nil {
		return err
	}
	var reported *AccusedError
	if err := f.accuse(f.with(head), shown.Verdict, shown.Text, shown.Files); !errors.As(err, &reported) {
		return err
	}
	// The owner knows. The entries are read on.
	return nil
}

// judgeOthers compares the log's newest head with the heads that could not be placed. Then it judges these, and the heads
// that others saw.
func (f *Follower) judgeOthers(ctx context.Context, newest Head) error {
	if err := f.judgeUnplaced(newest); err != nil {
		return err
	}
	if accepted := f.state.Accepted.Head; len(accepted.Signed) > 0 && !f.isPlaced(accepted) {
		f.remind(accepted)
	}
	for _, one := range slices.Clone(f.state.Unplaced) {
		if err := f.judgeSeen(ctx, one.Head); err != nil {
			return err
		}
	}
	if f.options.Heads == nil {
		return nil
	}
	for _, signed := range f.options.Heads(ctx) {
		key := sha256.Sum256(signed)
		if f.memory.foreign[key] {
			continue
		}
		head, err := openHead(f.log, signed)
		if err != nil {
			if len(f.memory.foreign) >= maxForeign {
				clear(f.memory.foreign)
			}
			f.memory.foreign[key] = true
			continue
		}
		if f.isPlaced(head) {
			continue
		}
		if err := f.judgeSeen(ctx, head); err != nil {
			return err
		}
	}
	return nil
}

// judgeSeen judges a head that is not the newest one. Its entries are not waited for.
func (f *Follower) judgeSeen(ctx context.Context, head Head) error {
	found, monitor, err := wagtenib.MonitorHead(f.state.Monitor, head.TreeHead)
	if err != nil {
		return f.stateError(err)
	}
	switch found.Verdict {
	case wagtenib.VerdictPending, wagtenib.VerdictAccepted:
		if err := f.judgeUnplaced(head); err != nil {
			return err
		}
		return f.keepLater(head)
	case wagtenib.VerdictAgain:
		if err := f.remember(monitor, head); err != nil {
			return err
		}
		return f.place(head)
	case wagtenib.VerdictOlder:
		if err := f.judgeUnplaced(head); err != nil {
			return err
		}
		return f.judgeOlder(ctx, head)
	}
	next := f.without(head)
	next.Monitor = monitor
	f.remind(head) // The evidence has it.
	return f.accuseHead(next, head, found)
}

// keepLater keeps a head that is larger than the known ones until they reach it.
func (f *Follower) keepLater(head Head) error {
	if next := f.with(head); len(next.Unplaced) > len(f.state.Unplaced) {
		return f.keep(next, nil)
	}
	return nil
}

// judgeUnplaced compares a head with those that could not be placed yet, and accuses the log if two contradict each
// other.
func (f *Follower) judgeUnplaced(head Head) error {
	for _, one := range f.state.Unplaced {
		if shown := Contradict(one.Head, head); shown != nil {
			return f.accuse(*f.state, shown.Verdict, shown.Text, shown.Files)
		}
	}
	return nil
}
