package node

import (
	"context"
	"errors"
	"fmt"
	"time"

	"wagtenib/internal/blob"
	"wagtenib/internal/log/node/decider"
)

// swap has the lock decide on a step. Beside that, the heads are listed with which the state is compared: if the lock
// was rolled back to the text that this node stepped from, other nodes may have put later ones.
//
// A swap that was won says that the lock had the new text, so nothing reads it again. Another node may publish the
// state and go on before this node has put anything of it, as it may after any reading. Then this node puts the same
// tiles, a head of the same state, and marks that never go back. Tiles and heads that were deleted meanwhile are
// deleted again, and the signer refuses a head that is older than its last one.
func (p *pass) swap(ctx context.Context) (*decider.Outcome, error) {
	if err := p.checkStep(); err != nil {
		return nil, err
	}
	began, won := p.config.Machine.Clock.Elapsed(), false
	err := p.config.Machine.Parallel(ctx, p.heads.run, func(ctx context.Context) (err error) {
		won, err = p.swapped(ctx, p.command.Seen.Text, p.command.New.Text)
		return err
	})
	if err != nil {
		return nil, err
	}
	p.last.decided = true
	if !won {
		p.seen.left = p.command.Seen.Text
		p.config.Machine.Observer.Count(LostSwap)
		p.last.unneeded = append(p.last.unneeded, p.command.New.Batch)
		return decider.Lost(), nil
	}
	p.config.Machine.Observer.Decided(len(p.batch), p.last.written)
	p.last.unneeded = append(p.last.unneeded, p.command.Seen.Batch)
	p.keepEdge()
	k, err := p.read(p.command.New.Text)
	if err != nil {
		return nil, err
	}
	p.recent.add(p.from, k, p.made.rows)
	p.hears(k, began)
	p.from = k
	if err := p.descends(ctx, k, p.made.objects, p.heads.after); err != nil {
		return nil, err
	}
	p.seen.listed = p.heads.before(k)
	return decider.Done(), nil
}

// swapped swaps, and again if the outcome is unknown: that settles it, since a lock that has the new text says so. If
// it stays unknown, the next round's reading settles it.
func (l *Loop) swapped(ctx context.Context, old, new string) (won bool, err error) {
	for range maxSwaps {
		err = l.config.Stores.Lock.Swap(ctx, old, new)
		if err == nil {
			return true, nil
		}
		if errors.Is(err, blob.ErrLost) {
			return false, nil
		}
		if errors.Is(err, blob.ErrUnknown) {
			l.config.Machine.Observer.Count(UnknownSwap)
		}
		if l.config.Machine.Clock.Wait(ctx, swapPause, nil) != nil {
			break
		}
	}
	return false, fmt.Errorf("node: the swap: %w", err)
}

// maxUnlisted is how long before the end of a swap the heads must have been listed at the earliest. It is assumed that
// within that time no other node makes a step and publishes its head, and the lock and the signer's state are then
// rolled back. A longer time finds fewer of such rollbacks.
const maxUnlisted = 100 * time.Millisecond

// listing is a list of the heads after a name, that is made beside a swap.
type listing struct {
	*Loop
	from  string
	began time.Duration
	// isMade says that names and err are the outcome.
	isMade bool
	names  []string
	err    error
}

// listing returns the list that the next step's swap needs. It is made already if there was one a moment ago: the swaps
// of this node since then were won, so no other node has put a head unless the lock was rolled back.
func (l *Loop) listing() *listing {
	now := l.config.Machine.Clock.Elapsed()
	if made := l.seen.listed; made != nil && made.from == l.newestAccepted() && now-made.began <= maxUnlisted/2 {
		return made
	}
	return &listing{Loop: l, from: l.newestAccepted()}
}

// run makes the list, unless it is made. It keeps an error for the comparison, so that the swap beside it goes on.
func (h *listing) run(ctx context.Context) error {
	if !h.isMade {
		h.isMade, h.began = true, h.config.Machine.Clock.Elapsed()
		h.names, h.err = h.listHeads(ctx, h.from)
	}
	return nil
}

// after returns the heads after a name, out of this list if it is the one and is not too old.
func (h *listing) after(ctx context.Context, name string) ([]string, error) {
	if h.isMade && name == h.from && h.config.Machine.Clock.Elapsed()-h.began <= maxUnlisted {
		return h.names, h.err
	}
	return h.listHeads(ctx, name)
}

// before returns the list of the heads after the state's own, by a list that was compared with it: at that time there
// was none.
func (h *listing) before(k *state) *listing {
	return &listing{Loop: h.Loop, from: headName(k.TreeSize, k.Timestamp), began: h.began, isMade: true}
}
