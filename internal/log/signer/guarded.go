package signer

import (
	"context"
	"errors"
	"fmt"
	"strings"
	"time"

	"wagtenib/internal/blob"
	"wagtenib/internal/ct"
)

const (
	// maxSwaps is the maximum number of attempts of a swap whose outcome is unknown.
	maxSwaps = 5
	// maxSkew is the maximum difference between two clocks.
	maxSkew = time.Minute
	// maxAheadOfClock is how far a head that is ahead of this machine's clock may be after the last one, in
	// milliseconds.
	maxAheadOfClock = 3_600_000
)

// Guard holds the settings of a key's guard.
type Guard struct {
	// State keeps the text of the state, with the head that the guard approved last. All signers of one log share it.
	// If two signers approve two heads at the same time, one of them wins. If they approve the same head, both write
	// the same text, and both sign that head. No state occurs twice, since timestamps rise.
	State blob.Lock
	// Create creates the state of a new log if there is none.
	Create bool
}

// Guarded is a key with a guard, which is proved code in this process. It signs only the bytes that the guard wrote. It
// signs them only after it replaced the state in the lock, from which the guard approved them, by the state with these
// bytes.
type Guarded struct {
	key   *Key
	guard Guard
	// turn is held by the goroutine that uses the guard. Only that goroutine may use the fields below.
	turn chan struct{}
	// state is the state in the lock, or nil if the lock must be read. seen is the newest state that was read.
	state *State
	seen  State
	test  hooks
}

// NewGuarded returns a key with a guard. A state that is missing or damaged is ErrState.
func NewGuarded(ctx context.Context, key *Key, guard Guard) (*Guarded, error) {
	g := &Guarded{key: key, guard: guard, turn: make(chan struct{}, 1)}
	if guard.Create {
		if err := guard.State.Create(ctx, NoHead); err != nil && !errors.Is(err, blob.ErrExists) {
			return nil, fmt.Errorf("signer: %w", err)
		}
	}
	if _, err := g.readState(ctx); err != nil {
		return nil, err
	}
	return g, nil
}

// takeTurn waits for the turn until the context ends.
func (g *Guarded) takeTurn(ctx context.Context) error {
	select {
	case g.turn <- struct{}{}:
		return nil
	case <-ctx.Done():
		return fmt.Errorf("signer: %w", ctx.Err())
	}
}

// readState reads the state in the lock. The error is ErrState only if the state is missing, damaged or rolled back. A
// lock that does not answer may have a valid state.
func (g *Guarded) readState(ctx context.Context) (State, error) {
	g.state = nil
	text, err := g.guard.State.Read(ctx)
	if errors.Is(err, blob.ErrAbsent) {
		return State{}, fmt.Errorf("%w: there is none", ErrState)
	}
	if err != nil {
		return State{}, fmt.Errorf("signer: the guard's state: %w", err)
	}
	state, err := ReadState(strings.TrimSuffix(text, "\n"))
	if err == nil {
		err = state.CheckSince(g.seen)
	}
	if err != nil {
		return State{}, err
	}
	// An operator may have written the state with a line end.
	if state.text != text {
		if err := g.guard.State.Swap(ctx, text, state.text); err != nil {
			return State{}, fmt.Errorf("signer: the guard's state: %w", err)
		}
	}
	g.state, g.seen = &state, state
	return state, nil
}

// currentState returns the state in the lock. It reads the lock only if the state is not known.
func (g *Guarded) currentState(ctx context.Context) (State, error) {
	if g.state != nil {
		return *g.state, nil
	}
	return g.readState(ctx)
}

// maxAhead returns how far a head's timestamp may be after the last one's, in milliseconds. A head that is not ahead of
// this machine's clock may be as far as its timestamp says, since the log may have been stopped. A head that is ahead
// of it may have been made by a wrong clock, so it may be an hour after the last one.
func maxAhead(head ct.TreeHead) uint64 {
	if now := time.Now().Add(maxSkew).UnixMilli(); now < 0 || head.Timestamp > uint64(now) {
		return maxAheadOfClock
	}
	return head.Timestamp
}

// swap replaces a state in the lock by the next one. If that fails, the lock is read again before the next use.
func (g *Guarded) swap(ctx context.Context, old, next State) (err error) {
	for try := 0; try < maxSwaps; try++ {
		if err = g.guard.State.Swap(ctx, old.text, next.text); err == nil {
			g.state, g.seen = &next, next
			return nil
		}
		if !errors.Is(err, blob.ErrUnknown) {
			break
		}
	}
	g.state = nil
	if errors.Is(err, blob.ErrLost) {
		return ErrMoved
	}
	return fmt.Errorf("signer: the guard's state: %w", err)
}

// Key returns the log's public key, as Signer says.
func (g *Guarded) Key() []byte { return g.key.Key() }

// IsGuarded returns true.
func (g *Guarded) IsGuarded() bool { return true }

// Last returns the head in the lock now.
func (g *Guarded) Last(ctx context.Context) (*ct.TreeHead, error) {
	if err := g.takeTurn(ctx); err != nil {
		return nil, err
	}
	defer func() { <-g.turn }()
	state, err := g.readState(ctx)
	return state.last, err
}

// stateBefore returns the state from which the guard judges a head. If the log's first head has leaves, stateBefore
// first stores the state after the head of the empty tree, which nobody signs.
func (g *Guarded) stateBefore(ctx context.Context, head ct.TreeHead) (State, error) {
	state, err := g.currentState(ctx)
	if err != nil || !state.MustBegin(head) {
		return state, err
	}
	empty, err := state.Begin(head)
	if err != nil {
		return empty, err
	}
	if err := g.swap(ctx, state, empty); err != nil {
		return empty, err
	}
	g.phase("begun")
	return empty, nil
}

// SignHead returns the signature of a head, as Signer says. The lock has the new state before the head is signed.
// If the process ends in between, the head is approved but not signed.
func (g *Guarded) SignHead(ctx context.Context, head ct.TreeHead, consistency [][32]byte) ([]byte, error) {
	if err := g.takeTurn(ctx); err != nil {
		return nil, err
	}
	defer func() { <-g.turn }()
	state, err := g.stateBefore(ctx, head)
	if err != nil {
		return nil, err
	}
	next, err := state.After(head, consistency, maxAhead(head))
	if err != nil {
		return nil, err
	}
	g.phase("approved")
	if err := g.swap(ctx, state, next); err != nil {
		return nil, err
	}
	g.phase("stored")
	return g.key.sign(next.signed)
}

// SignStep returns the signatures of a step's timestamps, as Signer says.
func (g *Guarded) SignStep(ctx context.Context, step Step) ([][]byte, error) {
	return g.signApproved(ctx, step.Leaves, func(state State) error { return state.CheckStep(step) })
}

// SignTimestamps returns the signatures of timestamps, as Signer says.
func (g *Guarded) SignTimestamps(ctx context.Context, receipts []Receipt) ([][]byte, error) {
	messages := make([][]byte, len(receipts))
	for i, receipt := range receipts {
		messages[i] = receipt.Leaf
	}
	return g.signApproved(ctx, messages, func(state State) error {
		for _, receipt := range receipts {
			if ctx.Err() != nil {
				return fmt.Errorf("signer: %w", ctx.Err())
			}
			if err := state.CheckReceipt(receipt); err != nil {
				return err
			}
			g.phase("receipt")
		}
		return nil
	})
}

// signApproved signs messages if the guard approves them.
func (g *Guarded) signApproved(ctx context.Context, messages [][]byte, approve func(State) error) ([][]byte, error) {
	if err := g.takeTurn(ctx); err != nil {
		return nil, err
	}
	defer func() { <-g.turn }()
	state, err := g.currentState(ctx)
	if err != nil {
		return nil, err
	}
	if err := approve(state); err != nil {
		return nil, err
	}
	return g.key.signAll(ctx, messages)
}
