package signer

import (
	"context"
	"errors"
	"fmt"
	"sync"
	"testing"
	"time"

	"wagtenib/internal/blob"
	"wagtenib/internal/ct"
)

// countingLock is a lock that counts its calls. The function before is called before each call, which fails with its
// error.
type countingLock struct {
	blob.Lock
	mu     sync.Mutex
	calls  map[string]int
	before func(call string, nth int) error
}

func (c *countingLock) count(call string) error {
	c.mu.Lock()
	if c.calls == nil {
		c.calls = map[string]int{}
	}
	c.calls[call]++
	nth, before := c.calls[call], c.before
	c.mu.Unlock()
	if before == nil {
		return nil
	}
	return before(call, nth)
}

func (c *countingLock) Create(ctx context.Context, text string) error {
	if err := c.count("create"); err != nil {
		return err
	}
	return c.Lock.Create(ctx, text)
}

func (c *countingLock) Read(ctx context.Context) (string, error) {
	if err := c.count("read"); err != nil {
		return "", err
	}
	return c.Lock.Read(ctx)
}

func (c *countingLock) Swap(ctx context.Context, old, next string) error {
	if err := c.count("swap"); err != nil {
		return err
	}
	return c.Lock.Swap(ctx, old, next)
}

var errTried = errors.New("tried")

// TestFaultyState lets calls of the lock fail. A head is signed only if its state is stored. Only a swap with an
// unknown outcome is tried again. Afterwards a head is signed that follows the state in the lock.
func TestFaultyState(t *testing.T) {
	t.Parallel()
	ctx, key, l := limited(t), newKey(t), listOf(t, 20, 20)
	state := &countingLock{Lock: lock(t, t.TempDir())}
	g, err := NewGuarded(ctx, key, Guard{State: state, Create: true})
	must(t, err)
	size, timestamp := 0, uint64(100)
	_, err = g.SignHead(ctx, l.head(t, 0, timestamp), nil)
	must(t, err)
	for _, test := range []struct {
		what  string
		err   error
		times int
		kind  error
		swaps int
	}{
		{"the swap fails", errTried, 1, errTried, 1},
		{"the lock has another text", blob.ErrLost, 1, ErrMoved, 1},
		{"the lock is missing", blob.ErrAbsent, 1, blob.ErrAbsent, 1},
		{"the outcome is unknown once", blob.ErrUnknown, 1, nil, 2},
		{"the outcome is unknown four times", blob.ErrUnknown, 4, nil, 5},
		{"the outcome is always unknown", blob.ErrUnknown, 5, blob.ErrUnknown, 5},
		{"no fault", nil, 0, nil, 1},
	} {
		test := test
		state.mu.Lock()
		state.calls, state.before = nil, func(call string, nth int) error {
			if call == "swap" && nth <= test.times {
				return fmt.Errorf("%w, again", test.err)
			}
			return nil
		}
		state.mu.Unlock()
		timestamp++
		head := l.head(t, size+2, timestamp)
		signed, err := g.SignHead(ctx, head, l.proof(t, size, size+2))
		if !errors.Is(err, test.kind) || (signed == nil) != (err != nil) || err == nil &&
			CheckHead(key.Key(), head, signed) != nil {
			t.Errorf("%s: %v", test.what, err)
		}
		if state.calls["swap"] != test.swaps {
			t.Errorf("%s: %d swaps", test.what, state.calls["swap"])
		}
		if test.kind == nil {
			size += 2
		}
		last, err := g.Last(ctx)
		if must(t, err); last == nil || last.TreeSize != uint64(size) {
			t.Errorf("%s: the last head is %+v afterwards", test.what, last)
		}
	}
}

// TestFaultyStart: if the lock fails at a start, there is no signer, and the error contains the reason. An existing
// state is used whether or not Create is set.
func TestFaultyStart(t *testing.T) {
	t.Parallel()
	ctx, key, head := limited(t), newKey(t), listOf(t, 2, 2).head(t, 2, 5)
	for what, test := range map[string]struct {
		text, call string
		err, kind  error
	}{
		"it cannot be created":                      {"", "create", errTried, errTried},
		"it cannot be read":                         {none, "read", errTried, errTried},
		"it is missing":                             {none, "read", blob.ErrAbsent, ErrState},
		"its line end cannot be removed":            {textOf(&head) + "\n", "swap", errTried, errTried},
		"it changes before the line end is removed": {textOf(&head) + "\n", "swap", blob.ErrLost, blob.ErrLost},
	} {
		state := &countingLock{Lock: lock(t, t.TempDir())}
		if test.text != "" {
			must(t, state.Lock.Create(ctx, test.text))
		}
		test := test
		state.before = func(call string, _ int) error {
			if call == test.call {
				return test.err
			}
			return nil
		}
		if g, err := NewGuarded(ctx, key, Guard{State: state, Create: true}); !errors.Is(err, test.kind) || g != nil {
			t.Errorf("%s: %v", what, err)
		}
	}
	for _, create := range []bool{false, true} {
		state := lock(t, t.TempDir())
		must(t, state.Create(ctx, textOf(&head)))
		g, err := NewGuarded(ctx, key, Guard{State: state, Create: create})
		must(t, err)
		if state, err := g.currentState(ctx); err != nil || state.Text() != textOf(&head) {
			t.Errorf("with Create %t: its state is %s, %v", create, state.Text(), err)
		}
	}
}

// TestTurn: a caller that waits for another caller's request returns if its context ends.
func TestTurn(t *testing.T) {
	t.Parallel()
	ctx, l := limited(t), listOf(t, 2, 2)
	g := guardedIn(t, newKey(t), t.TempDir())
	gone, cancel := context.WithCancel(ctx)
	cancel()
	must(t, g.takeTurn(ctx))
	results := make(chan error, 3)
	go func() { _, err := g.Last(gone); results <- err }()
	go func() { _, err := g.SignHead(gone, l.head(t, 2, 5), nil); results <- err }()
	go func() { _, err := g.SignTimestamps(gone, []Receipt{{Leaf: l.leaves[0]}}); results <- err }()
	for i := 0; i < 3; i++ {
		select {
		case err := <-results:
			wantError(t, err, context.Canceled)
		case <-limited(t).Done():
			t.Error("a caller whose context has ended waits")
		}
	}
	<-g.turn
	_, err := g.SignHead(ctx, l.head(t, 2, 5), nil)
	must(t, err)
}

// TestKeyWithAnEndedContext: a key without a guard signs nothing for a context that has ended.
func TestKeyWithAnEndedContext(t *testing.T) {
	t.Parallel()
	gone, cancel := context.WithCancel(context.Background())
	cancel()
	key := newKey(t)
	if signed, err := key.SignHead(gone, ct.TreeHead{TreeSize: 1, Timestamp: 1}, nil); !errors.Is(err, context.Canceled) ||
		signed != nil {
		t.Errorf("a head: %v", err)
	}
	if signed, err := key.SignTimestamps(gone, []Receipt{{Leaf: leaf("x")}}); !errors.Is(err, context.Canceled) ||
		signed != nil {
		t.Errorf("a timestamp: %v", err)
	}
}

// TestMaxAhead: a head that is not ahead of this machine's clock by more than maxSkew may be as far after the last one
// as its timestamp says. Another head may be an hour after it.
func TestMaxAhead(t *testing.T) {
	t.Parallel()
	now := uint64(time.Now().UnixMilli())
	for _, timestamp := range []uint64{0, 1, now - 86_400_000, now, now + 30_000} {
		if max := maxAhead(ct.TreeHead{Timestamp: timestamp}); max != timestamp {
			t.Errorf("at %d, a head of %d may be %d ahead", now, timestamp, max)
		}
	}
	for _, timestamp := range []uint64{now + 120_000 + 60_000, now + 3_600_000, 1 << 62, 1 << 63, 1<<64 - 1} {
		if max := maxAhead(ct.TreeHead{Timestamp: timestamp}); max != 3_600_000 {
			t.Errorf("at %d a head of %d may be %d ahead", now, timestamp, max)
		}
	}
}
