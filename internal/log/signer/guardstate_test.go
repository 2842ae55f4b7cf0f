package signer

import (
	"context"
	"errors"
	"fmt"
	"os"
	"path/filepath"
	"strings"
	"sync"
	"testing"
	"time"

	"wagtenib/internal/blob"
	"wagtenib/internal/ct"
	"wagtenib/internal/testkit"
	"wagtenib/internal/testkit/unknownoutcome"
)

// TestStates starts signers with states that are missing or damaged.
func TestStates(t *testing.T) {
	t.Parallel()
	ctx, key, right := limited(t), newKey(t), listOf(t, 9, 9)
	first := right.head(t, 5, 100)
	_, err := NewGuarded(ctx, key, Guard{State: lock(t, t.TempDir())})
	wantError(t, err, ErrState)
	for _, text := range []string{"x", `{"guard":2,"last":null}`, `{"guard":1,"last":{}}`, `{"last":null,"guard":1}`,
		`{"guard": 1, "last": null}`, textOf(&first)[1:],
		strings.ReplaceAll(textOf(&first), ":", ": "), " " + textOf(&first), textOf(&first) + " ",
		strings.Replace(textOf(&first), `"tree_size":5`, `"tree_size":05`, 1),
		strings.Replace(textOf(&first), `"timestamp"`, `"x":1,"timestamp"`, 1)} {
		guard := Guard{State: lock(t, t.TempDir())}
		must(t, guard.State.Create(ctx, text))
		if _, err := NewGuarded(ctx, key, guard); !errors.Is(err, ErrState) {
			t.Errorf("%s: %v", text, err)
		}
	}
	// An operator's text with a line end is accepted. A text that is not a state stays as it is.
	guard := Guard{State: lock(t, t.TempDir())}
	must(t, guard.State.Create(ctx, "x\n"))
	_, err = NewGuarded(ctx, key, guard)
	wantError(t, err, ErrState)
	text, err := guard.State.Read(ctx)
	if must(t, err); text != "x\n" {
		t.Errorf("%q", text)
	}
	must(t, guard.State.Swap(ctx, "x\n", textOf(&first)+"\n"))
	g, err := NewGuarded(ctx, key, guard)
	must(t, err)
	_, err = g.SignHead(ctx, right.head(t, 9, 101), right.proof(t, 5, 9))
	must(t, err)
	full := &unknownoutcome.Lock{Lock: lock(t, t.TempDir()), Every: 3, Fails: errors.New("a disk is full")}
	_, err = NewGuarded(ctx, key, Guard{State: full, Create: true})
	wantError(t, err, full.Fails)
	must(t, full.Lock.Create(ctx, textOf(&first)+"\n"))
	_, err = NewGuarded(ctx, key, Guard{State: full})
	wantError(t, err, full.Fails)
}

// TestRefusesRolledBackState rolls back the guard's state while a signer runs, or writes another form of it. Nothing is
// signed until the newest state is restored.
func TestRefusesRolledBackState(t *testing.T) {
	t.Parallel()
	folder, l, fork, ctx := t.TempDir(), listOf(t, 8, 8), listOf(t, 8, 0), limited(t)
	text := filepath.Join(folder, "guard", "text")
	g := guardedIn(t, newKey(t), folder)
	_, err := g.SignHead(ctx, l.head(t, 3, 30), nil)
	must(t, err)
	old, err := os.ReadFile(text)
	must(t, err)
	_, err = g.SignHead(ctx, l.head(t, 5, 50), l.proof(t, 3, 5))
	must(t, err)
	newest, err := os.ReadFile(text)
	must(t, err)
	for _, state := range []string{string(old), none, textOf(&ct.TreeHead{TreeSize: 5, Timestamp: 50, Root: [32]byte{1}}),
		textOf(&ct.TreeHead{TreeSize: 4, Timestamp: 60, Root: [32]byte{}}), strings.Replace(string(newest), ":", ": ", 1)} {
		must(t, blob.KeepFile(text, []byte(state)))
		if _, err := g.Last(ctx); !errors.Is(err, ErrState) {
			t.Errorf("%s: %v", state, err)
		}
		for _, list := range []*list{l, fork} {
			if signed, err := g.SignHead(ctx, list.head(t, 8, 80), list.proof(t, 3, 8)); !errors.Is(err, ErrState) ||
				signed != nil {
				t.Errorf("%s: signed, %v", state, err)
			}
		}
	}
	must(t, blob.KeepFile(text, newest))
	// A signer that has only read the newest state knows it too.
	other, err := NewGuarded(ctx, newKey(t), Guard{State: lock(t, folder)})
	must(t, err)
	must(t, blob.KeepFile(text, old))
	_, err = other.Last(ctx)
	wantError(t, err, ErrState)
	must(t, blob.KeepFile(text, newest))
	_, err = g.SignHead(ctx, l.head(t, 8, 80), l.proof(t, 5, 8))
	must(t, err)
}

// TestTwoSigners uses one state for two signers. The one with an older head gets ErrMoved, and continues from the head
// of the other one. If they are asked for two forks at the same time, only one is signed.
func TestTwoSigners(t *testing.T) {
	t.Parallel()
	ctx, key, folder, right, fork := limited(t), newKey(t), t.TempDir(), listOf(t, 20, 20), listOf(t, 20, 4)
	one := guardedIn(t, key, folder)
	_, err := one.SignHead(ctx, right.head(t, 0, 99), nil)
	must(t, err)
	two := guardedIn(t, key, folder)
	_, err = one.SignHead(ctx, right.head(t, 5, 100), nil)
	must(t, err)
	// The second signer has not seen this head, but it is the same one.
	_, err = two.SignHead(ctx, right.head(t, 5, 100), nil)
	must(t, err)
	_, err = one.SignHead(ctx, right.head(t, 9, 101), right.proof(t, 5, 9))
	must(t, err)
	_, err = two.SignHead(ctx, fork.head(t, 9, 102), fork.proof(t, 5, 9))
	wantRefusal(t, "inconsistent", err)
	_, err = two.SignHead(ctx, right.head(t, 8, 102), right.proof(t, 5, 8))
	wantError(t, err, ErrMoved)
	_, err = two.SignHead(ctx, right.head(t, 8, 102), right.proof(t, 5, 8))
	wantRefusal(t, "size-falls", err)
	if last, err := two.Last(ctx); err != nil || *last != right.head(t, 9, 101) {
		t.Errorf("%v, %v", last, err)
	}
	_, err = two.SignHead(ctx, right.head(t, 12, 102), right.proof(t, 9, 12))
	must(t, err)
	if last, err := one.Last(ctx); err != nil || *last != right.head(t, 12, 102) {
		t.Errorf("%v, %v", last, err)
	}
	later := listOf(t, 20, 13)
	for timestamp := uint64(200); timestamp < 204; timestamp++ {
		folder := t.TempDir()
		a, b := guardedIn(t, key, folder), guardedIn(t, key, folder)
		failed := make(chan error, 2)
		go func() {
			_, err := a.SignHead(ctx, right.head(t, 20, timestamp), nil)
			failed <- err
		}()
		go func() {
			_, err := b.SignHead(ctx, later.head(t, 20, timestamp), nil)
			failed <- err
		}()
		if x, y := <-failed, <-failed; (x == nil) == (y == nil) ||
			!errors.Is(fmt.Errorf("%w", firstError(x, y)), ErrMoved) {
			t.Errorf("%v and %v", x, y)
		}
	}
}

func firstError(one, other error) error {
	if one != nil {
		return one
	}
	return other
}

// TestFailedSwap lets the swap of the state fail. Nothing is signed, and the signer forgets the head.
func TestFailedSwap(t *testing.T) {
	t.Parallel()
	ctx, key, right, fork := limited(t), newKey(t), listOf(t, 20, 20), listOf(t, 20, 3)
	state := &unknownoutcome.Lock{Lock: lock(t, t.TempDir()), Every: 3}
	g, err := NewGuarded(ctx, key, Guard{State: state, Create: true})
	must(t, err)
	_, err = g.SignHead(ctx, right.head(t, 4, 100), nil)
	must(t, err)
	for _, fails := range []error{blob.ErrUnknown, errors.New("a disk is full")} {
		state.Fails = fails
		_, err = g.SignHead(ctx, fork.head(t, 8, 101), fork.proof(t, 4, 8))
		wantRefusal(t, "inconsistent", err)
		_, err = g.SignHead(ctx, right.head(t, 8, 101), right.proof(t, 4, 8))
		wantError(t, err, fails)
		// A leaf of the head that was not stored.
		_, err = g.SignTimestamps(ctx, []Receipt{right.receipt(t, 7, 8)})
		wantRefusal(t, "not-there", err)
		if last, err := g.Last(ctx); err != nil || last.TreeSize != 4 {
			t.Errorf("%+v, %v", last, err)
		}
	}
	state.Fails = nil
	_, err = g.SignHead(ctx, right.head(t, 9, 102), right.proof(t, 4, 9))
	must(t, err)
}

// misreadLock is a lock whose Read returns another text than the one that it has.
type misreadLock struct {
	blob.Lock
	reads string
}

func (l *misreadLock) Read(ctx context.Context) (string, error) {
	if l.reads != "" {
		return l.reads, nil
	}
	return l.Lock.Read(ctx)
}

// TestSignsNothingForMisreadLock lets the lock return an older state, one of a fork, one before the first head, and a
// later one. The guard approves heads after these states, but the swap fails, so nothing is signed.
func TestSignsNothingForMisreadLock(t *testing.T) {
	t.Parallel()
	ctx, key, right, fork := limited(t), newKey(t), listOf(t, 20, 20), listOf(t, 20, 3)
	older, other, later := right.head(t, 5, 100), fork.head(t, 9, 101), right.head(t, 12, 103)
	for _, reads := range []string{none, textOf(&older), textOf(&other), textOf(&later)} {
		state := &misreadLock{Lock: lock(t, t.TempDir())}
		g, err := NewGuarded(ctx, key, Guard{State: state, Create: true})
		must(t, err)
		_, err = g.SignHead(ctx, older, nil)
		must(t, err)
		_, err = g.SignHead(ctx, right.head(t, 9, 102), right.proof(t, 5, 9))
		must(t, err)
		before, err := state.Read(ctx)
		must(t, err)
		state.reads = reads
		g, err = NewGuarded(ctx, key, Guard{State: state})
		must(t, err)
		last, err := g.Last(ctx)
		must(t, err)
		from := 0
		if last != nil {
			from = int(last.TreeSize)
		}
		for _, l := range []*list{right, fork} {
			signed, err := g.SignHead(ctx, l.head(t, 20, 104), l.proof(t, from, 20))
			if !errors.Is(err, ErrMoved) && !errors.Is(err, ErrRefused) || signed != nil {
				t.Errorf("%s: %v", reads, err)
			}
		}
		if last != nil {
			// The head that the lock seems to have, again.
			if signed, err := g.SignHead(ctx, *last, nil); !errors.Is(err, ErrMoved) || signed != nil {
				t.Errorf("%s: the same head again: %v", reads, err)
			}
		}
		if text, err := state.Lock.Read(ctx); err != nil || text != before {
			t.Errorf("%s: the lock has %s, %v", reads, text, err)
		}
	}
}

// unreadableLock is a lock that cannot be read while fails is an error.
type unreadableLock struct {
	blob.Lock
	mu    sync.Mutex
	fails error
}

func (f *unreadableLock) set(err error) {
	f.mu.Lock()
	defer f.mu.Unlock()
	f.fails = err
}

func (f *unreadableLock) Read(ctx context.Context) (string, error) {
	f.mu.Lock()
	fails := f.fails
	f.mu.Unlock()
	if fails != nil {
		return "", fails
	}
	return f.Lock.Read(ctx)
}

// TestUnreadStates lets reading the lock fail for some time. The state does not count as missing, and heads are signed
// again afterwards.
func TestUnreadStates(t *testing.T) {
	t.Parallel()
	ctx, key, right := limited(t), newKey(t), listOf(t, 20, 20)
	state := &unreadableLock{Lock: lock(t, t.TempDir())}
	g, err := NewGuarded(ctx, key, Guard{State: state, Create: true})
	must(t, err)
	path := filepath.Join(t.TempDir(), "socket")
	go func() { _ = Listen(ctx, g, Socket{Path: path}) }()
	var c *Client
	for c == nil {
		if c, err = NewClient(ctx, func(ctx context.Context) (*Peer, error) { return Dial(ctx, path) },
			testkit.Longest); err != nil {
			wantError(t, err, ErrGone)
			time.Sleep(time.Millisecond)
		}
	}
	defer c.Close()
	size := 0
	for _, s := range []Signer{g, c} {
		_, err := s.SignHead(ctx, right.head(t, size+1, uint64(size+1)), right.proof(t, size, size+1))
		must(t, err)
		size++
		for fails, isState := range map[error]bool{errors.New("a lock that is late"): false,
			context.DeadlineExceeded: false, blob.ErrAbsent: true} {
			state.set(fails)
			if _, err := s.Last(ctx); err == nil || errors.Is(err, ErrState) != isState {
				t.Errorf("%v: %v", fails, err)
			}
		}
		state.set(nil)
		if last, err := s.Last(ctx); err != nil || last.TreeSize != uint64(size) {
			t.Errorf("%+v, %v", last, err)
		}
	}
}

// TestConcurrentRequests lets many goroutines ask one signer. Each gets the answer to its request.
func TestConcurrentRequests(t *testing.T) {
	t.Parallel()
	ctx, right := limited(t), listOf(t, 8, 8)
	key := newKey(t)
	g := guardedIn(t, key, t.TempDir())
	head := right.head(t, 8, 100)
	_, err := g.SignHead(ctx, head, nil)
	must(t, err)
	failed := make(chan error)
	for at := 0; at < 8; at++ {
		receipt := right.receipt(t, at, 8)
		go func() {
			for i := 0; i < 10; i++ {
				if signed, err := g.SignHead(ctx, head, nil); err != nil || CheckHead(key.Key(), head, signed) != nil {
					failed <- fmt.Errorf("a head: %v", err)
					return
				}
				if signed, err := g.SignTimestamps(ctx, []Receipt{receipt}); err != nil ||
					Check(key.Key(), receipt.Leaf, signed[0]) != nil {
					failed <- fmt.Errorf("a timestamp: %v", err)
					return
				}
				if last, err := g.Last(ctx); err != nil || *last != head {
					failed <- fmt.Errorf("the last head: %v", err)
					return
				}
			}
			failed <- nil
		}()
	}
	for at := 0; at < 8; at++ {
		if err := <-failed; err != nil {
			t.Error(err)
		}
	}
}
