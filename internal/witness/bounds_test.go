package witness

import (
	"context"
	"crypto/ed25519"
	"errors"
	"reflect"
	"strings"
	"testing"
	"time"

	"golang.org/x/mod/sumdb/tlog"

	"wagtenib/bindings/go/wagtenib"
	"wagtenib/internal/blob"
)

// deadlineLock is a lock that sends the time that remains until the deadline of each read.
type deadlineLock struct {
	blob.Lock
	remaining chan time.Duration
}

func (b deadlineLock) Read(ctx context.Context) (string, error) {
	deadline, hasDeadline := ctx.Deadline()
	if !hasDeadline {
		deadline = time.Now().Add(24 * time.Hour)
	}
	b.remaining <- time.Until(deadline)
	return b.Lock.Read(ctx)
}

// TestRequestHasAnEnd checks that each request has a deadline, so that a lock that does not answer blocks no slot
// forever.
func TestRequestHasAnEnd(t *testing.T) {
	by, one := headKey(t, origin), leavesOf(t, "a", "b", "c")
	state := deadlineLock{&memoryLock{}, make(chan time.Duration, 4)}
	s := witnessOver(t, state, newKey(t), by)
	// The check at the start also reads the lock.
	<-state.remaining
	if w := post(t, s, request(0, nil, by.sign(checkpoint(origin, 3, one.root(t, 3))))); w.Code != 200 {
		t.Fatalf("%d %s", w.Code, w.Body)
	}
	if remaining := <-state.remaining; remaining > requestTimeout || remaining < requestTimeout/2 {
		t.Errorf("the deadline is in %v", remaining)
	}
}

// TestFromOneEntry checks that a proof must also lead from a tree of one entry to the next tree.
func TestFromOneEntry(t *testing.T) {
	one, other := leavesOf(t, "a", "b", "c"), leavesOf(t, "x", "b", "c")
	last := wagtenib.WitnessedTree{Root: one.root(t, 1), TreeSize: 1}
	if err := checkConsistent(last, Request{Old: 1, Proof: one.proof(t, 1, 3)}, wagtenib.Checkpoint{TreeSize: 3, Root: one.root(t, 3)}); err != nil {
		t.Error(err)
	}
	for what, err := range map[string]error{
		"a fork":                     checkConsistent(last, Request{Old: 1, Proof: other.proof(t, 1, 3)}, wagtenib.Checkpoint{TreeSize: 3, Root: other.root(t, 3)}),
		"no proof":                   checkConsistent(last, Request{Old: 1}, wagtenib.Checkpoint{TreeSize: 3, Root: one.root(t, 3)}),
		"another entry in its place": checkConsistent(last, Request{Old: 1}, wagtenib.Checkpoint{TreeSize: 1, Root: other.root(t, 1)}),
	} {
		if err == nil {
			t.Errorf("%s follows", what)
		}
	}
}

// TestStatesInOneText checks that each state has exactly one form of text, and that a key's name is one word without a
// plus sign, even if the key ID matches the name.
func TestStatesInOneText(t *testing.T) {
	last, err := readMessage(Message(7, checkpoint(origin, 5, tlog.Hash{9})), origin)
	must(t, err)
	for _, of := range []state{emptyState(origin), last} {
		text, err := of.text()
		must(t, err)
		if read, err := readState(text, origin); err != nil || !reflect.DeepEqual(read, of) {
			t.Errorf("%q: %v, %v", text, read, err)
		}
		for _, wrong := range []string{text + text, text + "{}", text + "x", text + "\n", text[:len(text)-1], "x" +
			text, strings.Replace(text, "\n", "\r\n", 1), strings.Replace(text, origin, "other.example", 1)} {
			if _, err := readState(wrong, origin); !errors.Is(err, ErrState) {
				t.Errorf("%q: %v", wrong, err)
			}
		}
	}
	key := newKey(t).Public().(ed25519.PublicKey)
	for _, name := range []string{"", "w example", " w", "w\u00a0example"} {
		if _, _, err := ReadVerifierKey(VerifierKey(name, key)); !errors.Is(err, ErrKey) {
			t.Errorf("%q is a name: %v", name, err)
		}
	}
}
