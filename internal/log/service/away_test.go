package service_test

import (
	"bytes"
	"context"
	"crypto/ed25519"
	"crypto/rand"
	"errors"
	"fmt"
	"io"
	"net/http"
	"net/http/httptest"
	"strings"
	"sync"
	"sync/atomic"
	"testing"
	"time"

	"golang.org/x/mod/sumdb/note"

	"wagtenib/internal/blob"
	"wagtenib/internal/ct"
	"wagtenib/internal/log/service"
	"wagtenib/internal/witness"
)

// later is this machine's clock after a jump to a later time. It is not synchronized.
type later struct {
	service.Clock
	by atomic.Int64
}

func (l *later) Now() time.Time                               { return l.Clock.Now().Add(time.Duration(l.by.Load())) }
func (l *later) Elapsed() time.Duration                       { return l.Clock.Elapsed() + time.Duration(l.by.Load()) }
func (l *later) Synchronized() (isSynchronized, isKnown bool) { return false, true }

// TestGoesOnAfterADayWithoutHeads checks that a running node trusts its clock even after more than a day without a
// head, because its store may have been away for so long. Only a node that starts needs another clock then.
func TestGoesOnAfterADayWithoutHeads(t *testing.T) {
	t.Parallel()
	p, got := newPlace(t), &answers{}
	config := p.config()
	clock := &later{Clock: service.Machine()}
	// The guard has the machine's own clock, by which the next head is of the future, so the signer has no guard.
	config.Machine.Clock, config.Signer = clock, p.key
	l := started(t, config)
	got.submit(t, l, 0, 3)
	clock.by.Store(int64(30 * time.Hour))
	place, err := l.Submit(limited(t), entryOf(5))
	must(t, err)
	if at := time.UnixMilli(int64(place.Timestamp)); at.Before(time.Now().Add(29 * time.Hour)) {
		t.Errorf("the timestamp is %v", at)
	}
	if fault := l.Metrics().LastFault; fault != "" {
		t.Error(fault)
	}
}

// unread is a lock that does not answer readers while it is away.
type unread struct {
	blob.Lock
	isAway atomic.Bool
}

var errUnread = errors.New("the lock does not answer")

func (u *unread) Read(ctx context.Context) (string, error) {
	if u.isAway.Load() {
		return "", errUnread
	}
	return u.Lock.Read(ctx)
}

// asked is the handler of a witness. It counts the requests to cosign a head that it was asked to cosign before.
type asked struct {
	http.Handler
	mu    sync.Mutex
	seen  map[string]bool
	again int
}

func (a *asked) ServeHTTP(w http.ResponseWriter, r *http.Request) {
	body, err := io.ReadAll(r.Body)
	if err == nil {
		if of, err := witness.ParseRequest(body); err == nil {
			a.count(string(of.Note))
		}
	}
	r.Body = io.NopCloser(bytes.NewReader(body))
	a.Handler.ServeHTTP(w, r)
}

func (a *asked) count(note string) {
	a.mu.Lock()
	defer a.mu.Unlock()
	if a.seen[note] {
		a.again++
	}
	a.seen[note] = true
}

func (a *asked) times() int {
	a.mu.Lock()
	defer a.mu.Unlock()
	return a.again
}

// witnessed adds a witness to a configuration, and returns its handler.
func (p *place) witnessed(config *service.Config) *asked {
	p.t.Helper()
	_, private, err := ed25519.GenerateKey(rand.Reader)
	must(p.t, err)
	name := fmt.Sprintf("w%d.example", len(config.Witnesses))
	s, err := witness.New(witness.Options{Name: name, Key: private})
	must(p.t, err)
	state, err := blob.OpenFile(p.path(name))
	must(p.t, err)
	p.t.Cleanup(func() { must(p.t, state.Close()) })
	of := witness.Log{Origin: config.Origin, State: state,
		Keys: []note.Verifier{ct.LogVerifier(config.Origin, p.key.Key())}}
	must(p.t, of.Create(limited(p.t)))
	s.SetLogs([]witness.Log{of})
	a := &asked{Handler: s, seen: map[string]bool{}}
	over := httptest.NewServer(a)
	p.t.Cleanup(over.Close)
	one, err := witness.ReadOne(over.URL + "," + s.VerifierKey())
	must(p.t, err)
	config.Witnesses, config.Quorums = append(config.Witnesses, one), witness.Quorums{Publish: 1, Start: 1}
	return a
}

// TestWitnessesAreAskedAgainAfterTheLockWasAway checks that a node that could not read the lock has its witnesses
// cosign the newest head again before it accepts submissions, because it does not know what was decided meanwhile.
func TestWitnessesAreAskedAgainAfterTheLockWasAway(t *testing.T) {
	t.Parallel()
	p, got := newPlace(t), &answers{}
	config := p.config()
	w := p.witnessed(&config)
	lock := &unread{Lock: config.Stores.Lock}
	config.Stores.Lock = lock
	l := started(t, config)
	got.submit(t, l, 0, 3)
	if again := w.times(); again != 0 {
		t.Fatalf("the first heads are cosigned again %d times", again)
	}
	lock.isAway.Store(true)
	eventually(t, "the node has a fault", func() bool { return strings.Contains(l.Metrics().Fault, errUnread.Error()) })
	lock.isAway.Store(false)
	eventually(t, "the lock is read again", func() bool { return l.Metrics().Fault == "" })
	got.submit(t, l, 3, 4)
	if again := w.times(); again == 0 {
		t.Error("the node accepts a submission although the newest head was not cosigned again")
	}
}
