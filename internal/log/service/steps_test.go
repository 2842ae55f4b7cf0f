package service_test

import (
	"context"
	"crypto/sha256"
	"errors"
	"fmt"
	"os"
	"strings"
	"sync"
	"sync/atomic"
	"testing"
	"time"

	"wagtenib/internal/blob"
	"wagtenib/internal/ct"
	"wagtenib/internal/log/node"
	"wagtenib/internal/log/service"
)

// identityOf returns the identity of a certificate's entry: SHA-256 over the entry type and the certificate.
func identityOf(entry ct.Entry) blob.Identity {
	return sha256.Sum256(append([]byte{0, 0}, entry.Certificate...))
}

// TestRepairsPlaceBeyondTheLog checks that, if the index has a place beyond the end of the log for a new entry, the
// step sets the right place, so that a duplicate is found.
func TestRepairsPlaceBeyondTheLog(t *testing.T) {
	t.Parallel()
	p, got := newPlace(t), &answers{}
	config := p.config()
	l := started(t, config)
	got.submit(t, l, 0, 3)
	must(t, config.Stores.Index.Add(limited(t), []blob.Row{{Identity: identityOf(entryOf(4)),
		Leaf: blob.Identity{4}, Place: blob.Place{Index: 1000, Timestamp: 1}}}))
	for range 3 {
		place, err := l.Submit(limited(t), entryOf(4))
		must(t, err)
		got.add(entryOf(4), place)
	}
	if leaves := p.checkLog(got); leaves != 4 {
		t.Errorf("%d entries", leaves)
	}
}

// unsure is a lock whose next swap is done, but reports that its outcome is unknown.
type unsure struct {
	blob.Lock
	next atomic.Bool
}

func (u *unsure) Swap(ctx context.Context, old, new string) error {
	err := u.Lock.Swap(ctx, old, new)
	if err == nil && u.next.CompareAndSwap(true, false) {
		return blob.ErrUnknown
	}
	return err
}

// TestSwapOfUnknownOutcomeIsMadeAgain checks that a swap of unknown outcome is made again, which shows that it was
// done. It does not count as lost.
func TestSwapOfUnknownOutcomeIsMadeAgain(t *testing.T) {
	t.Parallel()
	p, got := newPlace(t), &answers{}
	config := p.config()
	lock := &unsure{Lock: config.Stores.Lock}
	config.Stores.Lock = lock
	l := started(t, config)
	got.submit(t, l, 0, 3)
	lock.next.Store(true)
	got.submit(t, l, 3, 4)
	if f := l.Metrics(); f.LostSwaps != 0 || f.UnknownSwaps != 1 {
		t.Errorf("%d swaps are lost, and %d had an unknown outcome", f.LostSwaps, f.UnknownSwaps)
	}
	p.checkLog(got)
}

// TestRefusesStepBesideAnotherHistory checks that a decided step is not published if the store has a head that does not
// belong to the log's history. Then the lock was rolled back before the step, and the log had gone on. Such a head has
// more entries, or it is between two states of which one follows the other.
func TestRefusesStepBesideAnotherHistory(t *testing.T) {
	t.Parallel()
	for _, size := range []int{3, 10} {
		p, got := newPlace(t), &answers{}
		config := p.config()
		// A guard would refuse the head, too, so the signer has no guard.
		config.Signer = p.key
		clock := &stopped{Clock: config.Machine.Clock}
		config.Machine.Clock = clock
		l := started(t, config)
		got.submit(t, l, 0, 3)
		head, err := l.Checkpoint(limited(t))
		must(t, err)
		other := head.Timestamp + 1
		must(t, os.WriteFile(p.object(fmt.Sprintf("heads/%020d-%020d", size, other)), []byte("a head"), 0o644))
		eventually(t, "the next timestamp is later", func() bool { return uint64(time.Now().UnixMilli()) > other })
		// The previous step's list of the heads is too old then.
		clock.elapsed.Add(int64(time.Second))
		_, err = l.Submit(limited(t), entryOf(3))
		wants(t, err, node.ErrRolledBack)
		if head, err := l.Checkpoint(limited(t)); err != nil || head.TreeSize != 3 {
			t.Errorf("%v, %d entries", err, head.TreeSize)
		}
	}
}

// awayIndex is an index that does not answer lookups while it is away. It counts the failed lookups.
type awayIndex struct {
	blob.Index
	isAway atomic.Bool
	failed atomic.Int64
}

var errLost = errors.New("the index does not answer")

func (i *awayIndex) Find(ctx context.Context, identities []blob.Identity) (map[blob.Identity]blob.Place, error) {
	if i.isAway.Load() {
		i.failed.Add(1)
		return nil, errLost
	}
	return i.Index.Find(ctx, identities)
}

// TestFaultOfTheIndexLasts checks that the fault of an index lasts as long as the index does not answer, although a
// step without entries would not ask it.
func TestFaultOfTheIndexLasts(t *testing.T) {
	t.Parallel()
	p, got := newPlace(t), &answers{}
	config := p.config()
	index := &awayIndex{Index: config.Stores.Index}
	config.Stores.Index = index
	l := started(t, config)
	// Nothing is looked up before the first step, so the step asks the index.
	index.isAway.Store(true)
	_, err := l.Submit(limited(t), entryOf(0))
	wants(t, err, errLost)
	before := index.failed.Load()
	eventually(t, "the index is asked again", func() bool {
		if l.Metrics().Fault == "" {
			t.Fatal("the fault is over although the index does not answer")
		}
		return index.failed.Load() > before+1
	})
	index.isAway.Store(false)
	eventually(t, "it goes on", func() bool { return l.Metrics().Fault == "" })
	got.submit(t, l, 0, 1)
	p.checkLog(got)
}

// held is a store of objects that calls a function before each get, and another one before each put.
type held struct {
	blob.Objects
	mu  sync.Mutex
	get func(name string) error
	put func(name string)
}

func (h *held) Get(ctx context.Context, name string, maxBytes int64) ([]byte, error) {
	h.mu.Lock()
	get := h.get
	h.mu.Unlock()
	if get != nil {
		if err := get(name); err != nil {
			return nil, err
		}
	}
	return h.Objects.Get(ctx, name, maxBytes)
}

func (h *held) Put(ctx context.Context, name string, content []byte) error {
	h.mu.Lock()
	put := h.put
	h.mu.Unlock()
	if put != nil {
		put(name)
	}
	return h.Objects.Put(ctx, name, content)
}

// readTexts is a lock that records when each text was first read.
type readTexts struct {
	blob.Lock
	mu   sync.Mutex
	when map[string]time.Time
	last string
}

func (r *readTexts) Read(ctx context.Context) (string, error) {
	text, err := r.Lock.Read(ctx)
	r.mu.Lock()
	defer r.mu.Unlock()
	if _, seen := r.when[text]; !seen && err == nil {
		r.when[text], r.last = time.Now(), text
	}
	return text, err
}

// another returns the configuration of another node of the log, on another machine. The name is that of its file of the
// latest head.
func (p *place) another(name string) service.Config {
	config := p.config()
	config.Machine.Files.LatestHead = p.path(name)
	return config
}

// TestWaitsForTheNodeThatMadeAStep checks that a node waits for a while before it completes a step of another node,
// also if neither has an address.
func TestWaitsForTheNodeThatMadeAStep(t *testing.T) {
	t.Parallel()
	p, got := newPlace(t), &answers{}
	config := p.config()
	maker := &held{Objects: config.Stores.Objects}
	config.Stores.Objects = maker
	l := started(t, config)
	got.submit(t, l, 0, 3)

	other := p.another("other-latest-head")
	texts := &readTexts{Lock: other.Stores.Lock, when: map[string]time.Time{}}
	helped := make(chan time.Duration, 1)
	helper := &held{Objects: other.Stores.Objects, get: func(name string) error {
		if strings.HasPrefix(name, "staging/") {
			texts.mu.Lock()
			since := time.Since(texts.when[texts.last])
			texts.mu.Unlock()
			select {
			case helped <- since:
			default:
			}
		}
		return nil
	}}
	other.Stores.Objects, other.Stores.Lock = helper, texts
	started(t, other)

	release := make(chan struct{})
	maker.mu.Lock()
	maker.put = func(name string) {
		if strings.HasPrefix(name, "heads/") {
			<-release
		}
	}
	maker.mu.Unlock()
	submitted := make(chan error, 1)
	go func() {
		place, err := l.Submit(limited(t), entryOf(4))
		if err == nil {
			got.add(entryOf(4), place)
		}
		submitted <- err
	}()
	// The other node reads the step's staged batch at the earliest 400 ms after it read the state of the step.
	if since := <-helped; since < 400*time.Millisecond {
		t.Errorf("the other node reads the staged batch %v after the state of the step", since)
	}
	close(release)
	must(t, <-submitted)
	p.checkLog(got)
}

// TestStagedBatchOfAnOlderStepIsGone checks that it is no fault if the staged batch of another node's step was deleted
// before a node read it, because the other node went on. The node reads the lock again.
func TestStagedBatchOfAnOlderStepIsGone(t *testing.T) {
	t.Parallel()
	p, got := newPlace(t), &answers{}
	config := p.config()
	maker := &held{Objects: config.Stores.Objects}
	config.Stores.Objects = maker
	l := started(t, config)
	got.submit(t, l, 0, 3)

	release, wentOn := make(chan struct{}), make(chan struct{})
	other := p.another("other-latest-head")
	once := sync.OnceFunc(func() {
		close(release)
		<-wentOn
	})
	var isOver atomic.Bool
	other.Stores.Objects = &held{Objects: other.Stores.Objects, get: func(name string) error {
		if strings.HasPrefix(name, "staging/") && !isOver.Load() {
			once()
			isOver.Store(true)
			return blob.ErrAbsent
		}
		return nil
	}}
	second := started(t, other)
	maker.mu.Lock()
	maker.put = func(name string) {
		if strings.HasPrefix(name, "heads/") {
			<-release
		}
	}
	maker.mu.Unlock()
	got.submit(t, l, 4, 5)
	got.submit(t, l, 5, 6)
	close(wentOn)
	got.submit(t, second, 6, 7)
	if fault := second.Metrics().LastFault; !isOver.Load() || fault != "" {
		t.Errorf("the other node read the staged batch: %t, and had the fault %q", isOver.Load(), fault)
	}
	p.checkLog(got)
}
