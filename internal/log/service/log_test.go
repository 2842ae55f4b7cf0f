package service_test

import (
	"context"
	"crypto/sha256"
	"encoding/binary"
	"errors"
	"os"
	"strings"
	"sync"
	"sync/atomic"
	"testing"
	"time"

	"wagtenib/internal/blob"
	"wagtenib/internal/ct"
	"wagtenib/internal/log"
	"wagtenib/internal/log/node"
	"wagtenib/internal/log/service"
	"wagtenib/internal/log/signer"
)

// TestOneNode submits 700 entries, which fill two tiles, with a restart in between. All must be answered, and the log's
// folder must be right.
func TestOneNode(t *testing.T) {
	t.Parallel()
	p, got := newPlace(t), &answers{}
	l := started(t, p.config())
	got.submit(t, l, 0, 400)
	ends(t, l)
	_, err := l.Submit(limited(t), entryOf(0))
	wants(t, err, log.ErrEnded)
	l = started(t, p.config())
	got.submit(t, l, 300, 700)
	if leaves := p.checkLog(got); leaves != 700 {
		t.Errorf("%d entries", leaves)
	}
	head, err := l.Checkpoint(limited(t))
	must(t, err)
	f := l.Metrics()
	if head.TreeSize != 700 || f.Entries != 700 || f.Queue != 0 || f.Unpublished != 0 || f.Duplicates != 100 ||
		f.Fault != "" || f.Steps == 0 || f.Batches.Submissions != 300 || f.WrittenBytes == 0 {
		t.Errorf("%+v %+v", head, f)
	}
	must(t, signer.CheckHead(p.key.Key(), head.TreeHead, head.Signature))
	for _, phase := range f.Phases {
		if phase.Count == 0 && phase.Name != "delete" {
			t.Errorf("no %s is counted", phase.Name)
		}
	}
	for _, name := range []string{"tile/0/000", "tile/1/000.p/2", "tile/data/001", "tile/data/002.p/188"} {
		if content, err := l.Object(limited(t), name, blob.MaxObject); err != nil || len(content) == 0 {
			t.Errorf("%s: %v", name, err)
		}
	}
}

// TestIndexOf checks that each leaf is found by its hash, and that an unknown hash is not found.
func TestIndexOf(t *testing.T) {
	t.Parallel()
	p, got := newPlace(t), &answers{}
	l := started(t, p.config())
	got.submit(t, l, 0, 20)
	for n := range 20 {
		place, err := l.Submit(limited(t), entryOf(n))
		must(t, err)
		found, err := l.IndexOf(limited(t), leafHash(entryOf(n), place))
		must(t, err)
		if found != indexOf(place) {
			t.Errorf("leaf %d is found at %d", indexOf(place), found)
		}
	}
	_, err := l.IndexOf(limited(t), sha256.Sum256([]byte("no leaf")))
	wants(t, err, blob.ErrAbsent)
}

// leafHash returns the hash of an entry's MerkleTreeLeaf (RFC 6962, sections 2.1 and 3.4).
func leafHash(of ct.Entry, at ct.SCT) [32]byte {
	leaf := append([]byte{0, 0, 0}, binary.BigEndian.AppendUint64(nil, at.Timestamp)...)
	leaf = append(leaf, byte(of.Type>>8), byte(of.Type))
	content := of.Certificate
	if of.Type == ct.PrecertEntry {
		leaf, content = append(leaf, of.IssuerKeyHash[:]...), of.TBSCertificate
	}
	leaf = append(leaf, byte(len(content)>>16), byte(len(content)>>8), byte(len(content)))
	leaf = append(append(leaf, content...), 0, byte(len(at.Extensions)))
	return sha256.Sum256(append(leaf, at.Extensions...))
}

// slow is a store of objects. After hold, each put of a staged batch waits until release is called.
type slow struct {
	blob.Objects
	mu    sync.Mutex
	until chan struct{}
}

func (s *slow) hold() (release func()) {
	s.mu.Lock()
	defer s.mu.Unlock()
	s.until = make(chan struct{})
	return sync.OnceFunc(func() { close(s.until) })
}

func (s *slow) Put(ctx context.Context, name string, content []byte) error {
	s.mu.Lock()
	until := s.until
	s.mu.Unlock()
	if until != nil && strings.HasPrefix(name, "staging/") {
		select {
		case <-until:
		case <-ctx.Done():
			return ctx.Err()
		}
	}
	return s.Objects.Put(ctx, name, content)
}

// TestFullQueue checks that the queue holds a limited number of submissions, and that a submission leaves it when its
// client gives up.
func TestFullQueue(t *testing.T) {
	t.Parallel()
	p, got := newPlace(t), &answers{}
	config := p.config()
	config.Pace.MaxQueue, config.Pace.MaxBatch = 3, 1
	held := &slow{Objects: config.Stores.Objects}
	config.Stores.Objects = held
	l := started(t, config)
	got.submit(t, l, 0, 1)
	release := held.hold()
	defer release()
	ctx, cancel := context.WithCancel(limited(t))
	gaveUp := make(chan error, 3)
	for n := 1; n < 4; n++ {
		go func() {
			_, err := l.Submit(ctx, entryOf(n))
			gaveUp <- err
		}()
		eventually(t, "it waits", func() bool { return l.Metrics().Queue == n })
	}
	_, err := l.Submit(limited(t), entryOf(9))
	wants(t, err, log.ErrBusy)
	cancel()
	for range 3 {
		wants(t, <-gaveUp, context.Canceled)
	}
	// One submission is in a step, and stays in it.
	eventually(t, "the others left", func() bool { return l.Metrics().Queue <= 1 })
	release()
	got.submit(t, l, 20, 22)
	p.checkLog(got)
}

// TestTooLarge checks that an entry above the maximum size is refused with an error of its own, and that one of the
// maximum size is accepted.
func TestTooLarge(t *testing.T) {
	t.Parallel()
	p := newPlace(t)
	l := started(t, p.config())
	entry := entryOf(1)
	entry.Certificate = make([]byte, service.MaxEntry+1)
	_, err := l.Submit(limited(t), entry)
	wants(t, err, log.ErrTooLarge)
	entry.Certificate = entry.Certificate[1:]
	_, err = l.Submit(limited(t), entry)
	must(t, err)
}

// TestEnd checks that End answers the waiting submissions and refuses further ones. If the store hangs, End refuses the
// waiting ones when its context ends.
func TestEnd(t *testing.T) {
	t.Parallel()
	p, got := newPlace(t), &answers{}
	config := p.config()
	held := &slow{Objects: config.Stores.Objects}
	config.Stores.Objects = held
	l := started(t, config)
	got.submit(t, l, 0, 5)
	release := held.hold()
	outcome := make(chan error, 1)
	go func() {
		place, err := l.Submit(limited(t), entryOf(7))
		got.add(entryOf(7), place)
		outcome <- err
	}()
	eventually(t, "it waits", func() bool { return l.Metrics().Queue == 1 })
	ended := make(chan error, 1)
	go func() { ended <- l.End(limited(t)) }()
	eventually(t, "it ends", func() bool {
		// A submission that waits gives up, because the store hangs.
		ctx, cancel := context.WithTimeout(limited(t), 10*time.Millisecond)
		defer cancel()
		_, err := l.Submit(ctx, entryOf(8))
		return errors.Is(err, log.ErrEnded)
	})
	release()
	must(t, <-ended)
	must(t, <-outcome)
	if leaves := p.checkLog(got); leaves != 6 && leaves != 7 {
		t.Errorf("%d entries", leaves)
	}
	l = started(t, config)
	defer held.hold()()
	go func() {
		_, err := l.Submit(limited(t), entryOf(9))
		outcome <- err
	}()
	eventually(t, "it waits", func() bool { return l.Metrics().Queue == 1 })
	ctx, cancel := context.WithTimeout(context.Background(), 50*time.Millisecond)
	defer cancel()
	wants(t, l.End(ctx), context.DeadlineExceeded)
	wants(t, <-outcome, log.ErrEnded)
}

// refusing is a store that refuses each put while it is full.
type refusing struct {
	blob.Objects
	isFull atomic.Bool
}

var errFull = errors.New("no space is left")

func (r *refusing) Put(ctx context.Context, name string, content []byte) error {
	if r.isFull.Load() {
		return errFull
	}
	return r.Objects.Put(ctx, name, content)
}

// TestFaultAndItsEnd checks that a full store is a fault, which the log reports with its reason. Reads go on meanwhile,
// and the log recovers by itself after the store does.
func TestFaultAndItsEnd(t *testing.T) {
	t.Parallel()
	p, got := newPlace(t), &answers{}
	config := p.config()
	full := &refusing{Objects: config.Stores.Objects}
	config.Stores.Objects = full
	l := started(t, config)
	got.submit(t, l, 0, 5)
	full.isFull.Store(true)
	_, err := l.Submit(limited(t), entryOf(10))
	wants(t, err, log.ErrStore, errFull)
	if f := l.Metrics(); !strings.Contains(f.Fault, errFull.Error()) || f.Faults != 1 || f.LastFault != f.Fault {
		t.Errorf("%+v", f)
	}
	if head, err := l.Checkpoint(limited(t)); err != nil || head.TreeSize != 5 {
		t.Errorf("%v: %+v", err, head)
	}
	full.isFull.Store(false)
	eventually(t, "the fault is over without a submission", func() bool { return l.Metrics().Fault == "" })
	got.submit(t, l, 10, 12)
	if leaves := p.checkLog(got); leaves != 7 {
		t.Errorf("%d entries", leaves)
	}
}

// TestRefusesMissingParts checks that a start is refused with an error of its own if a part of the log is missing.
func TestRefusesMissingParts(t *testing.T) {
	t.Parallel()
	for part, kind := range map[string]error{"register": node.ErrRolledBack, "index": node.ErrIndex,
		"guard": signer.ErrState} {
		p, got := newPlace(t), &answers{}
		l := started(t, p.config())
		got.submit(t, l, 0, 3)
		ends(t, l)
		must(t, os.RemoveAll(p.path(part)))
		_, err := service.Open(limited(t), p.config())
		wants(t, err, kind)
		if !service.NeedsOperator(err) {
			t.Errorf("%s: %v does not need the operator", part, err)
		}
	}
	if service.NeedsOperator(node.ErrConfig) {
		t.Error("a wrong setting is taken for a missing part of the log")
	}
}

// TestLatestHead checks that the file of the latest head must belong to this log and be whole, and that it shows if all
// stores are rolled back together.
func TestLatestHead(t *testing.T) {
	t.Parallel()
	p, got := newPlace(t), &answers{}
	l := started(t, p.config())
	got.submit(t, l, 0, 3)
	ends(t, l)
	other := newPlace(t)
	config := other.config()
	config.Machine.Files.LatestHead = p.path("latest-head")
	_, err := service.Open(limited(t), config)
	wants(t, err, node.ErrConfig)
	must(t, os.WriteFile(p.path("latest-head"), []byte("{}"), 0o600))
	_, err = service.Open(limited(t), p.config())
	wants(t, err, node.ErrDamaged)
	// If all stores are rolled back to nothing together, only this file shows it.
	for _, part := range []string{"objects", "register", "index", "guard", "latest-head"} {
		must(t, os.RemoveAll(p.path(part)))
	}
	l = started(t, p.config())
	got = &answers{}
	got.submit(t, l, 0, 3)
	ends(t, l)
	for _, part := range []string{"objects", "register", "index", "guard"} {
		must(t, os.RemoveAll(p.path(part)))
	}
	_, err = service.Open(limited(t), p.config())
	wants(t, err, node.ErrRolledBack)
}
