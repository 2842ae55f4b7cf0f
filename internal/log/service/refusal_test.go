package service_test

import (
	"context"
	"errors"
	"fmt"
	"strings"
	"sync/atomic"
	"testing"

	"wagtenib/internal/blob"
	"wagtenib/internal/ct"
	"wagtenib/internal/log/signer"
)

// awayLock is a lock that does not answer readers while it is away.
type awayLock struct {
	blob.Lock
	isAway atomic.Bool
	// failed counts the reads that failed.
	failed atomic.Int64
}

func (l *awayLock) Read(ctx context.Context) (string, error) {
	if l.isAway.Load() {
		l.failed.Add(1)
		return "", errors.New("the lock does not answer")
	}
	return l.Lock.Read(ctx)
}

// laterSigner refuses heads while it is set, as if it had approved another node's later one. Then the lock goes away.
type laterSigner struct {
	signer.Signer
	lock    *awayLock
	refuses atomic.Bool
}

func (s *laterSigner) SignHead(ctx context.Context, head ct.TreeHead, proof [][32]byte) ([]byte, error) {
	if s.refuses.Load() {
		s.lock.isAway.Store(true)
		return nil, fmt.Errorf("%w: size-falls", signer.ErrRefused)
	}
	return s.Signer.SignHead(ctx, head, proof)
}

// TestRefusalWhileTheLockIsAway checks what a node does if the signer refuses a head, and the lock cannot be read.
// Another node may have gone on, so the node raises no alert. The submission waits, and is answered after both work
// again.
func TestRefusalWhileTheLockIsAway(t *testing.T) {
	t.Parallel()
	p, got := newPlace(t), &answers{}
	config := p.config()
	lock := &awayLock{Lock: config.Stores.Lock}
	later := &laterSigner{Signer: config.Signer, lock: lock}
	config.Stores.Lock, config.Signer = lock, later
	l := started(t, config)
	got.submit(t, l, 0, 1)
	later.refuses.Store(true)
	answered := make(chan error, 1)
	go func() {
		place, err := l.Submit(limited(t), entryOf(1))
		if err == nil {
			got.add(entryOf(1), place)
		}
		answered <- err
	}()
	eventually(t, "several rounds fail to read the lock", func() bool { return lock.failed.Load() > 2 })
	if fault := l.Metrics().LastFault; !strings.Contains(fault, "the lock does not answer") {
		t.Errorf("the fault is %q", fault)
	}
	later.refuses.Store(false)
	lock.isAway.Store(false)
	must(t, <-answered)
	if leaves := p.checkLog(got); leaves != 2 {
		t.Errorf("the log has %d entries", leaves)
	}
}
