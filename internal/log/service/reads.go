package service

import (
	"context"
	"fmt"
	"sync"
	"time"

	"wagtenib/internal/blob"
	"wagtenib/internal/ct"
	"wagtenib/internal/log"
)

const (
	// maxReading is the maximum time of one reading of the newest head, and slowReading the time after which another
	// one may begin beside it.
	maxReading, slowReading = 30 * time.Second, time.Second
)

// readings let concurrent requests for the newest head share a reading of the lock, so that the step's swap of the lock
// does not wait for each of them. A reading that has begun may be too early, so a later request shares the next one.
type readings struct {
	mu sync.Mutex
	// next is the reading that has not begun yet. It is nil if no request waits for it. isRunning is true while run
	// makes one reading after the other.
	next      *reading
	isRunning bool
}

// reading is one reading of the newest head. Its head and error may be used after done is closed.
type reading struct {
	done chan struct{}
	head ct.SignedHead
	err  error
}

// join returns the next reading. If none is being made, it begins at once.
func (r *readings) join(read func(context.Context) (ct.SignedHead, error)) *reading {
	r.mu.Lock()
	defer r.mu.Unlock()
	if r.next == nil {
		r.next = &reading{done: make(chan struct{})}
	}
	if !r.isRunning {
		r.isRunning = true
		go r.run(read)
	}
	return r.next
}

// startNext returns the next reading, which begins now, or nil if no request waits.
func (r *readings) startNext() *reading {
	r.mu.Lock()
	defer r.mu.Unlock()
	next := r.next
	r.next, r.isRunning = nil, next != nil
	return next
}

// run makes readings as long as a request waits for one. It ends after a slow reading, because another goroutine makes
// the next ones then.
func (r *readings) run(read func(context.Context) (ct.SignedHead, error)) {
	for now := r.startNext(); now != nil; now = r.startNext() {
		ctx, cancel := context.WithTimeout(context.Background(), maxReading)
		slow := time.AfterFunc(slowReading, func() { r.runAnother(read) })
		now.head, now.err = read(ctx)
		isLast := slow.Stop()
		cancel()
		close(now.done)
		if !isLast {
			return
		}
	}
}

// runAnother lets another goroutine make readings beside a slow one. It begins now if a request waits, and otherwise
// with the next request.
func (r *readings) runAnother(read func(context.Context) (ct.SignedHead, error)) {
	r.mu.Lock()
	defer r.mu.Unlock()
	if r.isRunning = r.next != nil; r.isRunning {
		go r.run(read)
	}
}

// Checkpoint returns the newest head, as log.Log says. It is never older than the head that was published at
// the time of the call.
func (l *Log) Checkpoint(ctx context.Context) (ct.SignedHead, error) {
	shared := l.readings.join(l.node.Newest)
	select {
	case <-shared.done:
	case <-ctx.Done():
		return ct.SignedHead{}, fmt.Errorf("serve: %w", ctx.Err())
	}
	if shared.err != nil {
		return ct.SignedHead{}, fault{log.ErrStore, shared.err}
	}
	return shared.head, nil
}

// HeadOf implements log.Log. A request below a head that this node knows does not wait for the lock.
func (l *Log) HeadOf(ctx context.Context, entries uint64) (ct.SignedHead, error) {
	if now := l.node.Known(); now != nil && now.TreeSize >= entries {
		return *now, nil
	}
	return l.Checkpoint(ctx)
}

// IndexOf implements log.Log.
func (l *Log) IndexOf(ctx context.Context, leafHash [32]byte) (uint64, error) {
	found, err := l.config.Stores.Index.FindLeaves(ctx, []blob.Identity{leafHash})
	if err != nil {
		return 0, fault{log.ErrStore, err}
	}
	place, ok := found[leafHash]
	if !ok {
		return 0, fmt.Errorf("%w: a leaf with this hash", blob.ErrAbsent)
	}
	return place.Index, nil
}
