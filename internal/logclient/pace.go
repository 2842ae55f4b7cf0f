package logclient

import (
	"context"
	"math/rand/v2"
	"slices"
	"sync"
	"time"
)

// Clock returns the time, and waits between the attempts of a request.
type Clock interface {
	Now() time.Time
	// Wait returns nil after a duration, or the error of the context as soon as the context ends.
	Wait(ctx context.Context, d time.Duration) error
}

// MachineClock is the clock of this machine.
type MachineClock struct{}

// Now returns the current time.
func (MachineClock) Now() time.Time { return time.Now() }

// Wait returns nil after a duration, or the error of the context.
func (MachineClock) Wait(ctx context.Context, d time.Duration) error {
	timer := time.NewTimer(d)
	defer timer.Stop()
	select {
	case <-timer.C:
		return nil
	case <-ctx.Done():
		return context.Cause(ctx)
	}
}

// refusals delays all requests if a log refuses many of them. If a log refuses only a few requests, the other requests
// are not delayed.
type refusals struct {
	mutex sync.Mutex
	score int
	until time.Time
}

// A refusal adds to the score, and an answer subtracts one. At the maximum score all requests wait until the time that
// the log names. So they wait after six refusals without an answer between them, or if the log continues to refuse more
// than one request in three.
const (
	scoreOfRefusal = 2
	maxScore       = 6 * scoreOfRefusal
)

func (r *refusals) answered() {
	r.mutex.Lock()
	defer r.mutex.Unlock()
	r.score = max(r.score-1, 0)
}

func (r *refusals) add(until time.Time) {
	r.mutex.Lock()
	defer r.mutex.Unlock()
	if r.score = min(r.score+scoreOfRefusal, maxScore); r.score == maxScore && until.After(r.until) {
		r.until = until
	}
}

// wait returns how long a request must wait.
func (r *refusals) wait(now time.Time) time.Duration {
	r.mutex.Lock()
	defer r.mutex.Unlock()
	return r.until.Sub(now)
}

// slots limits the requests in flight. Requests of earlier pieces get a slot before those of later pieces. After a
// refused request, the entries after it can only be used after that request has its answer.
type slots struct {
	mutex   sync.Mutex
	free    int
	waiting []*waiter // by their order
}

// waiter is a request that waits for a slot.
type waiter struct {
	order uint64
	ready chan struct{} // closed after the waiter has a slot
}

// acquire returns nil after a request of this order has a slot, or the reason for which the context ended.
func (s *slots) acquire(ctx context.Context, order uint64) error {
	s.mutex.Lock()
	if s.free > 0 {
		s.free--
		s.mutex.Unlock()
		return nil
	}
	own := &waiter{order, make(chan struct{})}
	// Among requests of the same order, the first one to arrive is the first.
	position, _ := slices.BinarySearchFunc(s.waiting, order, func(one *waiter, order uint64) int {
		if one.order <= order {
			return -1
		}
		return 1
	})
	s.waiting = slices.Insert(s.waiting, position, own)
	s.mutex.Unlock()
	select {
	case <-own.ready:
		return nil
	case <-ctx.Done():
		s.leave(own)
		return context.Cause(ctx)
	}
}

// leave removes a waiter. If the waiter has received a slot meanwhile, the slot is released.
func (s *slots) leave(own *waiter) {
	s.mutex.Lock()
	position := slices.Index(s.waiting, own)
	if position >= 0 {
		s.waiting = slices.Delete(s.waiting, position, position+1)
	}
	s.mutex.Unlock()
	if position < 0 {
		s.release()
	}
}

// release gives a slot to the first waiter, if there is one.
func (s *slots) release() {
	s.mutex.Lock()
	defer s.mutex.Unlock()
	if len(s.waiting) == 0 {
		s.free++
		return
	}
	close(s.waiting[0].ready)
	s.waiting = s.waiting[1:]
}

// jittered returns a random duration between half of d and d, so that requests that failed together are not repeated
// together.
func jittered(d time.Duration) time.Duration {
	return d/2 + rand.N(d/2+1)
}
