package sim

import (
	"context"
	"iter"
	"math/rand"
	"time"
)

// scheduler runs coroutines one at a time. The seed decides which of the coroutines that can run is next. Time passes
// only while none of them can run.
type scheduler struct {
	random  *rand.Rand
	now     time.Duration
	all     []*coroutine
	current *coroutine
	// idle holds coroutines that ended. They run the next functions, so that their stacks need not grow again.
	idle []*coroutine
	// switches is the number of times that a coroutine was resumed.
	switches int
}

// process is one run of a node, with all of its coroutines. A kill ends it.
type process struct {
	name string
	dead bool
	// pausedUntil is the time until which the process is paused.
	pausedUntil time.Duration
	// unread is the text of the lock that the process's own swap put there, if it has not read the lock since.
	unread string
	// known holds what the process must know about the lock.
	known known
}

// coroutine is a coroutine of a process, or of the world if it has no process.
type coroutine struct {
	of    *process
	do    func()
	next  func() (struct{}, bool)
	stop  func()
	yield func(struct{}) bool
	// at is the latest time at which the coroutine continues. until is the condition for which it waits before that, or
	// nil.
	at       time.Duration
	until    func() bool
	happened bool
	// ended is set after the function has ended. unwound is set if it did not return; the coroutine then runs no other
	// one.
	ended, unwound bool
}

// killed is the value of the panic that unwinds a coroutine whose process is dead.
type killed struct{}

// forever is later than any history.
const forever = time.Duration(1<<63 - 1)

// spawn makes a coroutine, which can run from the next switch on.
func (s *scheduler) spawn(of *process, do func()) *coroutine {
	var c *coroutine
	if last := len(s.idle) - 1; last >= 0 {
		c, s.idle = s.idle[last], s.idle[:last]
	} else {
		c = &coroutine{}
		c.next, c.stop = iter.Pull(func(yield func(struct{}) bool) {
			c.yield = yield
			for {
				if !c.carryOut() || !yield(struct{}{}) {
					return
				}
			}
		})
	}
	c.of, c.do, c.at, c.until, c.happened, c.ended = of, do, s.now, nil, false, false
	s.all = append(s.all, c)
	return c
}

// carryOut calls the coroutine's function, and reports whether it returned.
func (c *coroutine) carryOut() (returned bool) {
	defer func() {
		c.ended, c.unwound = true, !returned
		if why := recover(); why != nil {
			if _, ok := why.(killed); !ok {
				panic(why)
			}
		}
	}()
	c.do()
	return true
}

// wait stops the current coroutine until a condition holds, but at most for a time. It reports whether the condition
// held. In a history, only this call takes time.
func (s *scheduler) wait(long time.Duration, until func() bool) bool {
	c := s.current
	if c.of != nil && c.of.dead {
		panic(killed{})
	}
	c.at, c.until, c.happened = forever, until, false
	if long < forever-s.now {
		c.at = s.now + long
	}
	if !c.yield(struct{}{}) || c.of != nil && c.of.dead {
		panic(killed{})
	}
	return c.happened
}

// canRun reports whether a coroutine can continue now.
func (s *scheduler) canRun(c *coroutine) bool {
	if c.of != nil && c.of.pausedUntil > s.now {
		return false
	}
	return c.at <= s.now || c.until != nil && c.until()
}

// run runs coroutines until `end` returns true, or none of them can continue before the time `most`.
func (s *scheduler) run(most time.Duration, end func() bool) {
	defer s.stopAll()
	var ready []*coroutine
	for !end() {
		s.bury()
		ready = ready[:0]
		next := forever
		for _, c := range s.all {
			if s.canRun(c) {
				ready = append(ready, c)
			} else {
				next = min(next, s.wakes(c))
			}
		}
		if len(ready) == 0 {
			if next > most {
				return
			}
			s.now = next
			continue
		}
		c := ready[s.random.Intn(len(ready))]
		c.happened = c.until != nil && c.until()
		s.current = c
		s.switches++
		c.next()
		s.current = nil
	}
}

// wakes returns the time at which a coroutine continues, if its condition does not hold before.
func (s *scheduler) wakes(c *coroutine) time.Duration {
	if c.of != nil && c.of.pausedUntil > s.now {
		return max(c.of.pausedUntil, min(c.at, forever))
	}
	return c.at
}

// bury removes coroutines that ended, and unwinds those whose process is dead.
func (s *scheduler) bury() {
	left := s.all[:0]
	for _, c := range s.all {
		switch {
		case c.ended && !c.unwound:
			s.idle = append(s.idle, c)
		case c.ended:
		case c.of != nil && c.of.dead:
			c.stop()
		default:
			left = append(left, c)
		}
	}
	clear(s.all[len(left):])
	s.all = left
}

// stopAll unwinds all coroutines.
func (s *scheduler) stopAll() {
	for _, c := range append(s.all, s.idle...) {
		if c.of != nil {
			c.of.dead = true
		}
		c.stop()
	}
	s.all, s.idle = nil, nil
}

// simulated is a context in virtual time. It has no channel, so only the simulation's calls can wait for its end.
type simulated struct {
	context.Context
	world    *scheduler
	before   *simulated
	deadline time.Duration
	ended    error
}

// background returns a context without a deadline.
func (s *scheduler) background() *simulated {
	return &simulated{Context: context.Background(), world: s, deadline: forever}
}

// within returns a context that ends after a time, or when the function is called.
func within(ctx context.Context, long time.Duration) (*simulated, context.CancelFunc) {
	before := ctx.(*simulated)
	inner := &simulated{Context: before.Context, world: before.world, before: before, deadline: before.world.now + long}
	return inner, func() { inner.end(context.Canceled) }
}

func (c *simulated) end(why error) {
	if c.ended == nil {
		c.ended = why
	}
}

// Err returns the reason why the context has ended, or nil if it has not.
func (c *simulated) Err() error {
	if c.ended == nil && c.deadline <= c.world.now {
		c.ended = context.DeadlineExceeded
	}
	if c.ended == nil && c.before != nil {
		c.ended = c.before.Err()
	}
	return c.ended
}

// Deadline reports that there is no deadline in real time.
func (c *simulated) Deadline() (time.Time, bool) { return time.Time{}, false }

// left returns the time until the first deadline of the context and its parents.
func (c *simulated) left() time.Duration {
	left := forever
	for at := c; at != nil; at = at.before {
		if at.deadline != forever {
			left = min(left, at.deadline-c.world.now)
		}
	}
	return left
}

// sleep waits for a time, and returns the context's error if the context ends before.
func (s *scheduler) sleep(ctx *simulated, long time.Duration) error {
	s.wait(min(long, max(ctx.left(), 0)), func() bool { return ctx.Err() != nil })
	return ctx.Err()
}

// parallel calls functions at the same time, in coroutines of the current process. It implements node.Machine.Parallel.
func (s *scheduler) parallel(ctx context.Context, all ...func(context.Context) error) error {
	inner, cancel := within(ctx, forever-s.now-1)
	defer cancel()
	of, left := s.current.of, len(all)
	var first error
	for _, call := range all {
		s.spawn(of, func() {
			err := call(inner)
			if left--; err != nil && first == nil {
				first = err
				cancel()
			}
		})
	}
	s.wait(forever, func() bool { return left == 0 })
	return first
}
