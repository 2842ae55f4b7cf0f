package node

import (
	"context"
	"fmt"
	"sync"

	"wagtenib/bindings/go/wagtenib"
	"wagtenib/internal/blob"
	"wagtenib/internal/ct"
)

// Place is where a submission's entry is, with the signature that promises it: what an SCT is made of (RFC 6962,
// Answer is what a submission is answered with. If Known is true, the log had the entry already, and Lookup finds it.
type Answer struct {
	SCT   ct.SCT
	Known bool
	Err   error
}

// Ticket is a submission that waits for a step.
type Ticket struct {
	submission wagtenib.Submission
	identity   blob.Identity
	// wrong is the place that the index had when the submission was looked up, if another entry is there. misplaced
	// says that the index has a place that must be replaced.
	wrong     *blob.Place
	misplaced bool
	// isMovable says that the submission may be forwarded to another node.
	isMovable bool
	lookup
	done   chan struct{}
	answer Answer
}

// Done is closed once the ticket has its answer.
func (t *Ticket) Done() <-chan struct{} { return t.done }

// Answer returns the answer. It must not be called before Done is closed.
func (t *Ticket) Answer() Answer { return t.answer }

// pool holds the submissions that wait, in the order in which they came.
type pool struct {
	mu      sync.Mutex
	waiting []*Ticket
	// open is how many tickets have no answer yet: those that wait and those that are in a step. bytes is how many
	// bytes these have.
	open, bytes int
	ended       bool
	limits      Limits
	wake        chan struct{}
}

func newPool(limits Limits) *pool { return &pool{limits: limits, wake: make(chan struct{}, 1)} }

// length returns how many bytes a ticket counts as.
func (t *Ticket) length() int {
	s := &t.submission
	return len(s.Certificate) + len(s.PreCertificate) + len(s.TBSCertificate) + 32*len(s.Chain)
}

// end has the pool take no more.
func (p *pool) end() {
	p.mu.Lock()
	defer p.mu.Unlock()
	p.ended = true
	p.awake()
}

// awake wakes the loop up.
func (p *pool) awake() {
	select {
	case p.wake <- struct{}{}:
	default:
	}
}

// isOver reports whether no more is taken, and all are answered.
func (p *pool) isOver() bool {
	p.mu.Lock()
	defer p.mu.Unlock()
	return p.ended && p.open == 0
}

// isEnding reports whether no more is taken.
func (p *pool) isEnding() bool {
	p.mu.Lock()
	defer p.mu.Unlock()
	return p.ended
}

// add puts a submission at the end of the queue.
func (p *pool) add(of *Request) (*Ticket, error) {
	p.mu.Lock()
	defer p.mu.Unlock()
	if p.ended {
		return nil, ErrEnded
	}
	if p.open >= p.limits.MaxQueue {
		return nil, fmt.Errorf("%w: %d (submit again later)", ErrBusy, p.open)
	}
	t := &Ticket{submission: of.submission, identity: of.identity, wrong: of.wrong, isMovable: of.isMovable,
		lookup: of.lookup, done: make(chan struct{})}
	if max := p.limits.MaxQueueBytes; max > 0 && p.bytes+t.length() > max {
		return nil, fmt.Errorf("%w: %d, of %d bytes (submit again later)", ErrBusy, p.open, p.bytes)
	}
	p.waiting = append(p.waiting, t)
	p.open++
	p.bytes += t.length()
	p.awake()
	return t, nil
}

// take removes the first tickets, so many as one step may have. Those that get no answer must be given back.
func (p *pool) take() []*Ticket {
	p.mu.Lock()
	defer p.mu.Unlock()
	max, bytes := 0, 0
	for ; max < min(len(p.waiting), p.limits.MaxBatch); max++ {
		bytes += p.waiting[max].length()
		if max > 0 && p.limits.MaxBatchBytes > 0 && bytes > p.limits.MaxBatchBytes {
			break
		}
	}
	taken := p.waiting[:max:max]
	p.waiting = append([]*Ticket(nil), p.waiting[max:]...)
	return taken
}

// giveBack puts those tickets of a batch that have no answer at the front again, in their order.
func (p *pool) giveBack(batch []*Ticket) {
	p.mu.Lock()
	defer p.mu.Unlock()
	var left []*Ticket
	for _, t := range batch {
		if !t.isAnswered() {
			left = append(left, t)
		}
	}
	p.waiting = append(left, p.waiting...)
}

// isAnswered reports whether a ticket has its answer.
func (t *Ticket) isAnswered() bool {
	select {
	case <-t.done:
		return true
	default:
		return false
	}
}

// resolve gives a ticket its answer. Only the loop calls it.
func (p *pool) resolve(t *Ticket, with Answer) {
	p.mu.Lock()
	defer p.mu.Unlock()
	if !t.isAnswered() {
		p.open--
		p.bytes -= t.length()
		t.answer = with
		close(t.done)
	}
}

// leave removes a ticket for which nobody waits any more. One that is in a step stays there.
func (p *pool) leave(t *Ticket) {
	p.mu.Lock()
	defer p.mu.Unlock()
	for at := range p.waiting {
		if p.waiting[at] == t {
			p.waiting = append(p.waiting[:at:at], p.waiting[at+1:]...)
			p.open--
			p.bytes -= t.length()
			t.answer = Answer{Err: context.Canceled}
			close(t.done)
			return
		}
	}
}

// refuse answers all that wait with an error, and returns how many these were.
func (p *pool) refuse(err error) int {
	p.mu.Lock()
	all := p.waiting
	p.waiting = nil
	p.mu.Unlock()
	for _, t := range all {
		p.resolve(t, Answer{Err: err})
	}
	return len(all)
}

// move answers those that another node may take, and that are in no step.
func (p *pool) move() {
	p.mu.Lock()
	var stay, moved []*Ticket
	for _, t := range p.waiting {
		if t.isMovable {
			moved = append(moved, t)
		} else {
			stay = append(stay, t)
		}
	}
	p.waiting = stay
	p.mu.Unlock()
	for _, t := range moved {
		p.resolve(t, Answer{Err: ErrElsewhere})
	}
}

// count returns how many tickets have no answer yet.
func (p *pool) count() int {
	p.mu.Lock()
	defer p.mu.Unlock()
	return p.open
}

// isEmpty reports whether no submission waits.
func (p *pool) isEmpty() bool {
	p.mu.Lock()
	defer p.mu.Unlock()
	return len(p.waiting) == 0
}

// health is what keeps a node from going on.
type health struct {
	mu    sync.Mutex
	fault error
	// isLasting says that waiting does not help, or did not help for a while.
	isLasting bool
}

// lasting returns the fault if waiting does not help.
func (h *health) lasting() error {
	h.mu.Lock()
	defer h.mu.Unlock()
	if h.isLasting {
		return h.fault
	}
	return nil
}

func (h *health) now() error {
	h.mu.Lock()
	defer h.mu.Unlock()
	return h.fault
}

func (h *health) set(err error, isLasting bool) {
	h.mu.Lock()
	defer h.mu.Unlock()
	h.fault, h.isLasting = err, isLasting
}
