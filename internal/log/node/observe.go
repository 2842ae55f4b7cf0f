package node

import "time"

// Event is something that an observer counts.
type Event int

// The events.
const (
	// LostSwap: another node swapped the lock first.
	LostSwap Event = iota
	// UnknownSwap: a swap did not say whether it was done.
	UnknownSwap
	// ResumedStep: this node publishes a step from its staged batch, which another node made, or this one before a
	// restart.
	ResumedStep
	// Duplicate: a submission was answered with the entry that the log has.
	Duplicate
	// Events is how many there are.
	Events
)

// Observer learns what a node does, for metrics. Count, Took and Cosigned may be called by several goroutines at once,
// and the others only by the loop's. They must not block.
type Observer interface {
	// Count counts an event.
	Count(of Event)
	// Took reports the duration of a part of a step: a command of the decider, or "take" for what comes before the step.
	Took(part string, long time.Duration)
	// Decided counts a step that the lock took, of so many submissions. It writes so many bytes.
	Decided(submissions, bytes int)
	// Repaired counts an object that was missing or wrong and was made again.
	Repaired(name string)
	// Cosigned reports whether a witness cosigned a head. The error is ErrWitnessAhead if it saw more.
	Cosigned(witness string, err error)
	// Faulted counts a fault that began where there was none.
	Faulted(err error)
	// WentWell is called after a round without a fault.
	WentWell()
}

// unobserved is the observer of a node that nobody observes.
type unobserved struct{}

func (unobserved) Count(Event)                {}
func (unobserved) Took(string, time.Duration) {}
func (unobserved) Decided(int, int)           {}
func (unobserved) Repaired(string)            {}
func (unobserved) Cosigned(string, error)     {}
func (unobserved) Faulted(error)              {}
func (unobserved) WentWell()                  {}

// took reports the duration of a part of a step that began then, by Elapsed, to the observer.
func (l *Loop) took(part string, began time.Duration) {
	l.config.Machine.Observer.Took(part, l.config.Machine.Clock.Elapsed()-began)
}
