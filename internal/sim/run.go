package sim

import (
	"errors"
	"fmt"
	"time"

	"wagtenib/internal/blob"
	"wagtenib/internal/log/node"
	"wagtenib/internal/log/signer"
)

// Result is the outcome of a history.
type Result struct {
	// Violation is the first rule that was broken, or nil.
	Violation *Violation
	// Counts holds how often each kind of fault happened.
	Counts [kinds]int
	Stats  Stats
	// Stopped is the reason why the log stopped in the end, if it was allowed to stop. It is nil if the log continued.
	Stopped error
	// Lines holds the history, if it was asked for.
	Lines []string
}

const (
	// scriptWithin is the maximum time for the clients' scripts. calmWithin is the maximum time until the log continues
	// after all faults have ended.
	scriptWithin = 10 * time.Minute
	calmWithin   = 3 * time.Minute
	// namedWithin is the time for which a node that says why it stopped is asked again, if a store lost something.
	namedWithin = 30 * time.Second
	// settleWithin is the maximum time for a node that continues until it has answered all waiting requests.
	settleWithin = time.Minute
)

// Run runs the history of a plan with the proved decisions. Two runs of one plan give the same history.
func Run(plan Plan, proved node.Proved, logs bool) (result Result) {
	w := newWorld(plan, proved, logs)
	over := false
	w.spawn(nil, func() {
		w.script()
		w.ends()
		over = true
	})
	w.spawn(nil, w.reader)
	defer func() {
		if why := recover(); why != nil {
			w.judge.breaks("no panic", "%v", why)
		}
		w.judge.stats.Calls, w.judge.stats.Switches = w.events.calls, w.switches
		for _, m := range w.machines {
			if m.janitor != nil {
				report := m.janitor.Report()
				w.judge.stats.Staged += int(report.Staged)
				w.judge.stats.Reread += int(report.Reread)
			}
		}
		result.Violation, result.Counts, result.Stats, result.Lines = w.judge.violation, w.judge.counts, w.judge.stats,
			w.history.lines
		result.Stopped = w.stopped
	}()
	w.run(forever-1, func() bool { return over || w.judge.violation != nil })
	return result
}

// script runs all clients.
func (w *world) script() {
	left := len(w.plan.Clients)
	for _, c := range w.plan.Clients {
		w.spawn(nil, func() { w.client(c, func() { left-- }) })
	}
	w.wait(scriptWithin, func() bool { return left == 0 })
	if got := w.judge.stats.Answers; got < w.plan.Answers {
		w.judge.breaks("nothing is wrong, and all are answered", "clients got %d answers of %d", got, w.plan.Answers)
	}
}

// ends ends all faults, corrects the clocks, and judges whether the log continues or says why it does not.
func (w *world) ends() {
	w.events.calm = true
	w.stores.fullUntil, w.stores.readOnlyUntil = 0, 0
	for _, m := range w.machines {
		m.offset, m.away = 0, 0
		if m.process != nil {
			m.process.pausedUntil = 0
		}
	}
	w.log("world", "calm: no fault happens any more", "", "")
	for i, m := range w.machines {
		err := w.goesOn(m, 1_000_000+i)
		if err == nil {
			w.forgets(m)
			w.repeats(m)
			continue
		}
		w.stopped = err
		why := fmt.Sprintf("after all faults have ended, %s answers nothing in %v: %v", m.name, calmWithin, err)
		switch {
		case !isNamed(err):
			w.judge.breaks("a stop is named", "%s", why)
		case w.excuses.loss, w.excuses.clock && errors.Is(err, node.ErrClock):
		default:
			w.judge.breaks("the log goes on", "%s", why)
		}
	}
	if w.stopped == nil {
		w.findsLeaves()
	}
	if w.plan.Janitors && w.stopped == nil {
		w.tidied()
	}
}

// findsLeaves judges whether each entry under the published head is found by the hash of its leaf.
func (w *world) findsLeaves() {
	for i := range min(w.stores.published.Size, uint64(len(w.judge.leaves))) {
		place, ok := w.stores.leaves[blob.Identity(w.judge.leaves[i].hash)]
		if !ok || place.Index != i || place.Timestamp != w.judge.leaves[i].timestamp {
			w.judge.breaks("a leaf is found by its hash", "the leaf of entry %d is said to be %+v (%v)", i, place, ok)
		}
	}
}

// forgets judges whether a node that continues has forgotten a submission.
func (w *world) forgets(m *machine) {
	if n := m.node; n != nil && !w.wait(settleWithin, func() bool { return m.node != n || n.Waiting() == 0 }) {
		w.judge.breaks("no submission is forgotten", "%s goes on, and %d submissions wait for ever",
			m.name, n.Waiting())
	}
}

// repeats submits some of the clients' entries again, twice each, to a node that continues. The judge compares the
// answers.
func (w *world) repeats(m *machine) {
	for number := range 3 {
		for range 2 {
			// The judge checks only answers: a node may refuse a submission if it cannot read what it needs.
			_ = w.submit(m, number)
		}
	}
}

// isNamed reports whether an error says why a node does not continue.
func isNamed(err error) bool {
	for _, named := range []error{node.ErrRolledBack, node.ErrDamaged, node.ErrIndex, node.ErrClock, signer.ErrState,
		signer.ErrRefused} {
		if errors.Is(err, named) {
			return true
		}
	}
	return false
}

// goesOn submits a new entry to a machine until it is answered, and then submits it once more. It returns nil, or the
// reason why there is no answer.
func (w *world) goesOn(m *machine, number int) error {
	end := w.now + calmWithin
	for {
		err := w.submit(m, number)
		if err == nil {
			err = w.submit(m, number)
		}
		if err == nil {
			return nil
		}
		if errors.Is(err, errUnreachable) && m.refused != nil {
			err = m.refused
		}
		w.log("client", fmt.Sprintf("entry %d", number), err.Error(), "")
		if w.now >= end || w.excuses.loss && isNamed(err) && w.now >= end-calmWithin+namedWithin {
			return err
		}
		w.wait(3*time.Second, nil)
	}
}

// Shrink removes faults and clients from a plan, one by one, as long as the plan breaks the same rule.
func Shrink(plan Plan, proved node.Proved) Plan {
	first := Run(plan, proved, false).Violation
	breaks := func(p Plan) bool {
		v := Run(p, proved, false).Violation
		return v != nil && first != nil && v.Rule == first.Rule
	}
	for again := true; again; {
		again = false
		for i := range plan.Faults {
			smaller := plan
			smaller.Faults = append(append([]Fault{}, plan.Faults[:i]...), plan.Faults[i+1:]...)
			if breaks(smaller) {
				plan, again = smaller, true
				break
			}
		}
		for i := 0; !again && i < len(plan.Clients); i++ {
			smaller := plan
			smaller.Clients = append(append([]Client{}, plan.Clients[:i]...), plan.Clients[i+1:]...)
			if breaks(smaller) {
				plan, again = smaller, true
			}
		}
	}
	return plan
}

// Explain shrinks a plan that breaks a rule, and returns its history as text.
func Explain(plan Plan, proved node.Proved) string {
	plan = Shrink(plan, proved)
	result := Run(plan, proved, true)
	return format(plan, result.Lines, result.Violation)
}
