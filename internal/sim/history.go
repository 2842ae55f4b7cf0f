package sim

import (
	"fmt"
	"strings"
	"time"
)

// history holds the events of a history as lines for people. They are recorded only if they were asked for.
type history struct {
	isKept bool
	lines  []string
}

// log adds a line: the actor, its action, the outcome, and the fault that happened at it.
func (w *world) log(who, what, outcome, fault string) {
	if !w.history.isKept {
		return
	}
	line := fmt.Sprintf("%12s  %-6s %s", w.now.Round(time.Microsecond), who, what)
	if outcome != "" {
		line += " -> " + outcome
	}
	if fault != "" {
		line += "   *** " + fault
	}
	w.history.lines = append(w.history.lines, line)
}

// logCall adds the line of a call.
func (w *world) logCall(n int, who, store, what string, err error, fault string) {
	if !w.history.isKept {
		return
	}
	outcome := "done"
	if err != nil {
		outcome = err.Error()
	}
	w.log(who, fmt.Sprintf("%4d %s: %s", n, store, what), outcome, fault)
}

// Violation is a rule of the judge that a history broke.
type Violation struct {
	// Rule is the name of the rule, and Text says what broke it.
	Rule, Text string
	// At is the virtual time of the violation.
	At time.Duration
}

func (v *Violation) Error() string {
	return fmt.Sprintf("%v: rule %q: %s", v.At, v.Rule, v.Text)
}

// format returns a history that broke a rule as text.
func format(plan Plan, lines []string, v *Violation) string {
	return fmt.Sprintf("%v\n%s\n%v\n", plan, strings.Join(lines, "\n"), v)
}
