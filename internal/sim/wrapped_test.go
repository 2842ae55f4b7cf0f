package sim_test

import (
	"strings"
	"testing"
	"time"

	"wagtenib/bindings/go/wagtenib"
	"wagtenib/internal/log/node"
	"wagtenib/internal/log/node/decider"
	"wagtenib/internal/log/node/step"
	"wagtenib/internal/sim"
)

// wrapped wraps the proved decider, and changes its input or its answers.
type wrapped struct {
	*decider.Decider
	// outcome changes an outcome before the decider gets it, and next the command that follows.
	outcome func(command *decider.Command, outcome *decider.Outcome) *decider.Outcome
	next    func(w *wrapped, command, next *decider.Command, err error) (*decider.Command, error)
}

func (w *wrapped) Next(command *decider.Command, outcome *decider.Outcome) (*decider.Command, error) {
	if w.outcome != nil {
		outcome = w.outcome(command, outcome)
	}
	next, err := w.Decider.Next(command, outcome)
	if w.next != nil {
		return w.next(w, command, next, err)
	}
	return next, err
}

// skips returns a decider that skips one command, as if it were done.
func skips(do string) node.Decider {
	return &wrapped{Decider: decider.New(), next: func(w *wrapped, _, next *decider.Command,
		err error) (*decider.Command, error) {
		if err != nil || next.Do != do {
			return next, err
		}
		return w.Decider.Next(next, decider.Done())
	}}
}

// ahead makes steps with timestamps that are 50 minutes ahead.
type ahead struct{ *step.Stepper }

func (a ahead) Step(line string, edge [][]byte, batch []wagtenib.Submission, now, most uint64) (*step.Stepped, error) {
	return a.Stepper.Step(line, edge, batch, now+3_000_000, most+3_000_000)
}

// other makes steps with another certificate instead of the last one that was submitted.
type other struct{ *step.Stepper }

func (o other) Step(line string, edge [][]byte, batch []wagtenib.Submission, now, most uint64) (*step.Stepped, error) {
	if len(batch) > 0 {
		batch = append([]wagtenib.Submission{}, batch...)
		batch[len(batch)-1].Certificate = append([]byte("another "), batch[len(batch)-1].Certificate...)
	}
	return o.Stepper.Step(line, edge, batch, now, most)
}

// TestJudgeFindsWrongDecisions changes commands and steps from outside. The judge must find each change within a few
// seeds, by the expected rule. With some seeds, a change may break another rule first.
func TestJudgeFindsWrongDecisions(t *testing.T) {
	steps := step.New(sim.Origin)
	for _, of := range []struct {
		name, rule string
		with       node.Proved
	}{
		{"nothing is staged", "a stop is named", node.Proved{Decider: skips(decider.Stage), Steps: steps}},
		{"no object is put", "a head's tree is in the store", node.Proved{Decider: skips(decider.Put), Steps: steps}},
		{"no head is put", "a stop is named", node.Proved{Decider: skips(decider.Head), Steps: steps}},
		{"a step goes on from a state that is not published", "a step is made of a published state",
			node.Proved{Steps: steps, Decider: &wrapped{
				Decider: decider.New(),
				outcome: func(command *decider.Command, outcome *decider.Outcome) *decider.Outcome {
					if command.Do == decider.Look {
						return decider.Published()
					}
					return outcome
				},
			}}},
		{"the newest staged batch is deleted", "the newest staged batch stays",
			node.Proved{Steps: steps, Decider: &wrapped{
				Decider: decider.New(),
				next: func(_ *wrapped, command, next *decider.Command, err error) (*decider.Command, error) {
					if err == nil && command.Do == decider.Step && next.Do == decider.Delete {
						next.Batch = next.Seen.Batch
					}
					return next, err
				},
			}}},
		{"timestamps are of the future", "no timestamp of the future",
			node.Proved{Decider: decider.New(), Steps: ahead{steps}}},
		{"another certificate is logged", "a promise is kept",
			node.Proved{Decider: decider.New(), Steps: other{steps}}},
	} {
		found := ""
		for seed := int64(0); seed < 40 && found != of.rule; seed++ {
			plan := sim.NewPlan(seed)
			// A node with witnesses looks at its head again before it makes a step, which hides a wrong order.
			plan.Witnesses = sim.Witnesses{}
			if v := sim.Run(plan, of.with, false).Violation; v != nil {
				found = v.Rule
				t.Logf("%s: found by seed %d: %v", of.name, seed, v)
			}
		}
		if found != of.rule {
			t.Errorf("%s: found by rule %q and not by %q", of.name, found, of.rule)
		}
	}
}

// TestRefusesTheCommandOfAnotherStep lets the decider return a command with the state of an earlier step, as if its
// answers had slipped by one. The node must not swap the lock to that state, and must say what is wrong.
func TestRefusesTheCommandOfAnotherStep(t *testing.T) {
	for _, do := range []string{decider.Stage, decider.Swap} {
		var earlier *decider.Command
		slips := &wrapped{Decider: decider.New(), next: func(_ *wrapped, _, next *decider.Command,
			err error) (*decider.Command, error) {
			if err != nil || next.Do != do {
				return next, err
			}
			if earlier == nil {
				earlier = next
				return next, nil
			}
			other := *next
			other.New = earlier.New
			return &other, nil
		}}
		plan := sim.Plan{Seed: 1, Machines: 1, Clients: []sim.Client{{Begins: 2 * time.Second, Numbers: numbers(0, 3)}}}
		v := sim.Run(plan, node.Proved{Decider: slips, Steps: step.New(sim.Origin)}, false).Violation
		if v == nil || v.Rule != "a stop is named" || !strings.Contains(v.Text, do+" of another step than this round's") {
			t.Errorf("%s of an earlier step: %v", do, v)
		}
	}
}
