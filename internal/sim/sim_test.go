package sim_test

import (
	"os"
	"runtime"
	"strconv"
	"strings"
	"sync"
	"sync/atomic"
	"testing"
	"time"

	"wagtenib/internal/log/node"
	"wagtenib/internal/log/node/decider"
	"wagtenib/internal/log/node/step"
	"wagtenib/internal/sim"
)

// proved holds the proved decisions.
var proved = node.Proved{Decider: decider.New(), Steps: step.New(sim.Origin)}

// number returns the number in an environment variable, or `normal` if the variable is not set.
func number(t *testing.T, variable string, normal int64) int64 {
	t.Helper()
	text := os.Getenv(variable)
	if text == "" {
		return normal
	}
	n, err := strconv.ParseInt(text, 10, 64)
	if err != nil || n < 0 {
		t.Fatalf("%s: %q is not a number (write an integer of at least 0)", variable, text)
	}
	return n
}

// block is the number of histories after which the test prints how far it is, so that a later run can begin there.
const block = 10_000

// TestHistories runs the histories of many seeds, on all processors, and explains a history that breaks a rule. It
// prints how often each kind of fault happened.
func TestHistories(t *testing.T) {
	began := time.Now()
	first, histories := number(t, "SIM_FIRST", 0), number(t, "SIM_HISTORIES", 300)
	var total sim.Totals
	for from, end := first, first+histories; from < end && !t.Failed(); from += block {
		to := min(from+block, end)
		runHistories(t, from, to, &total)
		t.Logf("the histories of the seeds %d to %d were run, %.1f a second", first, to-1,
			float64(to-first)/time.Since(began).Seconds())
	}
	t.Logf("%v", &total)
	if missing := total.Missing(); histories >= 300 && len(missing) > 0 {
		t.Errorf("faults that never happened: %v", missing)
	}
	if s := total.Stats; histories >= 300 &&
		(s.Partials == 0 || s.OldHeads == 0 || s.Staged == 0 || s.Reread == 0 || s.Cosigned == 0 || s.Checkpoints == 0) {
		t.Errorf("a number of the janitors, witnesses or checkpoints is 0: %+v", s)
	}
	if c := total.Stats.Contended; histories >= 300 && (c.Lost == 0 || c.Unknown == 0 || c.Overtaken == 0 || c.Late == 0) {
		t.Errorf("a number of lost, unknown, overtaken or late outcomes is 0: %+v", c)
	}
}

// runHistories runs the histories of the seeds `from` to end-1, and adds them to the totals.
func runHistories(t *testing.T, from, end int64, total *sim.Totals) {
	var next atomic.Int64
	next.Store(from)
	var all sync.WaitGroup
	var mu sync.Mutex
	for range runtime.GOMAXPROCS(0) {
		all.Add(1)
		go func() {
			defer all.Done()
			for seed := next.Add(1) - 1; seed < end && !t.Failed(); seed = next.Add(1) - 1 {
				plan := sim.NewPlan(seed)
				result := sim.Run(plan, proved, false)
				if result.Violation != nil {
					text := ""
					if os.Getenv("SIM_BRIEF") == "" {
						text = sim.Explain(plan, proved)
					}
					t.Errorf("broken by seed %d: %v\n%s", seed, result.Violation, text)
				}
				mu.Lock()
				total.Add(result)
				mu.Unlock()
			}
		}()
	}
	all.Wait()
}

// TestOneHistory prints the whole history of one seed, even if it breaks no rule.
func TestOneHistory(t *testing.T) {
	if os.Getenv("SIM_SEED") == "" {
		t.Skip("SIM_SEED says which seed's history is printed")
	}
	plan := sim.NewPlan(number(t, "SIM_SEED", 0))
	result := sim.Run(plan, proved, true)
	t.Logf("%v\n%s", plan, strings.Join(result.Lines, "\n"))
	if result.Violation != nil {
		t.Error(result.Violation)
	}
}

// TestSameHistory runs plans twice, and compares all lines of the histories.
func TestSameHistory(t *testing.T) {
	for seed := range int64(20) {
		plan := sim.NewPlan(seed)
		first, second := sim.Run(plan, proved, true), sim.Run(plan, proved, true)
		if len(first.Lines) == 0 || strings.Join(first.Lines, "\n") != strings.Join(second.Lines, "\n") {
			t.Errorf("seed %d has two histories, of %d and %d lines", seed, len(first.Lines), len(second.Lines))
		}
	}
}
