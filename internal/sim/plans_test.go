package sim_test

import (
	"testing"
	"time"

	"wagtenib/internal/sim"
	"wagtenib/internal/witness"
)

// numbers returns the numbers from first on, so many.
func numbers(first, many int) (all []int) {
	for n := range many {
		all = append(all, first+n)
	}
	return all
}

// TestResumedStepReplacesWrongPlace lets the index give an entry the place of another one, and kills the node before it
// replaces that place. The node that resumes the step must replace it. Otherwise the entry is logged a third time when
// it is submitted again.
func TestResumedStepReplacesWrongPlace(t *testing.T) {
	for which := range 4 {
		plan := sim.Plan{
			Seed: int64(which), Machines: 1,
			Faults: []sim.Fault{
				{After: 5 * time.Second, On: "lock: read", Kind: sim.IndexWrong, Count: which},
				{After: 5 * time.Second, On: "index: replace", Kind: sim.KilledBefore},
			},
			Clients: []sim.Client{
				{Begins: 2 * time.Second, Numbers: numbers(0, 4), Burst: true},
				{Begins: 8 * time.Second, Numbers: numbers(0, 4)},
				{Begins: 20 * time.Second, Numbers: numbers(0, 4)},
			},
		}
		result := sim.Run(plan, proved, false)
		if result.Violation != nil {
			t.Errorf("%v\n%s", result.Violation, sim.Explain(plan, proved))
		}
		if result.Counts[sim.IndexWrong] != 1 || result.Counts[sim.KilledBefore] != 1 {
			t.Errorf("place %d: the faults happened %d and %d times, and not once each", which,
				result.Counts[sim.IndexWrong], result.Counts[sim.KilledBefore])
		}
	}
}

// TestJanitorsDelete lets a log grow beyond a tile, with two nodes and their janitors. The janitors must delete the
// partial tiles of the full one, and heads.
func TestJanitorsDelete(t *testing.T) {
	plan := sim.Plan{
		Seed: 1, Machines: 2, Janitors: true,
		Clients: []sim.Client{
			{Numbers: numbers(0, 8)},
			{Begins: 2 * time.Second, Numbers: numbers(100, 260), Burst: true},
			{Begins: 9 * time.Second, Machine: 1, Numbers: numbers(500, 4)},
			{Begins: 25 * time.Second, Machine: 1, Numbers: numbers(0, 8)},
		},
	}
	result := sim.Run(plan, proved, false)
	if result.Violation != nil {
		t.Errorf("%v\n%s", result.Violation, sim.Explain(plan, proved))
	}
	if s := result.Stats; s.Partials < 8 || s.OldHeads < 8 || s.Reread == 0 || s.Repeats < 8 {
		t.Errorf("%d partial tiles and %d heads were deleted, and at least 8 of each are expected; %d tiles were read "+
			"again, and %d entries were answered again", s.Partials, s.OldHeads, s.Reread, s.Repeats)
	}
}

// TestJanitorsLeaveOneHead lets a node start again, so that its janitor does not know how old a head is. The janitor
// must not delete that head because of the one before it, which the other node's janitor deletes meanwhile as an old
// one.
func TestJanitorsLeaveOneHead(t *testing.T) {
	for seed := range int64(100) {
		plan := sim.Plan{
			Seed: 48_859 + seed, Machines: 2, Janitors: true,
			Witnesses: sim.Witnesses{Count: 3, Quorums: witness.Quorums{Publish: 3, Start: 2, Faults: 1}},
			Faults: []sim.Fault{{At: 151, On: "lock: read", Kind: sim.IndexWrong, Count: 5},
				{At: 151, On: "index: add", Kind: sim.KilledBefore}},
			Clients: []sim.Client{
				{Numbers: numbers(0, 4), Burst: true},
				{Begins: 15 * time.Second, Numbers: numbers(0, 4)},
				{Begins: 30 * time.Second, Numbers: numbers(0, 4)},
				{Begins: 3675 * time.Millisecond, Machine: 1, Numbers: numbers(0, 4)},
			},
		}
		if result := sim.Run(plan, proved, false); result.Violation != nil {
			t.Errorf("%v\n%s", result.Violation, sim.Explain(plan, proved))
		}
	}
}

// TestPausedJanitorThinsNoOldHeads lets a node that was paused thin out heads. Meanwhile, the other node's janitor
// deletes the heads that the paused one would leave, because they are old. Some of the heads must stay.
func TestPausedJanitorThinsNoOldHeads(t *testing.T) {
	for _, seed := range []int64{107_903, 1, 2, 3} {
		plan := sim.Plan{
			Seed: seed, Machines: 2, Janitors: true, Public: true,
			Faults: []sim.Fault{{At: 1, On: "lock: read", Of: 1, After: 1392 * time.Millisecond, Kind: sim.Paused,
				Long: 7 * time.Second}},
			Clients: []sim.Client{
				{Numbers: numbers(2000, 4)},
				{Machine: 1, Numbers: numbers(2010, 4)},
				{Begins: 5331 * time.Millisecond, Machine: 1, Numbers: numbers(0, 4)},
				{Begins: 1953 * time.Millisecond, Machine: 1, Numbers: []int{4, 5, 3}},
				{Begins: 2292 * time.Millisecond, Machine: 1, Numbers: numbers(6, 272), Burst: true},
				{Begins: 8292 * time.Millisecond, Machine: 1, Numbers: []int{0, 278, 279}},
				{Machine: 1, Numbers: numbers(0, 3)},
				{Begins: 4292 * time.Millisecond, Numbers: numbers(0, 3), Burst: true},
			},
		}
		if result := sim.Run(plan, proved, false); result.Violation != nil {
			t.Errorf("%v\n%s", result.Violation, sim.Explain(plan, proved))
		}
	}
}

// TestTimestampsAfterAnOldBackup lets a node whose clock is ahead publish a second head of one tree. Then everything is
// rolled back to the first one. The witnesses saw that tree, so the log continues, and its next head may be earlier
// than the second one was.
func TestTimestampsAfterAnOldBackup(t *testing.T) {
	for seed := range int64(21) {
		for at := 195; at < 225; at += 3 {
			plan := sim.Plan{
				Seed: 57_330 + seed, Machines: 3,
				Witnesses: sim.Witnesses{Count: 3, Quorums: witness.Quorums{Publish: 2, Start: 3, Faults: 1}},
				Faults: []sim.Fault{{At: 60, Kind: sim.ClockForward, Long: 3 * time.Second, Count: 8},
					{At: 150, Kind: sim.DoneSaysFailed, Long: 700 * time.Millisecond, Count: 11},
					{At: at, Kind: sim.AllRolledBack, Count: 3}},
				Clients: []sim.Client{
					{Machine: 1, Numbers: numbers(3000, 6)},
					{Begins: 2235 * time.Millisecond, Machine: 1, Numbers: []int{0, 0, 0, 1}},
				},
			}
			if result := sim.Run(plan, proved, false); result.Violation != nil {
				t.Errorf("seed %d: %v", seed, result.Violation)
			}
		}
	}
}

// TestAllRolledBackBeforeAllStarted rolls everything back at the very first call, before any other machine has started
// its node. The fault must stop only the nodes that run.
func TestAllRolledBackBeforeAllStarted(t *testing.T) {
	for seed := range int64(20) {
		plan := sim.Plan{
			Seed: seed, Machines: 3,
			Witnesses: sim.Witnesses{Count: 3, Quorums: witness.Quorums{Publish: 2, Start: 2}},
			Faults:    []sim.Fault{{At: 1, Kind: sim.AllRolledBack, Count: 9}},
			Clients:   []sim.Client{{Begins: 2 * time.Second, Machine: 2, Numbers: numbers(0, 2)}},
		}
		if result := sim.Run(plan, proved, false); result.Violation != nil {
			t.Errorf("seed %d: %v\n%s", seed, result.Violation, sim.Explain(plan, proved))
		}
	}
}

// TestReplacedTextComesBack lets a node lose a swap, and then rolls the lock and the guard back to before the step that
// won. The node saw that the text was replaced, so it must not make another step from it.
func TestReplacedTextComesBack(t *testing.T) {
	plan := sim.Plan{
		Seed: 123_133, Machines: 3,
		Witnesses: sim.Witnesses{Count: 3, Quorums: witness.Quorums{Publish: 3, Start: 2, Faults: 1}},
		Faults: []sim.Fault{{At: 71, Kind: sim.StoreFull, Long: 700 * time.Millisecond, Count: 6},
			{At: 182, On: "lock: swap", Kind: sim.Paused, Long: 1900 * time.Millisecond},
			{At: 257, Kind: sim.LockAndGuardRolledBack, Count: 7}},
		Clients: []sim.Client{
			{Begins: 124 * time.Millisecond, Numbers: numbers(1000, 8)},
			{Begins: 26 * time.Millisecond, Machine: 1, Numbers: numbers(2000, 8)},
			{Begins: 11 * time.Millisecond, Machine: 2, Numbers: numbers(3000, 8)},
			{Begins: 1061 * time.Millisecond, Machine: 2, Numbers: numbers(3100, 6), Burst: true},
			{Begins: 5435 * time.Millisecond, Machine: 2, Numbers: []int{0, 0}},
			{Begins: 4747 * time.Millisecond, Machine: 2, Numbers: numbers(1, 4)},
			{Begins: 4698 * time.Millisecond, Numbers: numbers(5, 3)},
		},
	}
	result := sim.Run(plan, proved, false)
	if result.Violation != nil {
		t.Errorf("%v\n%s", result.Violation, sim.Explain(plan, proved))
	}
	if result.Counts[sim.LockAndGuardRolledBack] != 1 {
		t.Error("the lock and the guard were not rolled back")
	}
}

// TestLockFallsWhileHeadWaits rolls the lock and the guard back while a head waits for the last witness. A node that
// did not see that head may have a head of another list signed. No witness may cosign it, and no node may put it.
func TestLockFallsWhileHeadWaits(t *testing.T) {
	for _, seed := range []int64{92, 133, 301, 385, 474, 556, 578, 641, 661} {
		plan := sim.Plan{
			Seed: seed, Machines: 2,
			Witnesses: sim.Witnesses{Count: 3, Quorums: witness.Quorums{Publish: 3, Start: 2, Faults: 1}},
			Faults: []sim.Fault{{At: 1, On: "witness2: add", Of: 1, After: 3500 * time.Millisecond,
				Kind: sim.LockAndGuardRolledBack, Count: 2}},
			Clients: []sim.Client{
				{Begins: 300 * time.Millisecond, Numbers: numbers(0, 2)},
				{Begins: 3500 * time.Millisecond, Numbers: numbers(10, 4), Burst: true},
				{Begins: 3550 * time.Millisecond, Machine: 1, Numbers: numbers(20, 4), Burst: true},
				{Begins: 3600 * time.Millisecond, Machine: 1, Numbers: numbers(30, 4), Burst: true},
			},
		}
		result := sim.Run(plan, proved, false)
		if result.Violation != nil {
			t.Errorf("%v\n%s", result.Violation, sim.Explain(plan, proved))
		}
		if result.Counts[sim.LockAndGuardRolledBack] != 1 {
			t.Errorf("seed %d: the lock and the guard were not rolled back", seed)
		}
	}
}

// TestRefusesOlderTextAfterFailedLookBack lets a node read a text of the lock after a pause, and then fail to look for
// later heads, because it is away. Then the lock is rolled back to the text before. The node must not make a step from
// that text, because it saw a later one.
func TestRefusesOlderTextAfterFailedLookBack(t *testing.T) {
	plan := sim.Plan{
		Seed: 6716, Machines: 3, Public: true, Haste: "index: find",
		Witnesses: sim.Witnesses{Count: 3, Quorums: witness.Quorums{Publish: 3, Start: 2, Faults: 1}},
		Faults: []sim.Fault{
			{At: 10, Kind: sim.Paused, Long: 30 * time.Millisecond},
			{At: 40, Kind: sim.Away, Long: 4 * time.Second},
			{At: 56, On: "memory: save", Kind: sim.KilledBefore},
			{At: 23, Kind: sim.CallFails},
			{At: 75, Kind: sim.Paused, Long: 4 * time.Second},
			{At: 163, Kind: sim.LockRolledBack, Count: 8},
		},
		Clients: []sim.Client{
			{Begins: 38 * time.Millisecond, Numbers: numbers(1000, 8)},
			{Begins: 1851 * time.Millisecond, Numbers: numbers(1100, 3), Burst: true},
			{Begins: 118 * time.Millisecond, Machine: 1, Numbers: numbers(2000, 8)},
			{Begins: 2015 * time.Millisecond, Machine: 1, Numbers: numbers(2100, 8), Burst: true},
			{Begins: 185 * time.Millisecond, Machine: 2, Numbers: numbers(3000, 8)},
			{Begins: 1572 * time.Millisecond, Machine: 2, Numbers: numbers(3100, 9), Burst: true},
			{Begins: 2803 * time.Millisecond, Numbers: []int{0, 1, 2, 3, 1}},
			{Begins: 5016 * time.Millisecond, Numbers: numbers(4, 3)},
			{Begins: 5193 * time.Millisecond, Numbers: []int{7, 7, 8, 9}},
		},
	}
	for round := range 4 {
		begins := time.Duration(1+round) * time.Second
		for machine := range 3 {
			away := 100 + (6716*7+131*machine+37*round)%400
			plan.Faults = append(plan.Faults, sim.Fault{At: 1, Of: machine + 1, On: "lock: published", Kind: sim.Away,
				After: begins + time.Duration(away)*time.Millisecond, Long: 300 * time.Millisecond})
			plan.Clients = append(plan.Clients, sim.Client{Begins: begins, Machine: machine,
				Numbers: numbers(5000+10*round, 5), Burst: true})
		}
	}
	result := sim.Run(plan, proved, false)
	if result.Violation != nil {
		t.Errorf("%v\n%s", result.Violation, sim.Explain(plan, proved))
	}
	if result.Counts[sim.LockRolledBack] != 1 {
		t.Error("the lock was not rolled back")
	}
}

// TestTwoNodesRestoreOneHead simulates a power failure, in which the store loses the newest step. Two nodes restore its
// head at the same time, and their signatures differ. No node may delete the head that another one put.
func TestTwoNodesRestoreOneHead(t *testing.T) {
	lost := 0
	for seed := range int64(100) {
		plan := sim.Plan{
			Seed: seed, Machines: 3,
			Faults: []sim.Fault{{After: 4 * time.Second, On: "lock: read", Kind: sim.StepLost}},
			Clients: []sim.Client{{Begins: time.Second, Numbers: numbers(0, 4)},
				{Begins: 12 * time.Second, Machine: 1, Numbers: numbers(4, 2)}},
		}
		result := sim.Run(plan, proved, false)
		if result.Violation != nil {
			t.Fatalf("%v\n%s", result.Violation, sim.Explain(plan, proved))
		}
		lost += result.Counts[sim.StepLost]
	}
	if lost < 60 {
		t.Errorf("the newest step was lost %d times in 100 histories, and at least 60 times are expected", lost)
	}
}

// TestStartRefusesRolledBackLock lets a node read a text of the lock at its start, while another node continues. The
// lock is rolled back before the start reads it again. The node must refuse the older text.
func TestStartRefusesRolledBackLock(t *testing.T) {
	if result := sim.Run(sim.NewPlan(42_027_860), proved, false); result.Violation != nil {
		t.Error(result.Violation)
	}
}

// TestStartAfterAnotherCreatesTheLock has a node find no lock, and read the text of the one that another node created
// meanwhile. The lock is rolled back before the node looks again. The older text must be refused.
func TestStartAfterAnotherCreatesTheLock(t *testing.T) {
	if result := sim.Run(sim.NewPlan(50_799_943), proved, false); result.Violation != nil {
		t.Error(result.Violation)
	}
}

// TestNoRollbackOfAllBesideALatePut lets a node put a head late, after all stores would be rolled back. Two machines
// have not seen the head, so nothing could show them that. So the rollback must not happen (README.md, "What a history
// may lose").
func TestNoRollbackOfAllBesideALatePut(t *testing.T) {
	if result := sim.Run(sim.NewPlan(50_024_780), proved, false); result.Violation != nil {
		t.Error(result.Violation)
	}
}

// TestSignerRefusalOfAnOlderHead lets a node ask for a signature of a head that it had signed before, while another
// node had a later one signed. The signer refuses, and does not answer which head is its last. The node must not treat
// this as a refusal of the head.
func TestSignerRefusalOfAnOlderHead(t *testing.T) {
	if result := sim.Run(sim.NewPlan(9_002_619), proved, false); result.Violation != nil {
		t.Error(result.Violation)
	}
}
