package janitor_test

import (
	"bytes"
	"context"
	"errors"
	"fmt"
	"strings"
	"testing"
	"time"

	"wagtenib/internal/ct"
	"wagtenib/internal/log/node/decider"
	"wagtenib/internal/log/node/janitor"
	"wagtenib/internal/log/node/step"
	"wagtenib/internal/testkit"
)

// moved is a clock that a test moves: before each pass by one of the waits. After the last one, Run ends.
type moved struct {
	now   time.Duration
	waits []time.Duration
}

func (m *moved) Elapsed() time.Duration { return m.now }
func (m *moved) Within(ctx context.Context, _ time.Duration) (context.Context, context.CancelFunc) {
	return context.WithCancel(ctx)
}
func (m *moved) Wait(context.Context, time.Duration, <-chan struct{}) error {
	if len(m.waits) == 0 {
		return errors.New("the test has seen enough")
	}
	m.now, m.waits = m.now+m.waits[0], m.waits[1:]
	return nil
}

// listed are objects, of which a test may make a listing fail.
type listed struct {
	janitor.Kept
	fails func(prefix string) error
}

func (l listed) List(ctx context.Context, prefix, after string, max int) ([]string, error) {
	if l.fails != nil {
		if err := l.fails(prefix); err != nil {
			return nil, err
		}
	}
	return l.Kept.List(ctx, prefix, after, max)
}

// configOf returns the configuration of a janitor that finds all of a log old enough in its second pass.
func configOf(objects janitor.Objects, clock janitor.Clock, head ct.TreeHead) janitor.Config {
	return janitor.Config{
		Objects: objects, Clock: clock, Decider: decider.New(),
		Newest: func() (janitor.Newest, bool) { return janitor.Newest{Head: head}, true },
		Random: func() (uint64, error) { return 0, nil },
		Keep: janitor.Keep{Every: time.Second, Tiles: time.Second, Heads: time.Hour, Staged: time.Second,
			Thin: time.Hour, Reread: 1000 * time.Hour, Call: time.Minute},
	}
}

// seconds are so many waits of a second.
func seconds(many int) []time.Duration {
	waits := make([]time.Duration, many)
	for i := range waits {
		waits[i] = time.Second
	}
	return waits
}

// run makes passes until the clock has no more waits.
func run(t *testing.T, config janitor.Config) janitor.Report {
	t.Helper()
	j, err := janitor.New(config)
	testkit.Must(t, err)
	if err := j.Run(context.Background()); err == nil {
		t.Fatal("it ends without an error")
	}
	return j.Report()
}

// TestSweepsTileAfterOneThatWasGivenUp: a tile that is damaged is given up in its third pass. The next one gets three
// passes of its own, so one failed listing does not leave its partial tiles.
func TestSweepsTileAfterOneThatWasGivenUp(t *testing.T) {
	kept, head := janitor.LogOf256(t)
	kept["tile/data/000"] = kept["tile/data/000"][1:]
	failed := 0
	objects := listed{Kept: kept, fails: func(prefix string) error {
		if failed == 0 && strings.HasPrefix(prefix, "tile/0/000") {
			failed++
			return errors.New("the store does not answer")
		}
		return nil
	}}
	run(t, configOf(objects, &moved{waits: seconds(8)}, head))
	if failed != 1 || kept["tile/data/000.p/3"] == nil {
		t.Errorf("%d listings failed, and the partial tile of the damaged one has %d bytes", failed,
			len(kept["tile/data/000.p/3"]))
	}
	if _, ok := kept["tile/0/000.p/3"]; ok {
		t.Error("tile/0/000.p/3 stays, although tile/0/000 is whole")
	}
}

// TestReadsNoFasterAfterAStop: after a time in which nothing could be read, one pass reads as many tiles as it may, and
// the next ones read at their usual pace.
func TestReadsNoFasterAfterAStop(t *testing.T) {
	kept, head := janitor.LogOf256(t)
	config := configOf(kept, &moved{waits: append(append(seconds(3), 1000*time.Second), seconds(5)...)}, head)
	config.Keep.Reread = time.Second
	// The first pass begins, the second and third read one tile, the fourth 16, and each later one at most two.
	if read := run(t, config).Reread; read < 2+16+5 || read > 2+16+2*5 {
		t.Errorf("it reads the tile %d times", read)
	}
}

// stepping returns the command to make a step from the state of a new log with a timestamp.
func stepping(t *testing.T, timestamp uint64) *decider.Command {
	t.Helper()
	line, err := step.New("log.example/tried").Begin(timestamp)
	testkit.Must(t, err)
	d := decider.New()
	look, err := d.Next(decider.Begin(), decider.LockRead(fmt.Sprintf("%s\nnode -\nsalt %016x%016x\n", line, 0, 7)))
	testkit.Must(t, err)
	next, err := d.Next(look, decider.Published())
	testkit.Must(t, err)
	if next.Do != decider.Step {
		t.Fatalf("the decider says %s", next.Do)
	}
	return next
}

// TestLeavesWhatNoNodeStaged: an object under staging/ with a name that no node gives stays, and keeps no staged batch
// from being deleted.
func TestLeavesWhatNoNodeStaged(t *testing.T) {
	const now = 1800000000000
	kept, head := janitor.LogOf256(t)
	old := fmt.Sprintf("staging/%016x%016x%016x", now-1000, now-2000, 1)
	others := []string{"staging/0notes", "staging/" + strings.Repeat("0", 47), strings.ToUpper(old[:8]) + old[8:],
		"staging/" + strings.Repeat("A", 48)}
	for _, name := range append(others, old) {
		kept[name] = []byte("a batch")
	}
	config := configOf(kept, &moved{waits: seconds(3)}, head)
	command := stepping(t, now)
	config.Newest = func() (janitor.Newest, bool) { return janitor.Newest{Head: head, Stepping: command}, true }
	report := run(t, config)
	if kept[old] != nil || report.Staged != 1 {
		t.Errorf("%s has %d bytes, and %d staged batches were deleted", old, len(kept[old]), report.Staged)
	}
	for _, name := range others {
		if !bytes.Equal(kept[name], []byte("a batch")) {
			t.Errorf("%s is gone", name)
		}
	}
	if report.Failures != 0 {
		t.Errorf("%d parts failed: %v", report.Failures, report.Failed)
	}
}
