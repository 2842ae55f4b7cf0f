package watch_test

import (
	"context"
	"errors"
	"net/http"
	"net/http/httptest"
	"strings"
	"sync/atomic"
	"testing"

	"wagtenib/internal/audit/judge"
	"wagtenib/internal/logclient"
	"wagtenib/internal/testkit"
	"wagtenib/internal/watch"
)

// showing answers for one of several back ends of a log's address.
type showing struct{ now atomic.Pointer[testkit.Log] }

func (s *showing) ServeHTTP(w http.ResponseWriter, r *http.Request) { s.now.Load().ServeHTTP(w, r) }

// fronts holds a log with 20 entries and its follower, which has accepted them. The follower's address shows whichever
// back end the test sets.
type fronts struct {
	scene
	show *showing
	at   uint64 // the time of the accepted head
}

// newFronts follows a log of 20 entries from its start.
func newFronts(t *testing.T, kind string) *fronts {
	t.Helper()
	f := &fronts{show: &showing{}, at: epoch + 20_000}
	f.log, f.keeper, f.clock = newLog(t, 20), newKeeper(), newClock(epoch+30_000)
	f.show.now.Store(f.log)
	server := httptest.NewServer(f.show)
	t.Cleanup(server.Close)
	f.watched = watched(f.log, server.URL, kind)
	f.restart(t)
	f.pass(t)
	return f
}

// restart follows the log by a new follower, which knows only what was stored.
func (f *fronts) restart(t *testing.T) {
	t.Helper()
	options := f.options()
	options.Client.Limits = logclient.Limits{Attempts: 1}
	f.follower = newFollower(t, f.watched, f.keeper, options)
}

// pass makes a pass, which must not fail.
func (f *fronts) pass(t *testing.T) {
	t.Helper()
	if err := f.follower.Pass(context.Background()); err != nil {
		t.Fatal(err)
	}
}

// other returns a log with the first entries of the log and then others, and a head over all of them.
func (f *fronts) other(same, size, timestamp uint64) *testkit.Log {
	other := f.log.Fork(same)
	other.Add(makeEntries(1_000_000, size-same)...)
	other.Publish(size, timestamp)
	return other
}

// checkShown checks the verdicts of the evidence against the log, and that the independent judge confirms each.
func (f *fronts) checkShown(t *testing.T, expected ...string) {
	t.Helper()
	checkVerdicts(t, f.keeper, f.watched.ID, expected...)
	for _, evidence := range f.keeper.accused[f.watched.ID] {
		shown, err := judge.Evidence(writeEvidence(t, evidence), f.watched.PublicKey)
		isAccusation := evidence.Verdict != watch.VerdictNotProved
		if err != nil || strings.Contains(shown, "no accusation") == isAccusation {
			t.Errorf("%s: the judge says %q, %v", evidence.Verdict, shown, err)
		}
		if isAccusation && !strings.Contains(shown, "Nothing else must be believed") {
			t.Errorf("%s: %s", evidence.Verdict, shown)
		}
	}
}

// A log takes back a head that it signed: with a head of 25 leaves waiting for its entries, it signs the accepted tree
// of 20 leaves again, with a later timestamp.
func TestAccusesAHeadThatIsTakenBack(t *testing.T) {
	for _, kind := range kinds {
		t.Run(kind, func(t *testing.T) {
			f := newFronts(t, kind)
			var isOn atomic.Bool
			isOn.Store(true)
			refuse(f.log, &isOn, false)
			grow(f.log, 5)
			if err := f.follower.Pass(context.Background()); !errors.Is(err, logclient.ErrStatus) {
				t.Fatal(err)
			}
			f.restart(t)
			f.log.Publish(20, f.at+6000)
			f.checkAccused(t, watch.VerdictShrunk)
			f.checkShown(t, watch.VerdictShrunk)
		})
	}
}

// A log signs its tree again with a later timestamp, and then a larger tree with an earlier one.
func TestAccusesAHeadBeforeARepeatedOne(t *testing.T) {
	for _, kind := range kinds {
		t.Run(kind, func(t *testing.T) {
			f := newFronts(t, kind)
			f.log.Publish(20, f.at+40_000)
			f.pass(t)
			f.restart(t)
			f.log.Add(makeEntries(20, 5)...)
			f.log.Publish(25, f.at+20_000)
			f.checkAccused(t, watch.VerdictNotLater)
			f.checkShown(t, watch.VerdictNotLater)
		})
	}
}

// An earlier head of the same tree is remembered too: a smaller head between both is later than it.
func TestAccusesASmallerHeadAfterTheEarliest(t *testing.T) {
	for _, kind := range kinds {
		t.Run(kind, func(t *testing.T) {
			f := newFronts(t, kind)
			f.log.Publish(20, f.at-4000)
			f.pass(t)
			f.restart(t)
			f.log.Publish(18, f.at-2000)
			f.checkAccused(t, watch.VerdictShrunk)
			f.checkShown(t, watch.VerdictShrunk)
		})
	}
}

// A fork that lags shows heads with fewer leaves and earlier timestamps than the accepted one. If the back end with the
// accepted history answers for it, the answers show the fork. If the fork itself answers, it refuses the proof, and the
// owner is told so without an accusation, once, until the other back end answers again.
func TestAccusesAForkThatLags(t *testing.T) {
	for _, kind := range kinds {
		for _, size := range []uint64{15, 16, 19} {
			f := newFronts(t, kind)
			fork := f.other(10, size, f.at-1000)
			f.show.now.Store(fork)
			f.pass(t)
			f.checkShown(t)
			f.restart(t)
			for range 3 {
				f.pass(t)
				f.clock.now.Add(hour / 2)
			}
			f.checkShown(t, watch.VerdictNotProved)
			if kept := f.keeper.states[f.watched.ID].Unplaced; len(kept) != 1 || kept[0].TreeSize != size {
				t.Errorf("%s: %d heads are kept", kind, len(kept))
			}
			f.show.now.Store(f.log)
			f.checkAccused(t, watch.VerdictOtherHistory)
			f.checkShown(t, watch.VerdictNotProved, watch.VerdictOtherHistory)
			if kept := f.keeper.states[f.watched.ID].Unplaced; len(kept) != 0 {
				t.Errorf("%s: %d heads are kept", kind, len(kept))
			}
			f.pass(t)
		}
	}
}

// A head of no leaves has one root, whatever its timestamp is.
func TestAccusesAnotherEmptyTree(t *testing.T) {
	for _, kind := range kinds {
		f := newFronts(t, kind)
		f.log.PublishRoot(0, f.at-5000, [32]byte{1})
		f.checkAccused(t, watch.VerdictOtherHistory)
		f.checkShown(t, watch.VerdictOtherHistory)
	}
}

// A proof that does not lead to the known head is no accusation, since the log signs no proof.
func TestReportsAWrongProof(t *testing.T) {
	f := newFronts(t, "RFC 6962")
	f.log.Intercept(func(w http.ResponseWriter, r *http.Request) bool {
		if !strings.HasSuffix(r.URL.Path, "get-sth-consistency") {
			return false
		}
		_, err := w.Write([]byte(`{"consistency":["` + strings.Repeat("A", 43) + `="]}`))
		return err == nil
	})
	f.log.Publish(15, f.at-5000)
	f.pass(t)
	f.checkShown(t, watch.VerdictNotProved)
	f.log.Intercept(nil)
	f.log.Publish(20, f.at+1000)
	f.pass(t)
	if kept := f.keeper.states[f.watched.ID].Unplaced; len(kept) != 0 {
		t.Errorf("%d heads are kept", len(kept))
	}
	f.checkShown(t, watch.VerdictNotProved)
}

// Heads that others saw are compared with what the log says: those of the same history, those that contradict a known
// head, those of a fork, and those that are larger than the log's newest head.
func TestComparesHeadsOfOthers(t *testing.T) {
	for _, kind := range kinds {
		t.Run(kind, func(t *testing.T) {
			f := newFronts(t, kind)
			signed := (*testkit.Log).Checkpoint
			if kind != "tiled" {
				signed = (*testkit.Log).STH
			}
			stranger := newLog(t, 3)
			var heads [][]byte
			options := f.options()
			options.Client.Limits = logclient.Limits{Attempts: 1}
			options.Heads = func(context.Context) [][]byte { return heads }
			f.follower = newFollower(t, f.watched, f.keeper, options)
			heads = [][]byte{signed(f.other(12, 12, f.at-5000)), signed(stranger), []byte("nonsense"), signed(f.log)}
			f.pass(t)
			f.checkShown(t)
			// A friend sees a larger head of a fork. The log reaches it later.
			heads = [][]byte{signed(f.other(15, 22, f.at+2000))}
			f.pass(t)
			f.checkShown(t)
			grow(f.log, 5)
			f.checkAccused(t, watch.VerdictOtherHistory)
			f.checkShown(t, watch.VerdictOtherHistory)
			heads = [][]byte{signed(f.other(15, 23, f.at+60_000))}
			f.checkAccused(t, watch.VerdictShrunk)
			f.checkShown(t, watch.VerdictOtherHistory, watch.VerdictShrunk)
			heads = nil
			f.pass(t)
		})
	}
}

// Two heads that wait to be placed are compared with each other.
func TestComparesUnplacedHeads(t *testing.T) {
	for _, kind := range kinds {
		f := newFronts(t, kind)
		var isOn atomic.Bool
		isOn.Store(true)
		refuse(f.log, &isOn, false)
		for i, size := range []uint64{30, 50, 40} {
			if size > f.log.Size() {
				f.log.Add(makeEntries(f.log.Size(), size-f.log.Size())...)
			}
			f.log.Publish(size, f.at+uint64(i+1)*1000)
			if i == 2 {
				f.restart(t)
				f.checkAccused(t, watch.VerdictShrunk)
			} else if err := f.follower.Pass(context.Background()); !errors.Is(err, logclient.ErrStatus) {
				t.Fatal(err)
			}
		}
		f.checkShown(t, watch.VerdictShrunk)
		isOn.Store(false)
		f.log.Add(makeEntries(f.log.Size(), 10)...)
		f.log.Publish(60, f.at+9000)
		// The entries are read, whatever the log signed before.
		var accused *watch.AccusedError
		if err := f.follower.Pass(context.Background()); !errors.As(err, &accused) {
			t.Errorf("the pass ends with %v", err)
		}
		checkEntries(t, f.keeper, f.watched.ID, numbers(0, 60))
	}
}

// No more than the bound of heads is kept, and the oldest are.
func TestKeepsTheOldestUnplacedHeads(t *testing.T) {
	const bound = 16
	f := newFronts(t, "RFC 6962")
	f.show.now.Store(f.other(0, 1, f.at-20_000))
	for i := range uint64(bound + 4) {
		fork := f.other(5, 8, f.at-19_000+i*100)
		f.show.now.Store(fork)
		f.pass(t)
	}
	kept := f.keeper.states[f.watched.ID].Unplaced
	if len(kept) != bound || kept[0].Timestamp != f.at-19_000 || kept[bound-1].Timestamp != f.at-19_000+100*(bound-1) {
		t.Errorf("%d heads are kept", len(kept))
	}
}
