package watch_test

import (
	"context"
	"errors"
	"fmt"
	"net/http"
	"slices"
	"strings"
	"sync/atomic"
	"testing"
	"time"

	"wagtenib/internal/logclient"
	"wagtenib/internal/testkit"
	"wagtenib/internal/watch"
)

const hour = 3_600_000 // milliseconds

// refuse makes a log answer requests for entries with 403 while isOn is set, or all requests if all is set.
func refuse(log *testkit.Log, isOn *atomic.Bool, all bool) {
	log.Intercept(func(w http.ResponseWriter, r *http.Request) bool {
		isEntries := strings.Contains(r.URL.Path, "/data/") || strings.HasSuffix(r.URL.Path, "get-entries")
		if !isOn.Load() || !all && !isEntries {
			return false
		}
		w.WriteHeader(http.StatusForbidden)
		return true
	})
}

// A log with an old head is accused only if the newest head of the other logs says too that it is old: a clock that is
// ahead accuses no log, and neither does one that no other log confirms.
func TestComparesTheClockWithOtherLogs(t *testing.T) {
	for what, test := range map[string]struct {
		other     int64 // the time of the other log's head, after that of the first one
		state     string
		isAway    bool
		isAccused bool
	}{
		"the other log agrees":    {other: 2 * hour, isAccused: true},
		"a clock that is ahead":   {other: hour},
		"the other log is away":   {isAway: true},
		"the other log is frozen": {other: 0, state: "readonly", isAccused: true},
	} {
		for _, kind := range kinds {
			t.Run(kind+" "+what, func(t *testing.T) {
				stalled, other := newLog(t, 10), newLog(t, 10)
				other.Publish(10, uint64(epoch+10_000+test.other))
				var isAway atomic.Bool
				isAway.Store(test.isAway)
				refuse(other, &isAway, true)
				logs := []watch.Log{serve(t, stalled, kind), serve(t, other, kind)}
				logs[0].MaxMergeDelay, logs[1].State = time.Hour, test.state
				k := newKeeper()
				group := watch.NewGroup(k, watch.Options{Client: logclient.Options{Clock: newClock(epoch + 72*hour),
					Limits: logclient.Limits{Attempts: 1}}})
				results := group.Once(context.Background(), logs)
				var accused *watch.AccusedError
				if errors.As(results[logs[0].ID], &accused) != test.isAccused {
					t.Errorf("the pass ends with %v", results[logs[0].ID])
				}
				if test.isAccused {
					checkVerdicts(t, k, logs[0].ID, watch.VerdictOldHead)
					checkEvidence(t, k, logs[0])
				} else {
					checkVerdicts(t, k, logs[0].ID)
				}
				// The old head is followed all the same.
				if k.states[logs[0].ID].Accepted.TreeSize != 10 {
					t.Errorf("%d leaves are accepted", k.states[logs[0].ID].Accepted.TreeSize)
				}
			})
		}
	}
}

// A log that signs a head, and does not hand out its entries within the maximum merge delay, is accused with the head,
// also by a follower that was started again. After it hands them out, they are read.
func TestAccusesWithheldEntries(t *testing.T) {
	for _, kind := range kinds {
		t.Run(kind, func(t *testing.T) {
			s := newScene(t, kind, time.Hour)
			var isOn atomic.Bool
			isOn.Store(true)
			refuse(s.log, &isOn, false)
			grow(s.log, 20)
			signed := int64(epoch + 320_000)
			pass := func(at int64) error {
				s.clock.now.Store(at)
				s.follower = newFollower(t, s.watched, s.keeper, s.options())
				return s.follower.Pass(context.Background())
			}
			for _, at := range []int64{signed, signed + hour/2, signed + hour} {
				if err := pass(at); !errors.Is(err, logclient.ErrStatus) {
					t.Fatal(err)
				}
			}
			checkVerdicts(t, s.keeper, s.watched.ID)
			// The log shows its head, which must not be too old, again with a later timestamp.
			s.log.Publish(320, uint64(signed+hour+1000))
			s.clock.now.Store(signed + hour + 2000)
			s.follower = newFollower(t, s.watched, s.keeper, s.options())
			s.checkAccused(t, watch.VerdictWithheld)
			checkVerdicts(t, s.keeper, s.watched.ID, watch.VerdictWithheld)
			checkEvidence(t, s.keeper, s.watched)
			isOn.Store(false)
			if err := pass(signed + hour + 3000); err != nil {
				t.Fatal(err)
			}
			checkEntries(t, s.keeper, s.watched.ID, numbers(0, 320))
			// The delay begins again with the next failure.
			isOn.Store(true)
			s.log.Add(makeEntries(320, 5)...)
			s.log.Publish(325, uint64(signed+hour+4000))
			if err := pass(signed + 2*hour); !errors.Is(err, logclient.ErrStatus) {
				t.Fatal(err)
			}
		})
	}
}

// A follower that reads a large tree for longer than the maximum merge delay accuses no log: the log hands out entries.
func TestAccusesNoLogThatIsReadSlowly(t *testing.T) {
	for _, kind := range kinds {
		s := newScene(t, kind, time.Hour)
		grow(s.log, 600)
		for at := int64(epoch + 900_000); ; at += hour {
			// Each pass gets the next tile or page, and a refusal for the others.
			read := s.keeper.states[s.watched.ID].Read
			s.log.Intercept(func(w http.ResponseWriter, r *http.Request) bool {
				isOther := strings.Contains(r.URL.Path, "/data/") && !strings.Contains(r.URL.Path,
					fmt.Sprintf("/data/%03d", read/256)) || strings.HasSuffix(r.URL.Path, "get-entries") &&
					r.URL.Query().Get("start") != fmt.Sprint(read)
				if isOther {
					w.WriteHeader(http.StatusForbidden)
				}
				return isOther
			})
			s.clock.now.Store(at)
			s.log.Publish(900, uint64(at))
			if err := s.follower.Pass(context.Background()); err == nil {
				break
			}
		}
		checkVerdicts(t, s.keeper, s.watched.ID)
		if found := s.keeper.indexes(s.watched.ID); !slices.Equal(found, numbers(0, 900)) {
			t.Errorf("%d entries were read", len(found))
		}
	}
}
