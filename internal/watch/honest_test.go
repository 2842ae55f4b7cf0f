package watch_test

import (
	"context"
	"net/http"
	"slices"
	"strings"
	"testing"
	"time"

	"wagtenib/internal/testkit"
	"wagtenib/internal/watch"
)

// honest holds an honest log and the monitor that follows it. A back end of the log lags: it has the first entries, and
// shows an older head.
type honest struct {
	*fronts
	t *testing.T
}

// grow adds entries with a time after that of the first head, and signs a head of the same time.
func (h *honest) grow(count, after uint64) {
	entries := makeEntries(h.log.Size(), count)
	for i := range entries {
		entries[i].Timestamp = h.at + after
	}
	h.log.Add(entries...)
	h.log.Publish(h.log.Size(), h.at+after)
}

// see makes a pass over a back end that has this many entries, and shows their head of a time after that of the first
// head. The pass may fail.
func (h *honest) see(size uint64, after int64) {
	behind := h.log.Fork(size)
	behind.Publish(size, uint64(int64(h.at)+after))
	h.seeLog(behind)
}

// seeLog makes a pass over a back end. The pass may fail.
func (h *honest) seeLog(log *testkit.Log) {
	h.show.now.Store(log)
	// A back end that does not answer is no fault of the log, and no accusation.
	_ = h.follower.Pass(context.Background())
}

// habits are lawful habits of honest logs. Each begins with a log of 20 entries, which were read.
var habits = map[string]func(h *honest){
	"a cache that serves older checkpoints": func(h *honest) {
		old := h.log.Checkpoint()
		for i := range uint64(4) {
			h.grow(5, 1000*(i+1))
			h.seeLog(h.log)
			newest := h.log.Checkpoint()
			h.log.SetCheckpoint(old)
			h.seeLog(h.log)
			h.log.SetCheckpoint(newest)
			h.restart(h.t)
			h.seeLog(h.log)
			old = newest
		}
	},
	"two front ends a minute apart": func(h *honest) {
		for i := range uint64(6) {
			size := h.log.Size()
			h.grow(7, 60_000*(i+1))
			h.seeLog(h.log)
			h.see(size, int64(60_000*i))
			h.see(size, int64(60_000*i))
		}
	},
	"a third front end that is hours behind": func(h *honest) {
		h.grow(300, 7_200_000)
		h.seeLog(h.log)
		for size := uint64(1); size < 20; size++ {
			h.see(size, 1000*int64(size)-20_000)
		}
		h.see(20, 0)
	},
	"a tree that is signed again and again, out of order": func(h *honest) {
		for _, after := range []int64{5000, 1000, 0, 9000, 4000, 8000, 9000} {
			h.see(20, after)
		}
		h.grow(3, 9001)
		h.seeLog(h.log)
		h.see(20, 7000)
		h.see(20, 9000)
	},
	"a restart": func(h *honest) {
		h.log.Intercept(func(w http.ResponseWriter, _ *http.Request) bool {
			w.WriteHeader(http.StatusBadGateway)
			return true
		})
		h.seeLog(h.log)
		h.log.Intercept(nil)
		h.see(20, 0)
		h.see(20, 30_000)
		h.grow(1, 30_001)
	},
	"an empty log": func(h *honest) {
		// The log of this habit begins anew, with no entry.
		h.log = newLog(h.t, 0)
		h.watched = watched(h.log, h.watched.URL, h.watched.Name)
		h.restart(h.t)
		for i := range uint64(3) {
			h.see(0, int64(1000*i))
		}
		h.see(0, 500)
		h.grow(20, 5000)
		h.seeLog(h.log)
		h.see(0, 4000)
		h.see(0, 0)
	},
	"a frozen log": func(h *honest) {
		h.watched.State, h.watched.MaxMergeDelay = "readonly", time.Hour
		h.restart(h.t)
		for range 3 {
			h.clock.now.Add((2400 * time.Hour).Milliseconds())
			h.see(20, 0)
		}
	},
	"a shard that ends": func(h *honest) {
		h.watched.MaxMergeDelay = time.Hour
		h.restart(h.t)
		h.grow(10, 10_000)
		h.seeLog(h.log)
		h.watched.State = "retired"
		h.restart(h.t)
		h.clock.now.Add((240 * time.Hour).Milliseconds())
		h.seeLog(h.log)
		h.see(20, 0)
	},
	"a head before its entries": func(h *honest) {
		h.watched.MaxMergeDelay = time.Hour
		h.restart(h.t)
		var until int64
		h.log.Intercept(func(w http.ResponseWriter, r *http.Request) bool {
			isEntries := strings.Contains(r.URL.Path, "/data/") || strings.HasSuffix(r.URL.Path, "get-entries")
			if isEntries && h.clock.now.Load() < until {
				w.WriteHeader(http.StatusNotFound)
				return true
			}
			return false
		})
		for i := range uint64(3) {
			h.grow(4, 20_000+3_000_000*i)
			h.clock.now.Store(int64(h.at + 30_000 + 3_000_000*i))
			until = h.clock.now.Load() + 1_800_000
			h.seeLog(h.log)
			h.see(h.log.Size()-4, int64(3_000_000*i))
			h.clock.now.Add(1_800_000)
			h.seeLog(h.log)
		}
	},
	"a log that refuses most requests": func(h *honest) {
		count := 0
		h.log.Intercept(func(w http.ResponseWriter, r *http.Request) bool {
			count++
			if count%3 != 0 {
				w.Header().Set("Retry-After", "1")
				w.WriteHeader(http.StatusTooManyRequests)
			}
			return count%3 != 0
		})
		for i := range uint64(9) {
			h.grow(1, 1000*i+500)
			h.grow(1, 1000*i+1000)
			h.seeLog(h.log)
			h.see(h.log.Size()-1, int64(1000*i+600))
		}
		h.log.Intercept(nil)
	},
	"a cache that has no proofs of old sizes": func(h *honest) {
		h.log.Intercept(func(w http.ResponseWriter, r *http.Request) bool {
			isProof := strings.HasSuffix(r.URL.Path, "get-sth-consistency") || strings.Contains(r.URL.Path, "/tile/0/")
			if isProof {
				w.WriteHeader(http.StatusBadRequest)
			}
			return isProof
		})
		h.grow(2, 1000)
		h.grow(7, 5000)
		h.seeLog(h.log)
		for range 3 {
			h.log.Publish(22, h.at+1000)
			h.seeLog(h.log)
			h.clock.now.Add(hour)
		}
		h.log.Publish(29, h.at+5000)
		h.seeLog(h.log)
		h.log.Intercept(nil)
	},
	"a log whose clock stood still for a time": func(h *honest) {
		h.see(20, 0)
		h.grow(6, 1)
		h.seeLog(h.log)
		h.see(20, 0)
		h.grow(6, 2)
	},
}

// An honest log is never accused, whatever its habits are, and all its entries are read. A cache that gives no proof
// causes at most an alert that accuses nobody.
func TestAccusesNoHonestLog(t *testing.T) {
	for what, habit := range habits {
		for _, kind := range kinds {
			t.Run(kind+" "+what, func(t *testing.T) {
				h := &honest{newFronts(t, kind), t}
				habit(h)
				h.seeLog(h.log)
				for _, evidence := range h.keeper.accused[h.watched.ID] {
					if evidence.Verdict != watch.VerdictNotProved || what != "a cache that has no proofs of old sizes" {
						t.Errorf("the log is accused: %s: %s", evidence.Verdict, evidence.Text)
					}
				}
				state := h.keeper.states[h.watched.ID]
				if state.Accepted.TreeSize != h.log.Size() || state.Accepted.Root != h.log.Root(h.log.Size()) ||
					len(state.Unplaced) > 0 {
					t.Errorf("%d leaves are accepted of %d, and %d heads are not placed", state.Accepted.TreeSize, h.log.Size(),
						len(state.Unplaced))
				}
				if found := h.keeper.indexes(h.watched.ID); !slices.Equal(found, numbers(0, h.log.Size())) {
					t.Errorf("%d entries were read, and the log has %d", len(found), h.log.Size())
				}
			})
		}
	}
}
