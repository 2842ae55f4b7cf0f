package watch_test

import (
	"context"
	"errors"
	"fmt"
	"net/http"
	"slices"
	"strings"
	"sync"
	"sync/atomic"
	"testing"
	"time"

	"wagtenib/internal/logclient"
	"wagtenib/internal/testkit"
	"wagtenib/internal/watch"
)

// await returns the next reported status for which a condition holds.
func await(t *testing.T, k *keeper, what string, holds func(watch.Status) bool) watch.Status {
	t.Helper()
	late := time.After(within)
	for {
		select {
		case status := <-k.reported:
			if holds(status) {
				return status
			}
		case <-late:
			t.Fatalf("%s was not reported within %v", what, within)
		}
	}
}

// One log of ten sends one byte a second. The other nine are read whole and followed while the tenth has not ended one
// answer, for which the limits of this test allow a day.
func TestSlowLogDelaysNoOther(t *testing.T) {
	k := newKeeper()
	const day = 24 * time.Hour
	group := watch.NewGroup(k, watch.Options{FromStart: true, Pause: time.Millisecond, Limit: day,
		Client: logclient.Options{Limits: logclient.Limits{Request: day, Grace: day}}})
	ctx, cancel := context.WithCancel(context.Background())
	defer cancel()
	var logs []watch.Log
	served := map[watch.LogID]*testkit.Log{}
	asked := make(chan struct{}, 100)
	for i := range 10 {
		log := newLog(t, 1000)
		if i == 3 {
			log.Intercept(func(w http.ResponseWriter, r *http.Request) bool {
				asked <- struct{}{}
				drip(w, r, time.Second)
				return true
			})
		}
		listed := serve(t, log, kinds[i%2])
		listed.Name = fmt.Sprint(i)
		logs = append(logs, listed)
		if i != 3 {
			served[listed.ID] = log
		}
	}
	group.Follow(ctx, logs)
	<-asked
	for _, size := range []uint64{1000, 1700} {
		accepted := map[watch.LogID]bool{}
		for len(accepted) < 9 {
			status := await(t, k, "nine accepted logs", func(s watch.Status) bool {
				return s.Fault == nil &&
					s.Accepted == size
			})
			accepted[status.Log.ID] = true
		}
		for _, log := range served {
			if size == 1000 {
				grow(log, 700)
			}
		}
	}
	if k.hasStatus(logs[3].ID) {
		t.Error("the slow log has ended an answer, so this test has checked nothing")
	}
	cancel()
	group.Wait()
	for id := range served {
		checkEntries(t, k, id, numbers(0, 1700))
	}
}

// nonsense holds wrong answers that a log gives instead of its head or its entries, and what the reason must contain
// for each.
var nonsense = map[string]struct {
	answer        func(w http.ResponseWriter, r *http.Request)
	head, entries string // the expected part of the reason
}{
	"HTML": {func(w http.ResponseWriter, _ *http.Request) { fmt.Fprint(w, "<html><p>404\n\nNot found</p>") }, "not ",
		"answer"},
	"nothing": {func(http.ResponseWriter, *http.Request) {}, "not ", "answer"},
	"a redirect": {func(w http.ResponseWriter, r *http.Request) {
		http.Redirect(w, r, "http://localhost:1/", http.StatusFound)
	}, "redirects", "redirects"},
	"no such page": {func(w http.ResponseWriter, r *http.Request) { http.NotFound(w, r) }, "does not have",
		"does not have"},
	"endless": {endless, "too many bytes", "too "},
	"a drip": {func(w http.ResponseWriter, r *http.Request) { drip(w, r, 20*time.Millisecond) }, "too slow",
		"too slow"},
}

func endless(w http.ResponseWriter, r *http.Request) {
	content := []byte(strings.Repeat("entries", 1<<16))
	for r.Context().Err() == nil {
		if _, err := w.Write(content); err != nil {
			return
		}
	}
}

// drip answers with one byte after each pause until the client has closed the connection.
func drip(w http.ResponseWriter, r *http.Request, pause time.Duration) {
	for r.Context().Err() == nil {
		if _, err := w.Write([]byte("a")); err != nil {
			return
		}
		w.(http.Flusher).Flush()
		select {
		case <-r.Context().Done():
		case <-time.After(pause):
		}
	}
}

// A log that answers nonsense is reported with the reason, is accused of nothing, and is followed again after it
// answers correctly.
func TestReportsWhyAnAnswerIsNonsense(t *testing.T) {
	for _, kind := range kinds {
		for what, wrong := range nonsense {
			// Only the drip must be too slow, however slow the machine is.
			limits := logclient.Limits{Request: testkit.Longest, Grace: testkit.Longest, Attempts: 2}
			if what == "a drip" {
				limits.Request, limits.Grace = 2*time.Second, 100*time.Millisecond
			}
			for _, part := range []string{"head", "entries"} {
				t.Run(kind+" "+part+" "+what, func(t *testing.T) {
					s := newScene(t, kind, 0)
					s.follower = newFollower(t, s.watched, s.keeper, watch.Options{FromStart: true,
						Client: logclient.Options{Clock: s.clock, Limits: limits}})
					grow(s.log, 20)
					s.log.Intercept(func(w http.ResponseWriter, r *http.Request) bool {
						isHead := strings.HasSuffix(r.URL.Path, "checkpoint") || strings.HasSuffix(r.URL.Path, "get-sth")
						if isHead != (part == "head") {
							return false
						}
						wrong.answer(w, r)
						return true
					})
					expected := wrong.head
					if part == "entries" {
						expected = wrong.entries
					}
					if err := s.follower.Pass(context.Background()); err == nil || !strings.Contains(err.Error(), expected) {
						t.Errorf("the pass ends with %v, and %q is expected in it", err, expected)
					}
					if status := s.keeper.statuses[s.watched.ID]; status.Fault == nil || status.Accepted != 300 {
						t.Errorf("the status is %+v", status)
					}
					checkVerdicts(t, s.keeper, s.watched.ID)
					s.log.Intercept(nil)
					late := testkit.Limited(t, testkit.Longest)
					for err := s.follower.Pass(late); err != nil; err = s.follower.Pass(late) {
						if late.Err() != nil {
							t.Fatal(err)
						}
					}
					checkEntries(t, s.keeper, s.watched.ID, numbers(0, 320))
				})
			}
		}
	}
}

// After the list has changed, a removed log is no longer followed, a new one is followed, and one with another address
// is read there.
func TestFollowsChangedList(t *testing.T) {
	k := newKeeper()
	group := watch.NewGroup(k, watch.Options{FromStart: true, Pause: time.Millisecond})
	ctx, cancel := context.WithCancel(context.Background())
	defer cancel()
	first, second, third := newLog(t, 10), newLog(t, 20), newLog(t, 30)
	a, b, c := serve(t, first, "tiled"), serve(t, second, "RFC 6962"), serve(t, third, "tiled")
	group.Follow(ctx, []watch.Log{a, b})
	sees := func(log watch.Log, size uint64) {
		t.Helper()
		await(t, k, log.URL, func(s watch.Status) bool {
			return s.Log.URL == log.URL && s.Accepted == size &&
				s.Fault == nil
		})
	}
	sees(a, 10)
	sees(b, 20)
	moved := serve(t, second, "RFC 6962")
	group.Follow(ctx, []watch.Log{moved, c})
	sees(moved, 20)
	sees(c, 30)
	before := first.Requests("/checkpoint")
	grow(third, 5)
	sees(c, 35)
	if after := first.Requests("/checkpoint"); after > before+1 {
		t.Errorf("the removed log was asked %d times", after-before)
	}
	wrong := c
	wrong.URL = "nowhere"
	group.Follow(ctx, []watch.Log{moved, wrong})
	await(t, k, "the wrong address", func(s watch.Status) bool {
		return s.Log.URL == "nowhere" &&
			errors.Is(s.Fault, logclient.ErrAddress)
	})
	cancel()
	group.Wait()
	checkEntries(t, k, b.ID, numbers(0, 20))
}

// holding is a keeper whose first call with entries returns only after the log is asked at its other address, or after
// a while.
type holding struct {
	*keeper
	held, asked chan struct{}
	once        sync.Once
	overlaps    atomic.Bool
}

func (h *holding) Keep(log watch.Log, next watch.State, entries []watch.Entry) error {
	if len(entries) > 0 {
		h.once.Do(func() {
			close(h.held)
			select {
			case <-h.asked:
				h.overlaps.Store(true)
			case <-time.After(200 * time.Millisecond): // A follower that does not wait has asked by then.
			}
		})
	}
	return h.keeper.Keep(log, next, entries)
}

// A log with a new address is followed there after its old follower has ended, so that no two followers store its state
// at once.
func TestFollowsALogOnceAtATime(t *testing.T) {
	log := newLog(t, 10)
	old, moved := serve(t, log, "tiled"), serve(t, log, "tiled")
	k := &holding{keeper: newKeeper(), held: make(chan struct{}), asked: make(chan struct{}, 100)}
	log.Intercept(func(_ http.ResponseWriter, r *http.Request) bool {
		if strings.HasSuffix(moved.URL, r.Host) {
			k.asked <- struct{}{}
		}
		return false
	})
	group := watch.NewGroup(k, watch.Options{FromStart: true})
	ctx, cancel := context.WithCancel(context.Background())
	defer cancel()
	group.Follow(ctx, []watch.Log{old})
	<-k.held
	group.Follow(ctx, []watch.Log{moved})
	await(t, k.keeper, "the new address", func(s watch.Status) bool { return s.Log.URL == moved.URL && s.Accepted == 10 })
	if k.overlaps.Load() {
		t.Error("the log was asked at its new address before the old follower had ended")
	}
	cancel()
	group.Wait()
	checkEntries(t, k.keeper, old.ID, numbers(0, 10))
}

// Once makes one pass over all logs, and returns the result for each. A log that is listed twice is read once.
func TestOnceReturnsAResultForEachLog(t *testing.T) {
	k := newKeeper()
	group := watch.NewGroup(k, watch.Options{FromStart: true, Client: logclient.Options{Clock: newClock(epoch)}})
	good, away := newLog(t, 500), newLog(t, 1)
	a, b := serve(t, good, "tiled"), serve(t, away, "tiled")
	away.Intercept(func(w http.ResponseWriter, _ *http.Request) bool {
		w.WriteHeader(http.StatusServiceUnavailable)
		return true
	})
	results := group.Once(context.Background(), []watch.Log{a, b, a})
	if len(results) != 2 || results[a.ID] != nil || !errors.Is(results[b.ID], logclient.ErrBusy) {
		t.Errorf("%v", results)
	}
	checkEntries(t, k, a.ID, numbers(0, 500))
	// A pass ends at its time limit, and the next one continues.
	slow := newLog(t, 3000)
	listed := serve(t, slow, "tiled")
	slow.Intercept(func(_ http.ResponseWriter, r *http.Request) bool {
		if r.URL.Path != "/tile/data/007" {
			return false
		}
		<-r.Context().Done()
		return true
	})
	for limit := 300 * time.Millisecond; ; limit *= 2 {
		limited := watch.NewGroup(k, watch.Options{FromStart: true, Limit: limit})
		if results := limited.Once(context.Background(), []watch.Log{listed}); !errors.Is(results[listed.ID],
			context.DeadlineExceeded) {
			t.Fatalf("%v", results)
		}
		// A busy machine may need more than the first limit for the entries that can be read.
		found := k.indexes(listed.ID)
		if slices.Equal(found, numbers(0, 7*256)) {
			break
		}
		if limit > within || len(found) > 7*256 {
			t.Fatalf("%d entries were kept", len(found))
		}
	}
	slow.Intercept(nil)
	limited := watch.NewGroup(k, watch.Options{FromStart: true})
	if results := limited.Once(context.Background(), []watch.Log{listed}); results[listed.ID] != nil {
		t.Errorf("%v", results)
	}
	checkEntries(t, k, listed.ID, numbers(0, 3000))
}

// A log with 30,000 entries that refuses one request in five is followed to its head in one pass.
func TestFollowsDespiteRefusals(t *testing.T) {
	for _, kind := range kinds {
		log := newLog(t, 30_000)
		asked := make(chan int, 1)
		asked <- 0
		log.Intercept(func(w http.ResponseWriter, _ *http.Request) bool {
			n := <-asked + 1
			asked <- n
			if n%5 != 0 {
				return false
			}
			w.Header().Set("Retry-After", "1")
			w.WriteHeader(http.StatusTooManyRequests)
			return true
		})
		listed := serve(t, log, kind)
		k := newKeeper()
		f := newFollower(t, listed, k, watch.Options{FromStart: true, Client: logclient.Options{Clock: newClock(epoch)}})
		if err := f.Pass(context.Background()); err != nil {
			t.Fatal(err)
		}
		checkEntries(t, k, listed.ID, numbers(0, 30_000))
		if n := <-asked; n < 100 {
			t.Errorf("%d requests were made", n)
		}
	}
}

// waitClock is a clock that hands the duration of each wait to the test.
type waitClock struct {
	clock
	waits chan time.Duration
}

func (w *waitClock) Wait(ctx context.Context, d time.Duration) error {
	select {
	case w.waits <- d:
	case <-ctx.Done():
	}
	return w.clock.Wait(ctx, d)
}

// A busy log is not asked before the time that it names, but after a day at the latest.
func TestAsksABusyLogLater(t *testing.T) {
	for retryAfter, expected := range map[string]time.Duration{"7200": 2 * time.Hour, "86400000": 24 * time.Hour} {
		log := newLog(t, 1)
		log.Intercept(func(w http.ResponseWriter, _ *http.Request) bool {
			w.Header().Set("Retry-After", retryAfter)
			w.WriteHeader(http.StatusTooManyRequests)
			return true
		})
		listed := serve(t, log, "tiled")
		at := &waitClock{waits: make(chan time.Duration)}
		at.now.Store(epoch)
		k := newKeeper()
		group := watch.NewGroup(k, watch.Options{Pause: time.Minute, Client: logclient.Options{Clock: at}})
		ctx, cancel := context.WithCancel(context.Background())
		group.Follow(ctx, []watch.Log{listed})
		if pause := <-at.waits; pause < expected-time.Minute || pause > expected+time.Minute {
			t.Errorf("after Retry-After: %s, the log is asked again after %v", retryAfter, pause)
		}
		var busy *logclient.BusyError
		status := await(t, k, "the first status", func(watch.Status) bool { return true })
		if !errors.As(status.Fault, &busy) || busy.Status != http.StatusTooManyRequests {
			t.Errorf("the status has the fault %v", status.Fault)
		}
		cancel()
		group.Wait()
	}
}
