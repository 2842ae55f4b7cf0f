package watch_test

import (
	"context"
	"errors"
	"fmt"
	"net/http"
	"strings"
	"testing"
	"time"

	"wagtenib/internal/testkit"
	"wagtenib/internal/watch"
)

// A log that answers with another wrong head each time is accused only sixteen times: it must not fill the disk of its
// monitor.
func TestAccusesAtMostSixteenTimes(t *testing.T) {
	for _, kind := range kinds {
		s := newScene(t, kind, 0)
		for i := range uint64(40) {
			s.log.PublishRoot(300, epoch+310_000+i, [32]byte{1, byte(i)})
			var accused *watch.AccusedError
			if err := s.follower.Pass(context.Background()); !errors.As(err, &accused) {
				t.Fatalf("%s: %v", kind, err)
			}
		}
		if times := len(s.keeper.accused[s.watched.ID]); times != 16 {
			t.Errorf("%s: it is accused %d times, and 16 times are expected", kind, times)
		}
	}
}

// After the origin of a log has changed in the list, the log is followed by the new origin.
func TestFollowsChangedOrigin(t *testing.T) {
	k := newKeeper()
	group := watch.NewGroup(k, watch.Options{FromStart: true, Pause: time.Millisecond})
	ctx, cancel := context.WithCancel(context.Background())
	defer func() {
		cancel()
		group.Wait()
	}()
	listed := serve(t, newLog(t, 10), "tiled")
	group.Follow(ctx, []watch.Log{listed})
	await(t, k, "the log", func(s watch.Status) bool { return s.Accepted == 10 && s.Fault == nil })
	listed.Origin = "another.example/2027"
	group.Follow(ctx, []watch.Log{listed})
	before := 0
	await(t, k, "the fault of another origin", func(s watch.Status) bool {
		// The reports of earlier passes arrive first.
		if before++; before > 1000 {
			t.Fatalf("it is still followed by the origin %s", s.Log.Origin)
		}
		return s.Log.Origin == listed.Origin && s.Fault != nil
	})
}

// After leaves had another root, data tiles are compared with the hash tiles, but only until a head is accepted.
func TestComparesUntilAHeadIsAccepted(t *testing.T) {
	s := newScene(t, "tiled", 0)
	other := s.log.Fork(300)
	for other.Size() < 400 {
		other.Add(testkit.Entry{Timestamp: epoch, Certificate: fmt.Appendf(nil, "other %d", other.Size())})
	}
	other.Publish(400, epoch+1000*400)
	grow(s.log, 100)
	s.log.Intercept(func(w http.ResponseWriter, r *http.Request) bool {
		if strings.HasPrefix(r.URL.Path, "/tile/data/") {
			other.ServeHTTP(w, r)
			return true
		}
		return false
	})
	s.checkAccused(t, watch.VerdictOtherRoot)
	for _, compares := range []bool{true, false, false} {
		hashes := 0
		s.log.Intercept(func(_ http.ResponseWriter, r *http.Request) bool {
			if strings.HasPrefix(r.URL.Path, "/tile/0/") {
				hashes++
			}
			return false
		})
		if err := s.follower.Pass(context.Background()); err != nil {
			t.Fatal(err)
		}
		if state := s.keeper.states[s.watched.ID]; (hashes > 0) != compares || state.Accepted.TreeSize != s.log.Size() {
			t.Errorf("%d hash tiles are read, and %d entries accepted of %d", hashes, state.Accepted.TreeSize, s.log.Size())
		}
		grow(s.log, 20)
	}
}
