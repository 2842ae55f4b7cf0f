package janitor_test

import (
	"context"
	"errors"
	"fmt"
	"slices"
	"strings"
	"testing"
	"time"

	"wagtenib/internal/ct"
	"wagtenib/internal/log/node/decider"
	"wagtenib/internal/log/node/janitor"
)

// store is one of heads only, and the clock of the janitor over it.
type store struct {
	heads []string
	now   time.Duration
	// waits is how often the janitor may wait, and pausedAt after which deletion the process is paused for how long.
	waits    int
	deleted  []string
	pausedAt int
	pause    time.Duration
}

var errAbsent = errors.New("it has heads only")

func (s *store) Get(context.Context, string, int64) ([]byte, error) { return nil, errAbsent }

func (s *store) List(_ context.Context, prefix, after string, max int) (names []string, err error) {
	for _, name := range s.heads {
		if strings.HasPrefix(name, prefix) && name > after && len(names) < max {
			names = append(names, name)
		}
	}
	return names, nil
}

func (s *store) Delete(_ context.Context, name string) error {
	s.heads = slices.DeleteFunc(s.heads, func(head string) bool { return head == name })
	s.deleted = append(s.deleted, name)
	if len(s.deleted) == s.pausedAt {
		s.now += s.pause
	}
	return nil
}

func (s *store) Elapsed() time.Duration { return s.now }

func (s *store) Within(ctx context.Context, _ time.Duration) (context.Context, context.CancelFunc) {
	return context.WithCancel(ctx)
}

func (s *store) Wait(_ context.Context, long time.Duration, _ <-chan struct{}) error {
	if s.waits--; s.waits < 0 {
		return context.Canceled
	}
	s.now += long
	return nil
}

// put adds the head of a size, whose timestamp is the time.
func (s *store) put(size uint64) ct.TreeHead {
	head := ct.TreeHead{TreeSize: size, Timestamp: uint64(s.now.Milliseconds())}
	s.heads = append(s.heads, name(head.TreeSize, head.Timestamp))
	return head
}

func name(size, timestamp uint64) string { return fmt.Sprintf("heads/%020d-%020d", size, timestamp) }

// keep has heads thinned to one a second after two seconds, and deleted after a minute.
var keep = janitor.Keep{Every: time.Second, Tiles: time.Hour, Heads: time.Minute, Staged: time.Hour,
	Thin: 2 * time.Second, Apart: time.Second, Reread: time.Hour, Call: 5 * time.Second}

// over returns a janitor over a store. Each of its passes gets the head that newest returns.
func over(t *testing.T, s *store, newest func() ct.TreeHead) *janitor.Janitor {
	t.Helper()
	j, err := janitor.New(janitor.Config{Objects: s, Clock: s, Decider: decider.New(), Keep: keep,
		Newest: func() (janitor.Newest, bool) { return janitor.Newest{Head: newest()}, true },
		Random: func() (uint64, error) { return 0, nil }})
	if err != nil {
		t.Fatal(err)
	}
	return j
}

// makePasses has the janitor make passes.
func makePasses(t *testing.T, j *janitor.Janitor, s *store, passes int) {
	t.Helper()
	s.waits = passes
	if err := j.Run(context.Background()); err == nil || j.Report().Failures > 0 {
		t.Fatalf("the janitor ended by %v: %+v", err, j.Report())
	}
}

// TestLeavesFirstHeadOfEachInterval has five heads come in each of twenty seconds. The first one of each second stays,
// and so do those of the last seconds.
func TestLeavesFirstHeadOfEachInterval(t *testing.T) {
	s, size := &store{}, uint64(0)
	j := over(t, s, func() (newest ct.TreeHead) {
		for range 5 {
			size++
			newest = s.put(size)
			s.now += 100 * time.Millisecond
		}
		s.now -= 500 * time.Millisecond
		return newest
	})
	makePasses(t, j, s, 20)
	seconds := map[string]int{}
	for _, head := range s.heads {
		digits := head[len(head)-8:]
		seconds[digits[:5]]++
		if first := digits[5:]; seconds[digits[:5]] == 1 && first != "000" {
			t.Errorf("the first head of second %s that stays is at %s ms", digits[:5], first)
		}
	}
	for second := 1; second <= 20; second++ {
		if left := seconds[fmt.Sprintf("%05d", second)]; left == 0 || second > 1 && second < 15 && left != 1 {
			t.Errorf("%d heads of second %d stay", left, second)
		}
	}
}

// TestThinsNoHeadsAfterAPause pauses the process between two deletions of a pass, or between two passes, for almost as
// long as heads stay. By then another janitor may have deleted the heads for which these would be deleted.
func TestThinsNoHeadsAfterAPause(t *testing.T) {
	for what, within := range map[string]bool{"between two deletions": true, "between two passes": false} {
		s := &store{}
		newest := s.put(0)
		j := over(t, s, func() ct.TreeHead { return newest })
		makePasses(t, j, s, 2)
		for size := range uint64(8) {
			newest = s.put(size + 1)
			s.now += 50 * time.Millisecond
		}
		if within {
			s.pausedAt, s.pause = 3, keep.Heads-keep.Call
		} else {
			s.now += keep.Heads - keep.Call
		}
		makePasses(t, j, s, 6)
		if within && len(s.deleted) != 3 || !within && len(s.deleted) != 0 {
			t.Errorf("paused %s: %d heads were deleted: %q", what, len(s.deleted), s.deleted)
		}
	}
}

// TestThinsByHeadsThatTheNodeDoesNotKnow has the node know an old head only, as after a pause. Heads that came long
// before may be deleted by another janitor at any time, so none is deleted for them.
func TestThinsByHeadsThatTheNodeDoesNotKnow(t *testing.T) {
	s := &store{now: time.Hour}
	known := s.put(1)
	for size := range uint64(8) {
		s.now += 50 * time.Millisecond
		s.put(size + 2)
	}
	after := ct.TreeHead{TreeSize: 100, Timestamp: uint64((2 * time.Hour).Milliseconds())}
	s.now += keep.Heads - 10*time.Second
	j := over(t, s, func() ct.TreeHead { return known })
	makePasses(t, j, s, 4)
	s.heads, known = append(s.heads, name(after.TreeSize, after.Timestamp)), after
	makePasses(t, j, s, 8)
	if len(s.deleted) > 0 || len(s.heads) != 10 {
		t.Errorf("heads that were put before the janitor began are deleted for others: %q", s.deleted)
	}
}
