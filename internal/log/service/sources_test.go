package service

import (
	"testing"
	"time"
)

// still is a clock that does not advance and is not synchronized.
type still struct {
	Clock
	now time.Time
}

func (s still) Now() time.Time                               { return s.now }
func (s still) Elapsed() time.Duration                       { return time.Hour }
func (s still) Synchronized() (isSynchronized, isKnown bool) { return false, true }

// sources returns sources with one witness for each of these times, by which it is ahead of the clock.
func (s still) sources(witnesses ...time.Duration) *sources {
	of := newSources(s, ClockBounds{MaxSkew: 10 * time.Second}, Files{}, Stores{})
	for i, ahead := range witnesses {
		of.record(of.ofWitnesses, string(rune('a'+i)), s.now.Add(ahead), time.Second, s.Elapsed())
	}
	return of
}

// TestMedianOfWitnesses checks that the median of the witnesses counts. One wrong witness of three neither stops a node
// nor confirms its clock. Witnesses refuse a node only at its start.
func TestMedianOfWitnesses(t *testing.T) {
	clock := still{now: time.Now()}
	const far = time.Hour
	for _, test := range []struct {
		witnesses          []time.Duration
		starts             bool
		isVouched, refuses bool
	}{
		{nil, true, false, false},
		{[]time.Duration{0}, true, true, false},
		{[]time.Duration{far}, true, false, true},
		{[]time.Duration{far}, false, false, false},
		{[]time.Duration{far, 0, 0}, true, true, false},
		{[]time.Duration{-far, 0, 0}, true, true, false},
		{[]time.Duration{far, far, 0}, true, false, true},
		{[]time.Duration{-far, 0, far}, true, true, false},
	} {
		isVouched, err := clock.sources(test.witnesses...).Compare(clock.now, clock.Elapsed(), test.starts)
		if isVouched != test.isVouched || (err != nil) != test.refuses {
			t.Errorf("witnesses ahead by %v, at a start %t: %t, %v", test.witnesses, test.starts, isVouched, err)
		}
	}
	// A cosignature of more than ten minutes ago does not count.
	if isVouched, err := clock.sources(0).Compare(clock.now, clock.Elapsed()+maxReadingAge+time.Minute, true); isVouched ||
		err != nil {
		t.Errorf("an old cosignature counts: %t, %v", isVouched, err)
	}
}

// TestTimeOfANode checks that the time of the node that makes the steps always counts, and only that of the last one.
func TestTimeOfANode(t *testing.T) {
	clock := still{now: time.Now()}
	s := clock.sources()
	s.recordNode("one.example", clock.now.Add(time.Hour), clock.Elapsed())
	if _, err := s.Compare(clock.now, clock.Elapsed(), false); err == nil {
		t.Error("a node that is an hour ahead is no error")
	}
	s.recordNode("two.example", clock.now, clock.Elapsed())
	if isVouched, err := s.Compare(clock.now, clock.Elapsed(), false); !isVouched || err != nil {
		t.Errorf("the next node agrees: %t, %v", isVouched, err)
	}
}
