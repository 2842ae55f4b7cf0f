package service_test

import (
	"context"
	"fmt"
	"os"
	"strings"
	"testing"
	"time"

	"wagtenib/internal/blob"
	"wagtenib/internal/log"
	"wagtenib/internal/log/node"
	"wagtenib/internal/log/service"
)

// timed is a store of objects on another machine, whose clock is ahead of this machine's.
type timed struct {
	blob.Objects
	by time.Duration
}

func (o timed) Time(context.Context) (time.Time, time.Duration, error) {
	return time.Now().Add(o.by), time.Second, nil
}

// TestRefusesWrongClockAtStart checks that a node that starts with a wrong clock accepts no submissions, and reports
// the clock that differs.
func TestRefusesWrongClockAtStart(t *testing.T) {
	t.Parallel()
	p, got := newPlace(t), &answers{}
	l := started(t, p.config())
	got.submit(t, l, 0, 3)
	ends(t, l)
	for _, test := range []struct {
		by      time.Duration
		message string
		// hasTimedStore is true if a store on another machine has a clock.
		hasTimedStore bool
	}{
		{time.Second, "", true},
		{59 * time.Minute, "ahead of the objects' store", true},
		{-59 * time.Minute, "behind the objects' store", true},
		{365 * 24 * time.Hour, "ahead of the objects' store", true},
		{-59 * time.Minute, "behind the log's newest head", false},
		{25 * time.Hour, "ahead of the log's newest head", false},
	} {
		t.Run(fmt.Sprint(test.by, test.hasTimedStore), func(t *testing.T) {
			config := p.config()
			clock := newSkewedClock(test.by)
			clock.set(test.by, false)
			config.Machine.Clock = clock
			if test.hasTimedStore {
				config.Stores.Objects = timed{config.Stores.Objects, 0}
			}
			l := started(t, config)
			defer ends(t, l)
			place, err := l.Submit(limited(t), entryOf(1000+int(test.by.Minutes())))
			if test.message == "" {
				must(t, err)
				got.add(entryOf(1000+int(test.by.Minutes())), place)
				return
			}
			wants(t, err, log.ErrClock, node.ErrClock)
			if !strings.Contains(err.Error(), test.message) || !strings.Contains(l.Metrics().Fault, test.message) {
				t.Errorf("%v does not say %s", err, test.message)
			}
			if head, err := l.Checkpoint(limited(t)); err != nil || head.TreeSize < 3 {
				t.Errorf("reads: %v, %+v", err, head)
			}
		})
	}
	p.checkLog(got)
}

// TestStopsAfterClockIsSet checks that a node stops if its clock is set while it runs. It goes on after the clock is
// set right, or after the kernel reports that the clock is synchronized.
func TestStopsAfterClockIsSet(t *testing.T) {
	t.Parallel()
	p, got := newPlace(t), &answers{}
	config := p.config()
	clock := newSkewedClock(0)
	clock.set(0, false)
	config.Machine.Clock = clock
	l := started(t, config)
	got.submit(t, l, 0, 3)
	clock.set(time.Minute, false)
	_, err := l.Submit(limited(t), entryOf(5))
	wants(t, err, log.ErrClock)
	clock.set(0, false)
	eventually(t, "it goes on", func() bool { return l.Metrics().Fault == "" })
	got.submit(t, l, 5, 6)
	clock.set(time.Minute, true)
	got.submit(t, l, 6, 7)
}

// TestRequiresSynchronizedClock checks that with require-synchronized-clock, a node runs only while the kernel reports
// that the clock is synchronized.
func TestRequiresSynchronizedClock(t *testing.T) {
	t.Parallel()
	p, got := newPlace(t), &answers{}
	config := p.config()
	clock := newSkewedClock(0)
	config.Machine.Clock, config.Machine.ClockBounds.Synchronized = clock, true
	l := started(t, config)
	got.submit(t, l, 0, 3)
	clock.set(0, false)
	_, err := l.Submit(limited(t), entryOf(5))
	wants(t, err, log.ErrClock)
	if !strings.Contains(err.Error(), "not synchronized") {
		t.Error(err)
	}
	clock.set(0, true)
	eventually(t, "it goes on", func() bool { return l.Metrics().Fault == "" })
	got.submit(t, l, 5, 6)
}

// TestNameDay checks that a log that was stopped for more than a day goes on only on the day that its operator names,
// if nothing else confirms the time.
func TestNameDay(t *testing.T) {
	t.Parallel()
	p, got := newPlace(t), &answers{}
	l := started(t, p.config())
	got.submit(t, l, 0, 3)
	ends(t, l)
	later := 72 * time.Hour
	now := time.Now().Add(later)
	start := func() *service.Log {
		config := p.config()
		clock := newSkewedClock(later)
		clock.set(later, false)
		config.Machine.Clock = clock
		// The guard would refuse a head of the future by its own clock, so the signer has no guard.
		config.Signer = p.key
		return started(t, config)
	}
	refuses := func(why string) {
		t.Helper()
		l := start()
		_, err := l.Submit(limited(t), entryOf(5))
		wants(t, err, log.ErrClock)
		if !strings.Contains(err.Error(), "ctserve clock") {
			t.Errorf("%s: %v", why, err)
		}
		ends(t, l)
	}
	refuses("no day is named")
	wants(t, service.NameDay(p.path("day"), "tomorrow", now), node.ErrConfig)
	wants(t, service.NameDay(p.path("day"), now.Add(-later).UTC().Format("2006-01-02"), now), node.ErrClock)
	if _, err := os.Stat(p.path("day")); err == nil {
		t.Error("a refused day is stored")
	}
	must(t, os.WriteFile(p.path("day"), []byte(now.Add(-later).UTC().Format("2006-01-02")+"\n"), 0o600))
	refuses("another day is named")
	must(t, service.NameDay(p.path("day"), now.UTC().Format("2006-01-02"), now))
	l = start()
	_, err := l.Submit(limited(t), entryOf(5))
	must(t, err)
}
