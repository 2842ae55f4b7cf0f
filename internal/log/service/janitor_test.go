package service_test

import (
	"context"
	"sync/atomic"
	"testing"
	"time"

	"wagtenib/internal/log/service"
)

// heads is a store of objects that counts how often the janitor lists all heads. A node lists only those after a known
// head.
type heads struct {
	refusing
	listed atomic.Int64
}

func (h *heads) List(ctx context.Context, prefix, after string, maxNames int) ([]string, error) {
	if prefix == "heads/" && after == "" {
		h.listed.Add(1)
	}
	return h.refusing.List(ctx, prefix, after, maxNames)
}

// passing is a clock that counts how often the janitor waits for its next pass.
type passing struct {
	service.Clock
	interval time.Duration
	passes   atomic.Int64
}

func (p *passing) Wait(ctx context.Context, long time.Duration, wake <-chan struct{}) error {
	if long == p.interval {
		p.passes.Add(1)
	}
	return p.Clock.Wait(ctx, long, wake)
}

// TestJanitorRestsDuringAFault checks that, while a node has a fault, its janitor deletes nothing, and does not even
// list the heads.
func TestJanitorRestsDuringAFault(t *testing.T) {
	t.Parallel()
	p, got := newPlace(t), &answers{}
	config := p.config()
	objects := &heads{refusing: refusing{Objects: config.Stores.Objects}}
	clock := &passing{Clock: config.Machine.Clock, interval: 7 * time.Millisecond}
	config.Stores.Objects, config.Machine.Clock = objects, clock
	config.Keep.Interval, config.Keep.Tiles = clock.interval, time.Millisecond
	l := started(t, config)
	got.submit(t, l, 0, 3)
	eventually(t, "the janitor lists heads", func() bool { return objects.listed.Load() > 0 })
	objects.isFull.Store(true)
	// The entry's issuers are in the store, so only the step stores something.
	_, err := l.Submit(limited(t), entryOf(5))
	wants(t, err, errFull)
	if l.Metrics().Fault == "" {
		t.Fatal("there is no fault")
	}
	passes := clock.passes.Load()
	eventually(t, "the present pass has ended", func() bool { return clock.passes.Load() > passes })
	listed := objects.listed.Load()
	eventually(t, "more passes", func() bool { return clock.passes.Load() > passes+5 })
	if now := objects.listed.Load(); now != listed {
		t.Errorf("during a fault the janitor lists the heads %d times", now-listed)
	}
	objects.isFull.Store(false)
	eventually(t, "the janitor goes on after the fault", func() bool { return objects.listed.Load() > listed })
}
