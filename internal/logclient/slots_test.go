package logclient

import "testing"

// TestCanceledRequestReleasesItsSlot checks that a request that is canceled at the time at which it gets a slot
// releases it. Otherwise the client could not send any further requests. Only a race of two goroutines causes this, so
// the test calls their functions directly.
func TestCanceledRequestReleasesItsSlot(t *testing.T) {
	own := &waiter{ready: make(chan struct{})}
	s := &slots{waiting: []*waiter{own}}
	s.release()
	select {
	case <-own.ready:
	default:
		t.Fatal("the waiter has no slot")
	}
	if s.leave(own); s.free != 1 || len(s.waiting) != 0 {
		t.Errorf("%d slots are free, and %d requests wait", s.free, len(s.waiting))
	}
	without := &waiter{ready: make(chan struct{})}
	s = &slots{waiting: []*waiter{without}}
	if s.leave(without); s.free != 0 || len(s.waiting) != 0 {
		t.Errorf("without a slot: %d slots are free, and %d requests wait", s.free, len(s.waiting))
	}
}
