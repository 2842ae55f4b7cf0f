package service_test

import (
	"testing"

	"wagtenib/internal/log"
)

// TestDuplicateAtNodeWhoseSignerIsBehind starts two nodes with a signer each, over one state of the guard. A duplicate
// that comes to the node whose signer knows only the previous head must get the place of the first submission.
func TestDuplicateAtNodeWhoseSignerIsBehind(t *testing.T) {
	t.Parallel()
	p := newPlace(t)
	one, two := p.config(), p.config()
	two.Machine.Files.LatestHead = p.path("other-latest-head")
	first, second := started(t, one), started(t, two)
	for n := range 5 {
		// The second node's signer signs this head, and so remembers it.
		_, err := second.Submit(log.Forwarded(limited(t)), entryOf(2*n))
		must(t, err)
		expected, err := first.Submit(log.Forwarded(limited(t)), entryOf(2*n+1))
		must(t, err)
		eventually(t, "the second node knows the head of the first", func() bool {
			return second.Metrics().Entries > indexOf(expected)
		})
		place, err := second.Submit(log.Forwarded(limited(t)), entryOf(2*n+1))
		must(t, err)
		if indexOf(place) != indexOf(expected) || place.Timestamp != expected.Timestamp {
			t.Errorf("entry %d is at %d, and its duplicate is answered with %d", 2*n+1, indexOf(expected), indexOf(place))
		}
	}
}
