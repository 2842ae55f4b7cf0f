package httpd

import (
	"container/list"
	"net/http"
	"net/netip"
	"sync"
	"time"
)

const (
	// burst is the time whose requests an address may send at once after it sent none for a while.
	burst = 10 * time.Second
	// maxBuckets is the maximum number of addresses whose requests are remembered.
	maxBuckets = 1 << 16
)

// rates bounds how many requests of one address are accepted in a second. Each address has a bucket, which is full at
// first. A request takes one out of it, and time fills it. A full bucket is forgotten, because it is like that of an
// address that never asked. If there are too many buckets, the one that was used the longest ago is forgotten. A nil
// rates bounds nothing.
type rates struct {
	// interval is the time in which a bucket gets one more.
	interval time.Duration
	mutex    sync.Mutex
	// buckets holds the buckets, the last used one first. elements has the element of each group in it.
	buckets  list.List
	elements map[netip.Prefix]*list.Element
}

// bucket is the bucket of a group of addresses.
type bucket struct {
	group netip.Prefix
	// fullAt is the time at which it is full again.
	fullAt time.Time
}

// newRates bounds the requests of an address to so many in a second. It returns nil if that is 0.
func newRates(aSecond int) *rates {
	if aSecond == 0 {
		return nil
	}
	return &rates{interval: time.Second / time.Duration(aSecond), elements: map[netip.Prefix]*list.Element{}}
}

// take takes a request out of its bucket, and reports whether it was within the rate. If not, it takes nothing.
func (r *rates) take(group netip.Prefix, now time.Time) bool {
	if r == nil {
		return true
	}
	r.mutex.Lock()
	defer r.mutex.Unlock()
	own, empty := r.bucketOf(group, now), now.Add(burst)
	if own.fullAt.Before(now) {
		own.fullAt = now
	}
	if own.fullAt.After(empty) {
		// The clock was set to an earlier time. The bucket is empty, and fills from now on.
		own.fullAt = empty
	}
	full := own.fullAt.Add(r.interval)
	if full.After(empty) {
		return false
	}
	own.fullAt = full
	return true
}

// bucketOf returns the bucket of a group. It makes one if there is none, and may forget others. The caller holds the
// mutex.
func (r *rates) bucketOf(group netip.Prefix, now time.Time) *bucket {
	if known, there := r.elements[group]; there {
		r.buckets.MoveToFront(known)
		return known.Value.(*bucket)
	}
	for last := r.buckets.Back(); last != nil; last = r.buckets.Back() {
		if old := last.Value.(*bucket); len(r.elements) >= maxBuckets || !old.fullAt.After(now) {
			r.buckets.Remove(last)
			delete(r.elements, old.group)
			continue
		}
		break
	}
	own := &bucket{group: group, fullAt: now}
	r.elements[group] = r.buckets.PushFront(own)
	return own
}

// tooOften refuses a request above the client's rate. A rate is at least one in a second, so after a second one more
// is accepted.
var tooOften = refusal{status: http.StatusTooManyRequests, name: "too-often",
	detail: "this address sent too many requests of this kind in a short time (see Retry-After)", after: 1}

// isInRate reports whether a call is within the client's rate, and counts it in that. Submitters have no rate.
func (f *Front) isInRate(c call, client netip.Addr) bool {
	if _, isSubmitter := submitterOf(client, f.limits.Submitters); isSubmitter {
		return true
	}
	return f.uses.rates[c.costs].take(groupOf(client), time.Now())
}
