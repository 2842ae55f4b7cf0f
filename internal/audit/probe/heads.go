package probe

import (
	"bytes"
	"cmp"
	"context"
	"errors"
	"slices"
	"time"

	"wagtenib/bindings/go/wagtenib"
	"wagtenib/internal/ct"
	"wagtenib/internal/logclient"
	"wagtenib/internal/watch"
)

// maxSkew is the maximum difference between the clocks of the log and the probe. A timestamp may be later than the
// probe's clock, or earlier than the probe's request, by this time.
const maxSkew = 10 * time.Second

// endpoint is one of the two addresses at which a log serves its head, with the names of its checks.
type endpoint struct {
	reader                                       *watch.Reader
	name, signature, fresh, forward, consistency string
	last                                         watch.Head // the newest signed head
	received                                     time.Time  // when last was received; zero if there is none
}

// lookAt requests the head of an endpoint, and judges it. It returns true if the log signed the head.
func (r *run) lookAt(ctx context.Context, e *endpoint) (watch.Head, bool) {
	asked := r.clock.Now()
	head, err := e.reader.Head(ctx)
	evidence := map[string][]byte{"head": head.Signed}
	switch {
	case errors.Is(err, ct.ErrForm), errors.Is(err, ct.ErrSigner), errors.Is(err, logclient.ErrNonsense),
		errors.Is(err, logclient.ErrTooLarge):
		r.recorder.fail(e.signature, evidence, "%v", err)
		return head, false
	case errors.Is(err, logclient.ErrNotFound), errors.Is(err, logclient.ErrBadRequest):
		r.recorder.fail(e.signature, nil, "%v", err)
		return head, false
	case err != nil:
		return head, false // The meter has counted the failure.
	}
	r.recorder.pass(e.signature, "%d leaves, timestamp %s", head.TreeSize, timeOf(head.Timestamp))
	r.judgeAge(e, head, asked)
	before := e.last
	switch {
	case e.received.IsZero():
		r.recorder.pass(e.forward, "%s of %d leaves is the first one", e.name, head.TreeSize)
	case head.TreeSize < before.TreeSize || head.Timestamp < before.Timestamp:
		evidence["head-before"] = before.Signed
		r.recorder.fail(e.forward, evidence, "%s went back from %d leaves at %s to %d at %s", e.name, before.TreeSize,
			timeOf(before.Timestamp), head.TreeSize, timeOf(head.Timestamp))
		return head, true // Later heads are still compared with the newest one.
	default:
		r.recorder.pass(e.forward, "%s of %d leaves at %s", e.name, head.TreeSize, timeOf(head.Timestamp))
	}
	e.last, e.received = head, r.clock.Now()
	return head, true
}

// judgeAge compares a head's timestamp with the time at which the probe requested it (RFC 6962, section 3.5).
func (r *run) judgeAge(e *endpoint, head watch.Head, asked time.Time) {
	age := asked.Sub(timeOf(head.Timestamp))
	switch {
	case age > r.log.MaxMergeDelay:
		r.recorder.fail(e.fresh, map[string][]byte{"head": head.Signed},
			"%s is %v old, and the maximum merge delay is %v", e.name,
			age.Round(time.Millisecond), r.log.MaxMergeDelay)
	case r.clock.Now().Sub(timeOf(head.Timestamp)) < -maxSkew:
		r.recorder.fail(e.fresh, map[string][]byte{"head": head.Signed},
			"%s is of %s, which is in the future (set the clocks by NTP)",
			e.name, timeOf(head.Timestamp))
	default:
		r.recorder.pass(e.fresh, "%s is %v old", e.name, age.Round(time.Millisecond))
	}
}

// timeOf returns the time of a log's timestamp, which is in milliseconds since 1970.
func timeOf(timestamp uint64) time.Time { return time.UnixMilli(int64(timestamp)).UTC() }

// pair holds two heads. One endpoint must prove that they belong to one history.
type pair struct {
	first, second watch.Head
	by            *endpoint
	why           error // why there is no proof yet
}

func (p pair) evidence() map[string][]byte {
	return map[string][]byte{"head-1": p.first.Signed, "head-2": p.second.Signed}
}

// history holds each tree of which the log signed a head. Neighbours are compared, which compares all of them.
type history struct {
	seen     []watch.Head // in the order of their sizes, one of each size
	added    []watch.Head // heads that were not compared yet
	unproved []pair
}

// add adds a head that the log signed, unless it is known.
func (h *history) add(head watch.Head) {
	for _, one := range append(slices.Clone(h.added), h.sameSize(head)...) {
		if one.TreeSize == head.TreeSize && one.Root == head.Root {
			return
		}
	}
	h.added = append(h.added, head)
}

// sameSize returns the seen heads with the size of a head.
func (h *history) sameSize(head watch.Head) []watch.Head {
	start, _ := slices.BinarySearchFunc(h.seen, head, bySize)
	end := start
	for end < len(h.seen) && h.seen[end].TreeSize == head.TreeSize {
		end++
	}
	return h.seen[start:end]
}

func bySize(a, b watch.Head) int { return cmp.Compare(a.TreeSize, b.TreeSize) }

// prove compares the new heads with their neighbours, and requests the proofs that the log has not given yet.
func (r *run) prove(ctx context.Context) {
	h := r.heads
	pairs := h.unproved
	h.unproved = nil
	for _, head := range h.added {
		pairs = append(pairs, r.insert(head)...)
	}
	h.added = nil
	for _, p := range pairs {
		proof, err := p.by.reader.Consistency(ctx, p.first.TreeSize, p.second.TreeSize)
		if err != nil {
			p.why = err
			h.unproved = append(h.unproved, p)
			continue
		}
		fault := wagtenib.VerifyConsistency(p.first.TreeSize, p.second.TreeSize, p.first.Root, p.second.Root, proof)
		if fault != nil {
			r.recorder.fail(p.by.consistency, p.evidence(), "from %d to %d leaves: %v", p.first.TreeSize,
				p.second.TreeSize, fault)
			continue
		}
		r.recorder.pass(p.by.consistency, "from %d to %d leaves", p.first.TreeSize, p.second.TreeSize)
	}
}

// insert inserts a new head into the history, and returns the pairs for which a proof is needed. A second root of one
// size, and a wrong root of the empty tree, are faults without a proof.
func (r *run) insert(head watch.Head) (pairs []pair) {
	h := r.heads
	if same := h.sameSize(head); len(same) > 0 {
		for _, e := range r.endpoints {
			r.recorder.fail(e.consistency, pair{first: same[0], second: head}.evidence(),
				"the log signed two roots of %d leaves: %x and %x",
				head.TreeSize, same[0].Root, head.Root)
		}
		return nil
	}
	if empty, err := wagtenib.Root(nil); head.TreeSize == 0 && err == nil && !bytes.Equal(empty[:], head.Root[:]) {
		for _, e := range r.endpoints {
			r.recorder.fail(e.consistency, map[string][]byte{"head": head.Signed},
				"the root of the empty tree is %x, and not the SHA-256 hash of the empty string",
				head.Root)
		}
		return nil
	}
	position, _ := slices.BinarySearchFunc(h.seen, head, bySize)
	h.seen = slices.Insert(h.seen, position, head)
	for _, one := range r.endpoints {
		switch {
		case position == 0:
			r.recorder.pass(one.consistency, "the smallest tree has %d leaves", head.TreeSize)
		case h.seen[position-1].TreeSize == 0:
			r.recorder.pass(one.consistency, "each tree continues the empty one")
		default:
			pairs = append(pairs, pair{first: h.seen[position-1], second: head, by: one})
		}
		if position+1 < len(h.seen) && head.TreeSize > 0 {
			pairs = append(pairs, pair{first: head, second: h.seen[position+1], by: one})
		}
	}
	return pairs
}
