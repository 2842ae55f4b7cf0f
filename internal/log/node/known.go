package node

import (
	"context"
	"fmt"

	"wagtenib/internal/blob"
)

// lookup is what the index said about a submission before it began to wait.
type lookup struct {
	// isAbsent says that the index had no place of it. size is how many entries the published head had before the index
	// was asked, so none of these is the submission's.
	isAbsent bool
	size     uint64
}

// maxRecent is how many steps are remembered. A submission waits for a few steps at most.
const maxRecent = 8

// recent are the identities of the entries that this node's own last steps added.
type recent struct {
	// text is the lock's text of the state that the last of the steps made.
	text string
	// steps are one after the other, the oldest first.
	steps []ownStep
}

// ownStep has the identities that a step added after the first size entries of the log.
type ownStep struct {
	size       uint64
	identities map[blob.Identity]bool
}

// add remembers a step that the lock took. If it was not made of the last one that is remembered, that and those before
// it are forgotten.
func (r *recent) add(from, to *state, rows []blob.Row) {
	if r.text != from.text {
		r.steps = nil
	}
	one := ownStep{size: from.TreeSize, identities: map[blob.Identity]bool{}}
	for _, entry := range rows {
		one.identities[entry.Identity] = true
	}
	r.text = to.text
	r.steps = append(r.steps, one)
	r.steps = r.steps[max(0, len(r.steps)-maxRecent):]
}

// knows reports whether it is known which submissions of a batch the log has in a state, without a look into the index:
// the index had none of them under an earlier published head, and all entries from there on are remembered.
//
// Without that, the index must be asked. Another node's step may have come between, or the index may have a place that
// must be replaced.
func (r *recent) knows(k *state, batch []*Ticket) bool {
	from := k.TreeSize
	if r.text == k.text {
		from = r.steps[0].size
	}
	for _, t := range batch {
		if !t.isAbsent || t.size < from {
			return false
		}
	}
	return true
}

// has reports whether one of the steps up to a state added an identity.
func (r *recent) has(k *state, identity blob.Identity) bool {
	if r.text != k.text {
		return false
	}
	for _, one := range r.steps {
		if one.identities[identity] {
			return true
		}
	}
	return false
}

// withoutKnown returns those of a batch that the log does not have. The others have come into it since they were looked
// up, and their tickets say so. The index is asked unless this node remembers all that can have come. While a fault is
// open it is always asked.
func (l *Loop) withoutKnown(ctx context.Context, k *state, batch []*Ticket) (added []*Ticket, err error) {
	if len(batch) == 0 {
		return nil, nil
	}
	if l.Fault() != nil || !l.recent.knows(k, batch) {
		return l.notInIndex(ctx, k, batch)
	}
	for _, t := range batch {
		if l.recent.has(k, t.identity) {
			l.pool.resolve(t, Answer{Known: true})
			continue
		}
		t.misplaced = false
		added = append(added, t)
	}
	return added, nil
}

// notInIndex returns those of a batch that the log does not have, by the index.
func (l *Loop) notInIndex(ctx context.Context, k *state, batch []*Ticket) (added []*Ticket, err error) {
	identities := make([]blob.Identity, 0, len(batch))
	for _, t := range batch {
		identities = append(identities, t.identity)
	}
	found, err := l.config.Stores.Index.Find(ctx, identities)
	if err != nil {
		return nil, fmt.Errorf("node: the index: %w", err)
	}
	for _, t := range batch {
		place, ok := found[t.identity]
		if ok && place.Index < k.TreeSize && (t.wrong == nil || *t.wrong != place) {
			l.pool.resolve(t, Answer{Known: true})
			continue
		}
		t.misplaced = ok
		added = append(added, t)
	}
	return added, nil
}
