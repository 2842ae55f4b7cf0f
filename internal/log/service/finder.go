package service

import (
	"context"
	"fmt"
	"maps"
	"sync"

	"wagtenib/internal/blob"
)

// maxJoined is the maximum number of identities of a lookup that shares a call with others.
const maxJoined = 8

// finder is an index in which simultaneous lookups share a call, because each submission looks up one identity. Lookups
// that come while a call is being made share the next one.
type finder struct {
	blob.Index

	mu sync.Mutex
	// next is the call that has not begun yet. It is nil if no lookup waits for it. isRunning is true while run makes
	// one call after the other.
	next      *lookup
	isRunning bool
}

// lookup is one call. Its result and its error may be read after done is closed.
type lookup struct {
	identities map[blob.Identity]bool
	done       chan struct{}
	found      map[blob.Identity]blob.Place
	err        error
}

// Find implements blob.Index.
func (f *finder) Find(ctx context.Context, identities []blob.Identity) (map[blob.Identity]blob.Place, error) {
	if len(identities) > maxJoined {
		return f.Index.Find(ctx, identities)
	}
	shared := f.join(identities)
	select {
	case <-shared.done:
	case <-ctx.Done():
		return nil, fmt.Errorf("serve: the index: %w", ctx.Err())
	}
	if shared.err != nil {
		return nil, shared.err
	}
	found := map[blob.Identity]blob.Place{}
	for _, identity := range identities {
		if place, ok := shared.found[identity]; ok {
			found[identity] = place
		}
	}
	return found, nil
}

// join adds identities to the next call, and returns that. If the next call has no room for them, it begins now, and
// they are added to a new one. If no call is being made, the next one begins now.
func (f *finder) join(identities []blob.Identity) *lookup {
	f.mu.Lock()
	defer f.mu.Unlock()
	if f.next != nil && len(f.next.identities)+len(identities) > blob.MaxRows {
		full := f.next
		f.next = nil
		go f.call(full)
	}
	if f.next == nil {
		f.next = &lookup{identities: map[blob.Identity]bool{}, done: make(chan struct{})}
	}
	joined := f.next
	for _, identity := range identities {
		joined.identities[identity] = true
	}
	if !f.isRunning {
		f.isRunning = true
		go f.run()
	}
	return joined
}

// run makes calls as long as a lookup waits for one.
func (f *finder) run() {
	for {
		f.mu.Lock()
		now := f.next
		f.next, f.isRunning = nil, now != nil
		f.mu.Unlock()
		if now == nil {
			return
		}
		f.call(now)
	}
}

// call makes one call. It has a time limit of its own, because it is shared.
func (f *finder) call(of *lookup) {
	ctx, cancel := context.WithTimeout(context.Background(), callWithin)
	defer cancel()
	identities := make([]blob.Identity, 0, len(of.identities))
	for identity := range maps.Keys(of.identities) {
		identities = append(identities, identity)
	}
	of.found, of.err = f.Index.Find(ctx, identities)
	close(of.done)
}
