package node

import (
	"context"
	"errors"
	"fmt"
	"time"

	"wagtenib/internal/blob"
	"wagtenib/internal/ct"
)

const (
	// maxUnread is for how long a lock that does not answer is waited for, if a published head is known.
	maxUnread = 2 * time.Second
	// maxMoves is how often the newest head is looked for again if it was deleted meanwhile.
	maxMoves = 50
)

// Newest returns the newest published head, whichever node published it, and no other. If the lock cannot be read, it
// returns the newest one that this node knows. The error is blob.ErrAbsent if none is published.
func (n *Node) Newest(ctx context.Context) (ct.SignedHead, error) {
	seen := n.seenHead()
	for try := 0; ; try++ {
		published, err := n.readPublished(ctx, seen != nil)
		if err != nil && seen != nil {
			return *seen, nil
		}
		if err != nil {
			return ct.SignedHead{}, fmt.Errorf("node: the lock: %w", err)
		}
		if seen = n.seenHead(); seen != nil && !publishedBy(seen.TreeHead).Before(published) {
			return *seen, nil
		}
		head, err := n.headAt(ctx, published)
		if err == nil {
			n.see(head)
		}
		// It was deleted if a later one is published by now.
		if !errors.Is(err, blob.ErrAbsent) || try == maxMoves {
			return head, err
		}
		if again, failed := n.readPublished(ctx, false); failed != nil || again == published {
			return head, err
		}
	}
}

// Known returns the newest published head that this node knows, without looking for a newer one, or nil.
func (n *Node) Known() *ct.SignedHead { return n.seenHead() }

// seenHead returns the newest published head that this node knows, or nil.
func (n *Node) seenHead() *ct.SignedHead {
	read := n.read.Load()
	if now := n.Snapshot(); now != nil && (read == nil || isBefore(*read, now.SignedHead)) {
		return &now.SignedHead
	}
	return read
}

// see keeps a published head that was read.
func (n *Node) see(head ct.SignedHead) {
	for {
		before := n.read.Load()
		if before != nil && !isBefore(*before, head) || n.read.CompareAndSwap(before, &head) {
			return
		}
	}
}

// readPublished reads how far the log is published.
func (n *Node) readPublished(ctx context.Context, isBrief bool) (blob.Published, error) {
	if isBrief {
		var cancel context.CancelFunc
		ctx, cancel = n.config.Machine.Clock.Within(ctx, maxUnread)
		defer cancel()
	}
	return n.config.Stores.Lock.Published(ctx)
}

// headAt reads the head that is published. The error is blob.ErrAbsent if none is, or if it was deleted.
func (n *Node) headAt(ctx context.Context, published blob.Published) (ct.SignedHead, error) {
	// If nothing is published yet, this is the name of no head. A later head may be in the store already.
	name := headName(published.Size, published.Timestamp)
	head, err := n.readHead(ctx, name)
	if err != nil {
		return ct.SignedHead{}, err
	}
	if headName(head.TreeSize, head.Timestamp) != name {
		return ct.SignedHead{}, fmt.Errorf("%w: %s has the head of %d entries at %d ms", ErrDamaged, name, head.TreeSize,
			head.Timestamp)
	}
	return head, nil
}
