package node

import (
	"context"
	"errors"
	"fmt"

	"wagtenib/bindings/go/wagtenib"
	"wagtenib/internal/blob"
	"wagtenib/internal/ct"
	"wagtenib/internal/log/node/step"
	"wagtenib/internal/tiles"
)

// Request is one submission of a client. It must be looked up before it is enqueued, and may then be looked up again.
// Its methods are for one goroutine, which is not the loop's.
type Request struct {
	node       *Node
	submission wagtenib.Submission
	identity   blob.Identity
	wrong      *blob.Place
	isMovable  bool
	lookup
}

// Request returns the request of a submission.
func (n *Node) Request(submission wagtenib.Submission) *Request {
	return &Request{node: n, submission: submission, identity: identityOf(submission)}
}

// Enqueue has the submission wait for a step, and never waits itself. While a fault lasts, it returns that.
func (r *Request) Enqueue() (*Ticket, error) {
	if err := r.node.health.lasting(); err != nil {
		return nil, err
	}
	return r.node.pool.add(r)
}

// Wait waits for the ticket's answer, and gives it up if the context ends first.
func (r *Request) Wait(ctx context.Context, t *Ticket) (Answer, error) {
	select {
	case <-t.Done():
		return t.Answer(), nil
	case <-ctx.Done():
		r.node.pool.leave(t)
		return Answer{}, fmt.Errorf("node: %w", ctx.Err())
	}
}

// Movable says that the submission may be forwarded to another node. It is answered by ErrElsewhere if another node
// makes the steps.
func (r *Request) Movable() { r.isMovable = true }

// Lookup returns where the log has the entry already, with a new signature over its first timestamp, or nil. A place
// that the index has is believed only if the proved claim accepts the entry's audit path under the head that readers
// see.
func (r *Request) Lookup(ctx context.Context) (*ct.SCT, error) {
	c, err := r.Find(ctx)
	if err != nil || c == nil {
		return nil, err
	}
	return r.Claim(ctx, c)
}

// Candidate is where the index says that the log has an entry, with the head under which that is looked at.
type Candidate struct {
	at    *Snapshot
	place blob.Place
}

// Find returns where the index says that the log has the entry, or nil. It reads no tile.
func (r *Request) Find(ctx context.Context) (*Candidate, error) {
	n := r.node
	now := n.Snapshot()
	r.lookup = lookup{}
	if now == nil || now.TreeSize == 0 {
		return nil, nil
	}
	places, err := n.config.Stores.Index.Find(ctx, []blob.Identity{r.identity})
	if err != nil {
		return nil, fmt.Errorf("node: the index: %w", err)
	}
	place, ok := places[r.identity]
	r.lookup = lookup{isAbsent: !ok, size: now.TreeSize}
	if !ok || place.Index >= now.TreeSize {
		// The place of an entry that is not under the head yet becomes known by the next round.
		return nil, nil
	}
	return &Candidate{now, place}, nil
}

// Claim returns the entry at a candidate's place, with a new signature over its first timestamp, or nil if another
// entry is there. It may read two data tiles.
func (r *Request) Claim(ctx context.Context, c *Candidate) (*ct.SCT, error) {
	n, now, place := r.node, c.at, c.place
	receipt, err := n.claimed(ctx, now, place, r)
	if err != nil {
		return nil, err
	}
	if receipt == nil {
		r.wrong = &place
		return nil, nil
	}
	signatures, err := n.signTimestamps(ctx, []wagtenib.Receipt{*receipt}, now.TreeHead, n.stored)
	if err != nil {
		return nil, err
	}
	n.config.Machine.Observer.Count(Duplicate)
	sct := n.sct(place.Index, place.Timestamp, signatures[0])
	return &sct, nil
}

// DamagedTile is ErrDamaged of a data tile with a number, or of the hash tiles above it.
type DamagedTile struct {
	Number uint64
	Why    error
}

func (d DamagedTile) Error() string { return d.Why.Error() }
func (d DamagedTile) Unwrap() error { return d.Why }

// claimed returns the receipt of a request's entry at a place, or nil if another entry is there.
func (n *Node) claimed(ctx context.Context, at *Snapshot, place blob.Place, r *Request) (*wagtenib.Receipt, error) {
	leaf, err := tiles.LeafAt(ctx, place.Index, at.TreeHead, n.stored)
	if errors.Is(err, ErrDamaged) {
		return nil, DamagedTile{place.Index / ct.TileWidth, err}
	}
	if err != nil {
		return nil, err
	}
	if identity(leaf.Type, leaf.IssuerKeyHash, leaf.Certificate) != r.identity || leaf.Timestamp != place.Timestamp {
		return nil, nil
	}
	proofs, err := paths(ctx, []uint64{place.Index}, at.TreeHead, n.stored)
	if err != nil {
		return nil, err
	}
	receipt, err := n.config.Proved.Steps.Claim(at.Line, place.Index, place.Timestamp, proofs[0], r.submission)
	if errors.Is(err, step.NoClaim) {
		return nil, nil
	}
	if err != nil {
		return nil, fmt.Errorf("node: %w", err)
	}
	return receipt, nil
}
