package node

import (
	"context"
	"crypto/sha256"
	"errors"
	"fmt"
	"slices"

	"wagtenib/internal/blob"
	"wagtenib/internal/ct"
	"wagtenib/internal/tiles"
)

// index adds the rows of the entries, so many at once as the index takes. Those of this node's own step replace what
// the index has wrong: the round before the step found it. Another node's step, or one from before a restart, comes out
// of its staged batch, which does not say what the index had wrong, so each is compared.
func (p *pass) index(ctx context.Context) error {
	replaced := p.made.replaced
	for rows := range slices.Chunk(p.made.rows, blob.MaxRows) {
		if err := p.config.Stores.Index.Add(ctx, rows); err != nil {
			return fmt.Errorf("node: the index: %w", err)
		}
		if !p.made.isNew {
			wrong, err := p.wrongOf(ctx, rows)
			if err != nil {
				return err
			}
			replaced = append(replaced, wrong...)
		}
	}
	for rows := range slices.Chunk(replaced, blob.MaxRows) {
		if err := p.config.Stores.Index.Replace(ctx, rows); err != nil {
			return fmt.Errorf("node: the index: %w", err)
		}
	}
	return nil
}

// unused is the identity of no submission: it is looked up to see whether the index answers.
var unused = blob.Identity(sha256.Sum256([]byte("an identity of no submission")))

// indexWorks looks a state's newest entry up in the index, and adds it again, which changes nothing. It returns an
// error if the index does not answer.
func (l *Loop) indexWorks(ctx context.Context, k *state) error {
	newest, err := l.newestLeaf(ctx, k)
	if err != nil {
		return err
	}
	if newest == nil {
		if _, err := l.config.Stores.Index.Find(ctx, []blob.Identity{unused}); err != nil {
			return fmt.Errorf("node: the index: %w", err)
		}
		return nil
	}
	id, leaf := identity(newest.Type, newest.IssuerKeyHash, newest.Certificate), blob.Identity(newest.Hash())
	if err := l.knows(ctx, id, leaf, k.TreeSize-1); err != nil {
		return err
	}
	place := blob.Place{Index: k.TreeSize - 1, Timestamp: newest.Timestamp}
	if err := l.config.Stores.Index.Add(ctx, []blob.Row{{Identity: id, Leaf: leaf, Place: place}}); err != nil {
		return fmt.Errorf("node: the index: %w", err)
	}
	return nil
}

// newestLeaf returns a state's newest entry, or nil if there is none, or if it is missing or damaged: then the step
// says so, and a damaged edge is made again. Any other error may pass, so it must not count as a missing entry.
func (l *Loop) newestLeaf(ctx context.Context, k *state) (*ct.Leaf, error) {
	if k.TreeSize == 0 {
		return nil, nil
	}
	leaf, err := tiles.LeafAt(ctx, k.TreeSize-1, k.TreeHead, l.reading(nil))
	if errors.Is(err, ErrDamaged) || errors.Is(err, blob.ErrAbsent) {
		return nil, nil
	}
	if err != nil {
		return nil, fmt.Errorf("node: the newest entry: %w", err)
	}
	return leaf, nil
}

// place is where an index says that an entry is.
type place struct {
	identity blob.Identity
	blob.Place
}

// wrongOf returns those rows of which the index has another place that is not the entry's. They were added, so the
// index has a place of each.
func (p *pass) wrongOf(ctx context.Context, rows []blob.Row) (wrong []blob.Row, err error) {
	identities, right := make([]blob.Identity, 0, len(rows)), map[place]bool{}
	for i := range rows {
		identities, right[place{rows[i].Identity, rows[i].Place}] = append(identities, rows[i].Identity), true
	}
	found, err := p.config.Stores.Index.Find(ctx, identities)
	if err != nil {
		return nil, fmt.Errorf("node: the index: %w", err)
	}
	for i := range rows {
		at, ok := found[rows[i].Identity]
		stored := place{rows[i].Identity, at}
		if ok && right[stored] {
			continue
		}
		if isIts, err := p.isPlaceOf(ctx, stored); err != nil {
			return nil, err
		} else if !ok || !isIts {
			// The next ones of this identity need not be compared.
			wrong, right[stored] = append(wrong, rows[i]), true
		}
	}
	return wrong, nil
}

// isPlaceOf reports whether the state has an entry at its place. An entry that is damaged proves nothing.
func (p *pass) isPlaceOf(ctx context.Context, of place) (bool, error) {
	if of.Index >= p.from.TreeSize {
		return false, nil
	}
	leaf, err := tiles.LeafAt(ctx, of.Index, p.from.TreeHead, p.reading(p.made.objects))
	if errors.Is(err, ErrDamaged) {
		return false, nil
	}
	if err != nil {
		return false, err
	}
	return identity(leaf.Type, leaf.IssuerKeyHash, leaf.Certificate) == of.identity && leaf.Timestamp == of.Timestamp, nil
}
