package service

import (
	"context"
	"crypto/rand"
	"crypto/sha256"
	"encoding/binary"
	"fmt"
	"strings"

	"wagtenib/internal/blob"
	"wagtenib/internal/log/node"
)

// A random id shows whether an index belongs to a log. The index has the id as the place of an identity, and the store
// of objects has it in the name of an object, places/ID. So a node with an index of its own, or of another log, does
// not start, whichever entries that index knows.

const placesPrefix = "places/"

// ownIdentity is the identity under which an index has its id. No submission has it, because a submission's identity is
// a hash over its entry's type and what follows.
var ownIdentity = blob.Identity(sha256.Sum256([]byte("the id of a log's places")))

// ownRow returns a row that belongs to no entry. No leaf has its hash either, because a leaf's hash is one over a zero
// byte and what follows.
func ownRow(identity blob.Identity, place blob.Place) blob.Row {
	return blob.Row{Identity: identity, Leaf: identity, Place: place}
}

// idName returns the name of the object of an id.
func idName(id blob.Place) string {
	return fmt.Sprintf("%s%016x%016x", placesPrefix, id.Index, id.Timestamp)
}

// idOf reads the id of an index.
func idOf(ctx context.Context, in blob.Index) (id blob.Place, ok bool, err error) {
	found, err := in.Find(ctx, []blob.Identity{ownIdentity})
	if err != nil {
		return id, false, fmt.Errorf("serve: the index: %w", err)
	}
	id, ok = found[ownIdentity]
	return id, ok, nil
}

// newID gives an id to an index that has none. It then reads the id, because another node may have been first.
func newID(ctx context.Context, in blob.Index) (id blob.Place, err error) {
	var random [16]byte
	if _, err := rand.Read(random[:]); err != nil {
		return id, fmt.Errorf("serve: %w", err)
	}
	id.Index, id.Timestamp = binary.BigEndian.Uint64(random[:8])&blob.MaxNumber,
		binary.BigEndian.Uint64(random[8:])&blob.MaxNumber
	if err := in.Add(ctx, []blob.Row{ownRow(ownIdentity, id)}); err != nil {
		return id, fmt.Errorf("serve: the index: %w", err)
	}
	id, ok, err := idOf(ctx, in)
	if err == nil && !ok {
		err = fmt.Errorf("%w: it does not keep what is added (replace its engine)", node.ErrIndex)
	}
	return id, err
}

// storedIDs lists the names of the ids in the store. It has one, except before the first start.
func storedIDs(ctx context.Context, in blob.Objects) ([]string, error) {
	names, err := in.List(ctx, placesPrefix, "", blob.MaxListed)
	if err != nil {
		return nil, fmt.Errorf("serve: the objects: %w", err)
	}
	return names, nil
}

// checkIndex returns node.ErrIndex unless the index has the id that the store has. If neither has one, it sets both.
func (l *Log) checkIndex(ctx context.Context) error {
	index, objects := l.config.Stores.Index, l.config.Stores.Objects
	names, err := storedIDs(ctx, objects)
	if err != nil {
		return err
	}
	id, ok, err := idOf(ctx, index)
	if err == nil && !ok && len(names) == 0 {
		id, err = newID(ctx, index)
		ok = true
	}
	if err != nil {
		return err
	}
	if len(names) == 0 {
		if err := objects.Put(ctx, idName(id), []byte(l.config.Origin+"\n")); err != nil {
			// If the store accepts nothing now, the next step reports that. The log can be read until then.
			l.counts.failed(fmt.Errorf("the index's id is not stored: %w", err))
			return nil
		}
		if names, err = storedIDs(ctx, objects); err != nil {
			return err
		}
	}
	indexID := "none"
	if ok {
		indexID = idName(id)
	}
	if len(names) > 1 {
		return fmt.Errorf("%w: its id is %s, and the store has %s: nodes that each have an index of their own started "+
			"at the same time (give all nodes the same index, and delete the other ids)",
			node.ErrIndex, indexID, strings.Join(names, " and "))
	}
	if names[0] != indexID {
		return fmt.Errorf("%w: its id is %s, and the store has %s "+
			"(give all nodes the same index; build a lost one again by ctserve index)", node.ErrIndex, indexID, names[0])
	}
	return nil
}

// restoreID gives an index the id that the store has, if there is one.
func restoreID(ctx context.Context, of Stores) error {
	names, err := storedIDs(ctx, of.Objects)
	if err != nil || len(names) == 0 {
		return err
	}
	if len(names) > 1 {
		return fmt.Errorf("%w: the store has %s (delete all but the one that the index gets)", node.ErrIndex,
			strings.Join(names, " and "))
	}
	var id blob.Place
	if _, err := fmt.Sscanf(names[0], placesPrefix+"%16x%16x", &id.Index, &id.Timestamp); err != nil ||
		idName(id) != names[0] {
		return fmt.Errorf("%w: the store has %s, which is no id of an index (delete it)", node.ErrIndex, names[0])
	}
	if err := of.Index.Replace(ctx, []blob.Row{ownRow(ownIdentity, id)}); err != nil {
		return fmt.Errorf("serve: the index: %w", err)
	}
	return nil
}
