package node

import (
	"context"
	"errors"
	"fmt"

	"wagtenib/internal/blob"
	"wagtenib/internal/ct"
)

// putCheckpoint makes a head the object checkpoint, from which readers follow the log without a node, unless that is
// as new or newer.
//
// The checkpoint never goes back, whichever nodes put it, and whenever they are killed: each swap replaces a head by a
// later one, and replaces exactly the content that was compared. If a swap of an older head is carried out late, the
// content is another one by then. It would have to be the compared one again, and no content comes again, since each
// is of a later head than the one before it.
//
// All of the head's tree is in the store by then: it is called only after the tiles and the head itself were put, or
// were found.
func (l *Loop) putCheckpoint(ctx context.Context, head ct.SignedHead) error {
	if l.config.Stores.Current == nil {
		return nil
	}
	stored := l.last.checkpoint
	for range maxSwaps {
		if stored == nil {
			var err error
			if stored, err = l.readCheckpoint(ctx); err != nil {
				return err
			}
		}
		if stored.Signed != nil && !isBefore(*stored, head) {
			l.last.checkpoint = stored
			return nil
		}
		err := l.config.Stores.Current.Swap(ctx, checkpointName, stored.Signed, head.Signed)
		if err == nil {
			l.last.checkpoint = &head
			return nil
		}
		l.last.checkpoint, stored = nil, nil
		if !errors.Is(err, blob.ErrLost) {
			return fmt.Errorf("node: %s: %w", checkpointName, err)
		}
	}
	return fmt.Errorf("node: %s: other nodes replace it again and again: %w", checkpointName, blob.ErrLost)
}

// readCheckpoint reads the object checkpoint. Its note is nil if there is none.
func (l *Loop) readCheckpoint(ctx context.Context) (*ct.SignedHead, error) {
	content, err := l.config.Stores.Objects.Get(ctx, checkpointName, maxNote)
	if errors.Is(err, blob.ErrAbsent) {
		return &ct.SignedHead{}, nil
	}
	if err != nil {
		return nil, fmt.Errorf("node: %s: %w", checkpointName, err)
	}
	head, err := l.parseNote(content)
	if err != nil {
		return nil, fmt.Errorf("%w: %s: %w (look where it comes from, and delete it: the log puts it again)",
			ErrDamaged, checkpointName, err)
	}
	return &head, nil
}
