package service

import (
	"context"
	"crypto/sha256"
	"errors"
	"fmt"
	"time"

	"wagtenib/bindings/go/wagtenib"
	"wagtenib/internal/blob"
	"wagtenib/internal/ct"
	"wagtenib/internal/log/node"
	"wagtenib/internal/tiles"
)

// leftIdentity is the identity under which an index has the number of the first entries that it lacks, while it is
// being built again. No submission has it.
var leftIdentity = blob.Identity(sha256.Sum256([]byte("how many of a log's first entries the index lacks")))

// maxHead is the maximum number of bytes of a head in the store.
const maxHead = 1 << 20

// RebuildIndex sets the places of all entries of a log from its tiles, each of which is compared with the tree of the
// newest published head. It works from the newest entry to the first, so that a duplicate entry gets its first place.
// After each tile it calls report with the number of entries that are left. The index stores that number too, so if
// RebuildIndex is stopped, a node goes on with the rest.
func RebuildIndex(ctx context.Context, of Stores, report func(left uint64)) error {
	head, err := publishedHead(ctx, of)
	if err != nil {
		return err
	}
	if err := restoreID(ctx, of); err != nil {
		return err
	}
	return rebuild(ctx, of, head, head.TreeSize, report)
}

// publishedHead returns the newest published head. That is the head of the newest state, or if that is not published
// yet, the head in the store that the lock names. A node that starts adds the entries after it.
func publishedHead(ctx context.Context, of Stores) (head ct.TreeHead, err error) {
	text, err := of.Lock.Read(ctx)
	if err != nil {
		return head, fmt.Errorf("serve: the lock: %w", err)
	}
	newest, err := node.HeadIn(text)
	if err != nil {
		return head, err
	}
	published, err := of.Lock.Published(ctx)
	if err != nil {
		return head, fmt.Errorf("serve: the lock: %w", err)
	}
	if !published.Before(blob.Published{Size: newest.TreeSize, Timestamp: newest.Timestamp}) {
		return newest, nil
	}
	if published.Size == 0 {
		return head, nil
	}
	name := node.HeadName(published)
	content, err := of.Objects.Get(ctx, name, maxHead)
	if err != nil {
		return head, fmt.Errorf("serve: %s: %w", name, err)
	}
	// The head's signature is not checked, because the index only says where to look for an entry.
	signed, err := ct.NoteText(content)
	if err != nil {
		return head, fmt.Errorf("%w: %s: %w", node.ErrDamaged, name, err)
	}
	checkpoint, err := wagtenib.ReadCheckpoint(signed)
	if err != nil || checkpoint.TreeSize != published.Size {
		return head, fmt.Errorf("%w: %s", node.ErrDamaged, name)
	}
	return ct.TreeHead{TreeSize: published.Size, Timestamp: published.Timestamp, Root: checkpoint.Root}, nil
}

// rebuild sets the places of the entries with an index below a number, the newest tile first.
func rebuild(ctx context.Context, of Stores, head ct.TreeHead, below uint64, report func(left uint64)) error {
	read := tiles.Stored(func(ctx context.Context, name string) ([]byte, error) {
		return of.Objects.Get(ctx, name, blob.MaxObject)
	})
	for number := (below + ct.TileWidth - 1) / ct.TileWidth; number > 0; number-- {
		left := (number - 1) * ct.TileWidth
		leaves, err := tiles.LeavesOf(ctx, ct.DataTile(left, head.TreeSize), head, read)
		if err != nil {
			return err
		}
		rows := make([]blob.Row, len(leaves), len(leaves)+1)
		for i := range leaves {
			rows[i] = blob.Row{Identity: node.Identity(&leaves[i]), Leaf: blob.Identity(leaves[i].Hash()),
				Place: blob.Place{Index: left + uint64(i), Timestamp: leaves[i].Timestamp}}
		}
		if err := of.Index.Replace(ctx, append(rows, ownRow(leftIdentity, blob.Place{Index: left}))); err != nil {
			return fmt.Errorf("serve: the index: %w", err)
		}
		report(left)
	}
	return nil
}

// leftIn returns how many of the first entries an index lacks.
func leftIn(ctx context.Context, index blob.Index) (uint64, error) {
	found, err := index.Find(ctx, []blob.Identity{leftIdentity})
	if err != nil {
		return 0, fmt.Errorf("serve: the index: %w", err)
	}
	return found[leftIdentity].Index, nil
}

// completeAfter is the time after which a node tries again to complete an index.
const completeAfter = 10 * time.Second

// completeIndex completes an index that RebuildIndex left incomplete. It returns after the index has all entries, or
// the context ended.
func (l *Log) completeIndex(ctx context.Context) {
	for {
		err := l.completeIndexOnce(ctx)
		if err == nil || ctx.Err() != nil {
			return
		}
		l.counts.failed(fmt.Errorf("the index is not complete: %w", err))
		if l.config.Machine.Clock.Wait(ctx, completeAfter, nil) != nil {
			return
		}
	}
}

// completeIndexOnce tries once to complete an index.
func (l *Log) completeIndexOnce(ctx context.Context) error {
	left, err := leftIn(ctx, l.config.Stores.Index)
	if err != nil || left == 0 {
		return err
	}
	now := l.node.Snapshot()
	if now == nil || now.TreeSize < left {
		return errors.New("no head is published yet")
	}
	return rebuild(ctx, l.config.Stores, now.TreeHead, left, func(uint64) {})
}
