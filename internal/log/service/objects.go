package service

import (
	"context"
	"errors"
	"fmt"
	"strings"

	"golang.org/x/mod/sumdb/tlog"

	"wagtenib/internal/blob"
	"wagtenib/internal/ct"
	"wagtenib/internal/log"
	"wagtenib/internal/log/node"
	"wagtenib/internal/tiles"
)

// Object implements log.Log. A full tile is compared each time with the tile above it, which was compared up
// to the head's root. If a tile of the newest head's tree is missing or differs from that tree, that is a fault of the
// store, and the tile counts as damaged. A partial tile is compared only while the node's fault is node.ErrDamaged.
func (l *Log) Object(ctx context.Context, name string, maxBytes int64) ([]byte, error) {
	if !strings.HasPrefix(name, ct.TilePrefix) && !strings.HasPrefix(name, issuersPrefix) {
		return nil, fmt.Errorf("%w: %.80q is not published", blob.ErrName, name)
	}
	content, err := l.stored(ctx, name, maxBytes)
	isMissing := errors.Is(err, blob.ErrAbsent)
	if err != nil && !isMissing {
		return nil, err
	}
	of, isTile := ct.ParseTile(name)
	if !isTile || !isMissing && of.W < ct.TileWidth && !errors.Is(l.node.Fault(), node.ErrDamaged) {
		return content, err
	}
	head, err := l.headWith(ctx, of)
	switch {
	case err != nil:
		return nil, err
	case tiles.WidthIn(of, head.TreeSize) == of.W:
		return l.compared(ctx, name, head, content, isMissing)
	case isMissing || of.W == ct.TileWidth:
		return nil, fmt.Errorf("stores: %s: %w", name, blob.ErrAbsent)
	}
	// The tree has a wider tile than this one, or none.
	return content, nil
}

// stored reads an object from the store. An error is a fault of the store, unless the object is absent, its name is
// invalid, or it is longer than maxBytes and not too long for any object.
func (l *Log) stored(ctx context.Context, name string, maxBytes int64) ([]byte, error) {
	content, err := l.config.Stores.Objects.Get(ctx, name, maxBytes)
	var long blob.TooLong
	switch {
	case err == nil, errors.Is(err, blob.ErrAbsent), errors.Is(err, blob.ErrName),
		errors.As(err, &long) && long.Length <= blob.MaxObject:
		return content, err
	}
	return nil, fault{log.ErrStore, err}
}

// compared returns the content of a tile after comparing it with a head's tree. If it differs, or if the tile is
// missing, that is a fault of the store, and compared notes a damaged full tile for the janitor.
func (l *Log) compared(
	ctx context.Context, name string, head ct.TreeHead, content []byte, isMissing bool,
) ([]byte, error) {
	of, _ := ct.ParseTile(name)
	err := fmt.Errorf("%w: %s is missing (put it back from a backup)", tiles.ErrDamaged, name)
	if !isMissing {
		err = l.comparer.Compare(ctx, head, of, content)
	}
	if errors.Is(err, tiles.ErrDamaged) && of.W == ct.TileWidth {
		l.janitor.Note(tiles.FirstOf(of), err)
	}
	if err != nil {
		return nil, fault{log.ErrStore, err}
	}
	return content, nil
}

// headWith returns the newest published head that this node knows. If that does not have the whole tile, headWith reads
// the newest one.
func (l *Log) headWith(ctx context.Context, of tlog.Tile) (ct.TreeHead, error) {
	if now := l.node.Known(); now != nil && tiles.WidthIn(of, now.TreeSize) >= of.W {
		return now.TreeHead, nil
	}
	head, err := l.Checkpoint(ctx)
	return head.TreeHead, err
}

// read reads an object of the log from the store, within patience.
func (l *Log) read(ctx context.Context, name string) ([]byte, error) {
	return tiles.Stored(func(ctx context.Context, name string) ([]byte, error) {
		ctx, cancel := context.WithTimeout(ctx, patience)
		defer cancel()
		return l.config.Stores.Objects.Get(ctx, name, blob.MaxObject)
	})(ctx, name)
}
