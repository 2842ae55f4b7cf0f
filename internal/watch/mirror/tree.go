package mirror

import (
	"context"
	"fmt"

	"golang.org/x/mod/sumdb/tlog"

	"wagtenib/bindings/go/wagtenib"
	"wagtenib/internal/ct"
	datatile "wagtenib/internal/tiles"
)

// edge returns the right edge of the stored tree, without the leaves of a partial data tile: the caller pushes them
// again. The levels above the leaves begin with the stored partial tiles.
func (m *Mirror) edge(ctx context.Context, put datatile.Put) (*datatile.Edge, error) {
	hashesOf := func(stored tlog.Tile) ([]wagtenib.Hash, error) {
		content, err := m.objects.Get(ctx, ct.TileName(stored), maxObject)
		if err != nil {
			return nil, fmt.Errorf("mirror: %w", err)
		}
		hashes, err := datatile.HashesIn(stored, content)
		if err != nil {
			return nil, fmt.Errorf("%w: %v", ErrOther, err)
		}
		return hashes, nil
	}
	return datatile.EdgeAt(m.kept.TreeSize/ct.TileWidth, hashesOf, put)
}
