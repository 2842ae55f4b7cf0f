package tiles

import (
	"context"
	"fmt"
	"sync"

	"golang.org/x/mod/sumdb/tlog"

	"wagtenib/bindings/go/wagtenib"
	"wagtenib/internal/ct"
)

// FirstOf returns the index of the first entry below a tile.
func FirstOf(of tlog.Tile) uint64 { return uint64(of.N) << uint(ct.TileHeight*max(of.L, 0)) }

// WidthIn returns the number of hashes or entries that a tile with this level and number has in a tree, at most 256.
func WidthIn(of tlog.Tile, size uint64) int {
	level := uint(ct.TileHeight * max(of.L, 0))
	all, before := uint64(0), uint64(of.N)*ct.TileWidth
	if level < 64 {
		all = size >> level
	}
	if all <= before {
		return 0
	}
	return int(min(all-before, ct.TileWidth))
}

// Comparer compares tiles with tree heads of one log. It remembers hash tiles that it compared with the root of a head,
// in the widest version of each. They remain right, because all heads belong to one tree. The methods may be called
// concurrently.
type Comparer struct {
	read   Reader
	leaves LeavesReader

	recent recent

	mu    sync.Mutex
	tiles map[tilePosition][]tlog.Hash
}

// LeavesReader reads the leaves of a data tile. Leaves and LeavesOfArchive are such functions.
type LeavesReader func(name string, content []byte) ([]ct.Leaf, error)

// maxCompared is the maximum number of hash tiles that are remembered, of at most 8 KB each.
const maxCompared = 1024

// tilePosition is the level and the number of a hash tile.
type tilePosition struct {
	level int
	index int64
}

// NewComparer returns a Comparer with a reader of hash tiles and a reader of the leaves of a data tile.
func NewComparer(read Reader, leaves LeavesReader) *Comparer {
	return &Comparer{read: read, leaves: leaves, tiles: map[tilePosition][]tlog.Hash{}}
}

// Compare returns ErrDamaged unless the content is that of a tile of a head's tree. The content must not change after
// the call. A full tile that was compared recently is not hashed again. Its content is compared with the recent one
// instead.
func (c *Comparer) Compare(ctx context.Context, head ct.TreeHead, of tlog.Tile, content []byte) error {
	if of.W == ct.TileWidth && c.recent.contains(ct.TileName(of), content) {
		return nil
	}
	if err := c.compare(ctx, head, of, content); err != nil {
		return err
	}
	if of.W == ct.TileWidth {
		c.recent.remember(ct.TileName(of), content)
	}
	return nil
}

func (c *Comparer) compare(ctx context.Context, head ct.TreeHead, of tlog.Tile, content []byte) error {
	hashes, err := c.hashesOf(of, content)
	if err != nil {
		return err
	}
	var expected []tlog.Hash
	if of.W == ct.TileWidth {
		hashes = []wagtenib.Hash{PerfectRoot(hashes)}
		expected, err = c.parentHash(ctx, head, of)
	} else {
		expected, err = hashesIn(ctx, of, head, c.read)
	}
	if err != nil {
		return err
	}
	for i := range hashes {
		if hashes[i] != wagtenib.Hash(expected[i]) {
			return fmt.Errorf("%w: %s is not that of the tree (put it back from a backup)", ErrDamaged, ct.TileName(of))
		}
	}
	return nil
}

// hashesOf returns the hashes in a tile. For a data tile these are the hashes of its leaves.
func (c *Comparer) hashesOf(of tlog.Tile, content []byte) ([]wagtenib.Hash, error) {
	if of.L >= 0 {
		return HashesIn(of, content)
	}
	leaves, err := c.leaves(ct.TileName(of), content)
	if err != nil {
		return nil, err
	}
	if len(leaves) != of.W {
		return nil, fmt.Errorf("%w: %s has another width (put it back from a backup)", ErrDamaged, ct.TileName(of))
	}
	hashes := make([]wagtenib.Hash, len(leaves))
	for i := range leaves {
		hashes[i] = leaves[i].Hash()
	}
	return hashes, nil
}

// parentHash returns the hash of a full tile in the tile above it.
func (c *Comparer) parentHash(ctx context.Context, head ct.TreeHead, of tlog.Tile) ([]tlog.Hash, error) {
	level := max(of.L, 0) + 1
	position := tilePosition{level, of.N / ct.TileWidth}
	if hash, ok := c.known(position, of.N%ct.TileWidth); ok {
		return []tlog.Hash{hash}, nil
	}
	parent := ct.FullTile(level, uint64(position.index))
	parent.W = WidthIn(parent, head.TreeSize)
	hashes, err := hashesIn(ctx, parent, head, c.read)
	if err != nil {
		return nil, err
	}
	c.remember(position, hashes)
	return []tlog.Hash{hashes[of.N%ct.TileWidth]}, nil
}

// known returns one hash of a tile that was compared before.
func (c *Comparer) known(of tilePosition, index int64) (hash tlog.Hash, ok bool) {
	c.mu.Lock()
	defer c.mu.Unlock()
	hashes := c.tiles[of]
	if int64(len(hashes)) <= index {
		return hash, false
	}
	return hashes[index], true
}

func (c *Comparer) remember(of tilePosition, hashes []tlog.Hash) {
	c.mu.Lock()
	defer c.mu.Unlock()
	if len(c.tiles) >= maxCompared {
		c.tiles = map[tilePosition][]tlog.Hash{}
	}
	if len(hashes) > len(c.tiles[of]) {
		c.tiles[of] = hashes
	}
}
