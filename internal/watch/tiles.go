package watch

import (
	"context"
	"errors"
	"fmt"

	"golang.org/x/mod/sumdb/tlog"

	"wagtenib/bindings/go/wagtenib"
	"wagtenib/internal/ct"
	"wagtenib/internal/logclient"
)

// maxTreeSize is the maximum number of leaves of a head that openHead accepts. The index of a leaf of a tiled log has
// 40 bits (C2SP static-ct-api), and logs of RFC 6962 are much smaller.
const maxTreeSize = 1 << 48

// openHead reads a signed head of a log of either kind, and verifies its signature. The returned head holds the bytes
// even if there is an error.
func openHead(log Log, signed []byte) (Head, error) {
	var head Head
	var err error
	if log.IsTiled() {
		head, err = ct.OpenCheckpoint(signed, log.Origin, log.PublicKey)
	} else {
		head, err = ct.OpenSTH(signed, log.PublicKey)
	}
	if err == nil && head.TreeSize > maxTreeSize {
		err = fmt.Errorf("%w: %d leaves, and a log can have at most %d", ct.ErrForm, head.TreeSize,
			uint64(maxTreeSize))
	}
	head.Signed = signed
	return head, err
}

// tiles reads a tiled log (C2SP static-ct-api, tlog-tiles).
type tiles struct {
	log    Log
	client *logclient.Client
}

func (t *tiles) head(ctx context.Context) (Head, error) {
	checkpoint, err := t.client.Checkpoint(ctx)
	if err != nil {
		return Head{}, err
	}
	return openHead(t.log, checkpoint)
}

// entries reads whole data tiles. It leaves out the entries of the first tile that are before `start`.
func (t *tiles) entries(ctx context.Context, start, size uint64, use func(b batch, more bool) error) error {
	return t.client.DataTiles(ctx, start, size, func(tile logclient.DataTile, more bool) error {
		first := tile.Index * ct.TileWidth
		entries, otherIndex, err := readDataTile(tile, max(first, start))
		if err != nil {
			return err
		}
		b := batch{start: max(first, start), otherIndex: otherIndex, tiles: []logclient.DataTile{tile},
			bytes: len(tile.Bytes)}
		for i, entry := range entries {
			index := first + uint64(i)
			if index < start {
				continue
			}
			b.entries = append(b.entries, Entry{Index: index, Timestamp: entry.Timestamp, Type: entry.Type,
				Leaf: entry.Leaf, Certificate: entry.Certificate, Precertificate: entry.Precertificate,
				Fingerprints: entry.Issuers})
		}
		return use(b, more)
	})
}

// readDataTile reads a data tile. otherIndex is the first index from next on whose entry names another index in its
// extensions; nil if there is none. A log may answer with a full tile for a partial one, so only the first tile.Width
// entries are read.
func readDataTile(tile logclient.DataTile, next uint64) (entries []wagtenib.TileEntry, otherIndex *uint64, err error) {
	content, ok := ct.FirstEntries(tile.Bytes, tile.Width)
	if !ok {
		// The library judges the form, and stops at the entry that cannot be read.
		content = tile.Bytes
	}
	index, err := wagtenib.CompareDataTile(tile.Name, next, content)
	switch {
	case errors.Is(err, wagtenib.ErrWrongIndex):
		otherIndex = &index
	case errors.Is(err, wagtenib.ErrOtherEntries):
		return nil, nil, fmt.Errorf("%s: %w: %d entries, and %d are expected", tile.Name, errDamaged, index, tile.Width)
	case err != nil:
		return nil, nil, fmt.Errorf("%s: %w: %v (%d)", tile.Name, errDamaged, err, index)
	}
	if entries, err = wagtenib.DataTileLeaves(content); err != nil {
		return nil, nil, fmt.Errorf("%s: %w: %v", tile.Name, errDamaged, err)
	}
	return entries, otherIndex, nil
}

// read returns the contents of the hash tiles with these names.
func (t *tiles) read(ctx context.Context, names []string) ([][]byte, error) {
	contents := make([][]byte, len(names))
	for i, name := range names {
		content, err := t.client.HashTile(ctx, name)
		if err != nil {
			return nil, err
		}
		contents[i] = content
	}
	return contents, nil
}

func (t *tiles) consistency(ctx context.Context, first, second uint64) ([]wagtenib.Hash, error) {
	names, err := wagtenib.ProofTiles(first, second)
	if err != nil {
		return nil, err
	}
	contents, err := t.read(ctx, names)
	if err != nil {
		return nil, err
	}
	return wagtenib.ProofOfTiles(first, second, contents)
}

func (t *tiles) inclusion(ctx context.Context, index, size uint64, _ wagtenib.Hash) ([]wagtenib.Hash, error) {
	names, err := wagtenib.PathTiles(index, size)
	if err != nil {
		return nil, err
	}
	contents, err := t.read(ctx, names)
	if err != nil {
		return nil, err
	}
	return wagtenib.PathOfTiles(index, size, contents)
}

// beginning returns the root by hash tiles that lead to the root of the head.
func (t *tiles) beginning(ctx context.Context, size uint64, head wagtenib.TreeHead) (wagtenib.Hash, error) {
	root, err := tlog.TreeHash(int64(size), t.hashes(ctx, head))
	if err != nil {
		return wagtenib.Hash{}, fmt.Errorf("%w: %v", errDamaged, err)
	}
	return wagtenib.Hash(root), nil
}

// subtrees returns the roots in the audit path of the last leaf. They are not checked: wagtenib.MonitorStart compares
// them with the head's root.
func (t *tiles) subtrees(ctx context.Context, head wagtenib.TreeHead) ([]wagtenib.Hash, error) {
	if head.TreeSize == 0 {
		return nil, nil
	}
	last := head.TreeSize - 1
	leaf, err := t.hashes(ctx, head).ReadHashes([]int64{tlog.StoredHashIndex(0, int64(last))})
	if err != nil {
		return nil, fmt.Errorf("%w: the tiles at the right edge of the tree: %v", errDamaged, err)
	}
	path, err := t.inclusion(ctx, last, head.TreeSize, wagtenib.Hash(leaf[0]))
	if err != nil {
		return nil, err
	}
	return wagtenib.LastSubtrees(wagtenib.Hash(leaf[0]), head.TreeSize, path)
}

// hashes returns a reader of the hashes of a head's tree. It compares each hash with the root.
func (t *tiles) hashes(ctx context.Context, head wagtenib.TreeHead) tlog.HashReader {
	tree := tlog.Tree{N: int64(head.TreeSize), Hash: tlog.Hash(head.Root)}
	return tlog.TileHashReader(tree, &tileReader{ctx, t.client, map[string][]byte{}})
}

// maxCachedTiles is the maximum number of hash tiles in a tileReader's cache, of 8 KiB each.
const maxCachedTiles = 256

// tileReader reads tiles for tlog, and caches some of them.
type tileReader struct {
	ctx    context.Context
	client *logclient.Client
	cache  map[string][]byte
}

// Height returns the height of a tile (C2SP tlog-tiles).
func (*tileReader) Height() int { return ct.TileHeight }

// SaveTiles does nothing: ReadTiles caches the tiles.
func (*tileReader) SaveTiles([]tlog.Tile, [][]byte) {}

// ReadTiles returns the contents of tiles, from the cache or from the log.
func (r *tileReader) ReadTiles(wanted []tlog.Tile) (contents [][]byte, err error) {
	for _, tile := range wanted {
		name := ct.TileName(tile)
		content, ok := r.cache[name]
		if !ok {
			if content, err = r.client.HashTile(r.ctx, name); err != nil {
				return nil, err
			}
			if len(r.cache) >= maxCachedTiles {
				clear(r.cache)
			}
			r.cache[name] = content
		}
		contents = append(contents, content)
	}
	return contents, nil
}
