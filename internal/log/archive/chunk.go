package archive

import (
	"bytes"
	"context"
	"crypto/sha256"
	"errors"
	"fmt"

	"wagtenib/bindings/go/wagtenib"
	"wagtenib/internal/ct"
	"wagtenib/internal/logclient"
	"wagtenib/internal/tiles"
)

// The limits of what is in memory before it is proved and written. A chunk ends at this number of data tiles, or after
// the tile with which it has this number of bytes.
const (
	maxChunkTiles = 16
	maxChunkBytes = 32 << 20
)

// chunk holds the entries that follow those in the folder, in data tiles.
type chunk struct {
	start   uint64 // the index of the first entry, a multiple of the width of a tile
	tiles   []dataTile
	issuers map[[sha256.Size]byte][]byte
	bytes   int
}

// dataTile is a data tile. Only the last one of a chunk may be partial.
type dataTile struct {
	content []byte
	hashes  []wagtenib.Hash
}

func newChunk(start uint64) *chunk {
	return &chunk{start: start, issuers: map[[sha256.Size]byte][]byte{}}
}

// end returns the index after the last entry.
func (c *chunk) end() uint64 {
	end := c.start
	for _, of := range c.tiles {
		end += uint64(len(of.hashes))
	}
	return end
}

func (c *chunk) isFull(maxTiles int) bool {
	return len(c.tiles) >= maxTiles || c.bytes >= maxChunkBytes
}

// add adds the entries of a data tile. The proved library reads the leaves out of the tile, and their hashes are
// computed from these.
func (c *chunk) add(page logclient.Page) error {
	var content []byte
	for i, raw := range page.Entries {
		of, err := readEntry(raw)
		if err != nil {
			return fmt.Errorf("%w: entry %d: %w", ErrEntry, page.Start+uint64(i), err)
		}
		content = append(content, of.tileLeaf...)
		for _, issuer := range of.issuers {
			fingerprint := sha256.Sum256(issuer)
			if c.issuers[fingerprint] == nil {
				c.issuers[fingerprint] = bytes.Clone(issuer)
				c.bytes += len(issuer)
			}
		}
	}
	entries, err := wagtenib.DataTileLeaves(content)
	if err != nil || len(entries) != len(page.Entries) {
		return fmt.Errorf("%w: the entries from %d on make no data tile: %w", ErrEntry, page.Start, err)
	}
	hashes := make([]wagtenib.Hash, len(entries))
	for i := range entries {
		if !bytes.Equal(entries[i].Leaf, page.Entries[i].LeafInput) {
			return fmt.Errorf("%w: entry %d has another leaf in its data tile", ErrEntry, page.Start+uint64(i))
		}
		hashes[i] = wagtenib.LeafHash(entries[i].Leaf)
	}
	c.tiles = append(c.tiles, dataTile{content, hashes})
	c.bytes += len(content)
	return nil
}

// root returns the root of the entries before the chunk, whose perfect subtrees are given, and those of the chunk.
func (c *chunk) root(subtrees []wagtenib.Hash) wagtenib.Hash {
	size := c.start
	for _, of := range c.tiles {
		for _, hash := range of.hashes {
			subtrees = wagtenib.Push(size, subtrees, hash)
			size++
		}
	}
	return wagtenib.SubtreesRoot(subtrees)
}

// write writes what was proved. Issuers are written before the data tiles that name them, and hash tiles and the index
// after the data tiles.
func (c *chunk) write(ctx context.Context, f *folder, edge *tiles.Edge) error {
	for fingerprint, certificate := range c.issuers {
		if err := f.put(ctx, issuerName(fingerprint), certificate); err != nil {
			return err
		}
	}
	at, end := c.start, c.end()
	for _, of := range c.tiles {
		if err := of.write(ctx, f, ct.TileName(ct.DataTile(at, end))); err != nil {
			return err
		}
		at += uint64(len(of.hashes))
	}
	at = c.start
	for _, of := range c.tiles {
		for _, hash := range of.hashes {
			if err := edge.Push(hash); err != nil {
				return err
			}
		}
		if err := f.addToIndex(ctx, at, of.hashes); err != nil {
			return err
		}
		at += uint64(len(of.hashes))
	}
	return nil
}

// write writes a data tile. No hash covers its precertificates and fingerprints. If an interrupted run wrote a tile
// with the same leaves and others of these, that tile stays.
func (d dataTile) write(ctx context.Context, f *folder, name string) error {
	err := f.put(ctx, name, d.content)
	if !errors.Is(err, ErrDamaged) {
		return err
	}
	content, readErr := f.get(ctx, name)
	if readErr != nil {
		return errors.Join(err, readErr)
	}
	entries, readErr := wagtenib.DataTileLeaves(content)
	if readErr != nil || len(entries) != len(d.hashes) {
		return errors.Join(err, readErr)
	}
	for i := range entries {
		if wagtenib.LeafHash(entries[i].Leaf) != d.hashes[i] {
			return err
		}
	}
	return nil
}

// addToIndex adds the hashes of leaves from an index on. A hash that occurs twice keeps its first index.
func (f *folder) addToIndex(ctx context.Context, at uint64, hashes []wagtenib.Hash) error {
	f.writing(indexName)
	return f.index.add(ctx, at, hashes)
}
