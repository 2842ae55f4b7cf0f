// Package mirror keeps a copy of a tiled log in a folder, so that any server of files can serve it (C2SP
// static-ct-api).
//
// A reader can rely on the order in which files are written. The issuers of a data tile are written before it, and all
// tiles of a tree before its checkpoint. Each file is complete and on the disk before the next one. Only the checkpoint
// ever changes. Files are written only after the data tiles lead to the root that the log signed. No hash covers the
// precertificates and the fingerprints of a data tile (static-ct-api), so the mirror keeps those that the log gave
// first.
package mirror

import (
	"bytes"
	"context"
	"crypto/sha256"
	"encoding/hex"
	"errors"
	"fmt"
	"os"
	"path/filepath"

	"wagtenib/bindings/go/wagtenib"
	"wagtenib/internal/blob"
	"wagtenib/internal/ct"
	"wagtenib/internal/logclient"
	datatile "wagtenib/internal/tiles"
	"wagtenib/internal/watch"
)

// The reasons why a log cannot be mirrored, for errors.Is.
var (
	// ErrOther means that bytes of the log differ from those in the mirror, or do not lead to the root of its head.
	ErrOther = errors.New("mirror: the log has other bytes than those that are kept")
	// ErrFolder means that a folder is not a mirror of this log.
	ErrFolder = errors.New("mirror: the folder is not a mirror of this log (name another folder, or restore its " +
		"checkpoint)")
	// ErrAhead means that the folder has more entries than the head, or a later head.
	ErrAhead = errors.New("mirror: the folder has a later head than was accepted, because the state of the monitor is an " +
		"older one (the mirror continues with the log's next later head)")
)

// The names in the folder in addition to the tiles and issuers, and the maximum number of bytes of a stored file.
const (
	checkpointName = "checkpoint"
	stagedFolder   = ".staged" // the data tiles whose head is not accepted yet
	maxObject      = 64 << 20
)

// Mirror implements watch.Mirror for one log. Only one goroutine at a time, of one process, may call its methods.
type Mirror struct {
	log     watch.Log
	client  *logclient.Client
	folder  string
	objects blob.Objects
	kept    wagtenib.TreeHead // the head of the checkpoint in the folder; its size is 0 if there is no checkpoint
}

// Open opens the mirror of a tiled log in a folder, and creates the folder if it does not exist. The options are for
// requests to the log, for issuers and for data tiles that were not staged. The error wraps ErrFolder if the folder has
// a checkpoint that the log did not sign.
func Open(folder string, log watch.Log, options logclient.Options) (*Mirror, error) {
	client, err := logclient.New(log.URL, options)
	if err != nil {
		return nil, err
	}
	objects, err := blob.OpenFolder(folder)
	if err != nil {
		return nil, fmt.Errorf("mirror: %w", err)
	}
	m := &Mirror{log: log, client: client, folder: folder, objects: objects}
	checkpoint, err := blob.KeptFile(filepath.Join(folder, checkpointName))
	if errors.Is(err, blob.ErrAbsent) {
		return m, nil
	}
	if err != nil {
		return nil, fmt.Errorf("mirror: %w", err)
	}
	kept, err := ct.OpenCheckpoint(checkpoint, log.Origin, log.PublicKey)
	if err != nil {
		return nil, fmt.Errorf("%s: %w: %v", folder, ErrFolder, err)
	}
	m.kept = kept.TreeHead
	return m, nil
}

// Stage stores a data tile that was read, until its head is accepted. It does not sync the file, because a lost tile is
// read again.
func (m *Mirror) Stage(tile logclient.DataTile) error {
	path := m.stagedPath(tile.Index, tile.Width)
	if err := os.MkdirAll(filepath.Dir(path), 0o700); err != nil {
		return fmt.Errorf("mirror: %w", err)
	}
	if err := os.WriteFile(path+".new", tile.Bytes, 0o600); err != nil {
		return fmt.Errorf("mirror: %w", err)
	}
	return os.Rename(path+".new", path)
}

func (m *Mirror) stagedPath(index uint64, width int) string {
	name := ct.TileName(ct.DataTile(index*ct.TileWidth, index*ct.TileWidth+uint64(width)))
	return filepath.Join(m.folder, stagedFolder, filepath.FromSlash(name))
}

// Accept stores the log up to a head whose leaves were read and have its root. If it fails, a later call continues. The
// error wraps ErrOther or ErrAhead, or says why a file could not be read, fetched or written.
func (m *Mirror) Accept(ctx context.Context, head watch.Head) error {
	switch {
	case head.TreeSize < m.kept.TreeSize || head.Timestamp < m.kept.Timestamp:
		return fmt.Errorf("%w: %d entries at %d ms, and %d at %d ms", ErrAhead, m.kept.TreeSize, m.kept.Timestamp,
			head.TreeSize, head.Timestamp)
	case head.TreeSize == m.kept.TreeSize && m.kept.TreeSize > 0 && head.Root != m.kept.Root:
		return fmt.Errorf("%w: another root of %d leaves", ErrOther, head.TreeSize)
	case head.TreeHead == m.kept:
		return nil
	}
	if head.TreeSize > m.kept.TreeSize {
		if err := m.check(ctx, head.TreeHead); err != nil {
			return err
		}
		if err := m.grow(ctx, head.TreeSize); err != nil {
			return err
		}
	}
	// Others must be able to read the file, because the server of the folder may run as another user.
	if err := blob.ShowFile(filepath.Join(m.folder, checkpointName), head.Signed); err != nil {
		return fmt.Errorf("mirror: %w", err)
	}
	before := m.kept.TreeSize
	m.kept = head.TreeHead
	if err := m.deletePartialTiles(before, head.TreeSize); err != nil {
		return err
	}
	return os.RemoveAll(filepath.Join(m.folder, stagedFolder))
}

// tile holds a data tile that was read, cut to the entries of the tree.
type tile struct {
	name   string
	bytes  []byte
	leaves []ct.Leaf
}

// stageMissing reads the data tiles of the tree of a size that are neither stored nor staged, and stages them.
func (m *Mirror) stageMissing(ctx context.Context, size uint64) error {
	isStaged := func(index uint64) bool {
		of := ct.DataTile(index*ct.TileWidth, size)
		_, err := os.Stat(m.stagedPath(index, of.W))
		return err == nil
	}
	tiles := (size + ct.TileWidth - 1) / ct.TileWidth
	for first := m.kept.TreeSize / ct.TileWidth; first < tiles; first++ {
		if isStaged(first) {
			continue
		}
		// The client reads a range ahead.
		end := first + 1
		for end < tiles && !isStaged(end) {
			end++
		}
		err := m.client.DataTiles(ctx, first*ct.TileWidth, min(size, end*ct.TileWidth),
			func(read logclient.DataTile, _ bool) error { return m.Stage(read) })
		if err != nil {
			return fmt.Errorf("mirror: %w", err)
		}
		first = end
	}
	return nil
}

// readTile returns a staged data tile of the tree of a size.
func (m *Mirror) readTile(index, size uint64) (tile, error) {
	of := ct.DataTile(index*ct.TileWidth, size)
	name, width := ct.TileName(of), of.W
	content, err := os.ReadFile(m.stagedPath(index, width))
	if err != nil {
		return tile{}, fmt.Errorf("mirror: %s: %w", name, err)
	}
	first, ok := ct.FirstEntries(content, width)
	if !ok {
		return tile{}, fmt.Errorf("%w: %s does not begin with %d entries", ErrOther, name, width)
	}
	leaves, err := ct.ReadDataTile(first)
	if err != nil {
		return tile{}, fmt.Errorf("%w: %s: %v", ErrOther, name, err)
	}
	return tile{name, first, leaves}, nil
}

// check compares the root of the stored tree with the new data tiles with the root of the head. If they differ, it
// reads the staged tiles from the log again, once: the disk may have lost them.
func (m *Mirror) check(ctx context.Context, head wagtenib.TreeHead) error {
	root, err := m.root(ctx, head.TreeSize)
	if err != nil && !errors.Is(err, ErrOther) {
		return err
	}
	if err == nil && root == head.Root {
		return nil
	}
	if err := os.RemoveAll(filepath.Join(m.folder, stagedFolder)); err != nil {
		return fmt.Errorf("mirror: %w", err)
	}
	if root, err = m.root(ctx, head.TreeSize); err != nil {
		return err
	}
	if root != head.Root {
		return fmt.Errorf("%w: the data tiles of %d leaves have the root %x, and the log signed %x", ErrOther, head.TreeSize,
			root, head.Root)
	}
	return nil
}

// root returns the root of the tree of a size. It writes only staged tiles.
func (m *Mirror) root(ctx context.Context, size uint64) (root wagtenib.Hash, err error) {
	if err := m.stageMissing(ctx, size); err != nil {
		return root, err
	}
	tree, err := m.edge(ctx, func(string, []byte) error { return nil })
	if err != nil {
		return root, err
	}
	for index := m.kept.TreeSize / ct.TileWidth; index*ct.TileWidth < size; index++ {
		data, err := m.readTile(index, size)
		if err != nil {
			return root, err
		}
		for i := range data.leaves {
			if err := tree.Push(data.leaves[i].Hash()); err != nil {
				return root, err
			}
		}
	}
	return tree.End()
}

// grow writes the issuers, data tiles and hash tiles of the tree of a size, whose root was checked.
func (m *Mirror) grow(ctx context.Context, size uint64) error {
	tree, err := m.edge(ctx, func(name string, content []byte) error { return m.put(ctx, name, content) })
	if err != nil {
		return err
	}
	for index := m.kept.TreeSize / ct.TileWidth; index*ct.TileWidth < size; index++ {
		data, err := m.readTile(index, size)
		if err != nil {
			return err
		}
		if err := m.checkPrefix(ctx, index, data); err != nil {
			return err
		}
		if err := m.putIssuers(ctx, data); err != nil {
			return err
		}
		if err := m.put(ctx, data.name, data.bytes); err != nil {
			return err
		}
		for i := range data.leaves {
			if err := tree.Push(data.leaves[i].Hash()); err != nil {
				return err
			}
		}
	}
	_, err = tree.End()
	return err
}

// put writes a file, unless it exists. If the existing file has other bytes, put leaves it and returns ErrOther.
func (m *Mirror) put(ctx context.Context, name string, content []byte) error {
	err := m.objects.Put(ctx, name, content)
	if errors.Is(err, blob.ErrOther) {
		return fmt.Errorf("%w: %s", ErrOther, name)
	}
	if err != nil {
		return fmt.Errorf("mirror: %w", err)
	}
	return nil
}

// checkPrefix returns an error if a data tile does not begin with the bytes of the stored partial tile.
func (m *Mirror) checkPrefix(ctx context.Context, index uint64, data tile) error {
	if m.kept.TreeSize%ct.TileWidth == 0 || index != m.kept.TreeSize/ct.TileWidth {
		return nil
	}
	name := ct.TileName(ct.DataTile(index*ct.TileWidth, m.kept.TreeSize))
	kept, err := m.objects.Get(ctx, name, maxObject)
	if err != nil {
		return fmt.Errorf("mirror: %w", err)
	}
	if !bytes.HasPrefix(data.bytes, kept) {
		return fmt.Errorf("%w: %s does not begin as %s", ErrOther, data.name, name)
	}
	return nil
}

// putIssuers writes the issuers of a tile's entries.
func (m *Mirror) putIssuers(ctx context.Context, data tile) error {
	for i := range data.leaves {
		for chain := data.leaves[i].Chain; len(chain) > 0; chain = chain[sha256.Size:] {
			fingerprint := [sha256.Size]byte(chain[:sha256.Size])
			name := "issuer/" + hex.EncodeToString(fingerprint[:])
			if _, err := os.Stat(filepath.Join(m.folder, filepath.FromSlash(name))); err == nil {
				continue
			}
			content, err := m.client.Issuer(ctx, fingerprint)
			if err != nil {
				return fmt.Errorf("mirror: %w", err)
			}
			if err := m.put(ctx, name, content); err != nil {
				return err
			}
		}
	}
	return nil
}

// deletePartialTiles deletes the partial tiles of an older tree that now have a full tile in their place.
func (m *Mirror) deletePartialTiles(before, now uint64) error {
	for _, name := range datatile.Overtaken(before, now) {
		if err := os.RemoveAll(filepath.Join(m.folder, filepath.FromSlash(name))); err != nil {
			return fmt.Errorf("mirror: %w", err)
		}
	}
	return nil
}
