package archive

import (
	"context"
	"errors"
	"fmt"
	"os"
	"path/filepath"
	"strings"

	"golang.org/x/mod/sumdb/tlog"

	"wagtenib/bindings/go/wagtenib"
	"wagtenib/internal/blob"
	"wagtenib/internal/ct"
	"wagtenib/internal/logclient"
	"wagtenib/internal/tiles"
)

// Options are the options for reading a log.
type Options struct {
	Client logclient.Options
	// MaxTiles is the maximum number of data tiles in memory before they are proved and written. 0 means 16.
	MaxTiles int
	// Progress is called after each part was written, with the number of entries in the folder and in the head. It may
	// be nil.
	Progress func(entries, size uint64)
	// Writing is called before each write, with the name of the file. It is for tests, and may be nil.
	Writing func(name string)
}

// maker archives a log in a folder.
type maker struct {
	*folder
	of      Log
	client  *logclient.Client
	options Options
	entries uint64 // the number of entries in the folder
	edge    *tiles.Edge
}

// Make archives a log in a folder, up to the newest head that the log signed, and returns that head. It continues what
// an earlier run began. If the log has grown since, the archive grows.
func Make(ctx context.Context, path string, of Log, options Options) (wagtenib.TreeHead, error) {
	client, err := logclient.New(of.URL, options.Client)
	if err != nil {
		return wagtenib.TreeHead{}, err
	}
	f, err := openFolder(ctx, path, of, options.Writing)
	if err != nil {
		return wagtenib.TreeHead{}, err
	}
	defer f.close()
	m := &maker{folder: f, of: of, client: client, options: options}
	if m.entries, err = f.progress(); err != nil {
		return wagtenib.TreeHead{}, err
	}
	wanted, err := m.chooseHead(ctx)
	if err != nil {
		return wagtenib.TreeHead{}, err
	}
	if err := m.restoreIndex(ctx); err != nil {
		return wagtenib.TreeHead{}, err
	}
	if m.entries < wanted.TreeSize {
		if err := m.read(ctx, wanted.TreeHead); err != nil {
			return wagtenib.TreeHead{}, err
		}
	}
	return wanted.TreeHead, m.finish(ctx, wanted)
}

// chooseHead returns the head to archive, which is the newest one of the log. It must continue the head that is being
// archived.
func (m *maker) chooseHead(ctx context.Context) (ct.SignedHead, error) {
	answer, err := m.client.STH(ctx)
	if err != nil {
		return ct.SignedHead{}, err
	}
	answered, err := ct.OpenSTH(answer, m.of.PublicKey)
	if err != nil {
		return ct.SignedHead{}, fmt.Errorf("archive: get-sth: %w", err)
	}
	if answered.TreeSize == 0 {
		return ct.SignedHead{}, ErrEmpty
	}
	wanted, err := m.wanted()
	switch {
	case errors.Is(err, blob.ErrAbsent):
		return answered, m.replaceFile(wantedName, answer)
	case err != nil:
		return ct.SignedHead{}, err
	case answered.TreeSize == wanted.TreeSize && answered.Root != wanted.Root:
		return ct.SignedHead{}, m.accuse(ErrFork, answered, wanted, nil)
	case answered.TreeSize < wanted.TreeSize:
		return ct.SignedHead{}, m.olderError(ctx, answered, wanted)
	case answered.TreeSize > wanted.TreeSize:
		if err := m.prove(ctx, wanted.TreeSize, wanted.Root, answered.TreeHead); err != nil {
			if errors.Is(err, ErrUnproved) {
				err = m.accuse(ErrInconsistent, answered, wanted, err)
			}
			return ct.SignedHead{}, err
		}
	case answered.Timestamp <= wanted.Timestamp:
		return wanted, nil
	}
	return answered, m.replaceFile(wantedName, answer)
}

// wanted returns the head that is being archived. If an operator deleted that, it returns the head of which the archive
// has all entries. The error wraps blob.ErrAbsent if there is neither.
func (m *maker) wanted() (ct.SignedHead, error) {
	wanted, err := readHead(m.path, wantedName, m.of)
	if !errors.Is(err, blob.ErrAbsent) {
		return wanted, err
	}
	if wanted, err = readHead(m.path, signedName, m.of); err != nil {
		return ct.SignedHead{}, err
	}
	return wanted, m.replaceFile(wantedName, wanted.Signed)
}

// accuse stores a head that contradicts the one that is being archived, and returns the error.
func (m *maker) accuse(kind error, answered, wanted ct.SignedHead, why error) error {
	err := fmt.Errorf("%w: %s has its head of %d entries, and %s the one of %d", kind,
		filepath.Join(m.path, wantedName), wanted.TreeSize, filepath.Join(m.path, otherName), answered.TreeSize)
	if why != nil {
		err = fmt.Errorf("%w: %v", err, why)
	}
	return errors.Join(err, m.replaceFile(otherName, answered.Signed))
}

// olderError returns the error of a head with fewer entries than the one that is being archived. It is a fork if the
// folder has the tree of that size, with another root.
func (m *maker) olderError(ctx context.Context, answered, wanted ct.SignedHead) error {
	signed, err := readHead(m.path, signedName, m.of)
	if err == nil && answered.TreeSize <= signed.TreeSize {
		prover := tiles.NewProver(m.objects.Get, 1)
		root, err := prover.Root(ctx, answered.TreeSize, signed.TreeSize)
		if err != nil {
			return fmt.Errorf("archive: %w", err)
		}
		if root != answered.Root {
			return m.accuse(ErrFork, answered, wanted, nil)
		}
	}
	return fmt.Errorf("%w: %d entries, and %d", ErrBehind, answered.TreeSize, wanted.TreeSize)
}

// prove checks the log's proof that its first entries, which have this root, are the beginning of a head's tree.
func (m *maker) prove(ctx context.Context, size uint64, root wagtenib.Hash, of wagtenib.TreeHead) error {
	proof, err := m.client.Consistency(ctx, size, of.TreeSize)
	if errors.Is(err, logclient.ErrStatus) || errors.Is(err, logclient.ErrNotFound) ||
		errors.Is(err, logclient.ErrNonsense) {
		return fmt.Errorf("%w: from %d to %d entries: %w", ErrUnproved, size, of.TreeSize, err)
	}
	if err != nil {
		return err
	}
	if err := wagtenib.VerifyConsistency(size, of.TreeSize, root, of.Root, proof); err != nil {
		return fmt.Errorf("%w: from %d to %d entries: %w", ErrUnproved, size, of.TreeSize, err)
	}
	return nil
}

// read reads the missing entries, and writes each part after it was proved.
func (m *maker) read(ctx context.Context, wanted wagtenib.TreeHead) error {
	start := m.entries - m.entries%ct.TileWidth
	put := func(name string, content []byte) error { return m.put(ctx, name, content) }
	edge, err := tiles.EdgeAt(start/ct.TileWidth, func(of tlog.Tile) ([]wagtenib.Hash, error) {
		return m.partialTile(ctx, of)
	}, put)
	if err != nil {
		return err
	}
	m.edge = edge
	maxTiles := m.options.MaxTiles
	if maxTiles == 0 {
		maxTiles = maxChunkTiles
	}
	part := newChunk(start)
	return m.client.Entries(ctx, start, wanted.TreeSize, func(page logclient.Page, _ bool) error {
		if err := part.add(page); err != nil {
			return err
		}
		if !part.isFull(maxTiles) && part.end() < wanted.TreeSize {
			return nil
		}
		err := m.write(ctx, part, wanted)
		part = newChunk(part.end())
		return err
	})
}

// partialTile computes the hashes of a partial hash tile from the full tiles below it.
func (m *maker) partialTile(ctx context.Context, of tlog.Tile) ([]wagtenib.Hash, error) {
	hashes := make([]wagtenib.Hash, of.W)
	for i := range hashes {
		below := ct.FullTile(of.L-1, uint64(of.N)*ct.TileWidth+uint64(i))
		content, err := m.get(ctx, ct.TileName(below))
		if err != nil {
			return nil, err
		}
		row, err := tiles.HashesIn(below, content)
		if err != nil {
			return nil, fmt.Errorf("%w: %w", ErrDamaged, err)
		}
		hashes[i] = tiles.PerfectRoot(row)
	}
	return hashes, nil
}

// write writes a part of the entries if the entries belong to the signed tree.
func (m *maker) write(ctx context.Context, part *chunk, wanted wagtenib.TreeHead) error {
	root, end := part.root(m.edge.Subtrees()), part.end()
	if end < wanted.TreeSize {
		if err := m.prove(ctx, end, root, wanted); err != nil {
			return err
		}
	} else if root != wanted.Root {
		return fmt.Errorf("%w: the root of %d entries is %x, and the log signed %x", ErrOther, end, root, wanted.Root)
	}
	if err := part.write(ctx, m.folder, m.edge); err != nil {
		return err
	}
	if end == wanted.TreeSize {
		if _, err := m.edge.End(); err != nil {
			return err
		}
		if err := m.checkRoot(ctx, wanted); err != nil {
			return err
		}
	}
	m.entries = end
	if err := m.replaceFile(progressName, fmt.Appendf(nil, "%d\n", end)); err != nil {
		return err
	}
	if m.options.Progress != nil {
		m.options.Progress(end, wanted.TreeSize)
	}
	return nil
}

// checkRoot compares the root of the hash tiles in the folder with the root of a head.
func (m *maker) checkRoot(ctx context.Context, of wagtenib.TreeHead) error {
	root, err := tiles.NewProver(m.objects.Get, 1).Root(ctx, of.TreeSize, of.TreeSize)
	if err != nil {
		return fmt.Errorf("archive: %w", err)
	}
	if root != of.Root {
		return fmt.Errorf("%w: its tiles have the root %x, and the log signed %x", ErrDamaged, root, of.Root)
	}
	return nil
}

// finish publishes the head, after all its tiles are stored. It deletes the partial tiles that only the previous head
// needs after that, because until then a server that opens the archive needs them.
func (m *maker) finish(ctx context.Context, of ct.SignedHead) error {
	if err := m.checkRoot(ctx, of.TreeHead); err != nil {
		return err
	}
	signed, err := readHead(m.path, signedName, m.of)
	if err != nil && !errors.Is(err, blob.ErrAbsent) {
		return err
	}
	checkpoint, err := ct.CheckpointOfSTH(of.Signed, m.of.Origin, m.of.PublicKey)
	if err != nil {
		return fmt.Errorf("archive: %w", err)
	}
	// An interrupted run may have left obsolete tiles.
	if err := m.dropObsolete(ctx, signed.TreeSize); err != nil {
		return err
	}
	if names := tiles.PartialOnly(signed.TreeSize, of.TreeSize); len(names) > 0 {
		if err := m.replaceFile(obsoleteName, []byte(strings.Join(names, "\n")+"\n")); err != nil {
			return err
		}
	}
	if err := m.replaceFile(checkpointName, checkpoint.Signed); err != nil {
		return err
	}
	if err := m.replaceFile(signedName, of.Signed); err != nil {
		return err
	}
	return m.dropObsolete(ctx, of.TreeSize)
}

// dropObsolete deletes the partial tiles that the folder lists as obsolete, unless a tree of this size has them.
func (m *maker) dropObsolete(ctx context.Context, size uint64) error {
	path := filepath.Join(m.path, obsoleteName)
	content, err := blob.KeptFile(path)
	if errors.Is(err, blob.ErrAbsent) {
		return nil
	}
	if err != nil {
		return fmt.Errorf("archive: %w", err)
	}
	for _, name := range strings.Fields(string(content)) {
		if of, isTile := ct.ParseTile(name); !isTile || tiles.WidthIn(of, size) == of.W {
			continue
		}
		m.writing(objectsName + "/" + name)
		if err := m.objects.Delete(ctx, name); err != nil {
			return fmt.Errorf("archive: %w", err)
		}
	}
	m.writing(obsoleteName)
	if err := os.Remove(path); err != nil {
		return fmt.Errorf("archive: %w", err)
	}
	return nil
}

// restoreIndex builds the index again from the hash tiles, unless the index has the last entry of the folder.
func (m *maker) restoreIndex(ctx context.Context) error {
	if m.entries == 0 {
		return nil
	}
	last := ct.DataTile(m.entries-1, m.entries)
	hashes, err := m.leafHashes(ctx, last)
	if err != nil {
		return err
	}
	if _, has, err := m.index.find(ctx, hashes[len(hashes)-1]); err != nil || has {
		return err
	}
	for at := uint64(0); at < m.entries; at += ct.TileWidth {
		hashes, err := m.leafHashes(ctx, ct.DataTile(at, m.entries))
		if err != nil {
			return err
		}
		if err := m.addToIndex(ctx, at, hashes); err != nil {
			return err
		}
	}
	return nil
}

// leafHashes returns the hashes of the leaves of a data tile, from the lowest hash tile.
func (m *maker) leafHashes(ctx context.Context, of tlog.Tile) ([]wagtenib.Hash, error) {
	of.L = 0
	content, err := m.get(ctx, ct.TileName(of))
	if err != nil {
		return nil, err
	}
	hashes, err := tiles.HashesIn(of, content)
	if err != nil {
		return nil, fmt.Errorf("%w: %w", ErrDamaged, err)
	}
	return hashes, nil
}
