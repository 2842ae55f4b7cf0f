package archive

import (
	"bytes"
	"context"
	"errors"
	"fmt"
	"path/filepath"
	"strings"
	"time"

	"wagtenib/bindings/go/wagtenib"
	"wagtenib/internal/blob"
	"wagtenib/internal/ct"
	"wagtenib/internal/log"
	"wagtenib/internal/tiles"
)

// Served is a complete archive, served as a log that takes no submissions. It implements log.Log. It checks
// what it reads from its objects and its index. Its methods may be called concurrently.
type Served struct {
	log      Log
	head     ct.SignedHead
	objects  blob.Objects
	index    *leafIndex
	comparer *tiles.Comparer
	// edge has the partial tiles of the tree by their names, because a process that adds to the archive deletes them.
	edge map[string][]byte
}

// OriginOf returns the origin of the archive in a folder.
func OriginOf(path string) (string, error) {
	of, err := readLog(path)
	if errors.Is(err, blob.ErrAbsent) {
		return "", fmt.Errorf("%w: %s has no %s", ErrFolder, path, logName)
	}
	return of.Origin, err
}

// Open opens a complete archive. The error wraps ErrFolder, ErrIncomplete or ErrDamaged, or says what cannot be read.
// Another process may add to the archive at the same time. New entries are served after the next Open.
func Open(ctx context.Context, path string) (s *Served, err error) {
	if _, err := OriginOf(path); err != nil {
		return nil, err
	}
	of, err := readLog(path)
	if err != nil {
		return nil, err
	}
	signed, err := readHead(path, signedName, of)
	if errors.Is(err, blob.ErrAbsent) {
		return nil, fmt.Errorf("%w: %s", ErrIncomplete, path)
	}
	if err != nil {
		return nil, err
	}
	s = &Served{log: of, edge: map[string][]byte{}}
	if s.head, err = ct.CheckpointOfSTH(signed.Signed, of.Origin, of.PublicKey); err != nil {
		return nil, fmt.Errorf("%w: %w", ErrDamaged, err)
	}
	if err := blob.CheckObjectsExist("folder:" + filepath.Join(path, objectsName)); err != nil {
		return nil, fmt.Errorf("%w: %w", ErrDamaged, err)
	}
	if s.objects, err = blob.OpenFolder(filepath.Join(path, objectsName)); err != nil {
		return nil, fmt.Errorf("archive: %w", err)
	}
	s.comparer = tiles.NewComparer(s.read, tiles.LeavesOfArchive)
	s.index, err = openLeafIndex(ctx, filepath.Join(path, indexName))
	if err == nil {
		err = s.keepEdge(ctx)
	}
	if err == nil {
		err = s.checkWhole(ctx)
	}
	if err != nil {
		s.Close()
		return nil, err
	}
	return s, nil
}

// keepEdge reads the partial tiles of the tree into memory.
func (s *Served) keepEdge(ctx context.Context) error {
	for _, name := range tiles.PartialOnly(s.head.TreeSize, 0) {
		content, err := s.read(ctx, name)
		if err != nil {
			return fmt.Errorf("%w: %w", ErrDamaged, err)
		}
		s.edge[name] = content
	}
	return nil
}

// checkWhole returns ErrDamaged unless the hash tiles have the root of the head, and the index has the last entry.
func (s *Served) checkWhole(ctx context.Context) error {
	root, err := tiles.NewProver(s.Object, 1).Root(ctx, s.head.TreeSize, s.head.TreeSize)
	if err != nil {
		return fmt.Errorf("%w: %w", ErrDamaged, err)
	}
	if root != s.head.Root {
		return fmt.Errorf("%w: the tiles and the head have different roots", ErrDamaged)
	}
	last := ct.DataTile(s.head.TreeSize-1, s.head.TreeSize)
	last.L = 0
	content, err := s.read(ctx, ct.TileName(last))
	if err != nil {
		return fmt.Errorf("%w: %w", ErrDamaged, err)
	}
	_, has, err := s.index.find(ctx, wagtenib.Hash(content[len(content)-wagtenib.HashSize:]))
	if err == nil && !has {
		err = fmt.Errorf("%w: the index does not have the last entry (delete the file %s, and run ctserve archive again)",
			ErrDamaged, indexName)
	}
	return err
}

// read reads an object of the tree.
func (s *Served) read(ctx context.Context, name string) ([]byte, error) {
	return tiles.Stored(func(ctx context.Context, name string) ([]byte, error) {
		return s.get(ctx, name, maxObject)
	})(ctx, name)
}

// get reads an object. If a partial tile was deleted, it returns the tile that was read when the archive was opened.
func (s *Served) get(ctx context.Context, name string, maxBytes int64) ([]byte, error) {
	content, err := s.objects.Get(ctx, name, maxBytes)
	if kept := s.edge[name]; errors.Is(err, blob.ErrAbsent) && kept != nil && int64(len(kept)) <= maxBytes {
		return bytes.Clone(kept), nil
	}
	return content, err
}

// Key returns the log's public key, a SubjectPublicKeyInfo in DER.
func (s *Served) Key() []byte { return s.log.PublicKey }

// Close closes the index and the objects.
func (s *Served) Close() {
	if s.index != nil {
		_ = s.index.close()
	}
	if s.objects != nil {
		_ = s.objects.Close()
	}
}

// Submit implements log.Log. An archive takes no submissions.
func (s *Served) Submit(context.Context, ct.Entry) (ct.SCT, error) {
	return ct.SCT{}, log.ErrEnded
}

// Checkpoint implements log.Log. It returns the last head of the log.
func (s *Served) Checkpoint(context.Context) (ct.SignedHead, error) { return s.head, nil }

// HeadOf implements log.Log.
func (s *Served) HeadOf(context.Context, uint64) (ct.SignedHead, error) { return s.head, nil }

// Object implements log.Log. It compares each tile with the tree of the head.
func (s *Served) Object(ctx context.Context, name string, maxBytes int64) ([]byte, error) {
	of, isTile := ct.ParseTile(name)
	if !isTile && !strings.HasPrefix(name, "issuer/") {
		return nil, fmt.Errorf("%w: %.80q is not published", blob.ErrName, name)
	}
	if isTile && tiles.WidthIn(of, s.head.TreeSize) != of.W {
		return nil, fmt.Errorf("archive: %s: %w", name, blob.ErrAbsent)
	}
	content, err := s.get(ctx, name, maxBytes)
	if !isTile || errors.Is(err, blob.ErrTooLong) {
		return content, err
	}
	if errors.Is(err, blob.ErrAbsent) {
		err = fmt.Errorf("%w: %s is missing", ErrDamaged, name)
	}
	if err == nil {
		err = s.comparer.Compare(ctx, s.head.TreeHead, of, content)
	}
	if err != nil {
		return nil, fmt.Errorf("%w: %w", log.ErrStore, err)
	}
	return content, nil
}

// IndexOf implements log.Log.
func (s *Served) IndexOf(ctx context.Context, leafHash [32]byte) (uint64, error) {
	index, ok, err := s.index.find(ctx, leafHash)
	if err != nil {
		return 0, fmt.Errorf("%w: %w", log.ErrStore, err)
	}
	if !ok {
		return 0, fmt.Errorf("%w: a leaf of this hash", blob.ErrAbsent)
	}
	return index, nil
}

// End implements log.Log. There are no waiting requests.
func (s *Served) End(context.Context) error { return nil }

// Metrics implements log.Log.
func (s *Served) Metrics() log.Metrics {
	return log.Metrics{Entries: s.head.TreeSize, HeadAge: time.Since(time.UnixMilli(int64(s.head.Timestamp)))}
}
