package watch

import (
	"context"
	"errors"
	"fmt"

	"golang.org/x/mod/sumdb/tlog"

	"wagtenib/bindings/go/wagtenib"
	"wagtenib/internal/ct"
	"wagtenib/internal/logclient"
)

// ErrAbsent means that a log does not have an entry in the tree of its head.
var ErrAbsent = errors.New("watch: the log does not have the entry")

// Reader reads single answers of one log of either kind, for audits.
type Reader struct {
	Log    Log
	source source
}

// NewReader returns a reader of a log. It returns an error if the log's address or key is wrong.
func NewReader(log Log, options logclient.Options) (*Reader, error) {
	if _, err := ct.ParseKey(log.PublicKey); err != nil {
		return nil, fmt.Errorf("watch: %s: %w", log.Name, err)
	}
	client, err := logclient.New(log.URL, options)
	if err != nil {
		return nil, fmt.Errorf("watch: %s: %w", log.Name, err)
	}
	return &Reader{log, newSource(log, client)}, nil
}

// Head returns the log's newest head, whose signature it verifies. The error wraps ct.ErrForm or
// ct.ErrSigner, or is one of package logclient.
func (r *Reader) Head(ctx context.Context) (Head, error) { return r.source.head(ctx) }

// Consistency returns the log's proof from the first leaves to the second. It is not checked.
func (r *Reader) Consistency(ctx context.Context, first, second uint64) ([]wagtenib.Hash, error) {
	return r.source.consistency(ctx, first, second)
}

// FindLeaf returns the index and the audit path of a leaf in a head's tree. They are not checked. namedIndex is the
// index in the leaf's own extensions: a tiled log has the leaf there, or does not have it. A log of RFC 6962 finds a
// leaf by its hash. The error wraps ErrAbsent if the log does not have the leaf.
func (r *Reader) FindLeaf(ctx context.Context, head Head, leafHash wagtenib.Hash, namedIndex uint64) (index uint64,
	path []wagtenib.Hash, err error) {
	if log, ok := r.source.(*calls); ok {
		index, path, err = log.client.ProofByHash(ctx, leafHash, head.TreeSize)
		if errors.Is(err, logclient.ErrNotFound) || errors.Is(err, logclient.ErrBadRequest) {
			err = fmt.Errorf("%w: %w", ErrAbsent, err)
		}
		return index, path, err
	}
	if namedIndex >= head.TreeSize {
		return 0, nil, fmt.Errorf("%w: index %d of %d", ErrAbsent, namedIndex, head.TreeSize)
	}
	path, err = r.source.inclusion(ctx, namedIndex, head.TreeSize, leafHash)
	return namedIndex, path, err
}

// Entry returns the entry at an index of a head's tree. It is not checked. The error wraps ErrAbsent if the tree has no
// such entry, or is one of package logclient.
func (r *Reader) Entry(ctx context.Context, head Head, index uint64) (Entry, error) {
	if index >= head.TreeSize {
		return Entry{}, fmt.Errorf("%w: its tree has %d entries, numbered from 0 on", ErrAbsent, head.TreeSize)
	}
	end := index + 1
	if r.Log.IsTiled() {
		// This reads the whole tile, by its name in the head's tree.
		end = min((index/ct.TileWidth+1)*ct.TileWidth, head.TreeSize)
	}
	var found []Entry
	err := r.source.entries(ctx, index, end, func(b batch, _ bool) error {
		found = append(found, b.entries...)
		return nil
	})
	if err == nil && (len(found) == 0 || found[0].Index != index) {
		err = fmt.Errorf("%w: entry %d is not in it", errDamaged, index)
	}
	if err != nil {
		return Entry{}, err
	}
	return found[0], nil
}

// LeafHash returns the hash of the leaf at an index of a tiled log's tree, which is compared with the head's root. The
// error wraps ErrAbsent for the other kind of log.
func (r *Reader) LeafHash(ctx context.Context, head Head, index uint64) (wagtenib.Hash, error) {
	log, ok := r.source.(*tiles)
	if !ok || index >= head.TreeSize {
		return wagtenib.Hash{}, ErrAbsent
	}
	found, err := log.hashes(ctx, head.TreeHead).ReadHashes([]int64{tlog.StoredHashIndex(0, int64(index))})
	if err != nil {
		return wagtenib.Hash{}, fmt.Errorf("%w: %v", errDamaged, err)
	}
	return wagtenib.Hash(found[0]), nil
}

// Root returns the root of the first leaves of a tiled log's tree, which is compared with the head's root. The error
// wraps ErrAbsent for the other kind of log.
func (r *Reader) Root(ctx context.Context, head Head, size uint64) (wagtenib.Hash, error) {
	log, ok := r.source.(*tiles)
	if !ok || size < 1 || size > head.TreeSize {
		return wagtenib.Hash{}, ErrAbsent
	}
	return log.beginning(ctx, size, head.TreeHead)
}

// OpenHead reads a head of the log that was kept or seen elsewhere: a checkpoint, or an answer to get-sth. The error
// wraps ct.ErrForm or ct.ErrSigner.
func (r *Reader) OpenHead(signed []byte) (Head, error) { return openHead(r.Log, signed) }
