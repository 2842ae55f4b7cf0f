package tiles

import (
	"context"
	"errors"
	"fmt"
	"strings"

	"wagtenib/bindings/go/wagtenib"
	"wagtenib/internal/ct"
)

// The proved functions return these errors if a tile is missing or wrong.
const (
	ErrMissingTile = wagtenib.ErrMissingTile
	ErrBadTile     = wagtenib.ErrBadTile
)

// ErrRange means that an index or a size is not one of the tree.
var ErrRange = errors.New("tile: the tree has no such index")

// ErrReply means that a function returned an impossible result. The functions are proved not to do so. So it is a fault
// of the machine or of the compiler.
var ErrReply = errors.New("tile: impossible result of a proved function")

// The limits of what the functions return: two tiles of each level, and one hash for each level of a tree, plus one
// more in a consistency proof.
const (
	maxTiles  = 16
	maxHashes = 65
)

// tiles reads the content of a hash tile by the name that the tile has in the tree of which a result is computed.
type tiles func(ctx context.Context, name string) ([]byte, error)

// ProofFunctions has the functions that a Prover calls. Their results are those of package wagtenib.
type ProofFunctions struct {
	RootTiles   func(size uint64) ([]string, error)
	PathTiles   func(index, size uint64) ([]string, error)
	ProofTiles  func(first, second uint64) ([]string, error)
	RootOfTiles func(size uint64, tiles [][]byte) ([32]byte, error)
	PathOfTiles func(index, size uint64, tiles [][]byte) ([][32]byte, error)
	ProofOf     func(first, second uint64, tiles [][]byte) ([][32]byte, error)
}

// ProvedFunctions returns the proved functions.
func ProvedFunctions() ProofFunctions {
	return ProofFunctions{wagtenib.RootTiles, wagtenib.PathTiles, wagtenib.ProofTiles, wagtenib.RootOfTiles,
		wagtenib.PathOfTiles, wagtenib.ProofOfTiles}
}

// path returns the audit path of the leaf at an index in the tree of the first size leaves (RFC 6962, section 2.1.1).
// It does not check that the tiles belong to a log.
func (r *Prover) path(ctx context.Context, index, size uint64, from tiles) ([][32]byte, error) {
	if index >= size {
		return nil, fmt.Errorf("%w: leaf %d of %d", ErrRange, index, size)
	}
	names, err := r.functions.PathTiles(index, size)
	contents, err := read(ctx, names, err, from)
	if err != nil {
		return nil, err
	}
	return limitHashes(r.functions.PathOfTiles(index, size, contents))
}

// proof returns the consistency proof from the tree of the first leaves to that of size leaves, both above 0 (RFC 6962,
// section 2.1.2).
func (r *Prover) proof(ctx context.Context, first, size uint64, from tiles) ([][32]byte, error) {
	if first == 0 || first >= size {
		return nil, fmt.Errorf("%w: %d leaves of %d", ErrRange, first, size)
	}
	names, err := r.functions.ProofTiles(first, size)
	contents, err := read(ctx, names, err, from)
	if err != nil {
		return nil, err
	}
	return limitHashes(r.functions.ProofOf(first, size, contents))
}

// root returns the Merkle Tree Hash of the first size leaves, at least one (RFC 6962, section 2.1).
func (r *Prover) root(ctx context.Context, size uint64, from tiles) ([32]byte, error) {
	if size == 0 {
		return [32]byte{}, fmt.Errorf("%w: a tree without leaves", ErrRange)
	}
	names, err := r.functions.RootTiles(size)
	contents, err := read(ctx, names, err, from)
	if err != nil {
		return [32]byte{}, err
	}
	root, err := r.functions.RootOfTiles(size, contents)
	if err != nil {
		return [32]byte{}, fmt.Errorf("tile: %w", err)
	}
	return root, nil
}

// read returns the contents of the tiles with these names, in this order. It returns err if that is not nil.
func read(ctx context.Context, names []string, err error, from tiles) ([][]byte, error) {
	if err != nil {
		return nil, fmt.Errorf("tile: %w", err)
	}
	if len(names) == 0 || len(names) > maxTiles {
		return nil, fmt.Errorf("%w: %d tiles are needed", ErrReply, len(names))
	}
	contents := make([][]byte, 0, len(names))
	for _, name := range names {
		if !strings.HasPrefix(name, ct.TilePrefix) || strings.HasPrefix(name, ct.DataTilePrefix) {
			return nil, fmt.Errorf("%w: %.80q is not a hash tile", ErrReply, name)
		}
		content, err := from(ctx, name)
		if err != nil {
			return nil, err
		}
		contents = append(contents, content)
	}
	return contents, nil
}

// limitHashes returns the hashes if there are not more than a proof can have. It returns err if that is not nil.
func limitHashes(hashes [][32]byte, err error) ([][32]byte, error) {
	if err != nil {
		return nil, fmt.Errorf("tile: %w", err)
	}
	if len(hashes) > maxHashes {
		return nil, fmt.Errorf("%w: %d hashes", ErrReply, len(hashes))
	}
	return hashes, nil
}
