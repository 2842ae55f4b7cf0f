package tiles

import (
	"context"
	"errors"
	"fmt"
	"time"

	"golang.org/x/mod/sumdb/tlog"

	"wagtenib/internal/ct"
)

// A Prover returns these errors, in addition to errors of reading the tiles, refusals and ErrReply. Use errors.Is.
var (
	// ErrBusy means that the maximum number of calls is already running.
	ErrBusy = errors.New("tile: busy")
	// ErrWrong means that a result does not belong to the tree with the given root.
	ErrWrong = errors.New("tile: the tiles are not those of the tree")
)

// Prover computes audit paths, consistency proofs and roots from the tiles of a log, with the proved functions. If the
// tiles are wrong, the results are wrong, too. A caller that has a root checks them with CheckPath and CheckProof. The
// methods may be called concurrently.
type Prover struct {
	functions ProofFunctions
	object    Objects
	// slots has an element for each call that is running.
	slots chan struct{}
}

// maxReading is the maximum duration of a call, including the reading of its tiles.
const maxReading = 20 * time.Second

// Objects reads a published object of at most maxBytes bytes.
type Objects func(ctx context.Context, name string, maxBytes int64) ([]byte, error)

// NewProver returns a Prover that reads published objects by a function, and runs at most maxCalls calls at once.
func NewProver(object Objects, maxCalls int) *Prover {
	return ProverOver(ProvedFunctions(), object, maxCalls)
}

// ProverOver returns a Prover with other functions than the proved ones, for tests.
func ProverOver(functions ProofFunctions, object Objects, maxCalls int) *Prover {
	return &Prover{functions, object, make(chan struct{}, maxCalls)}
}

// result is the result of a call.
type result[T any] struct {
	value T
	err   error
}

// within runs a call with a timeout if a slot is free. It returns when the context ends. If the reading of a tile
// ignores the end of its context, the call occupies its slot until the reading ends.
func within[T any](ctx context.Context, r *Prover, call func(context.Context) (T, error)) (value T, err error) {
	if err := ctx.Err(); err != nil {
		return value, err
	}
	select {
	case r.slots <- struct{}{}:
	default:
		return value, fmt.Errorf("%w: %d calls are running", ErrBusy, cap(r.slots))
	}
	done := make(chan result[T], 1)
	go func() {
		limited, cancel := context.WithTimeout(ctx, maxReading)
		defer cancel()
		value, err := call(limited)
		// The slot is freed before the caller has the answer, so a caller that calls again at once finds it free.
		<-r.slots
		done <- result[T]{value, err}
	}()
	select {
	case answer := <-done:
		return answer.value, answer.err
	case <-ctx.Done():
		return value, ctx.Err()
	}
}

// tiles returns a reader of the tiles of a tree, from those of the tree with `of` leaves. A partial tile is the
// beginning of a wider one, and only the widest version of each tile may exist.
func (r *Prover) tiles(of uint64) tiles {
	return func(ctx context.Context, name string) ([]byte, error) {
		tile, ok := ct.ParseTile(name)
		if !ok || tile.L < 0 || tile.L > 7 {
			return nil, fmt.Errorf("%w: %.80q is not a hash tile", ErrReply, name)
		}
		width, hashes, before := tile.W, of>>(8*tile.L), 256*uint64(tile.N)
		if hashes < before+uint64(width) {
			return nil, fmt.Errorf("%w: %s is not in a tree of %d", ErrReply, name, of)
		}
		tile.W = 256
		if hashes-before < 256 {
			tile.W = int(hashes - before)
		}
		content, err := r.object(ctx, ct.TileName(tile), 32*256)
		if err != nil {
			return nil, err
		}
		if len(content) != 32*tile.W {
			return nil, fmt.Errorf("%w: %s has %d bytes", ErrWrong, name, len(content))
		}
		return content[:32*width], nil
	}
}

// Path returns the audit path of a leaf in the tree of the first size leaves. It reads the tiles of the tree with `of`
// leaves, which must have at least as many.
func (r *Prover) Path(ctx context.Context, index, size, of uint64) ([][32]byte, error) {
	return within(ctx, r, func(ctx context.Context) ([][32]byte, error) {
		return r.path(ctx, index, size, r.tiles(of))
	})
}

// Proof returns the consistency proof from the tree of the first leaves to that of size leaves. It is empty if first is
// 0 or size.
func (r *Prover) Proof(ctx context.Context, first, size, of uint64) ([][32]byte, error) {
	if first == 0 || first == size {
		return nil, nil
	}
	return within(ctx, r, func(ctx context.Context) ([][32]byte, error) {
		return r.proof(ctx, first, size, r.tiles(of))
	})
}

// Root returns the Merkle Tree Hash of the first size leaves.
func (r *Prover) Root(ctx context.Context, size, of uint64) ([32]byte, error) {
	return within(ctx, r, func(ctx context.Context) ([32]byte, error) { return r.root(ctx, size, r.tiles(of)) })
}

// CheckPath checks that a path leads from a leaf's hash at an index to the root of a tree of size leaves.
func CheckPath(path [][32]byte, size uint64, root [32]byte, index uint64, leaf [32]byte) error {
	proof := make(tlog.RecordProof, len(path))
	for i := range path {
		proof[i] = path[i]
	}
	if err := tlog.CheckRecord(proof, int64(size), root, int64(index), leaf); err != nil {
		return fmt.Errorf("%w: leaf %d of %d: %v", ErrWrong, index, size, err)
	}
	return nil
}

// CheckProof checks that a consistency proof leads from the first root to the second.
func CheckProof(path [][32]byte, size uint64, root [32]byte, first uint64, firstRoot [32]byte) error {
	proof := make(tlog.TreeProof, len(path))
	for i := range path {
		proof[i] = path[i]
	}
	if err := tlog.CheckTree(proof, int64(size), root, int64(first), firstRoot); err != nil {
		return fmt.Errorf("%w: %d leaves of %d: %v", ErrWrong, first, size, err)
	}
	return nil
}
