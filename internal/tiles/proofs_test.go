package tiles

import (
	"context"
	"crypto/sha256"
	"errors"
	"strings"
	"testing"

	"wagtenib/bindings/go/wagtenib"
)

// TestPathProofAndRoot reads a tree of three leaves, whose nodes are computed by hand (RFC 6962, section 2.1).
func TestPathProofAndRoot(t *testing.T) {
	c, ctx := NewProver(nil, 1), limited(t)
	leaf := func(i byte) [32]byte { return sha256.Sum256([]byte{0, i}) }
	node := func(a, b [32]byte) [32]byte { return sha256.Sum256(append(append([]byte{1}, a[:]...), b[:]...)) }
	zero, one, two := leaf(0), leaf(1), leaf(2)
	var asked []string
	tile := append(append(append([]byte{}, zero[:]...), one[:]...), two[:]...)
	tiles := func(_ context.Context, name string) ([]byte, error) {
		asked = append(asked, name)
		return tile, nil
	}
	expect := func(got [][32]byte, err error, expected ...[32]byte) {
		t.Helper()
		if err != nil || len(got) != len(expected) {
			t.Fatalf("%x, %v", got, err)
		}
		for i := range expected {
			if got[i] != expected[i] {
				t.Errorf("hash %d is %x", i, got[i])
			}
		}
	}
	path, err := c.path(ctx, 1, 3, tiles)
	expect(path, err, zero, two)
	path, err = c.path(ctx, 2, 3, tiles)
	expect(path, err, node(zero, one))
	proof, err := c.proof(ctx, 1, 3, tiles)
	expect(proof, err, one, two)
	root, err := c.root(ctx, 3, tiles)
	expect([][32]byte{root}, err, node(node(zero, one), two))
	if strings.Join(asked, " ") != strings.Repeat("tile/0/000.p/3 ", 3)+"tile/0/000.p/3" {
		t.Errorf("%q were read", asked)
	}
	tile = tile[:95]
	if _, err := c.path(ctx, 1, 3, tiles); !errors.Is(err, ErrBadTile) {
		t.Error(err)
	}
	broken := errors.New("the disk")
	if _, err := c.root(ctx, 3, func(context.Context, string) ([]byte, error) { return nil, broken }); !errors.Is(
		err, broken) {
		t.Error(err)
	}
	for _, err := range []error{
		func() error { _, err := c.path(ctx, 3, 3, tiles); return err }(),
		func() error { _, err := c.proof(ctx, 0, 3, tiles); return err }(),
		func() error { _, err := c.proof(ctx, 3, 3, tiles); return err }(),
		func() error { _, err := c.root(ctx, 0, tiles); return err }(),
	} {
		if !errors.Is(err, ErrRange) {
			t.Error(err)
		}
	}
}

// returning returns a Prover whose functions return these names and hashes.
func returning(names []string, hashes [][32]byte, err error) *Prover {
	two := func(uint64, uint64) ([]string, error) { return names, err }
	of := func(uint64, uint64, [][]byte) ([][32]byte, error) { return hashes, err }
	return ProverOver(ProofFunctions{
		RootTiles: func(uint64) ([]string, error) { return names, err }, PathTiles: two, ProofTiles: two,
		RootOfTiles: func(uint64, [][]byte) ([32]byte, error) { return [32]byte{1}, err }, PathOfTiles: of, ProofOf: of,
	}, nil, 1)
}

// times returns a list with count copies of a value.
func times[T any](count int, value T) []T {
	list := make([]T, count)
	for i := range list {
		list[i] = value
	}
	return list
}

// TestRefusesImpossibleResults checks that results that the functions cannot have are refused.
func TestRefusesImpossibleResults(t *testing.T) {
	reads := func(context.Context, string) ([]byte, error) { return make([]byte, 32), nil }
	for _, names := range [][]string{nil, {}, {"heads/1"}, {"tile/data/000.p/1"}, {""},
		times(maxTiles+1, "tile/0/000")} {
		r := returning(names, nil, nil)
		if path, err := r.path(limited(t), 0, 2, reads); !errors.Is(err, ErrReply) || path != nil {
			t.Errorf("%.60q: a path: %x, %v", names, path, err)
		}
		if proof, err := r.proof(limited(t), 1, 2, reads); !errors.Is(err, ErrReply) || proof != nil {
			t.Errorf("%.60q: a proof: %x, %v", names, proof, err)
		}
		if root, err := r.root(limited(t), 2, reads); !errors.Is(err, ErrReply) || root != [32]byte{} {
			t.Errorf("%.60q: a root: %x, %v", names, root, err)
		}
	}
	long := returning([]string{"tile/0/000.p/1"}, times(maxHashes+1, [32]byte{}), nil)
	if path, err := long.path(limited(t), 0, 2, reads); !errors.Is(err, ErrReply) || path != nil {
		t.Errorf("%d hashes, %v", len(path), err)
	}
}

// TestLongestResults checks that the maximum numbers of tiles and hashes are accepted.
func TestLongestResults(t *testing.T) {
	asked := 0
	reads := func(context.Context, string) ([]byte, error) { asked++; return make([]byte, 32), nil }
	r := returning(times(maxTiles, "tile/0/000"), times(maxHashes, [32]byte{}), nil)
	if path, err := r.path(limited(t), 0, 2, reads); err != nil || len(path) != maxHashes || asked != maxTiles {
		t.Errorf("%d hashes of %d tiles, %v", len(path), asked, err)
	}
}

// TestRefusedCalls checks that nothing is read or returned if a function refuses the call.
func TestRefusedCalls(t *testing.T) {
	reads := func(context.Context, string) ([]byte, error) {
		t.Error("a tile is read")
		return nil, nil
	}
	r := returning([]string{"tile/0/000"}, times(1, [32]byte{}), wagtenib.ErrMemory)
	if path, err := r.path(limited(t), 0, 2, reads); !errors.Is(err, wagtenib.ErrMemory) || path != nil {
		t.Errorf("a path: %x, %v", path, err)
	}
	if proof, err := r.proof(limited(t), 1, 2, reads); !errors.Is(err, wagtenib.ErrMemory) || proof != nil {
		t.Errorf("a proof: %x, %v", proof, err)
	}
	if root, err := r.root(limited(t), 2, reads); !errors.Is(err, wagtenib.ErrMemory) || root != [32]byte{} {
		t.Errorf("a root: %x, %v", root, err)
	}
}
