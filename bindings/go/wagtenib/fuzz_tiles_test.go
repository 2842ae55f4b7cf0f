package wagtenib_test

import (
	"bytes"
	"errors"
	"fmt"
	"slices"
	"strings"
	"testing"

	"golang.org/x/mod/sumdb/tlog"

	"wagtenib/bindings/go/wagtenib"
)

const fuzzedLeaves = 700

// FuzzTiles computes roots, paths and proofs from the tiles of a log, one of which is changed. Its byte with the index
// `at` is XORed with `by`, or the tile is cut there if `by` is 0. There is a seed for each way.
func FuzzTiles(f *testing.F) {
	var log madeLog
	for i := range fuzzedLeaves {
		log.append(f, fmt.Appendf(nil, "leaf %d", i))
	}
	for _, sizes := range [][2]uint64{{0, 1}, {0, 2}, {5, 256}, {256, 257}, {255, 700}, {511, 700}, {700, 700}, {3, 0}} {
		for at := range uint32(3) {
			f.Add(sizes[0], sizes[1], uint32(0), uint32(1<<31), byte(0))
			f.Add(sizes[0], sizes[1], at, 31*at, byte(1<<at))
			f.Add(sizes[0], sizes[1], at, 32*at, byte(0))
		}
	}
	f.Fuzz(func(t *testing.T, index, size uint64, tile, at uint32, by byte) {
		index, size = index%(fuzzedLeaves+2), size%(fuzzedLeaves+1)
		change := func(tiles [][]byte) (changed [][]byte, isCut bool) {
			changed = slices.Clone(tiles)
			i := int(tile) % len(tiles)
			if int64(at) >= int64(len(tiles[i])) {
				return changed, false
			}
			if by == 0 {
				changed[i] = tiles[i][:at]
				return changed, true
			}
			changed[i] = bytes.Clone(tiles[i])
			changed[i][at] ^= by
			return changed, false
		}
		rootOf(t, &log, size, change)
		pathOf(t, &log, index, size, change)
		proofOf(t, &log, index, size, change)
	})
}

// known fails the test unless tlog has a tile of each name in the tree of size leaves.
func known(t *testing.T, names []string, size uint64) {
	t.Helper()
	all := map[string]bool{}
	for _, tile := range tlog.NewTiles(8, 0, int64(size)) {
		all[strings.Replace(tile.Path(), "tile/8/", "tile/", 1)] = true
	}
	for _, name := range names {
		if !all[name] {
			t.Fatalf("%s is no tile of %d leaves", name, size)
		}
	}
}

// is fails the test unless a result is the expected one: ErrBadTile if a tile is cut, and otherwise that of tlog
// exactly if the tiles from which it is computed are those of tlog.
func is[T any](t *testing.T, got, want T, err error, isCut, isSame bool) {
	t.Helper()
	if isCut {
		if !errors.Is(err, wagtenib.ErrBadTile) {
			t.Fatalf("a tile that is cut gives %v", err)
		}
		return
	}
	if err != nil || isSame && fmt.Sprint(got) != fmt.Sprint(want) {
		t.Fatalf("%v, %v, but %v is due", got, err, want)
	}
}

func rootOf(t *testing.T, log *madeLog, size uint64, change func([][]byte) ([][]byte, bool)) {
	t.Helper()
	names, err := wagtenib.RootTiles(size)
	if size == 0 {
		if !errors.Is(err, wagtenib.ErrEmptyTree) {
			t.Fatal(err)
		}
		return
	}
	known(t, names, size)
	tiles := log.tilesOf(t, names)
	changed, isCut := change(tiles)
	root, err := wagtenib.RootOfTiles(size, changed)
	is(t, root, log.root(t, size), err, isCut, fmt.Sprint(changed) == fmt.Sprint(tiles))
	if fmt.Sprint(changed) != fmt.Sprint(tiles) && err == nil && root == log.root(t, size) {
		t.Fatalf("another tile of %q gives the same root", names)
	}
}

func pathOf(t *testing.T, log *madeLog, index, size uint64, change func([][]byte) ([][]byte, bool)) {
	t.Helper()
	names, err := wagtenib.PathTiles(index, size)
	if index >= size {
		if !errors.Is(err, wagtenib.ErrIndexOutOfRange) {
			t.Fatal(err)
		}
		return
	}
	known(t, names, size)
	tiles := log.tilesOf(t, names)
	changed, isCut := change(tiles)
	path, err := wagtenib.PathOfTiles(index, size, changed)
	want := log.path(t, index, size)
	is(t, path, want, err, isCut, fmt.Sprint(changed) == fmt.Sprint(tiles))
	if err == nil {
		root, ok := rootByPath(index, size, wagtenib.LeafHash(log.leaves[index]), path)
		if !ok || (root == log.root(t, size)) != slices.Equal(path, want) {
			t.Fatalf("the path of %d in %d has %d hashes, and leads to %x", index, size, len(path), root)
		}
	}
}

func proofOf(t *testing.T, log *madeLog, first, size uint64, change func([][]byte) ([][]byte, bool)) {
	t.Helper()
	names, err := wagtenib.ProofTiles(first, size)
	if first == 0 || first >= size {
		if !errors.Is(err, wagtenib.ErrSizesOutOfRange) {
			t.Fatal(err)
		}
		return
	}
	known(t, names, size)
	tiles := log.tilesOf(t, names)
	changed, isCut := change(tiles)
	proof, err := wagtenib.ProofOfTiles(first, size, changed)
	want := log.proof(t, first, size)
	is(t, proof, want, err, isCut, fmt.Sprint(changed) == fmt.Sprint(tiles))
	if err == nil {
		old, root, ok := rootsByProof(first, size, log.root(t, first), proof, true)
		if !ok || (old == log.root(t, first) && root == log.root(t, size)) != slices.Equal(proof, want) {
			t.Fatalf("the proof from %d to %d has %d hashes, and leads to %x and %x", first, size, len(proof), old, root)
		}
	}
}
