package wagtenib_test

import (
	"errors"
	"fmt"
	"strings"
	"testing"

	"golang.org/x/mod/sumdb/tlog"

	"wagtenib/bindings/go/wagtenib"
)

// tilesOf returns the tiles with these names of the tree of the first size leaves, by tlog.
func (l *madeLog) tilesOf(t testing.TB, names []string) [][]byte {
	t.Helper()
	var contents [][]byte
	for _, name := range names {
		tile, err := tlog.ParseTilePath("tile/8/" + strings.TrimPrefix(name, "tile/"))
		if err != nil {
			t.Fatal(err)
		}
		content, err := tlog.ReadTileData(tile, l.stored)
		if err != nil {
			t.Fatal(err)
		}
		contents = append(contents, content)
	}
	return contents
}

// TestTilesAreTlogs checks that roots, paths and proofs from tlog's tiles are those that tlog computes from its hashes.
func TestTilesAreTlogs(t *testing.T) {
	var log madeLog
	for i := range 1100 {
		log.append(t, fmt.Appendf(nil, "leaf %d", i))
	}
	same := func(what string, got, want []wagtenib.Hash, err error) {
		t.Helper()
		if err != nil || fmt.Sprint(got) != fmt.Sprint(want) {
			t.Errorf("%s: %x, %v", what, got, err)
		}
	}
	for _, size := range []uint64{1, 2, 3, 255, 256, 257, 511, 512, 513, 1023, 1024, 1025, 1100} {
		names, err := wagtenib.RootTiles(size)
		if err != nil {
			t.Fatal(err)
		}
		root, err := wagtenib.RootOfTiles(size, log.tilesOf(t, names))
		same(fmt.Sprintf("the root of %d", size), []wagtenib.Hash{root}, []wagtenib.Hash{log.root(t, size)}, err)
		for _, index := range []uint64{0, 1, size / 2, size - 1} {
			if index >= size {
				continue
			}
			names, err := wagtenib.PathTiles(index, size)
			if err != nil {
				t.Fatal(err)
			}
			path, err := wagtenib.PathOfTiles(index, size, log.tilesOf(t, names))
			same(fmt.Sprintf("the path of %d in %d", index, size), path, log.path(t, index, size), err)
			if index == 0 {
				continue
			}
			names, err = wagtenib.ProofTiles(index, size)
			if err != nil {
				t.Fatal(err)
			}
			proof, err := wagtenib.ProofOfTiles(index, size, log.tilesOf(t, names))
			same(fmt.Sprintf("the proof from %d to %d", index, size), proof, log.proof(t, index, size), err)
		}
	}
}

// TestLargeTrees checks names and numbers of tiles of the largest trees.
func TestLargeTrees(t *testing.T) {
	const most = 1<<64 - 1
	names, err := wagtenib.PathTiles(most-1, most)
	if err != nil || len(names) != 8 || names[0] != "tile/0/x072/x057/x594/x037/x927/935.p/255" ||
		names[7] != "tile/7/000.p/255" {
		t.Errorf("%q, %v", names, err)
	}
	if names, err := wagtenib.PathTiles(0, most); err != nil || len(names) != 15 {
		t.Errorf("%d tiles, %v", len(names), err)
	}
}

// TestRefusesTiles checks each error of tiles.
func TestRefusesTiles(t *testing.T) {
	var log madeLog
	for i := range 300 {
		log.append(t, fmt.Appendf(nil, "leaf %d", i))
	}
	names, err := wagtenib.PathTiles(7, 300)
	if err != nil || len(names) != 3 {
		t.Fatal(names, err)
	}
	tiles := log.tilesOf(t, names)
	bent := func(at int, content []byte) [][]byte {
		bent := append([][]byte{}, tiles...)
		bent[at] = content
		return bent
	}
	// The wrong lengths of two tiles in the last one add up to the correct length.
	shifted := [][]byte{tiles[0][:len(tiles[0])-32], append(append([]byte{}, tiles[0][len(tiles[0])-32:]...), tiles[1]...),
		tiles[2]}
	for what, test := range map[string]struct {
		tiles [][]byte
		want  error
	}{
		"none": {nil, wagtenib.ErrMissingTile}, "one is missing": {tiles[:2], wagtenib.ErrMissingTile},
		"one more":    {append(append([][]byte{}, tiles...), nil), wagtenib.ErrTooManyTiles},
		"a byte less": {bent(1, tiles[1][1:]), wagtenib.ErrBadTile}, "an empty one": {bent(2, nil), wagtenib.ErrBadTile},
		"a hash more":        {bent(0, append(make([]byte, 32), tiles[0]...)), wagtenib.ErrBadTile},
		"hashes of the next": {shifted, wagtenib.ErrBadTile},
	} {
		if path, err := wagtenib.PathOfTiles(7, 300, test.tiles); !errors.Is(err, test.want) || path != nil {
			t.Errorf("%s: %x, %v", what, path, err)
		}
	}
	for what, err := range map[string]error{
		"a root of none": func() error { _, err := wagtenib.RootTiles(0); return err }(),
		"its tiles":      func() error { _, err := wagtenib.RootOfTiles(0, nil); return err }(),
	} {
		if !errors.Is(err, wagtenib.ErrEmptyTree) {
			t.Errorf("%s: %v", what, err)
		}
	}
	if _, err := wagtenib.PathTiles(300, 300); !errors.Is(err, wagtenib.ErrIndexOutOfRange) {
		t.Error(err)
	}
	for _, sizes := range [][2]uint64{{0, 300}, {300, 300}, {301, 300}} {
		_, err := wagtenib.ProofTiles(sizes[0], sizes[1])
		_, also := wagtenib.ProofOfTiles(sizes[0], sizes[1], tiles)
		if !errors.Is(err, wagtenib.ErrSizesOutOfRange) || !errors.Is(also, wagtenib.ErrSizesOutOfRange) {
			t.Error(sizes, err, also)
		}
	}
}
