package ct_test

import (
	"testing"

	"golang.org/x/mod/sumdb/tlog"

	"wagtenib/internal/ct"
)

// TestTileNames checks names that C2SP tlog-tiles and static-ct-api give as examples, and some more, in both
// directions.
func TestTileNames(t *testing.T) {
	for name, of := range map[string]tlog.Tile{
		"tile/3/x001/x234/067":      {H: 8, L: 3, N: 1234067, W: 256},
		"tile/0/x001/x234/067.p/1":  {H: 8, L: 0, N: 1234067, W: 1},
		"tile/data/x001/x234/067":   {H: 8, L: -1, N: 1234067, W: 256},
		"tile/data/000.p/255":       {H: 8, L: -1, N: 0, W: 255},
		"tile/0/x001/x000/000.p/17": {H: 8, L: 0, N: 1000000, W: 17},
	} {
		if written := ct.TileName(of); written != name {
			t.Errorf("%+v has the name %s, expected %s", of, written, name)
		}
		if read, ok := ct.ParseTile(name); !ok || read != of {
			t.Errorf("%s is read as %+v, %t", name, read, ok)
		}
	}
	for _, name := range []string{"", "0/000", "tile/000", "tile/0/00", "tile/0/000.p/256", "tile/8/0/000", "/tile/0/000",
		"tile/0/x000/000", "tile/-1/000"} {
		if of, ok := ct.ParseTile(name); ok {
			t.Errorf("%q is read as %+v", name, of)
		}
	}
}

// TestTilesOfTree checks the tile of an entry in trees of several sizes.
func TestTilesOfTree(t *testing.T) {
	for _, of := range []struct {
		index, size  uint64
		data, hashes string
	}{
		{0, 1, "tile/data/000.p/1", "tile/0/000.p/1"}, {255, 256, "tile/data/000", "tile/0/000"},
		{0, 257, "tile/data/000", "tile/0/000"}, {256, 257, "tile/data/001.p/1", "tile/0/001.p/1"},
		{1_000_000 * 256, 256_000_002, "tile/data/x001/x000/000.p/2", "tile/0/x001/x000/000.p/2"},
	} {
		if name := ct.TileName(ct.DataTile(of.index, of.size)); name != of.data {
			t.Errorf("entry %d of %d is in %s, expected %s", of.index, of.size, name, of.data)
		}
		if name := ct.TileName(ct.LeafTile(of.index, of.size)); name != of.hashes {
			t.Errorf("the hash of leaf %d of %d is in %s, expected %s", of.index, of.size, name, of.hashes)
		}
	}
}

// TestFullTileName checks the full tile and the width of a partial one.
func TestFullTileName(t *testing.T) {
	if full, width, ok := ct.FullTileName("tile/data/x001/000.p/255"); full != "tile/data/x001/000" || width != 255 || !ok {
		t.Errorf("%s, %d, %t", full, width, ok)
	}
	for _, name := range []string{"tile/0/000", "tile/0/000.p/0", "tile/0/000.p/256", "tile/0/000.p/x", "tile/0/000.p/"} {
		if full, width, ok := ct.FullTileName(name); ok {
			t.Errorf("%s is read as %s with %d", name, full, width)
		}
	}
}
