package tiles

import (
	"fmt"
	"testing"

	"golang.org/x/mod/sumdb/tlog"

	"wagtenib/internal/testkit"
)

// stored has the hashes of a tree in the order of x/mod.
type stored []tlog.Hash

func (s stored) ReadHashes(indexes []int64) (found []tlog.Hash, err error) {
	for _, i := range indexes {
		found = append(found, s[i])
	}
	return found, nil
}

// tilesOf returns all tiles of a tree of size leaves. Each tile has two levels.
func tilesOf(t *testing.T, size int64) (all []tlog.Tile, contents [][]byte) {
	var hashes stored
	for i := int64(0); i < size; i++ {
		more, err := tlog.StoredHashes(i, []byte(fmt.Sprint("leaf ", i)), hashes)
		testkit.Must(t, err)
		hashes = append(hashes, more...)
	}
	for _, tile := range tlog.NewTiles(2, 0, size) {
		content, err := tlog.ReadTileData(tile, hashes)
		testkit.Must(t, err)
		all, contents = append(all, tile), append(contents, content)
	}
	return all, contents
}

// TestFirstMismatch changes each hash of each tile of a tree, one at a time. FirstMismatch must find a full tile if the
// tile above it was read, and the tile below a changed hash. It must report no other tile.
func TestFirstMismatch(t *testing.T) {
	all, contents := tilesOf(t, 70)
	if tile, found := FirstMismatch(all, contents); found {
		t.Fatalf("%v of an unchanged tree does not match", tile)
	}
	if _, found := FirstMismatch(nil, nil); found {
		t.Error("a mismatch is found in no tiles")
	}
	byPosition := map[string]tlog.Tile{}
	for _, tile := range all {
		byPosition[fmt.Sprint(tile.L, " ", tile.N)] = tile
	}
	compared, others := 0, 0
	for i, tile := range all {
		for at := 0; at < tile.W; at++ {
			// below is the full tile whose hash this is, and above is the tile that has this tile's hash.
			below, hasBelow := byPosition[fmt.Sprint(tile.L-1, " ", tile.N*4+int64(at))]
			above, hasAbove := byPosition[fmt.Sprint(tile.L+1, " ", tile.N/4)]
			hasAbove = hasAbove && tile.W == 4 && int64(above.W) > tile.N%4
			hasBelow = hasBelow && below.W == 4
			changed := append([][]byte{}, contents...)
			changed[i] = append([]byte{}, contents[i]...)
			changed[i][32*at+5] ^= 1
			found, isFound := FirstMismatch(all, changed)
			if isFound != (hasAbove || hasBelow) {
				t.Errorf("hash %d of %v is changed: %v, %t", at, tile, found, isFound)
			}
			if isFound && !(hasAbove && found == tile) && !(hasBelow && found == below) {
				t.Errorf("hash %d of %v is changed, and %v is reported", at, tile, found)
			}
			if isFound {
				compared++
			} else {
				others++
			}
		}
	}
	// The tree has 16 full tiles of leaves, 4 full tiles above them, and one tile above these. All their hashes are
	// compared. The hashes of the two last leaves are compared with nothing.
	if compared < 64+16+4 || others == 0 {
		t.Errorf("%d hashes were compared, and %d not", compared, others)
	}
}

// TestFirstMismatchOfSomeTiles checks that a tile that was read without the one above it is compared with nothing. If a
// tile is cut off, FirstMismatch must report it or the tile below it.
func TestFirstMismatchOfSomeTiles(t *testing.T) {
	all, contents := tilesOf(t, 16)
	var low []tlog.Tile
	var lowContents [][]byte
	for i, tile := range all {
		if tile.L == 0 {
			low, lowContents = append(low, tile), append(lowContents, append([]byte{}, contents[i]...))
		}
	}
	lowContents[1][3] ^= 1
	if tile, found := FirstMismatch(low, lowContents); found {
		t.Errorf("%v is reported, although the tile above it was not read", tile)
	}
	for i, tile := range all {
		changed := append([][]byte{}, contents...)
		changed[i] = contents[i][:len(contents[i])-1]
		if _, found := FirstMismatch(all, changed); !found {
			t.Errorf("%v is cut off, and no mismatch is found", tile)
		}
	}
}
