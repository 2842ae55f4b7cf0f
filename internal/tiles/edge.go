package tiles

import (
	"fmt"

	"golang.org/x/mod/sumdb/tlog"

	"wagtenib/bindings/go/wagtenib"
	"wagtenib/internal/ct"
)

// Edge is the right edge of a tree that grows leaf by leaf: the last tile of each level of hash tiles. It passes each
// tile to put as soon as the tile is full.
type Edge struct {
	levels []lastTile
	put    Put
}

// Put receives a hash tile.
type Put func(name string, content []byte) error

// lastTile is the last tile of a level.
type lastTile struct {
	index  uint64
	hashes []wagtenib.Hash
}

// EdgeAt returns the edge of a tree of this number of full data tiles. partial returns the hashes of a partial hash
// tile of that tree, above the lowest level.
func EdgeAt(tiles uint64, partial func(of tlog.Tile) ([]wagtenib.Hash, error), put Put) (*Edge, error) {
	e := &Edge{levels: []lastTile{{index: tiles}}, put: put}
	for level := 1; tiles > 0; level++ {
		last := lastTile{index: tiles / ct.TileWidth}
		if width := int(tiles % ct.TileWidth); width > 0 {
			of := ct.FullTile(level, last.index)
			of.W = width
			hashes, err := partial(of)
			if err != nil {
				return nil, err
			}
			last.hashes = hashes
		}
		e.levels = append(e.levels, last)
		tiles /= ct.TileWidth
	}
	return e, nil
}

// Push appends a leaf, and puts each tile that becomes full.
func (e *Edge) Push(hash wagtenib.Hash) error {
	for level := 0; ; level++ {
		if level == len(e.levels) {
			e.levels = append(e.levels, lastTile{})
		}
		of := &e.levels[level]
		of.hashes = append(of.hashes, hash)
		if len(of.hashes) < ct.TileWidth {
			return nil
		}
		if err := e.putLast(level, *of); err != nil {
			return err
		}
		hash = PerfectRoot(of.hashes)
		of.index, of.hashes = of.index+1, nil
	}
}

func (e *Edge) putLast(level int, of lastTile) error {
	var content []byte
	for _, hash := range of.hashes {
		content = append(content, hash[:]...)
	}
	tile := ct.FullTile(level, of.index)
	tile.W = len(of.hashes)
	return e.put(ct.TileName(tile), content)
}

// End puts the partial tiles, and returns the root.
func (e *Edge) End() (wagtenib.Hash, error) {
	for level, of := range e.levels {
		if len(of.hashes) == 0 {
			continue
		}
		if err := e.putLast(level, of); err != nil {
			return wagtenib.Hash{}, err
		}
	}
	return wagtenib.SubtreesRoot(e.Subtrees()), nil
}

// Subtrees returns the roots of the perfect subtrees of which the tree consists, largest first (RFC 6962, section 2.1).
// They are computed from the partial tiles.
func (e *Edge) Subtrees() (subtrees []wagtenib.Hash) {
	for level := len(e.levels) - 1; level >= 0; level-- {
		for hashes, bit := e.levels[level].hashes, ct.TileWidth/2; bit > 0; bit /= 2 {
			if len(hashes) >= bit {
				subtrees = append(subtrees, PerfectRoot(hashes[:bit]))
				hashes = hashes[bit:]
			}
		}
	}
	return subtrees
}

// PerfectRoot returns the root of a perfect subtree from its hashes at one level.
func PerfectRoot(hashes []wagtenib.Hash) wagtenib.Hash {
	row := append([]wagtenib.Hash(nil), hashes...)
	for ; len(row) > 1; row = row[:len(row)/2] {
		for i := range len(row) / 2 {
			row[i] = wagtenib.Hash(tlog.NodeHash(tlog.Hash(row[2*i]), tlog.Hash(row[2*i+1])))
		}
	}
	return row[0]
}

// HashesIn splits the content of a hash tile into its hashes. The error is ErrDamaged if the content has not exactly as
// many hashes as the tile.
func HashesIn(of tlog.Tile, content []byte) ([]wagtenib.Hash, error) {
	if len(content) != of.W*wagtenib.HashSize {
		return nil, fmt.Errorf("%w: %s has another width (put it back from a backup)", ErrDamaged, ct.TileName(of))
	}
	hashes := make([]wagtenib.Hash, of.W)
	for i := range hashes {
		hashes[i] = wagtenib.Hash(content[i*wagtenib.HashSize:])
	}
	return hashes, nil
}

// Overtaken returns the folders of the partial tiles of the tree of the size before that have become full in the tree
// of the size now. Readers use the full tile (C2SP tlog-tiles).
func Overtaken(before, now uint64) (folders []string) {
	for level := -1; level <= 0 || Count(level-1, now) > 0; level++ {
		if Count(level, before) < Count(level, now) {
			folders = append(folders, ct.TileName(ct.FullTile(level, Count(level, before)))+".p")
		}
	}
	return folders
}

// PartialOnly returns the names of the partial tiles of the tree of the size before that the tree of the size now does
// not have.
func PartialOnly(before, now uint64) (names []string) {
	for level := -1; level <= 0 || before>>(ct.TileHeight*level) > 0; level++ {
		of := ct.FullTile(level, Count(level, before))
		of.W = WidthIn(of, before)
		if of.W > 0 && WidthIn(of, now) != of.W {
			names = append(names, ct.TileName(of))
		}
	}
	return names
}
