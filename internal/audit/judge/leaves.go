package judge

import (
	"crypto/sha256"
	"fmt"
)

// nameOf returns a tile's name (C2SP tlog-tiles).
func nameOf(level string, index, width uint64) string {
	name := fmt.Sprintf("%03d", index%1000)
	for index /= 1000; index > 0; index /= 1000 {
		name = fmt.Sprintf("x%03d/", index%1000) + name
	}
	if name = "tile/" + level + "/" + name; width < 256 {
		name += fmt.Sprintf(".p/%d", width)
	}
	return name
}

// readLeaves reads the first size leaves from their data tiles, and computes the hashes of all perfect subtrees.
func (f *folder) readLeaves(size uint64) error {
	for index := uint64(0); 256*index < size; index++ {
		width := size - 256*index
		if width > 256 {
			width = 256
		}
		name := nameOf("data", index, width)
		content, ok := f.objects[name]
		if !ok {
			return wrong("%s is missing", name)
		}
		leaves, err := leavesOf(content)
		if err != nil {
			return fmt.Errorf("%s: %w", name, err)
		}
		if uint64(len(leaves)) != width {
			return wrong("%s has %d leaves", name, len(leaves))
		}
		f.leaves = append(f.leaves, leaves...)
	}
	row := make([]hash, 0, len(f.leaves))
	for i, l := range f.leaves {
		if l.index != uint64(i) {
			return wrong("leaf %d says that it is leaf %d", i, l.index)
		}
		if i > 0 && l.timestamp < f.leaves[i-1].timestamp {
			return wrong("leaf %d is earlier than the one before it", i)
		}
		row = append(row, sha256.Sum256(append([]byte{0}, l.merkle...)))
	}
	for f.rows = append(f.rows, row); len(row) > 1; f.rows = append(f.rows, row) {
		above := make([]hash, 0, len(row)/2)
		for i := 0; i+1 < len(row); i += 2 {
			above = append(above, node(row[i], row[i+1]))
		}
		row = above
	}
	return nil
}

func node(left, right hash) hash {
	return sha256.Sum256(append(append([]byte{1}, left[:]...), right[:]...))
}

// cursor reads a tile from its beginning. After the end of the tile, at is greater than its length.
type cursor struct {
	tile []byte
	at   int
}

// number returns the next bytes as a number, or 0 if the tile does not have them.
func (c *cursor) number(length int) uint64 {
	var n uint64
	for i := 0; i < length; i++ {
		if c.at >= len(c.tile) {
			c.at = len(c.tile) + 1
			return 0
		}
		n = n<<8 | uint64(c.tile[c.at])
		c.at++
	}
	return n
}

func (c *cursor) skip(length uint64) { c.at += int(length) }

// issuers returns the fingerprints of a chain, which has length more bytes. A fingerprint after the end of the tile is
// all zeros.
func (c *cursor) issuers(length uint64) (all []hash) {
	for ; length > 0; length -= 32 {
		var issuer hash
		if c.at+32 <= len(c.tile) {
			copy(issuer[:], c.tile[c.at:])
		}
		c.skip(32)
		all = append(all, issuer)
	}
	return all
}

// leavesOf reads the tile leaves of a data tile (C2SP static-ct-api).
func leavesOf(tile []byte) ([]leaf, error) {
	var leaves []leaf
	for c := (cursor{tile: tile}); c.at < len(tile); {
		from := c.at
		l := leaf{timestamp: c.number(8)}
		precertificate := c.number(2)
		if precertificate > 1 {
			return nil, wrong("leaf %d is of type %d", len(leaves), precertificate)
		}
		entry := c.at - 2
		if precertificate == 1 {
			c.skip(32)
		}
		c.skip(c.number(3))
		entryEnd := c.at
		if c.number(2) != 8 || c.number(1) != 0 || c.number(2) != 5 {
			return nil, wrong("leaf %d has other extensions than leaf_index", len(leaves))
		}
		l.index = c.number(5)
		merkleEnd := c.at
		if precertificate == 1 {
			length := c.number(3)
			from := c.at
			if c.skip(length); c.at <= len(tile) {
				l.precertificate = tile[from:c.at:c.at]
			}
		}
		chain := c.number(2)
		if chain%32 != 0 {
			return nil, wrong("leaf %d has no chain of fingerprints", len(leaves))
		}
		l.issuers = c.issuers(chain)
		if c.at > len(tile) {
			return nil, wrong("leaf %d is cut off", len(leaves))
		}
		l.entry, l.inTile = tile[entry:entryEnd], tile[from:c.at]
		l.merkle = append([]byte{0, 0}, tile[from:merkleEnd]...)
		leaves = append(leaves, l)
	}
	return leaves, nil
}
