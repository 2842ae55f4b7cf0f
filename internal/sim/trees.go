package sim

import (
	"bytes"
	"slices"
	"strconv"
	"strings"
	"wagtenib/internal/ct"

	"github.com/transparency-dev/merkle/compact"
	"github.com/transparency-dev/merkle/rfc6962"
)

// ranges makes the judge's trees.
var ranges = &compact.RangeFactory{Hash: rfc6962.DefaultHasher.HashChildren}

// puts holds all contents that were put of one tile, in their order, and the leaves of the contents that were read as
// data tiles.
type puts struct {
	contents [][]byte
	read     map[int][]leaf
}

func (p *puts) last() []byte { return p.contents[len(p.contents)-1] }

// keepTile records the content that is put of a tile. After a rollback, a tile of another tree may get the name of an
// earlier tile.
func (j *judge) keepTile(name string, content []byte) {
	p, ok := j.tiles[name]
	if !ok {
		p = &puts{read: map[int][]leaf{}}
		j.tiles[name] = p
	}
	if !ok || !bytes.Equal(p.last(), content) {
		p.contents = append(p.contents, content)
	}
}

// leavesAt returns the leaves of the content with this number. It reads each content only once.
func (p *puts) leavesAt(which int) ([]leaf, error) {
	if leaves, ok := p.read[which]; ok {
		return leaves, nil
	}
	leaves, err := readTile(p.contents[which])
	if err == nil {
		p.read[which] = leaves
	}
	return leaves, err
}

// tile returns the contents that were put of a tile, and the numbers of those that may belong to a head. Normally, this
// is the content in the store. If the store lost or damaged something, it is the last one that was put. If a tile of
// another tree may have got the name, it is any of them, the last one first.
func (j *judge) tile(prefix string, n, width uint64, name string) (of *puts, may []int, ok bool) {
	digits := strconv.FormatUint(n, 10)
	tile := prefix + "000"[:max(0, 3-len(digits))] + digits
	if width < 256 {
		tile += ".p/" + strconv.FormatUint(width, 10)
	}
	of, put := j.tiles[tile]
	stored, isThere := j.w.stores.objects[tile]
	switch {
	case j.w.excuses.missing && put:
		last := len(of.contents) - 1
		for may = []int{last}; j.w.excuses.tiles && last > 0; may = append(may, last) {
			last--
		}
		return of, may, true
	case !isThere && put && width < 256:
		// A janitor may have deleted it, because it is the beginning of the full tile.
		full, _, _ := strings.Cut(tile, ".p/")
		for last := len(of.contents) - 1; last >= 0; last-- {
			if bytes.HasPrefix(j.w.stores.objects[full], of.contents[last]) {
				return of, []int{last}, true
			}
		}
		j.breaks("a head's tree is in the store", "%s: %s is missing, and %s does not begin with it", name, tile, full)
		return nil, nil, false
	case !isThere || !put:
		j.breaks("a head's tree is in the store", "%s: %s is missing", name, tile)
		return nil, nil, false
	}
	which := slices.IndexFunc(of.contents, func(content []byte) bool { return bytes.Equal(content, stored) })
	if which < 0 {
		j.breaks("a head's tree is in the store", "%s: %s has a content that was never put", name, tile)
		return nil, nil, false
	}
	return of, []int{which}, true
}

// treeOf reads the tiles of a head's tree, compares them with the list, and returns the leaves that follow the list.
func (j *judge) treeOf(head ct.TreeHead, name string) (added []leaf, ok bool) {
	for first := uint64(0); first < head.TreeSize; first += 256 {
		width := min(head.TreeSize-first, 256)
		leaves, ok := j.tileOf(head, first, width, added, name)
		if !ok {
			return nil, false
		}
		for i, one := range leaves {
			index := int(first) + i
			if index >= len(j.leaves) {
				added = append(added, one)
			} else if !bytes.Equal(one.tile, j.leaves[index].tile) {
				j.breaks("one growing list", "%s: entry %d is another one than before", name, index)
				return nil, false
			}
		}
	}
	return added, true
}

// tileOf returns the leaves of one data tile of a head's tree. The tile of hashes must have their hashes. `added` holds
// the leaves in the tiles before that follow the list.
func (j *judge) tileOf(head ct.TreeHead, first, width uint64, added []leaf, name string) ([]leaf, bool) {
	data, may, ok := j.tile("tile/data/", first/256, width, name)
	if !ok {
		return nil, false
	}
	which := may[0]
	for _, other := range may {
		// Only if stores were rolled back, more than one may belong to the head.
		if leaves, err := data.leavesAt(other); len(may) > 1 && err == nil && j.isOf(head, first, leaves, added) {
			which = other
			break
		}
	}
	leaves, err := data.leavesAt(which)
	if err != nil || uint64(len(leaves)) != width {
		j.breaks("a tile is whole", "%s: the data tile of %d entries from %d on: %v", name, width, first, err)
		return nil, false
	}
	hashes, may, ok := j.tile("tile/0/", first/256, width, name)
	if !ok {
		return nil, false
	}
	var expected []byte
	for i := range leaves {
		expected = append(expected, leaves[i].hash...)
	}
	if !slices.ContainsFunc(may, func(which int) bool { return bytes.Equal(hashes.contents[which], expected) }) {
		j.breaks("a tile is whole", "%s: the tile of the hashes of %d entries from %d on is of other ones",
			name, width, first)
		return nil, false
	}
	return leaves, true
}

// isOf reports whether the leaves of a data tile belong to a head: they agree with the list, and the last ones lead to
// the head's root.
func (j *judge) isOf(head ct.TreeHead, first uint64, leaves, added []leaf) bool {
	known := min(max(len(j.leaves)-int(first), 0), len(leaves))
	for i := range known {
		if !bytes.Equal(leaves[i].tile, j.leaves[int(first)+i].tile) {
			return false
		}
	}
	isLast := first+uint64(len(leaves)) == head.TreeSize && known < len(leaves)
	return !isLast || j.rootOf(slices.Concat(added, leaves[known:])) == head.Root
}

// rootOf returns the root of the list followed by more leaves.
func (j *judge) rootOf(added []leaf) (root [32]byte) {
	if len(added) == 0 {
		return j.roots[len(j.leaves)]
	}
	tree, err := ranges.NewRange(0, uint64(len(j.leaves)), slices.Clone(j.tree.Hashes()))
	for _, one := range added {
		if err == nil {
			err = tree.Append(one.hash, nil)
		}
	}
	if err == nil {
		var hash []byte
		if hash, err = tree.GetRootHash(nil); err == nil {
			return [32]byte(hash)
		}
	}
	j.breaks("one growing list", "no tree of %d entries: %v", len(j.leaves)+len(added), err)
	return root
}

// isLists judges whether a head has the root of the tree whose tiles are in the store, and whether that tree's leaves
// agree with the list. It returns the leaves that follow the list.
func (j *judge) isLists(head ct.TreeHead, name, rule string) (added []leaf, ok bool) {
	if j.w.excuses.signed {
		return nil, false
	}
	if added, ok = j.treeOf(head, name); !ok {
		return nil, false
	}
	root := j.roots[min(head.TreeSize, uint64(len(j.leaves)))]
	if len(added) > 0 {
		root = j.rootOf(added)
	}
	if root != head.Root {
		j.breaks(rule, "%s has the root %x and not %x", name, head.Root[:4], root[:4])
		return nil, false
	}
	return added, true
}

// continues judges whether a head that a machine has signed continues all heads that the machine accepted. A node that
// accepted a head of one list must never have a head of another list signed (docs/NODE.md, "A lock that falls").
// `added` holds the leaves that follow the list.
func (j *judge) continues(m *machine, head ct.TreeHead, added []leaf) {
	if len(m.accepted) == 0 {
		return
	}
	for _, before := range m.accepted {
		var root [32]byte
		switch known := uint64(len(j.leaves)); {
		case before.TreeSize <= min(known, head.TreeSize):
			root = j.roots[before.TreeSize]
		case before.TreeSize <= head.TreeSize:
			root = j.rootOf(added[:before.TreeSize-known])
		}
		if root != before.Root {
			j.breaks("a node keeps to what it accepted", "%s has a head of %d entries at %d ms signed, and accepted another "+
				"list of %d at %d ms", m.name, head.TreeSize, head.Timestamp, before.TreeSize, before.Timestamp)
		}
	}
	// All of them belong to one list now, so the newest is enough.
	m.accepted = m.accepted[len(m.accepted)-1:]
}

// grow appends leaves to the list.
func (j *judge) grow(added []leaf, name string) {
	for _, one := range added {
		index := len(j.leaves)
		if before, ok := j.identities[one.identity]; ok && !j.w.excuses.allows(one.identity) {
			j.breaks("one entry an identity", "%s: entry %d is the same as entry %d", name, index, before)
		} else if !ok {
			j.identities[one.identity] = index
		}
		j.leaves = append(j.leaves, one)
		root, err := [32]byte{}, j.tree.Append(one.hash, nil)
		if err == nil {
			var hash []byte
			if hash, err = j.tree.GetRootHash(nil); err == nil {
				root = [32]byte(hash)
			}
		}
		if err != nil {
			j.breaks("one growing list", "%s: %v", name, err)
		}
		j.roots = append(j.roots, root)
	}
	j.stats.Entries = len(j.leaves)
}
