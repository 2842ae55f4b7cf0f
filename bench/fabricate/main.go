// Command fabricate writes the tiles of a log to which nobody submitted, in the format of C2SP static-ct-api, and its
// deduplication index (bench/large.py).
//
//	fabricate tiles OBJECTS ENTRIES TIMESTAMP   writes data and hash tiles below the folder OBJECTS; prints the root,
//	                                            the digest of the partial data tile, and a line with the name of each
//	                                            partial tile: first that of data, then those of the levels
//	fabricate index FOLDER ENTRIES TIMESTAMP    adds the entries to the index in FOLDER
//
// The certificate at index i is 52 zero bytes, followed by i in 8 bytes. All entries have the timestamp TIMESTAMP, in
// milliseconds.
package main

import (
	"crypto/sha256"
	"encoding/binary"
	"fmt"
	"math/bits"
	"os"
	"path/filepath"
	"slices"
	"strconv"
	"sync"

	"github.com/syndtr/goleveldb/leveldb"
	"github.com/syndtr/goleveldb/leveldb/filter"
	"github.com/syndtr/goleveldb/leveldb/opt"

	"wagtenib/internal/blob"
)

const (
	// width is the number of hashes or entries of a full tile (C2SP tlog-tiles).
	width = 256
	// certificate is the number of bytes of an entry's certificate.
	certificate = 60
	// workers is the number of goroutines that write tiles.
	workers = 2
	// newest is the number of last entries that are added to the index in their own order, as by a node. The entries
	// before them are added in the order of their keys, so that LevelDB has nothing to merge.
	newest = 1_000_000
	// indexBits is the number of bits of an entry's index while rows are sorted.
	indexBits = 27
)

type hash = [32]byte

func stop(err error) {
	if err != nil {
		fmt.Fprintln(os.Stderr, "fabricate:", err)
		os.Exit(1)
	}
}

// entry returns a TimestampedEntry (RFC 6962, section 3.4), with the extension leaf_index of static-ct-api.
func entry(index, timestamp uint64) []byte {
	b := binary.BigEndian.AppendUint64(make([]byte, 0, 128), timestamp)
	b = append(b, 0, 0, 0, 0, certificate)
	b = append(b, make([]byte, certificate-8)...)
	b = binary.BigEndian.AppendUint64(b, index)
	b = append(b, 0, 8, 0, 0, 5, byte(index>>32))
	return binary.BigEndian.AppendUint32(b, uint32(index))
}

// leafHash returns the hash of a leaf (RFC 6962, section 2.1). The MerkleTreeLeaf has the version and the type before
// the entry.
func leafHash(entry []byte) hash {
	return sha256.Sum256(append(make([]byte, 3, 128), entry...))
}

// identity returns the identity of an entry in the index: the hash of the entry's type and certificate.
func identity(index uint64) hash {
	signed := entry(index, 0)[13 : 13+certificate]
	return sha256.Sum256(append([]byte{0, 0}, signed...))
}

// node returns the hash of a node with these children (RFC 6962, section 2.1).
func node(left, right hash) hash {
	b := append(append([]byte{1}, left[:]...), right[:]...)
	return sha256.Sum256(b)
}

// root returns the root of subtrees of one size, except the last, which may be smaller.
func root(hashes []hash) hash {
	if len(hashes) == 0 {
		return sha256.Sum256(nil)
	}
	if len(hashes) == 1 {
		return hashes[0]
	}
	k := 1 << (bits.Len(uint(len(hashes)-1)) - 1)
	return node(root(hashes[:k]), root(hashes[k:]))
}

// name returns a tile's name (C2SP tlog-tiles). The level is "data" or a number.
func name(level string, index, count int) string {
	path := fmt.Sprintf("%03d", index%1000)
	for index /= 1000; index > 0; index /= 1000 {
		path = fmt.Sprintf("x%03d/%s", index%1000, path)
	}
	if count < width {
		path += fmt.Sprintf(".p/%d", count)
	}
	return "tile/" + level + "/" + path
}

func write(objects, name string, content []byte) error {
	path := filepath.Join(objects, name)
	err := os.WriteFile(path, content, 0o644)
	if os.IsNotExist(err) {
		if err = os.MkdirAll(filepath.Dir(path), 0o755); err == nil {
			err = os.WriteFile(path, content, 0o644)
		}
	}
	return err
}

func join(hashes []hash) []byte {
	b := make([]byte, 0, 32*len(hashes))
	for _, h := range hashes {
		b = append(b, h[:]...)
	}
	return b
}

// tree has the state of the tiles while they are written.
type tree struct {
	objects   string
	timestamp uint64
	// data is the partial data tile, and partial has the names of all partial tiles.
	data    []byte
	partial []string
	// edge has the hashes of the partial tile of each level, lowest first.
	edge [][]hash
}

// leaves writes the data tile and the hash tile with this number, which have count entries, and returns the hashes.
func (t *tree) leaves(tile, count int) (data []byte, hashes []hash) {
	hashes, data = make([]hash, count), make([]byte, 0, count*(certificate+25))
	for at := range hashes {
		e := entry(uint64(width*tile+at), t.timestamp)
		hashes[at] = leafHash(e)
		data = append(append(data, e...), 0, 0)
	}
	stop(write(t.objects, name("data", tile, count), data))
	stop(write(t.objects, name("0", tile, count), join(hashes)))
	return data, hashes
}

// bottom writes all data tiles and all tiles of level 0, and returns the hashes of the level above.
func (t *tree) bottom(entries int) []hash {
	above := make([]hash, entries/width)
	tiles := make(chan int, 64)
	var all sync.WaitGroup
	for i := 0; i < workers; i++ {
		all.Add(1)
		go func() {
			defer all.Done()
			for tile := range tiles {
				_, hashes := t.leaves(tile, width)
				above[tile] = root(hashes)
			}
		}()
	}
	for tile := range above {
		tiles <- tile
	}
	close(tiles)
	all.Wait()
	var last []hash
	if count := entries % width; count > 0 {
		t.data, last = t.leaves(len(above), count)
		t.partial = append(t.partial, name("data", len(above), count), name("0", len(above), count))
	}
	t.edge = append(t.edge, last)
	return above
}

// level writes the tiles of a level above the lowest, and returns the hashes of the next level.
func (t *tree) level(number int, hashes []hash) []hash {
	level, above := strconv.Itoa(number), make([]hash, len(hashes)/width)
	for tile := range above {
		full := hashes[width*tile : width*(tile+1)]
		stop(write(t.objects, name(level, tile, width), join(full)))
		above[tile] = root(full)
	}
	last := hashes[width*len(above):]
	if len(last) > 0 {
		partial := name(level, len(above), len(last))
		stop(write(t.objects, partial, join(last)))
		t.partial = append(t.partial, partial)
	}
	t.edge = append(t.edge, last)
	return above
}

// root returns the root of the tree. The partial tile of each level is extended by the root of what is below it.
func (t *tree) root() hash {
	var below []hash
	for _, hashes := range t.edge {
		if all := append(append([]hash{}, hashes...), below...); len(all) > 0 {
			below = []hash{root(all)}
		}
	}
	return root(below)
}

func tiles(objects string, entries int, timestamp uint64) {
	t := &tree{objects: objects, timestamp: timestamp}
	hashes := t.bottom(entries)
	for number := 1; len(hashes) > 0; number++ {
		hashes = t.level(number, hashes)
	}
	fmt.Printf("%x %x\n", t.root(), sha256.Sum256(t.data))
	for _, name := range t.partial {
		fmt.Println(name)
	}
}

// table is a table of the index: the letter with which its keys begin, and the hash of an entry that follows the
// letter.
type table struct {
	letter byte
	of     func(index uint64) hash
}

// tables returns the tables of internal/blob, in the order of their letters.
func tables(timestamp uint64) []table {
	return []table{{'i', identity}, {'l', func(index uint64) hash { return leafHash(entry(index, timestamp)) }}}
}

// options returns the options of internal/blob that determine how files are written, with a buffer of this many
// bytes, and without syncs.
func options(buffer int) *opt.Options {
	return &opt.Options{WriteBuffer: buffer, CompactionTableSize: 2 << 20, CompactionTotalSize: 256 << 20,
		CompactionL0Trigger: 8, WriteL0SlowdownTrigger: 64, WriteL0PauseTrigger: 128, CompactionGPOverlapsFactor: 40,
		Filter: filter.NewBloomFilter(10), Compression: opt.NoCompression, DisableSeeksCompaction: true, NoSync: true}
}

// adder adds rows to LevelDB in large batches.
type adder struct {
	to        *leveldb.DB
	timestamp uint64
	batch     leveldb.Batch
}

// add adds a row for the entry at this index.
func (a *adder) add(to table, index uint64) {
	h := to.of(index)
	value := binary.AppendUvarint(binary.AppendUvarint(make([]byte, 0, 16), index), a.timestamp)
	a.batch.Put(append([]byte{to.letter}, h[:]...), value)
	if a.batch.Len() == blob.MaxRows {
		a.write()
	}
}

func (a *adder) write() {
	stop(a.to.Write(&a.batch, nil))
	a.batch.Reset()
}

// inOrder adds the rows of the first entries in the order of their keys.
func (a *adder) inOrder(to table, entries uint64) {
	// Each row has the first bits of the hash, followed by the index. LevelDB sorts the few rows with the same first
	// bits.
	rows := make([]uint64, entries)
	for i := range entries {
		h := to.of(i)
		rows[i] = binary.BigEndian.Uint64(h[:])>>indexBits<<indexBits | i
	}
	slices.Sort(rows)
	for _, row := range rows {
		a.add(to, row&(1<<indexBits-1))
	}
	a.write()
}

// fill opens the index in a folder, adds rows by a function, and closes the index.
func fill(folder string, timestamp uint64, buffer int, add func(a *adder)) {
	to, err := leveldb.OpenFile(folder, options(buffer))
	stop(err)
	a := &adder{to: to, timestamp: timestamp}
	add(a)
	a.write()
	stop(to.Close())
}

// index adds entries to the index in a folder, which must not exist yet.
func index(folder string, entries, timestamp uint64) {
	first := entries - min(entries, newest)
	if first > 1<<indexBits {
		stop(fmt.Errorf("%d entries are more than can be put in order", entries))
	}
	fill(folder, timestamp, 2<<20, func(a *adder) {
		for _, one := range tables(timestamp) {
			a.inOrder(one, first)
		}
	})
	fill(folder, timestamp, 16<<20, func(a *adder) {
		for i := first; i < entries; i++ {
			for _, one := range tables(timestamp) {
				a.add(one, i)
			}
		}
	})
}

func number(argument string) uint64 {
	n, err := strconv.ParseUint(argument, 10, 63)
	stop(err)
	return n
}

func main() {
	arguments := os.Args[1:]
	switch {
	case len(arguments) == 4 && arguments[0] == "tiles":
		tiles(arguments[1], int(number(arguments[2])), number(arguments[3]))
	case len(arguments) == 4 && arguments[0] == "index":
		index(arguments[1], number(arguments[2]), number(arguments[3]))
	default:
		fmt.Fprintln(os.Stderr, "fabricate: tiles OBJECTS ENTRIES TIMESTAMP, or index FOLDER ENTRIES TIMESTAMP")
		os.Exit(2)
	}
}
