package wagtenib_test

import (
	"fmt"
	"strings"
	"testing"

	"golang.org/x/mod/sumdb/tlog"

	"wagtenib/bindings/go/wagtenib"
)

// publishedTiles is a reader for tlog of the tiles that a log published.
type publishedTiles map[string][]byte

func (publishedTiles) Height() int                         { return 8 }
func (publishedTiles) SaveTiles(_ []tlog.Tile, _ [][]byte) {}

func (p publishedTiles) ReadTiles(tiles []tlog.Tile) ([][]byte, error) {
	var all [][]byte
	for _, tile := range tiles {
		// The names of tlog contain the height before the level, and names of C2SP tlog-tiles do not.
		name := strings.Replace(tile.Path(), "tile/8/", "tile/", 1)
		content, ok := p[name]
		if !ok || len(content) != tile.W*tlog.HashSize {
			return nil, fmt.Errorf("%s has %d bytes", name, len(content))
		}
		all = append(all, content)
	}
	return all, nil
}

// TestLargeLog grows a log past a full tile of level 1. tlog reads its tiles, checks each of them against the root, and
// proves leaves and older trees with them. It must refuse each proof of another leaf or root.
func TestLargeLog(t *testing.T) {
	const batch, steps, samples = 4096, 17, 500
	log := steppedLog{objects: map[string][]byte{}}
	var err error
	if log.state, err = wagtenib.StepBegin(1000); err != nil {
		t.Fatal(err)
	}
	var signed [][]byte
	var tree tlog.Tree
	for number := range steps {
		var submissions []wagtenib.Submission
		for i := range batch {
			submissions = append(submissions, submissionAt(number*batch+i))
		}
		step, err := wagtenib.MakeStep(stepOrigin, log.state, log.edge(t), batchOf(t, submissions...), uint64(1001+number),
			hour)
		if err != nil {
			t.Fatal(err)
		}
		for _, receipt := range step.Receipts {
			signed = append(signed, receipt.Signed)
		}
		log.take(t, step)
		tree = tlog.Tree{N: int64(len(signed)), Hash: tlog.Hash(step.Signed[18:])}
	}
	reader := tlog.TileHashReader(tree, publishedTiles(log.objects))
	for sample := range int64(samples) {
		index := sample * (tree.N - 1) / (samples - 1)
		checkLeaf(t, reader, tree, index, tlog.RecordHash(signed[index]))
		checkOlder(t, reader, tree, index+1)
	}
}

// checkLeaf proves a leaf, and checks the proof for it and for another one.
func checkLeaf(t *testing.T, reader tlog.HashReader, tree tlog.Tree, index int64, leaf tlog.Hash) {
	t.Helper()
	proof, err := tlog.ProveRecord(tree.N, index, reader)
	if err != nil {
		t.Fatal(err)
	}
	if err := tlog.CheckRecord(proof, tree.N, tree.Hash, index, leaf); err != nil {
		t.Errorf("leaf %d: %v", index, err)
	}
	leaf[0] ^= 1
	if tlog.CheckRecord(proof, tree.N, tree.Hash, index, leaf) == nil {
		t.Errorf("leaf %d: another one is accepted", index)
	}
}

// checkOlder proves that an older tree is a beginning of the tree, and checks the proof for its root and for another
// one.
func checkOlder(t *testing.T, reader tlog.HashReader, tree tlog.Tree, size int64) {
	t.Helper()
	root, err := tlog.TreeHash(size, reader)
	if err != nil {
		t.Fatal(err)
	}
	proof, err := tlog.ProveTree(tree.N, size, reader)
	if err != nil {
		t.Fatal(err)
	}
	if err := tlog.CheckTree(proof, tree.N, tree.Hash, size, root); err != nil {
		t.Errorf("size %d: %v", size, err)
	}
	root[0] ^= 1
	if tlog.CheckTree(proof, tree.N, tree.Hash, size, root) == nil {
		t.Errorf("size %d: another root is accepted", size)
	}
}
