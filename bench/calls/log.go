package main

import (
	"crypto/sha256"
	"encoding/binary"
	"errors"
	"fmt"
	"math/rand"

	"golang.org/x/mod/sumdb/tlog"

	"wagtenib/bindings/go/wagtenib"
)

const (
	origin    = "log.example/calls"
	hour      = 3_600_000 // milliseconds
	firstSize = 384       // the number of entries before the step, so that the last tile is half full
	length    = 1500      // the number of bytes of a certificate
	height    = 8
	issuers   = 2 // the number of fingerprints of a chain
	receipts  = 100
)

// stored has the hashes of a tree, in tlog's order.
type stored []tlog.Hash

func (s stored) ReadHashes(indexes []int64) ([]tlog.Hash, error) {
	hashes := make([]tlog.Hash, len(indexes))
	for at, index := range indexes {
		hashes[at] = s[index]
	}
	return hashes, nil
}

// log is a generated log before a step, with all that a step needs.
type log struct {
	state   string
	edge    []byte
	entries []byte // the partial data tile
	hashes  stored
	leaves  [][]byte
	head    wagtenib.TreeHead
	random  *rand.Rand
}

// submissions returns a batch, and its certificates.
func (l *log) submissions(count int) (batch []byte, certificates [][]byte) {
	for range count {
		certificate := make([]byte, length)
		l.random.Read(certificate)
		certificates = append(certificates, certificate)
		var err error
		batch, err = wagtenib.AppendSubmission(batch, wagtenib.Submission{Certificate: certificate,
			Chain: make([]wagtenib.Hash, issuers)})
		stop(err)
	}
	return batch, certificates
}

// leafOf returns the MerkleTreeLeaf of a certificate, with its index (RFC 6962, section 3.4; C2SP static-ct-api).
func leafOf(certificate []byte, now, index uint64) []byte {
	leaf := binary.BigEndian.AppendUint64([]byte{0, 0}, now)
	leaf = append(leaf, 0, 0, byte(len(certificate)>>16), byte(len(certificate)>>8), byte(len(certificate)))
	leaf = append(leaf, certificate...)
	return append(leaf, 0, 8, 0, 0, 5, byte(index>>32), byte(index>>24), byte(index>>16), byte(index>>8), byte(index))
}

// tileEntry appends an entry of a data tile: the leaf without its first two bytes, and the chain.
func tileEntry(tile, leaf []byte) []byte {
	tile = append(tile, leaf[2:]...)
	tile = append(tile, 0, issuers*sha256.Size)
	return append(tile, make([]byte, issuers*sha256.Size)...)
}

func newLog() *log {
	l := &log{random: rand.New(rand.NewSource(1))}
	state, err := wagtenib.StepBegin(1000)
	stop(err)
	batch, certificates := l.submissions(firstSize)
	step, err := wagtenib.MakeStep(origin, state, nil, batch, 1001, hour)
	stop(err)
	l.state = step.State
	names, err := wagtenib.StepNeeds(l.state)
	stop(err)
	for _, name := range names {
		for _, object := range step.Objects {
			if object.Name == name {
				l.edge = wagtenib.AppendContent(l.edge, step.Bundle[object.Start:object.Start+object.Length])
			}
		}
	}
	for index, certificate := range certificates {
		leaf := leafOf(certificate, 1001, uint64(index))
		more, err := tlog.StoredHashes(int64(index), leaf, l.hashes)
		stop(err)
		l.hashes, l.leaves = append(l.hashes, more...), append(l.leaves, leaf)
		if index >= firstSize&^(1<<height-1) {
			l.entries = tileEntry(l.entries, leaf)
		}
	}
	root, err := tlog.TreeHash(firstSize, l.hashes)
	stop(err)
	l.head = wagtenib.TreeHead{TreeSize: firstSize, Timestamp: 1001, Root: wagtenib.Hash(root)}
	return l
}

// steps returns the work of a step of count entries, by the library and by x/mod's tlog with crypto/sha256. Both must
// have the same root.
func (l *log) steps(count int) []work {
	batch, certificates := l.submissions(count)
	step, err := wagtenib.MakeStep(origin, l.state, l.edge, batch, 1002, hour)
	stop(err)
	root, digests := l.plainStep(certificates, 1002)
	if expected := fmt.Sprintf("%s\n%d\n%s\n", origin, firstSize+count, root); step.Checkpoint != expected {
		stop(fmt.Errorf("the step's checkpoint is %q, expected %q", step.Checkpoint, expected))
	}
	for _, object := range step.Objects {
		if !digests[object.Digest] {
			stop(fmt.Errorf("no tile of tlog has the digest of %s", object.Name))
		}
	}
	name := fmt.Sprintf("step of %d entries", count)
	return []work{
		{name, func() error { _, err := wagtenib.MakeStep(origin, l.state, l.edge, batch, 1002, hour); return err }},
		{name + "/Go", func() error { l.plainStep(certificates, 1002); return nil }},
	}
}

// plainStep returns the root after a step and the digests of its tiles, as a log in Go would compute them. It does not
// check the state, the edge or duplicates.
func (l *log) plainStep(certificates [][]byte, now uint64) (tlog.Hash, map[[sha256.Size]byte]bool) {
	hashes, entries := append(stored(nil), l.hashes...), append([]byte(nil), l.entries...)
	digests, bundle := map[[sha256.Size]byte]bool{}, []byte(nil)
	put := func(content []byte) {
		digests[sha256.Sum256(content)] = true
		bundle = append(bundle, content...)
	}
	size := int64(firstSize + len(certificates))
	for at, certificate := range certificates {
		index := int64(firstSize + at)
		leaf := leafOf(certificate, now, uint64(index))
		more, err := tlog.StoredHashes(index, leaf, hashes)
		stop(err)
		hashes, entries = append(hashes, more...), tileEntry(entries, leaf)
		if (index+1)%(1<<height) == 0 || index+1 == size {
			put(entries)
			entries = nil
		}
	}
	for _, tile := range tlog.NewTiles(height, firstSize, size) {
		content, err := tlog.ReadTileData(tile, hashes)
		stop(err)
		put(content)
	}
	sha256.Sum256(bundle)
	root, err := tlog.TreeHash(size, hashes)
	stop(err)
	return root, digests
}

// guard returns the work to check the next head and the receipts of its last entries, by the library and by x/mod's
// tlog.
func (l *log) guard() []work {
	const old = firstSize - receipts
	first, err := tlog.TreeHash(old, l.hashes)
	stop(err)
	proof, err := tlog.ProveTree(firstSize, old, l.hashes)
	stop(err)
	named := wagtenib.TreeHead{TreeSize: old, Timestamp: 1000, Root: wagtenib.Hash(first)}
	last, err := wagtenib.GuardFirstHead(named, named)
	stop(err)
	paths := make([]tlog.RecordProof, receipts)
	for at := range paths {
		paths[at], err = tlog.ProveRecord(firstSize, int64(old+at), l.hashes)
		stop(err)
	}
	name := fmt.Sprintf("guard: a head and %d receipts", receipts)
	linked := func() error {
		head, err := wagtenib.GuardHead(last[:], l.head, hashesOf(proof), hour)
		for at := 0; at < receipts && err == nil; at++ {
			err = wagtenib.GuardReceipt(head[:], l.leaves[old+at], uint64(old+at), hashesOf(paths[at]))
		}
		return err
	}
	plain := func() error {
		err := tlog.CheckTree(proof, firstSize, tlog.Hash(l.head.Root), old, first)
		for at := 0; at < receipts && err == nil; at++ {
			err = tlog.CheckRecord(paths[at], firstSize, tlog.Hash(l.head.Root), int64(old+at),
				tlog.RecordHash(l.leaves[old+at]))
		}
		return err
	}
	return []work{{name, linked}, {name + "/Go", plain}}
}

func hashesOf(hashes []tlog.Hash) []wagtenib.Hash {
	result := make([]wagtenib.Hash, len(hashes))
	for at, hash := range hashes {
		result[at] = wagtenib.Hash(hash)
	}
	return result
}

// node returns the work of the ten commands with which a node makes a step and publishes it. There is no equal work in
// Go.
func node() work {
	next := wagtenib.NodeState{Timestamp: 9, PreviousTimestamp: 7, Salt: 2}
	seen := wagtenib.NodeState{Timestamp: 7, PreviousTimestamp: 5, Salt: 1}
	done := wagtenib.NodeOutcome{Kind: wagtenib.WasDone}
	outcomes := []wagtenib.NodeOutcome{{Kind: wagtenib.LockRead, State: seen}, {Kind: wagtenib.WasPublished},
		{Kind: wagtenib.StepMade, State: next, Objects: 2}, done, done, done, done, done, done}
	return work{"node: ten commands", func() error {
		now, kinds := wagtenib.NodeCommand{}, 0
		for _, outcome := range append([]wagtenib.NodeOutcome{done}, outcomes...) {
			var err error
			if now, err = wagtenib.NodeNext(now, outcome); err != nil {
				return err
			}
			kinds += int(now.Kind)
		}
		if kinds == 0 {
			return errors.New("the node only reads its lock")
		}
		return nil
	}}
}
