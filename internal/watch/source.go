package watch

import (
	"context"
	"encoding/binary"
	"errors"
	"fmt"

	"wagtenib/bindings/go/wagtenib"
	"wagtenib/internal/logclient"
)

// errDamaged means that an answer of a log does not have the required form, so that there are no leaves to judge.
var errDamaged = errors.New("watch: the answer is damaged")

// batch holds consecutive entries of a log.
type batch struct {
	start   uint64
	entries []Entry
	tiles   []logclient.DataTile // the tiles that hold the entries; only set for a tiled log
	// the first entry whose extensions are not its own index (leaf_index; C2SP static-ct-api)
	otherIndex *uint64
	bytes      int // the size of the answers: of the leaves with their extra data, or of the tiles
}

// add appends the batch that follows.
func (b *batch) add(next batch) {
	if len(b.entries) == 0 {
		b.start = next.start
	}
	b.entries, b.tiles, b.bytes = append(b.entries, next.entries...), append(b.tiles, next.tiles...), b.bytes+next.bytes
	if b.otherIndex == nil {
		b.otherIndex = next.otherIndex
	}
}

// leaves returns the bytes of the leaves.
func (b *batch) leaves() [][]byte {
	leaves := make([][]byte, len(b.entries))
	for i := range b.entries {
		leaves[i] = b.entries[i].Leaf
	}
	return leaves
}

// source reads one log of either kind. It verifies only the signatures of heads.
type source interface {
	// head returns the newest tree head. The error wraps ct.ErrForm or ct.ErrSigner if the answer is not a
	// signed head of the log. The head then holds the bytes of the answer.
	head(ctx context.Context) (Head, error)
	// entries calls use with the entries from `start` to size-1, in order. `more` is true if the next ones have arrived
	// already.
	entries(ctx context.Context, start, size uint64, use func(b batch, more bool) error) error
	// consistency returns a proof between two sizes.
	consistency(ctx context.Context, first, second uint64) ([]wagtenib.Hash, error)
	// subtrees returns the roots of the perfect subtrees of a head's tree, the largest first.
	subtrees(ctx context.Context, head wagtenib.TreeHead) ([]wagtenib.Hash, error)
	// beginning returns the root of the first leaves, at least one, of a tree of this head. The caller must check it by a
	// consistency proof.
	beginning(ctx context.Context, size uint64, head wagtenib.TreeHead) (wagtenib.Hash, error)
	// inclusion returns the audit path of a leaf.
	inclusion(ctx context.Context, index, size uint64, leafHash wagtenib.Hash) ([]wagtenib.Hash, error)
}

// newSource returns the reader of a log.
func newSource(log Log, client *logclient.Client) source {
	if log.IsTiled() {
		return &tiles{log, client}
	}
	return &calls{log, client}
}

// newEntry decodes a leaf. If the bytes are not a leaf, the entry has a Fault.
func newEntry(index uint64, leaf []byte) Entry {
	entry := Entry{Index: index, Leaf: leaf}
	read, err := wagtenib.DecodeLeaf(leaf)
	if err != nil {
		entry.Fault = err
		return entry
	}
	entry.Timestamp, entry.Type, entry.Certificate = read.Timestamp, read.EntryType, read.Certificate
	return entry
}

// calls reads a log by the calls of RFC 6962, section 4.
type calls struct {
	log    Log
	client *logclient.Client
}

func (c *calls) head(ctx context.Context) (Head, error) {
	answer, err := c.client.STH(ctx)
	if err != nil {
		return Head{}, err
	}
	return openHead(c.log, answer)
}

func (c *calls) entries(ctx context.Context, start, size uint64, use func(b batch, more bool) error) error {
	return c.client.Entries(ctx, start, size, func(page logclient.Page, more bool) error {
		b := batch{start: page.Start, entries: make([]Entry, len(page.Entries))}
		for i, raw := range page.Entries {
			b.entries[i] = newEntry(page.Start+uint64(i), raw.LeafInput)
			readExtraData(&b.entries[i], raw.ExtraData)
			b.bytes += len(raw.LeafInput) + len(raw.ExtraData)
		}
		return use(b, more)
	})
}

// readExtraData reads the chain of an entry and, for a precertificate, the submitted precertificate before it (RFC
// 6962, section 4.6). The log does not sign them. If they cannot be read, they stay empty, and only the leaf is judged.
func readExtraData(entry *Entry, extra []byte) {
	if entry.Fault != nil {
		return
	}
	rest, ok := extra, true
	var precertificate []byte
	if entry.Type == wagtenib.PrecertEntry {
		if precertificate, rest, ok = cutVector(rest); !ok {
			return
		}
	}
	list, rest, ok := cutVector(rest)
	if !ok || len(rest) > 0 {
		return
	}
	var chain [][]byte
	for len(list) > 0 {
		var one []byte
		if one, list, ok = cutVector(list); !ok {
			return
		}
		chain = append(chain, one)
	}
	entry.Precertificate, entry.Chain = precertificate, chain
}

// cutVector cuts a vector with a length of 3 bytes from the beginning of content.
func cutVector(content []byte) (vector, rest []byte, ok bool) {
	const header = 3
	if len(content) < header {
		return nil, content, false
	}
	length := int(binary.BigEndian.Uint32(append([]byte{0}, content[:header]...)))
	if len(content)-header < length {
		return nil, content, false
	}
	return content[header : header+length : header+length], content[header+length:], true
}

func (c *calls) consistency(ctx context.Context, first, second uint64) ([]wagtenib.Hash, error) {
	return c.client.Consistency(ctx, first, second)
}

// subtrees returns the roots in the audit path of the last leaf: the hashes to its left are those of all subtrees.
func (c *calls) subtrees(ctx context.Context, head wagtenib.TreeHead) ([]wagtenib.Hash, error) {
	if head.TreeSize == 0 {
		return nil, nil
	}
	last := head.TreeSize - 1
	var leaf []byte
	err := c.client.Entries(ctx, last, head.TreeSize, func(page logclient.Page, _ bool) error {
		leaf = page.Entries[0].LeafInput
		return nil
	})
	if err != nil {
		return nil, err
	}
	root := wagtenib.LeafHash(leaf)
	index, path, err := c.client.ProofByHash(ctx, root, head.TreeSize)
	if err != nil {
		return nil, err
	}
	if index != last {
		// The same leaf is in the log twice, and the log returned the other index.
		return nil, fmt.Errorf("%w: get-proof-by-hash gives entry %d for the last one, %d (try again after the log has "+
			"grown)", errDamaged, index, last)
	}
	return wagtenib.LastSubtrees(root, head.TreeSize, path)
}

// beginning returns the root by the last leaf and its audit path.
func (c *calls) beginning(ctx context.Context, size uint64, _ wagtenib.TreeHead) (wagtenib.Hash, error) {
	subtrees, err := c.subtrees(ctx, wagtenib.TreeHead{TreeSize: size})
	if err != nil {
		return wagtenib.Hash{}, err
	}
	return wagtenib.SubtreesRoot(subtrees), nil
}

func (c *calls) inclusion(ctx context.Context, index, size uint64, leafHash wagtenib.Hash) ([]wagtenib.Hash, error) {
	found, path, err := c.client.ProofByHash(ctx, leafHash, size)
	if err == nil && found != index {
		err = fmt.Errorf("%w: get-proof-by-hash gives entry %d for entry %d", errDamaged, found, index)
	}
	return path, err
}
