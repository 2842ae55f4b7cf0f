package httpd

import (
	"context"
	"crypto/sha256"
	"encoding/base64"
	"errors"
	"fmt"
	"net/http"
	"net/url"

	"wagtenib/bindings/go/wagtenib"
	"wagtenib/internal/blob"
	"wagtenib/internal/ct"
	"wagtenib/internal/log"
	"wagtenib/internal/tiles"
)

// noSuchLeaf refuses a hash that no leaf of the tree has.
var noSuchLeaf = refusal{status: http.StatusNotFound, name: "no-such-leaf"}

// getSTHConsistency answers with the consistency proof between two trees of the log (RFC 6962, section 4.4).
func (f *Front) getSTHConsistency(w http.ResponseWriter, r *http.Request) error {
	_, numbers, err := numbersOf(r, "first", "second")
	if err != nil {
		return err
	}
	first, second := numbers[0], numbers[1]
	if first > second {
		return badParameter("first is after second")
	}
	var proof [][32]byte
	err = f.underHead(r, second, func(ctx context.Context, head ct.SignedHead) error {
		if first == 0 || first == second {
			return nil
		}
		one, err := f.rootAt(ctx, head, first)
		if err != nil {
			return err
		}
		two, err := f.rootAt(ctx, head, second)
		if err != nil {
			return err
		}
		if proof, err = f.reader.Proof(ctx, first, second, head.TreeSize); err != nil {
			return err
		}
		return tiles.CheckProof(proof, second, two, first, one)
	})
	return answerProof(w, err, struct {
		Consistency [][]byte `json:"consistency"`
	}{hashesOf(proof)})
}

// getProofByHash answers with the index of the leaf that has a hash, and its audit path (RFC 6962, section 4.5).
func (f *Front) getProofByHash(w http.ResponseWriter, r *http.Request) error {
	query, numbers, err := numbersOf(r, "tree_size")
	if err != nil {
		return err
	}
	text, err := textOf(query, "hash")
	if err != nil {
		return err
	}
	var leaf [32]byte
	if hash, err := base64.StdEncoding.Strict().DecodeString(text); err != nil || copy(leaf[:], hash) != len(hash) ||
		len(hash) != len(leaf) {
		return badParameter("hash is 32 bytes in base64")
	}
	size, index := numbers[0], uint64(0)
	var path [][32]byte
	err = f.underHead(r, size, func(ctx context.Context, head ct.SignedHead) error {
		if index, err = f.log.IndexOf(ctx, leaf); errors.Is(err, blob.ErrAbsent) {
			return noSuchLeaf
		}
		if err != nil {
			return err
		}
		if index >= size {
			return noSuchLeaf
		}
		// The index may be wrong, and then the path would be wrong too. So the tile is asked for the hash at the index.
		if there, err := f.leafAt(ctx, head, index); err != nil || there != leaf {
			return orElse(err, noSuchLeaf)
		}
		path, err = f.path(ctx, head, index, size, leaf)
		return err
	})
	return answerProof(w, err, struct {
		Index uint64   `json:"leaf_index"`
		Path  [][]byte `json:"audit_path"`
	}{index, hashesOf(path)})
}

// getEntryAndProof answers with an entry and its audit path (RFC 6962, section 4.8).
func (f *Front) getEntryAndProof(w http.ResponseWriter, r *http.Request) error {
	_, numbers, err := numbersOf(r, "leaf_index", "tree_size")
	if err != nil {
		return err
	}
	index, size := numbers[0], numbers[1]
	if index >= size {
		return badParameter("leaf_index is not below tree_size")
	}
	var entry entryOf
	var path [][32]byte
	err = f.underHead(r, size, func(ctx context.Context, head ct.SignedHead) error {
		entries, err := f.entries(ctx, index, index)
		if err != nil {
			return err
		}
		entry = entries[0]
		path, err = f.path(ctx, head, index, size, sha256.Sum256(append([]byte{0}, entry.LeafInput...)))
		return err
	})
	return answerProof(w, err, struct {
		entryOf
		Path [][]byte `json:"audit_path"`
	}{entry, hashesOf(path)})
}

// numbersOf parses the query of a request, and returns it with the numbers of these names.
func numbersOf(r *http.Request, names ...string) (query url.Values, numbers []uint64, err error) {
	if query, err = url.ParseQuery(r.URL.RawQuery); err != nil {
		return nil, nil, badParameter("the query cannot be parsed")
	}
	for _, name := range names {
		value, err := parameter(query, name)
		if err != nil {
			return nil, nil, err
		}
		numbers = append(numbers, value)
	}
	return query, numbers, nil
}

// underHead makes a proof from the tiles of a head that has at least size leaves. A partial tile may be deleted in
// between, after the full tile was stored. Then underHead makes the proof again, under the newest head.
func (f *Front) underHead(r *http.Request, size uint64, prove func(context.Context, ct.SignedHead) error) error {
	client := f.clientOf(r)
	if !f.uses.proofsByClient.take(client) {
		return tooMany
	}
	defer f.uses.proofsByClient.give(client)
	ctx, cancel := f.reading(r)
	defer cancel()
	for again := false; ; again = true {
		head, err := f.headOf(ctx, size, again)
		if err != nil {
			return err
		}
		if size > head.TreeSize {
			return badParameter(fmt.Sprintf("the log has %d entries", head.TreeSize))
		}
		if err = prove(ctx, head); err == nil || again || !errors.Is(err, blob.ErrAbsent) {
			return proofError(err)
		}
	}
}

// headOf returns a head with so many entries if there is one. If newest is true, it always reads the newest head.
func (f *Front) headOf(ctx context.Context, entries uint64, newest bool) (ct.SignedHead, error) {
	if newest {
		return f.log.Checkpoint(ctx)
	}
	return f.log.HeadOf(ctx, entries)
}

// proofError wraps the error of a proof in log.ErrBusy if memory or time is short, and otherwise in
// log.ErrStore. It returns an error that already has its kind as it is.
func proofError(err error) error {
	var known refusal
	switch {
	case err == nil, errors.As(err, &known), errors.Is(err, context.DeadlineExceeded), errors.Is(err, context.Canceled),
		errors.Is(err, log.ErrStore), errors.Is(err, log.ErrBusy):
		return err
	case errors.Is(err, tiles.ErrBusy), errors.Is(err, wagtenib.ErrMemory):
		return fmt.Errorf("%w: %v", log.ErrBusy, err)
	}
	return fmt.Errorf("%w: %v", log.ErrStore, err)
}

func orElse(err, other error) error {
	if err != nil {
		return err
	}
	return other
}

// rootAt returns the root of the first size leaves; size is at least 1. It checks that the root is consistent with the
// head's root.
func (f *Front) rootAt(ctx context.Context, head ct.SignedHead, size uint64) ([32]byte, error) {
	if size == head.TreeSize {
		return head.Root, nil
	}
	root, err := f.reader.Root(ctx, size, head.TreeSize)
	if err != nil {
		return root, err
	}
	proof, err := f.reader.Proof(ctx, size, head.TreeSize, head.TreeSize)
	if err != nil {
		return root, err
	}
	return root, tiles.CheckProof(proof, head.TreeSize, head.Root, size, root)
}

// path returns the audit path from a leaf's hash to the root of the first size leaves, after checking it.
func (f *Front) path(
	ctx context.Context, head ct.SignedHead, index, size uint64, leaf [32]byte,
) ([][32]byte, error) {
	root, err := f.rootAt(ctx, head, size)
	if err != nil {
		return nil, err
	}
	path, err := f.reader.Path(ctx, index, size, head.TreeSize)
	if err != nil {
		return nil, err
	}
	return path, tiles.CheckPath(path, size, root, index, leaf)
}

// leafAt returns the hash of a leaf as its tile has it.
func (f *Front) leafAt(ctx context.Context, head ct.SignedHead, index uint64) (leaf [32]byte, err error) {
	of := ct.LeafTile(index, head.TreeSize)
	name := ct.TileName(of)
	content, err := f.read(ctx, name)
	if err != nil {
		return leaf, err
	}
	if len(content) != 32*of.W {
		return leaf, fmt.Errorf("%w: %s has %d bytes", log.ErrStore, name, len(content))
	}
	copy(leaf[:], content[32*(index%ct.TileWidth):])
	return leaf, nil
}

func hashesOf(proof [][32]byte) [][]byte {
	hashes := make([][]byte, 0, len(proof))
	for i := range proof {
		hashes = append(hashes, proof[i][:])
	}
	return hashes
}

// answerProof answers with a value that never changes, or returns the error.
func answerProof(w http.ResponseWriter, err error, value any) error {
	if err != nil {
		return err
	}
	w.Header().Set("Cache-Control", forEver)
	writeJSON(w, http.StatusOK, value)
	return nil
}
