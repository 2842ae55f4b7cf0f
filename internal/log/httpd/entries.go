package httpd

import (
	"context"
	"crypto/sha256"
	"encoding/base64"
	"encoding/hex"
	"encoding/json"
	"errors"
	"fmt"
	"net/http"
	"net/url"
	"sync"

	"golang.org/x/crypto/cryptobyte"

	"wagtenib/internal/blob"
	"wagtenib/internal/ct"
	"wagtenib/internal/log"
)

// getSTH answers with the newest published head (RFC 6962, section 4.3).
func (f *Front) getSTH(w http.ResponseWriter, r *http.Request) error {
	ctx, cancel := f.reading(r)
	defer cancel()
	head, err := f.log.Checkpoint(ctx)
	if err != nil {
		return err
	}
	answer, err := ct.WriteSTH(head)
	if err != nil {
		return fmt.Errorf("%w: %v", log.ErrStore, err)
	}
	w.Header().Set("Cache-Control", forASecond)
	writeJSON(w, http.StatusOK, answer)
	return nil
}

// entryOf is one entry in an answer to get-entries (RFC 6962, section 4.6).
type entryOf struct {
	LeafInput []byte `json:"leaf_input"`
	ExtraData []byte `json:"extra_data"`
}

// getEntries answers with the requested entries of the newest head. It stops at the end of the data tile of the first
// entry, and at the bounds MaxEntries and MaxEntryBytes.
func (f *Front) getEntries(w http.ResponseWriter, r *http.Request) error {
	_, numbers, err := numbersOf(r, "start", "end")
	if err != nil {
		return err
	}
	start, end := numbers[0], numbers[1]
	if start > end {
		return badParameter("start is after end")
	}
	ctx, cancel := f.reading(r)
	defer cancel()
	entries, err := f.entries(ctx, start, end)
	if err != nil {
		return err
	}
	text, err := json.Marshal(struct {
		Entries []entryOf `json:"entries"`
	}{entries})
	if err != nil {
		return err
	}
	w.Header().Set("Cache-Control", forASecond)
	f.writePacked(w, r, "application/json", append(text, '\n'))
	return nil
}

func badParameter(detail string) error {
	return refusal{status: http.StatusBadRequest, name: "bad-parameter", detail: detail}
}

// textOf returns the value of a parameter that must occur exactly once in a query.
func textOf(query url.Values, name string) (string, error) {
	switch len(query[name]) {
	case 0:
		return "", badParameter(name + " is missing")
	case 1:
		return query[name][0], nil
	}
	return "", badParameter(name + " occurs more than once")
}

func parameter(query url.Values, name string) (uint64, error) {
	text, err := textOf(query, name)
	if err != nil {
		return 0, err
	}
	value, ok := number(text, blob.MaxNumber)
	if !ok {
		return 0, badParameter(fmt.Sprintf("%s is a number from 0 to %d", name, uint64(blob.MaxNumber)))
	}
	return value, nil
}

func (f *Front) entries(ctx context.Context, start, end uint64) ([]entryOf, error) {
	leaves, err := f.dataTile(ctx, start, end)
	if err != nil {
		return nil, err
	}
	var entries []entryOf
	bytes := 0
	for at := start % ct.TileWidth; at < uint64(len(leaves)) && len(entries) < MaxEntries && start+
		uint64(len(entries)) <= end; at++ {
		entry, err := f.entryOf(ctx, &leaves[at])
		if err != nil {
			return nil, err
		}
		bytes += len(entry.LeafInput) + len(entry.ExtraData)
		if len(entries) > 0 && bytes > MaxEntryBytes {
			break
		}
		entries = append(entries, entry)
	}
	return entries, nil
}

// dataTile reads the data tile of an entry, as wide as it is in a head with all entries up to end, or in the newest
// head. A partial tile may be deleted between reading the head and the tile, after the full tile was stored. Then
// dataTile reads both again.
func (f *Front) dataTile(ctx context.Context, index, end uint64) ([]ct.Leaf, error) {
	if last := index - index%ct.TileWidth + ct.TileWidth - 1; end > last {
		end = last
	}
	for again := false; ; again = true {
		head, err := f.headOf(ctx, end+1, again)
		if err != nil {
			return nil, err
		}
		if index >= head.TreeSize {
			return nil, badParameter(fmt.Sprintf("the log has %d entries", head.TreeSize))
		}
		of := ct.DataTile(index, head.TreeSize)
		name := ct.TileName(of)
		content, err := f.read(ctx, name)
		if errors.Is(err, blob.ErrAbsent) && of.W != ct.TileWidth && !again {
			continue
		}
		if err != nil {
			return nil, missing(err)
		}
		leaves, err := ct.ReadDataTile(content)
		if err != nil || len(leaves) != of.W {
			return nil, fmt.Errorf("%w: %s is not a tile of %d entries", log.ErrStore, name, of.W)
		}
		return leaves, nil
	}
}

// entryOf returns the entry of a leaf as RFC 6962 defines it: a MerkleTreeLeaf (section 3.4) and the chain (section
// 4.6). A precertificate has a PrecertChainEntry, and a certificate only its certificate_chain.
func (f *Front) entryOf(ctx context.Context, leaf *ct.Leaf) (entryOf, error) {
	var extra cryptobyte.Builder
	if leaf.Type == ct.PrecertEntry {
		extra.AddUint24LengthPrefixed(func(b *cryptobyte.Builder) { b.AddBytes(leaf.Precertificate) })
	}
	var fault error
	extra.AddUint24LengthPrefixed(func(chain *cryptobyte.Builder) {
		for rest := leaf.Chain; len(rest) > 0 && fault == nil; rest = rest[sha256.Size:] {
			var certificate []byte
			if certificate, fault = f.issuerOf(ctx, *(*[32]byte)(rest)); fault == nil {
				chain.AddUint24LengthPrefixed(func(b *cryptobyte.Builder) { b.AddBytes(certificate) })
			}
		}
	})
	if fault != nil {
		return entryOf{}, fault
	}
	data, err := extra.Bytes()
	if err != nil {
		return entryOf{}, fmt.Errorf("%w: a chain that is too long: %v", log.ErrStore, err)
	}
	entry := entryOf{leaf.Input(), data}
	// The answer has both in base64, and is held until it is sent. Its bytes must be counted before it is made, because
	// issuers may make it ten times as long as its tile.
	length := base64.StdEncoding.EncodedLen(len(entry.LeafInput)) + base64.StdEncoding.EncodedLen(len(entry.ExtraData))
	if err := heldIn(ctx).change(int64(length)); err != nil {
		return entryOf{}, err
	}
	return entry, nil
}

// maxIssuerBytes is the maximum number of bytes of issuers in the cache.
const maxIssuerBytes = 16 << 20

// issuers is a cache of issuers.
type issuers struct {
	mutex sync.Mutex
	kept  map[[32]byte][]byte
	bytes int
}

// issuerOf returns the issuer with a fingerprint. It checks the fingerprint of what it reads.
func (f *Front) issuerOf(ctx context.Context, fingerprint [32]byte) ([]byte, error) {
	f.issuers.mutex.Lock()
	certificate := f.issuers.kept[fingerprint]
	f.issuers.mutex.Unlock()
	if certificate != nil {
		return certificate, nil
	}
	name := "issuer/" + hex.EncodeToString(fingerprint[:])
	certificate, err := f.read(ctx, name)
	if err != nil {
		return nil, missing(err)
	}
	if sha256.Sum256(certificate) != fingerprint {
		return nil, fmt.Errorf("%w: %s has another content", log.ErrStore, name)
	}
	f.issuers.mutex.Lock()
	defer f.issuers.mutex.Unlock()
	if f.issuers.kept == nil || f.issuers.bytes+len(certificate) > maxIssuerBytes {
		f.issuers.kept, f.issuers.bytes = map[[32]byte][]byte{}, 0
	}
	if _, there := f.issuers.kept[fingerprint]; !there {
		f.issuers.kept[fingerprint] = certificate
		f.issuers.bytes += len(certificate)
	}
	return certificate, nil
}
