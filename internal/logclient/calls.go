package logclient

import (
	"bytes"
	"context"
	"encoding/base64"
	"encoding/json"
	"fmt"
	"net/url"
	"strconv"

	"wagtenib/bindings/go/wagtenib"
)

// The limits of the answers of a log of RFC 6962.
const (
	maxSTH     = 64 << 10 // bytes
	maxProof   = 64 << 10 // bytes
	maxEntries = 64 << 20 // bytes of one answer
	maxRoots   = 32 << 20 // bytes
	maxPath    = 64       // hashes of a path or proof
)

// page is the number of entries that one request asks for. Many logs return no more, and end their answers at multiples
// of it.
const page = 256

// call makes a call (RFC 6962, section 4), reads its JSON answer into `into`, and also returns the answer's bytes.
func (c *Client) call(ctx context.Context, name string, query url.Values, maxBytes int64, ahead *reservation,
	into any) ([]byte, error) {
	content, err := c.get(ctx, "ct/v1/"+name, query, maxBytes, ahead)
	if err != nil {
		return nil, err
	}
	if trimmed := bytes.TrimSpace(content); len(trimmed) == 0 || trimmed[0] != '{' {
		return nil, fmt.Errorf("ct/v1/%s: %w: it is not a JSON object (%.40q)", name, ErrNonsense, trimmed)
	}
	if err := json.Unmarshal(content, into); err != nil {
		return nil, fmt.Errorf("ct/v1/%s: %w: %v", name, ErrNonsense, err)
	}
	return content, nil
}

// STH returns the unchanged answer to get-sth (RFC 6962, section 4.3). It verifies nothing.
func (c *Client) STH(ctx context.Context) ([]byte, error) {
	var anything map[string]json.RawMessage
	return c.call(ctx, "get-sth", nil, maxSTH, nil, &anything)
}

// hashes converts the hashes of an answer to hashes of the library.
func hashes(name string, given [][]byte) ([]wagtenib.Hash, error) {
	if len(given) > maxPath {
		return nil, fmt.Errorf("ct/v1/%s: %w: %d hashes, and a proof has at most %d", name, ErrNonsense, len(given), maxPath)
	}
	result := make([]wagtenib.Hash, len(given))
	for i, one := range given {
		if len(one) != wagtenib.HashSize {
			return nil, fmt.Errorf("ct/v1/%s: %w: a hash of %d bytes", name, ErrNonsense, len(one))
		}
		result[i] = wagtenib.Hash(one)
	}
	return result, nil
}

// Consistency returns the proof from the tree of the first leaves to that of the second (get-sth-consistency; RFC 6962,
// section 4.4). It does not check the proof.
func (c *Client) Consistency(ctx context.Context, first, second uint64) ([]wagtenib.Hash, error) {
	const name = "get-sth-consistency"
	query := url.Values{"first": {strconv.FormatUint(first, 10)}, "second": {strconv.FormatUint(second, 10)}}
	var answer struct {
		Consistency [][]byte `json:"consistency"`
	}
	if _, err := c.call(ctx, name, query, maxProof, nil, &answer); err != nil {
		return nil, err
	}
	return hashes(name, answer.Consistency)
}

// ProofByHash returns the index and the audit path of the leaf with this hash in the tree of size leaves
// (get-proof-by-hash; RFC 6962, section 4.5). It does not check them. The error wraps ErrNotFound or ErrStatus if the
// log has no such leaf.
func (c *Client) ProofByHash(ctx context.Context, leafHash wagtenib.Hash, size uint64) (index uint64,
	path []wagtenib.Hash, err error) {
	const name = "get-proof-by-hash"
	query := url.Values{"hash": {toBase64(leafHash[:])}, "tree_size": {strconv.FormatUint(size, 10)}}
	var answer struct {
		Index *uint64  `json:"leaf_index"`
		Path  [][]byte `json:"audit_path"`
	}
	if _, err := c.call(ctx, name, query, maxProof, nil, &answer); err != nil {
		return 0, nil, err
	}
	if answer.Index == nil {
		return 0, nil, fmt.Errorf("ct/v1/%s: %w: no leaf_index", name, ErrNonsense)
	}
	path, err = hashes(name, answer.Path)
	return *answer.Index, path, err
}

// Roots returns the root certificates that the log accepts, in DER (get-roots; RFC 6962, section 4.7).
func (c *Client) Roots(ctx context.Context) ([][]byte, error) {
	var answer struct {
		Certificates [][]byte `json:"certificates"`
	}
	_, err := c.call(ctx, "get-roots", nil, maxRoots, nil, &answer)
	return answer.Certificates, err
}

// RawEntry is an entry of an answer to get-entries (RFC 6962, section 4.6).
type RawEntry struct {
	LeafInput []byte `json:"leaf_input"` // MerkleTreeLeaf
	ExtraData []byte `json:"extra_data"` // the chain; of a precertificate it begins with the precertificate
}

// entryList reads the first entries of an answer. A log can put millions of empty entries into the bytes of an answer,
// so those after the requested number take no memory.
type entryList struct {
	max     int
	entries []RawEntry
}

// UnmarshalJSON reads the first entries of an array.
func (l *entryList) UnmarshalJSON(content []byte) error {
	from := json.NewDecoder(bytes.NewReader(content))
	if token, err := from.Token(); err != nil || token != json.Delim('[') {
		return fmt.Errorf("it is not an array (%.40q)", content)
	}
	for from.More() && len(l.entries) < l.max {
		var one RawEntry
		if err := from.Decode(&one); err != nil {
			return err
		}
		l.entries = append(l.entries, one)
	}
	return nil
}

// Page has consecutive entries.
type Page struct {
	Start   uint64 // the index of the first one
	Entries []RawEntry
}

// Entries reads the entries from the index start on, before end, and calls use for each page, in order. more is true if
// the next entries have already been read. An error of use ends the reading, and is returned as it is.
func (c *Client) Entries(ctx context.Context, start, end uint64, use func(entries Page, more bool) error) error {
	next := func() (piece, bool) {
		if start >= end {
			return piece{}, false
		}
		one := piece{start, min(start/page*page+page, end)}
		start = one.end
		return one, true
	}
	return inOrder(ctx, c, next, c.page, use)
}

// page reads the entries of a piece. A log may return fewer than the request asks for, so several requests may be
// necessary. Their answers have a common limit.
func (c *Client) page(ctx context.Context, of piece, ahead *reservation) (Page, error) {
	const name = "get-entries"
	result, left := Page{Start: of.start}, c.limits.Page
	for at := of.start; at < of.end; at = of.start + uint64(len(result.Entries)) {
		query := url.Values{"start": {strconv.FormatUint(at, 10)}, "end": {strconv.FormatUint(of.end-1, 10)}}
		var answer struct {
			Entries entryList `json:"entries"`
		}
		answer.Entries.max = int(of.end - at)
		content, err := c.call(ctx, name, query, min(maxEntries, left), ahead, &answer)
		if err != nil {
			return Page{}, err
		}
		left -= int64(len(content))
		if len(answer.Entries.entries) == 0 {
			return Page{}, fmt.Errorf("ct/v1/%s: %w: no entries from %d on, although the log has signed %d", name,
				ErrNonsense, at,
				of.end)
		}
		result.Entries = append(result.Entries, answer.Entries.entries...)
	}
	return result, nil
}

func toBase64(content []byte) string { return base64.StdEncoding.EncodeToString(content) }
