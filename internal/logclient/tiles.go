package logclient

import (
	"context"
	"crypto/sha256"
	"encoding/hex"
	"errors"
	"fmt"

	"wagtenib/bindings/go/wagtenib"
	"wagtenib/internal/ct"
)

// The limits of the answers of a tiled log, in bytes.
const (
	maxCheckpoint = 64 << 10
	// This is enough for 256 entries with certificates of 128 KiB each, and the fingerprints of their chains.
	maxDataTile = 48 << 20
	maxIssuer   = 1 << 20
)

// Checkpoint returns the log's checkpoint, a signed note (C2SP static-ct-api). It verifies nothing.
func (c *Client) Checkpoint(ctx context.Context) ([]byte, error) {
	return c.get(ctx, "checkpoint", nil, maxCheckpoint, nil)
}

// HashTile returns a hash tile by its name, which RootTiles, PathTiles or ProofTiles of the library returned. If a
// partial tile no longer exists, its content is cut from the full tile (C2SP tlog-tiles). The error wraps ErrNonsense
// if the tile has not as many bytes as its name implies.
func (c *Client) HashTile(ctx context.Context, name string) ([]byte, error) {
	const maxBytes = ct.TileWidth * wagtenib.HashSize
	full, width, isPartial := ct.FullTileName(name)
	if !isPartial {
		width = ct.TileWidth
	}
	content, err := c.get(ctx, name, nil, maxBytes, nil)
	if errors.Is(err, ErrNotFound) && isPartial {
		content, err = c.get(ctx, full, nil, maxBytes, nil)
		if err == nil && len(content) == maxBytes {
			content = content[:width*wagtenib.HashSize]
		}
	}
	if err != nil {
		return nil, err
	}
	if len(content) != width*wagtenib.HashSize {
		return nil, fmt.Errorf("%s: %w: it has %d bytes, and %d are expected", name, ErrNonsense, len(content),
			width*wagtenib.HashSize)
	}
	return content, nil
}

// DataTile is a data tile (C2SP static-ct-api, "Log Entries").
type DataTile struct {
	Index uint64 // of the tile
	Name  string
	Width int    // the number of entries
	Bytes []byte // the entries, of which there may be more than Width if the partial tile was gone
}

// DataTiles reads the data tiles of a tree of size leaves, from the tile with the entry start on, and calls use for
// each, in order. more is true if the next tile has already been read. An error of use ends the reading, and is
// returned as it is.
func (c *Client) DataTiles(ctx context.Context, start, size uint64, use func(tile DataTile, more bool) error) error {
	index := start / ct.TileWidth
	next := func() (piece, bool) {
		if index*ct.TileWidth >= size {
			return piece{}, false
		}
		one := piece{index * ct.TileWidth, min((index+1)*ct.TileWidth, size)}
		index++
		return one, true
	}
	return inOrder(ctx, c, next, func(ctx context.Context, one piece, ahead *reservation) (DataTile, error) {
		return c.dataTile(ctx, one.start/ct.TileWidth, size, ahead)
	}, use)
}

func (c *Client) dataTile(ctx context.Context, index, size uint64, ahead *reservation) (DataTile, error) {
	of := ct.DataTile(index*ct.TileWidth, size)
	name := ct.TileName(of)
	content, err := c.get(ctx, name, nil, maxDataTile, ahead)
	if full, _, isPartial := ct.FullTileName(name); errors.Is(err, ErrNotFound) && isPartial {
		content, err = c.get(ctx, full, nil, maxDataTile, ahead)
	}
	return DataTile{Index: index, Name: name, Width: of.W, Bytes: content}, err
}

// Issuer returns the certificate with this SHA-256 fingerprint, in DER (C2SP static-ct-api, "Issuers"). The error wraps
// ErrNonsense if the answer has another fingerprint.
func (c *Client) Issuer(ctx context.Context, fingerprint [sha256.Size]byte) ([]byte, error) {
	name := "issuer/" + hex.EncodeToString(fingerprint[:])
	content, err := c.get(ctx, name, nil, maxIssuer, nil)
	if err != nil {
		return nil, err
	}
	if sha256.Sum256(content) != fingerprint {
		return nil, fmt.Errorf("%s: %w: it has another hash", name, ErrNonsense)
	}
	return content, nil
}
