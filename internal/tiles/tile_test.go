package tiles

import (
	"bytes"
	"context"
	"encoding/binary"
	"errors"
	"fmt"
	"testing"

	"wagtenib/internal/blob"
	"wagtenib/internal/ct"
)

// leafOf returns a TileLeaf of a certificate (C2SP static-ct-api, "Log Entries").
func leafOf(index uint64, certificate string) []byte {
	leaf := binary.BigEndian.AppendUint64(nil, 1800000000000+index)
	leaf = append(leaf, 0, 0, 0, 0, byte(len(certificate)))
	leaf = append(leaf, certificate...)
	extensions := ct.IndexExtension(index)
	leaf = append(binary.BigEndian.AppendUint16(leaf, uint16(len(extensions))), extensions...)
	return append(leaf, 0, 0)
}

// TestReadsPartialTileOutOfFullOne checks that a deleted partial tile is read as the beginning of its full one.
func TestReadsPartialTileOutOfFullOne(t *testing.T) {
	var data, partial []byte
	for i := range uint64(ct.TileWidth) {
		data = append(data, leafOf(i, fmt.Sprintf("certificate %*d", i%7, i))...)
		if i == 2 {
			partial = bytes.Clone(data)
		}
	}
	hashes := bytes.Repeat([]byte("0123456789abcdef0123456789abcdef"), ct.TileWidth)
	broken := errors.New("broken")
	read := Stored(func(_ context.Context, name string) ([]byte, error) {
		switch name {
		case "tile/data/000":
			return data, nil
		case "tile/0/000", "tile/0/001.p/4":
			return hashes, nil
		case "tile/0/002":
			return hashes[:31], nil
		case "tile/0/003":
			return nil, broken
		}
		return nil, blob.ErrAbsent
	})
	for name, expected := range map[string][]byte{"tile/data/000.p/3": partial, "tile/0/000.p/2": hashes[:64],
		"tile/0/001.p/4": hashes} {
		if content, err := read(context.Background(), name); err != nil || !bytes.Equal(content, expected) {
			t.Errorf("%s has %d bytes, expected %d: %v", name, len(content), len(expected), err)
		}
	}
	for name, expected := range map[string]error{"tile/0/002.p/1": ErrDamaged, "tile/0/003.p/1": broken,
		"tile/0/004.p/1": ErrDamaged, "tile/0/004": ErrDamaged, "tile/0/000.p/0": ErrDamaged} {
		if _, err := read(context.Background(), name); !errors.Is(err, expected) {
			t.Errorf("%s: %v, expected %v", name, err, expected)
		}
	}
}
