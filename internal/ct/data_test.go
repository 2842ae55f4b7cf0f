package ct_test

import (
	"bytes"
	"crypto/sha256"
	"encoding/hex"
	"errors"
	"strings"
	"testing"

	"wagtenib/internal/ct"
)

// These are a leaf of each type, field by field (C2SP static-ct-api, "Log Entries"; RFC 6962, section 3.4). The
// timestamp is 1,700,000,000,123 ms, and the index 0x0102030405.
const (
	timestamp  = "0000018bcfe5687b"
	extensions = "0008" + "000005" + "0102030405"
	keyHash    = "0707070707070707070707070707070707070707070707070707070707070707"
	issuer     = "547d825e0942d2c98fdf8e6cf1bf8c54b2e8d06624ba7d0c7bb1f297b5f6f766"
	plain      = timestamp + "0000" + "000003" + "300141" + extensions + "0020" + issuer
	pre        = timestamp + "0001" + keyHash + "000003" + "300154" + extensions + "000003" + "300150" + "0000"
)

func unhex(t testing.TB, text string) []byte {
	t.Helper()
	content, err := hex.DecodeString(text)
	if err != nil {
		t.Fatal(err)
	}
	return content
}

func TestReadsDataTile(t *testing.T) {
	leaves, err := ct.ReadDataTile(unhex(t, plain+pre))
	if err != nil || len(leaves) != 2 {
		t.Fatalf("%d leaves, %v", len(leaves), err)
	}
	for i, expected := range []struct {
		entryType                                          ct.EntryType
		keyHash, certificate, precertificate, chain, entry string
	}{
		{ct.X509Entry, "", "300141", "", issuer, timestamp + "0000" + "000003" + "300141" + extensions},
		{ct.PrecertEntry, keyHash, "300154", "300150", "", timestamp + "0001" + keyHash + "000003" + "300154" +
			extensions},
	} {
		l := &leaves[i]
		index, ok := l.Index()
		if l.Timestamp != 1_700_000_000_123 || l.Type != expected.entryType || index != 0x0102030405 || !ok {
			t.Errorf("leaf %d has the timestamp %d, the type %d and the index %x, %t", i, l.Timestamp, l.Type, index, ok)
		}
		for what, it := range map[string]struct {
			found    []byte
			expected string
		}{
			"issuer's key hash": {l.IssuerKeyHash, expected.keyHash}, "certificate": {l.Certificate, expected.certificate},
			"extensions":     {l.Extensions, extensions[4:]},
			"precertificate": {l.Precertificate, expected.precertificate}, "chain": {l.Chain, expected.chain},
			"entry": {l.Entry, expected.entry}, "input": {l.Input(), "0000" + expected.entry},
		} {
			if hex.EncodeToString(it.found) != it.expected {
				t.Errorf("the %s of leaf %d is %x, expected %s", what, i, it.found, it.expected)
			}
		}
		if l.Hash() != sha256.Sum256(append([]byte{0}, unhex(t, "0000"+expected.entry)...)) {
			t.Errorf("the hash of leaf %d is wrong", i)
		}
	}
	// Bytes that are appended to an entry must not change the tile.
	_ = append(leaves[0].Entry, make([]byte, 40)...)
	if !bytes.Equal(leaves[0].Chain, unhex(t, issuer)) {
		t.Error("a leaf's chain was overwritten")
	}
}

// TestRefusesDataTile checks that incomplete leaves and wrong fields are refused.
func TestRefusesDataTile(t *testing.T) {
	refused := map[string]string{
		"an unknown type":           strings.Replace(plain, timestamp+"0000", timestamp+"0002", 1),
		"half of a fingerprint":     strings.Replace(plain, "0020"+issuer, "0010"+issuer[:32], 1),
		"a byte after the last one": plain + "00",
		"257 leaves":                strings.Repeat(plain, ct.TileWidth+1),
	}
	for what, text := range refused {
		if leaves, err := ct.ReadDataTile(unhex(t, text)); !errors.Is(err, ct.ErrDataTile) || leaves != nil {
			t.Errorf("%s: %d leaves, %v", what, len(leaves), err)
		}
	}
	for _, whole := range [][]byte{unhex(t, plain), unhex(t, pre)} {
		for n := 1; n < len(whole); n++ {
			if leaves, err := ct.ReadDataTile(whole[:n]); !errors.Is(err, ct.ErrDataTile) || leaves != nil {
				t.Errorf("the first %d bytes of %x: %d leaves, %v", n, whole, len(leaves), err)
			}
		}
	}
	if _, err := ct.ReadDataTile(unhex(t, pre+plain+"00")); err == nil || !strings.Contains(err.Error(), "entry 2 ") {
		t.Errorf("the error does not name the third entry: %v", err)
	}
	if leaves, err := ct.ReadDataTile(unhex(t, strings.Repeat(plain, ct.TileWidth))); err != nil || len(leaves) != ct.TileWidth {
		t.Errorf("a full tile is %d leaves, %v", len(leaves), err)
	}
	if leaves, err := ct.ReadDataTile(nil); err != nil || len(leaves) != 0 {
		t.Errorf("no bytes are %d leaves, %v", len(leaves), err)
	}
}

// TestFirstEntries checks that a tile is cut after its first entries, whatever follows them.
func TestFirstEntries(t *testing.T) {
	tile := unhex(t, plain+pre+"07")
	for count, expected := range []string{"", plain, plain + pre} {
		if first, ok := ct.FirstEntries(tile, count); !ok || hex.EncodeToString(first) != expected {
			t.Errorf("the first %d entries are %x, %t", count, first, ok)
		}
	}
	if first, ok := ct.FirstEntries(tile, 3); ok || first != nil {
		t.Errorf("the first 3 entries of 2 are %x", first)
	}
}

func TestIndex(t *testing.T) {
	for _, index := range []uint64{0, 1, 255, 0x0102030405, 1<<40 - 1} {
		l := ct.Leaf{Extensions: ct.IndexExtension(index)}
		if found, ok := l.Index(); found != index || !ok || len(l.Extensions) != 8 {
			t.Errorf("%d is written as %x, and read as %d, %t", index, l.Extensions, found, ok)
		}
	}
	for _, other := range []string{"", "0000050102030405ff", "00000501020304", "0100050102030405", "0000040102030405",
		"000005010203040500000501020304ff"} {
		if found, ok := (&ct.Leaf{Extensions: unhex(t, other)}).Index(); ok || found != 0 {
			t.Errorf("%s is read as %d", other, found)
		}
	}
}

// FuzzReadDataTile checks that a data tile is read completely or not at all, and that its entries contain all of its
// bytes.
func FuzzReadDataTile(f *testing.F) {
	whole := unhex(f, plain+pre)
	f.Add(whole)
	f.Add(whole[:len(whole)-1])
	f.Add([]byte{0, 0, 0, 0, 0, 0, 0, 1, 0, 1})
	f.Fuzz(func(t *testing.T, content []byte) {
		leaves, err := ct.ReadDataTile(content)
		if err != nil {
			if leaves != nil {
				t.Fatal("entries are returned with an error")
			}
			return
		}
		var again []byte
		for _, leaf := range leaves {
			again = append(again, leaf.Entry...)
			if leaf.Type == ct.PrecertEntry {
				n := len(leaf.Precertificate)
				again = append(append(again, byte(n>>16), byte(n>>8), byte(n)), leaf.Precertificate...)
			}
			again = append(append(again, byte(len(leaf.Chain)>>8), byte(len(leaf.Chain))), leaf.Chain...)
		}
		if !bytes.Equal(again, content) {
			t.Fatalf("%x is read as %x", content, again)
		}
	})
}
