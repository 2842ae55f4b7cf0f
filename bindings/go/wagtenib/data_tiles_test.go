package wagtenib_test

import (
	"bytes"
	"errors"
	"reflect"
	"slices"
	"testing"

	"golang.org/x/crypto/cryptobyte"

	"wagtenib/bindings/go/wagtenib"
)

// tileLeaf returns a TileLeaf (C2SP static-ct-api, "Log Entries") of a MerkleTreeLeaf. The precertificate is nil for a
// certificate.
func tileLeaf(leaf, precertificate []byte, issuers ...wagtenib.Hash) []byte {
	text := bytes.Clone(leaf[2:])
	if precertificate != nil {
		text = append(text, opaque(3, precertificate)...)
	}
	var fingerprints []byte
	for _, issuer := range issuers {
		fingerprints = append(fingerprints, issuer[:]...)
	}
	return append(text, opaque(2, fingerprints)...)
}

// These are the leaves of the tiles below. otherLeaf has an entry type that no entry has.
var (
	certificateLeaf    = leafOf(7, 0, opaque(3, []byte("DER")), []byte("index"))
	otherLeaf          = leafOf(7, 2, opaque(3, []byte("DER")), nil)
	precertificateLeaf = leafOf(1<<64-1, 1, append(bytes.Repeat([]byte{5}, 32), opaque(3, []byte("TBS"))...), nil)
)

func TestDataTileLeavesHaveTheirParts(t *testing.T) {
	root, intermediate := wagtenib.Hash{1}, wagtenib.Hash{2}
	tile := slices.Concat(
		tileLeaf(certificateLeaf, nil, intermediate, root),
		tileLeaf(precertificateLeaf, []byte("poisoned"), root),
		tileLeaf(certificateLeaf, nil),
	)
	before := bytes.Clone(tile)
	entries, err := wagtenib.DataTileLeaves(tile)
	if err != nil {
		t.Fatal(err)
	}
	due := []wagtenib.TileEntry{
		{Leaf: certificateLeaf, Timestamp: 7, Certificate: []byte("DER"), Extensions: []byte("index"),
			Issuers: []wagtenib.Hash{intermediate, root}},
		{Leaf: precertificateLeaf, Timestamp: 1<<64 - 1, Type: wagtenib.PrecertEntry, Certificate: []byte("TBS"),
			Extensions: []byte{}, Precertificate: []byte("poisoned"), Issuers: []wagtenib.Hash{root}},
		{Leaf: certificateLeaf, Timestamp: 7, Certificate: []byte("DER"), Extensions: []byte("index")},
	}
	if !reflect.DeepEqual(entries, due) {
		t.Errorf("%+v, and not %+v", entries, due)
	}
	if !bytes.Equal(tile, before) {
		t.Error("the tile was changed")
	}
}

func TestDataTileLeavesOfNoBytesAreNone(t *testing.T) {
	for _, tile := range [][]byte{nil, {}} {
		if entries, err := wagtenib.DataTileLeaves(tile); err != nil || len(entries) != 0 {
			t.Errorf("%v, %v", entries, err)
		}
	}
}

func TestFaultyDataTilesAreRefusedByNameAndEntry(t *testing.T) {
	whole := tileLeaf(certificateLeaf, nil, wagtenib.Hash{})
	partial := append(bytes.Clone(certificateLeaf[2:]), opaque(2, make([]byte, 16))...)
	for name, one := range map[string]struct {
		tile  []byte
		entry uint64
		due   error
	}{
		"cut in the second entry":       {append(bytes.Clone(whole), whole[:len(whole)-1]...), 1, wagtenib.ErrTruncated},
		"one byte more":                 {append(bytes.Clone(whole), 0), 1, wagtenib.ErrTruncated},
		"no precertificate":             {tileLeaf(precertificateLeaf, nil), 0, wagtenib.ErrTruncated},
		"an empty precertificate":       {tileLeaf(precertificateLeaf, []byte{}), 0, wagtenib.ErrEmptyVector},
		"an empty certificate":          {tileLeaf(leafOf(7, 0, opaque(3, nil), nil), nil), 0, wagtenib.ErrEmptyVector},
		"an entry of type 2":            {tileLeaf(otherLeaf, nil), 0, wagtenib.ErrBadEntryType},
		"16 bytes are no fingerprint":   {partial, 0, wagtenib.ErrPartialFingerprint},
		"half of the fingerprints":      {whole[:len(whole)-32], 0, wagtenib.ErrTruncated},
		"a fault after two good leaves": {slices.Concat(whole, whole, certificateLeaf[2:]), 2, wagtenib.ErrTruncated},
	} {
		entries, err := wagtenib.DataTileLeaves(one.tile)
		var fault *wagtenib.TileError
		if !errors.Is(err, one.due) || !errors.As(err, &fault) || fault.Entry != one.entry || entries != nil {
			t.Errorf("%s: %v, %v, but %v of entry %d is due", name, entries, err, one.due, one.entry)
		}
	}
}

// readTileLeaf reads the next TileLeaf, and returns the first error from the left.
func readTileLeaf(s *cryptobyte.String) (entry wagtenib.TileEntry, err error) {
	text := *s
	var timestamp uint64
	var entryType, size uint16
	var key, fingerprints []byte
	var certificate, extensions, precertificate cryptobyte.String
	switch {
	case !s.ReadUint64(&timestamp), !s.ReadUint16(&entryType):
		return entry, wagtenib.ErrTruncated
	case entryType > 1:
		return entry, wagtenib.ErrBadEntryType
	case entryType == 1 && !s.ReadBytes(&key, 32), !s.ReadUint24LengthPrefixed(&certificate):
		return entry, wagtenib.ErrTruncated
	case len(certificate) == 0:
		return entry, wagtenib.ErrEmptyVector
	case !s.ReadUint16LengthPrefixed(&extensions):
		return entry, wagtenib.ErrTruncated
	}
	leaf := append([]byte{0, 0}, text[:len(text)-len(*s)]...)
	switch {
	case entryType == 1 && !s.ReadUint24LengthPrefixed(&precertificate):
		return entry, wagtenib.ErrTruncated
	case entryType == 1 && len(precertificate) == 0:
		return entry, wagtenib.ErrEmptyVector
	case !s.ReadUint16(&size):
		return entry, wagtenib.ErrTruncated
	case size%32 != 0:
		return entry, wagtenib.ErrPartialFingerprint
	case !s.ReadBytes(&fingerprints, int(size)):
		return entry, wagtenib.ErrTruncated
	}
	entry = wagtenib.TileEntry{
		Leaf:           leaf,
		Timestamp:      timestamp,
		Type:           wagtenib.EntryType(entryType),
		Certificate:    certificate,
		Extensions:     extensions,
		Precertificate: precertificate,
	}
	for issuer := range slices.Chunk(fingerprints, 32) {
		entry.Issuers = append(entry.Issuers, wagtenib.Hash(issuer))
	}
	return entry, nil
}

// FuzzDataTileLeaves compares the entries of a tile, or the first error and its entry, with a reader that this file
// implements from C2SP static-ct-api.
func FuzzDataTileLeaves(f *testing.F) {
	second := tileLeaf(precertificateLeaf, []byte("poisoned"), wagtenib.Hash{})
	whole := append(tileLeaf(certificateLeaf, nil, wagtenib.Hash{}), second...)
	f.Add([]byte(nil))
	f.Add(whole)
	f.Add(whole[:len(whole)-1])
	f.Add(append(bytes.Clone(whole), 0))
	f.Add(append(bytes.Clone(certificateLeaf[2:]), opaque(2, make([]byte, 16))...))
	f.Add(tileLeaf(otherLeaf, nil))
	f.Add(tileLeaf(leafOf(7, 0, opaque(3, nil), nil), nil))
	f.Fuzz(func(t *testing.T, tile []byte) {
		var due []wagtenib.TileEntry
		var fault error
		for s := cryptobyte.String(tile); len(s) > 0 && fault == nil; {
			var entry wagtenib.TileEntry
			if entry, fault = readTileLeaf(&s); fault == nil {
				due = append(due, entry)
			}
		}
		got, err := wagtenib.DataTileLeaves(tile)
		var faulty *wagtenib.TileError
		if fault != nil {
			if !errors.Is(err, fault) || !errors.As(err, &faulty) || faulty.Entry != uint64(len(due)) || got != nil {
				t.Fatalf("%x: %v, but %v of entry %d is due", tile, err, fault, len(due))
			}
			return
		}
		if err != nil || len(got) != len(due) {
			t.Fatalf("%x: %v, and %d entries, but %d are due", tile, err, len(got), len(due))
		}
		for i, entry := range got {
			same := bytes.Equal(entry.Leaf, due[i].Leaf) && entry.Timestamp == due[i].Timestamp && entry.Type == due[i].Type &&
				bytes.Equal(entry.Certificate, due[i].Certificate) && bytes.Equal(entry.Extensions, due[i].Extensions) &&
				bytes.Equal(entry.Precertificate, due[i].Precertificate) && slices.Equal(entry.Issuers, due[i].Issuers)
			if !same {
				t.Fatalf("%x: entry %d is %+v, but %+v is due", tile, i, entry, due[i])
			}
		}
	})
}

// indexed returns an entry of a data tile whose extensions contain this index of the log (leaf_index, C2SP
// static-ct-api).
func indexed(index byte) []byte {
	return tileLeaf(leafOf(7, 0, opaque(3, []byte("DER")), []byte{0, 0, 5, 0, 0, 0, 0, index}), nil)
}

func TestDataTilesAreComparedWithTheirNames(t *testing.T) {
	two := slices.Concat(indexed(0), indexed(1))
	for _, one := range []struct {
		name  string
		next  uint64
		tile  []byte
		index uint64
		due   error
	}{
		{"tile/data/000.p/2", 0, two, 0, nil},
		{"tile/data/000.p/2", 1, two, 0, nil},
		{"tile/data/000.p/2", 2, two, 0, wagtenib.ErrTileBefore},
		{"tile/data/001.p/2", 255, two, 0, wagtenib.ErrTileAfter},
		{"tile/0/000.p/2", 0, two, 0, wagtenib.ErrNoDataTile},
		{"tile/data/000.p/3", 0, two, 2, wagtenib.ErrOtherEntries},
		{"tile/data/000.p/2", 0, slices.Concat(indexed(0), indexed(2)), 1, wagtenib.ErrWrongIndex},
		{"tile/data/000.p/2", 1, slices.Concat(indexed(1), indexed(1)), 0, nil},
		{"tile/data/001.p/1", 256, indexed(0), 256, wagtenib.ErrWrongIndex},
		{"tile/data/000.p/2", 0, two[:len(two)-1], 1, wagtenib.ErrTruncated},
	} {
		index, err := wagtenib.CompareDataTile(one.name, one.next, one.tile)
		if index != one.index || !errors.Is(err, one.due) {
			t.Errorf("%s from %d on: %d, %v, and %d, %v is due", one.name, one.next, index, err, one.index, one.due)
		}
	}
}
