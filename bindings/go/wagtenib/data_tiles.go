//go:build linux && (amd64 || arm64)

package wagtenib

// #cgo nocallback wagtenib_data_tile_leaves
// #cgo noescape wagtenib_data_tile_leaves
// #cgo nocallback wagtenib_compare_data_tile
// #cgo noescape wagtenib_compare_data_tile
// #include "wagtenib.h"
import "C"

import (
	"encoding/binary"
	"fmt"
	"unsafe"
)

// entriesOfTile is the number of entries of a full data tile (C2SP static-ct-api).
const entriesOfTile = 256

// numbersOfEntry is the number of bytes that the library writes for an entry in addition to its leaf: the length of the
// leaf, and two positions with their lengths.
const numbersOfEntry = 5 * sizeOfLength

// TileEntry is an entry of a data tile. Its slices share memory with the tile and one buffer, and must not be changed.
type TileEntry struct {
	Leaf           []byte    // the MerkleTreeLeaf (RFC 6962, section 3.4): the bytes that are hashed
	Timestamp      uint64    // milliseconds since 1970
	Type           EntryType // X509Entry or PrecertEntry
	Certificate    []byte    // the certificate, or the TBSCertificate of a PrecertEntry: what WatchedNames takes with Type
	Extensions     []byte    // the CtExtensions, without their length
	Precertificate []byte    // the precertificate that was submitted, of a PrecertEntry, otherwise nil
	Issuers        []Hash    // the SHA-256 fingerprints of the issuers, in the order of the chain
}

// TileError is the error of bytes that are not a data tile. It has the first malformed entry, and its first error. It
// wraps the Code, so errors.Is finds the error.
type TileError struct {
	Code  Code
	Entry uint64 // index in the tile
}

// Error returns a sentence with the error and the index.
func (e *TileError) Error() string {
	return fmt.Sprintf("%v (entry %d of the data tile, counted from 0)", e.Code, e.Entry)
}

// Unwrap returns the Code.
func (e *TileError) Unwrap() error { return e.Code }

// DataTileLeaves returns the entries of a data tile (C2SP static-ct-api, "Log Entries"), in order. It reads any number
// of entries, including none, and does not check the extensions of an entry. CompareDataTile compares the entries with
// the tile's name.
//
// The error is nil, ErrMemory, or a *TileError of ErrTruncated, ErrBadEntryType, ErrEmptyVector or
// ErrPartialFingerprint.
func DataTileLeaves(tile []byte) ([]TileEntry, error) {
	var faulty C.uint64_t
	call := func(out *C.uint8_t, room C.size_t, length *C.uint64_t) C.uint32_t {
		return C.wagtenib_data_tile_leaves(ofBytes(tile), C.size_t(len(tile)), out, room, length, &faulty)
	}
	text, code := output(len(tile)+entriesOfTile*numbersOfEntry, call)
	if code != C.WAGTENIB_OK && code != C.WAGTENIB_OUT_OF_MEMORY {
		return nil, &TileError{Code(code), uint64(faulty)}
	}
	if err := result(code); err != nil {
		return nil, err
	}
	entries := make([]TileEntry, 0, entriesOfTile)
	for len(text) > 0 {
		length := binary.BigEndian.Uint64(text)
		text = text[sizeOfLength:]
		entry, err := tileEntry(tile, text[:length:length], text[length:])
		if err != nil {
			return nil, err
		}
		entries = append(entries, entry)
		text = text[length+numbersOfEntry-sizeOfLength:]
	}
	return entries, nil
}

// CompareDataTile compares a data tile with its name ("tile/data/.."), for a reader that has the entries of the log
// before the index next. The error is nil if the tile is the data tile of this name, has as many entries as the name
// says and the entry at next, and if the extensions of each entry from that one on contain exactly its own index
// (leaf_index, C2SP static-ct-api).
//
// Otherwise the error is the first of these: ErrNoDataTile, ErrTileAfter, ErrTileBefore; ErrTruncated, ErrBadEntryType,
// ErrEmptyVector or ErrPartialFingerprint, with the index in the tile of the malformed entry; ErrOtherEntries, with the
// number of entries as index; ErrWrongIndex, with the index in the log of the first wrong entry. Or it is ErrMemory.
func CompareDataTile(name string, next uint64, tile []byte) (index uint64, err error) {
	bytes, found := []byte(name), C.uint64_t(0)
	err = result(C.wagtenib_compare_data_tile(ofBytes(bytes), C.size_t(len(bytes)), C.uint64_t(next), ofBytes(tile),
		C.size_t(len(tile)), &found))
	return uint64(found), err
}

// tileEntry returns the entry of a tile that has this leaf. At these positions the tile has what was submitted and the
// fingerprints of the issuers.
func tileEntry(tile, leaf, places []byte) (TileEntry, error) {
	fields, err := DecodeLeaf(leaf)
	if err != nil {
		return TileEntry{}, err
	}
	entry := TileEntry{
		Leaf:        leaf,
		Timestamp:   fields.Timestamp,
		Type:        fields.EntryType,
		Certificate: fields.Certificate,
		Extensions:  fields.Extensions,
	}
	if entry.Type == PrecertEntry {
		entry.Precertificate = partAt(tile, places)
	}
	if fingerprints := partAt(tile, places[2*sizeOfLength:]); len(fingerprints) > 0 {
		first := (*Hash)(unsafe.Pointer(unsafe.SliceData(fingerprints)))
		entry.Issuers = unsafe.Slice(first, len(fingerprints)/HashSize)
	}
	return entry, nil
}

// partAt returns the part of a tile whose position and length are in numbers.
func partAt(tile, numbers []byte) []byte {
	start := binary.BigEndian.Uint64(numbers)
	end := start + binary.BigEndian.Uint64(numbers[sizeOfLength:])
	return tile[start:end:end]
}
