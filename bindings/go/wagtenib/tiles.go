//go:build linux && (amd64 || arm64)

package wagtenib

// #cgo nocallback wagtenib_root_tiles
// #cgo noescape wagtenib_root_tiles
// #cgo nocallback wagtenib_path_tiles
// #cgo noescape wagtenib_path_tiles
// #cgo nocallback wagtenib_proof_tiles
// #cgo noescape wagtenib_proof_tiles
// #cgo nocallback wagtenib_root_of_tiles
// #cgo noescape wagtenib_root_of_tiles
// #cgo nocallback wagtenib_path_of_tiles
// #cgo noescape wagtenib_path_of_tiles
// #cgo nocallback wagtenib_proof_of_tiles
// #cgo noescape wagtenib_proof_of_tiles
// #include "wagtenib.h"
import "C"

import (
	"bytes"
	"strings"
	"unsafe"
)

// The room for results: the names of two tiles of each of eight levels, and a hash for each level of a tree, plus one
// more in a proof.
const (
	namesRoom  = 16 * 48
	hashesRoom = 65
)

// namesOf returns the names of tiles that a call writes. Each name ends with a line feed.
func namesOf(call func(out *C.uint8_t, room C.size_t, length *C.uint64_t) C.uint32_t) ([]string, error) {
	text, code := output(namesRoom, call)
	if err := result(code); err != nil {
		return nil, err
	}
	return strings.Split(strings.TrimSuffix(string(text), "\n"), "\n"), nil
}

// joined returns tiles one after the other, and a pointer to their lengths.
func joined(tiles [][]byte) (contents []byte, lengths *C.uint64_t, count C.size_t) {
	numbers := make([]C.uint64_t, max(len(tiles), 1))
	for i, tile := range tiles {
		numbers[i] = C.uint64_t(len(tile))
	}
	return bytes.Join(tiles, nil), unsafe.SliceData(numbers), C.size_t(len(tiles))
}

// hashesOf returns the hashes that a call writes.
func hashesOf(call func(out *C.uint8_t, room C.size_t, count *C.uint64_t) C.uint32_t) ([]Hash, error) {
	out := make([]Hash, hashesRoom)
	var count C.uint64_t
	code := call(ofHashes(out), C.size_t(len(out)), &count)
	if code == C.WAGTENIB_NO_ROOM {
		out = make([]Hash, count)
		code = call(ofHashes(out), C.size_t(len(out)), &count)
	}
	if err := result(code); err != nil {
		return nil, err
	}
	return out[:count:count], nil
}

// RootTiles returns the names (C2SP tlog-tiles) of the tiles from which the root of the first size leaves is computed,
// the lowest level first. The error is nil, ErrEmptyTree or ErrMemory.
func RootTiles(size uint64) ([]string, error) {
	return namesOf(func(out *C.uint8_t, room C.size_t, length *C.uint64_t) C.uint32_t {
		return C.wagtenib_root_tiles(C.uint64_t(size), out, room, length)
	})
}

// PathTiles returns the names of the tiles from which the audit path of the leaf at index in the tree of size leaves is
// computed. The error is nil, ErrIndexOutOfRange or ErrMemory.
func PathTiles(index, size uint64) ([]string, error) {
	return namesOf(func(out *C.uint8_t, room C.size_t, length *C.uint64_t) C.uint32_t {
		return C.wagtenib_path_tiles(C.uint64_t(index), C.uint64_t(size), out, room, length)
	})
}

// ProofTiles returns the names of the tiles from which the consistency proof from the first leaves to second is
// computed. The error is nil, ErrSizesOutOfRange or ErrMemory.
func ProofTiles(first, second uint64) ([]string, error) {
	return namesOf(func(out *C.uint8_t, room C.size_t, length *C.uint64_t) C.uint32_t {
		return C.wagtenib_proof_tiles(C.uint64_t(first), C.uint64_t(second), out, room, length)
	})
}

// RootOfTiles returns the Merkle Tree Hash of the first size leaves (RFC 6962, section 2.1), from the tiles that
// RootTiles names, in this order. If these are the tiles of a list of leaves, it is the root of that list.
//
// The error is nil, or the first reason of ErrEmptyTree, ErrTooManyTiles, ErrMissingTile and ErrBadTile, or ErrMemory.
// The first wrong tile is the first one that is missing, or does not have 32 bytes for each of its hashes.
func RootOfTiles(size uint64, tiles [][]byte) (root Hash, err error) {
	contents, lengths, count := joined(tiles)
	err = result(C.wagtenib_root_of_tiles(C.uint64_t(size), ofBytes(contents), C.size_t(len(contents)), lengths, count,
		ofHash(&root)))
	return root, err
}

// PathOfTiles returns the audit path of the leaf at index in the tree of size leaves (RFC 6962, section 2.1.1), from
// the tiles that PathTiles names, in this order. Whatever the tiles are, VerifyInclusion decides whether the path leads
// to a root. The errors are those of RootOfTiles, with ErrIndexOutOfRange in place of ErrEmptyTree.
func PathOfTiles(index, size uint64, tiles [][]byte) ([]Hash, error) {
	contents, lengths, tileCount := joined(tiles)
	return hashesOf(func(out *C.uint8_t, room C.size_t, count *C.uint64_t) C.uint32_t {
		return C.wagtenib_path_of_tiles(C.uint64_t(index), C.uint64_t(size), ofBytes(contents), C.size_t(len(contents)),
			lengths, tileCount, out, room, count)
	})
}

// ProofOfTiles returns the consistency proof from the first leaves to second (RFC 6962, section 2.1.2), from the tiles
// that ProofTiles names, in this order. Whatever the tiles are, VerifyConsistency decides whether the proof leads to
// two roots. The errors are those of RootOfTiles, with ErrSizesOutOfRange in place of ErrEmptyTree.
func ProofOfTiles(first, second uint64, tiles [][]byte) ([]Hash, error) {
	contents, lengths, tileCount := joined(tiles)
	return hashesOf(func(out *C.uint8_t, room C.size_t, count *C.uint64_t) C.uint32_t {
		return C.wagtenib_proof_of_tiles(C.uint64_t(first), C.uint64_t(second), ofBytes(contents), C.size_t(len(contents)),
			lengths, tileCount, out, room, count)
	})
}
