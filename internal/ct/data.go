package ct

import (
	"bytes"
	"crypto/sha256"
	"encoding/binary"
	"errors"
	"fmt"

	"golang.org/x/crypto/cryptobyte"
)

// ErrDataTile means that bytes are not a data tile.
var ErrDataTile = errors.New("tile: not a data tile")

// Leaf is an entry of a data tile (TileLeaf). Its fields share memory with the tile.
type Leaf struct {
	// Timestamp is in milliseconds since 1970.
	Timestamp uint64
	Type      EntryType
	// IssuerKeyHash has 32 bytes if the entry is a precertificate. Certificate is the certificate, or the
	// TBSCertificate of the precertificate.
	IssuerKeyHash, Certificate []byte
	// Extensions are the extensions of the SCT, without their length.
	Extensions []byte
	// Entry is the TimestampedEntry (RFC 6962, section 3.4), from the timestamp to the extensions.
	Entry []byte
	// Precertificate is the precertificate, if the entry is one.
	Precertificate []byte
	// Chain has the SHA-256 fingerprints of the issuers, 32 bytes each.
	Chain []byte
}

// Input returns the bytes of the leaf in the tree, a MerkleTreeLeaf. It begins with two zero bytes, the version v1 and
// the type timestamped_entry, before the entry (RFC 6962, section 3.4).
func (l *Leaf) Input() []byte { return append([]byte{0, 0}, l.Entry...) }

// Hash returns the hash of the leaf (RFC 6962, section 2.1).
func (l *Leaf) Hash() (hash [32]byte) {
	of := sha256.New()
	of.Write([]byte{0, 0, 0})
	of.Write(l.Entry)
	of.Sum(hash[:0])
	return hash
}

// leafIndex is the beginning of the extension leaf_index: its type 0, and two bytes with the length of an index.
var leafIndex = []byte{0, 0, 5}

// Index returns the index of the leaf in the log. ok is false unless leaf_index is the only extension.
func (l *Leaf) Index() (index uint64, ok bool) {
	if len(l.Extensions) != len(leafIndex)+5 || !bytes.HasPrefix(l.Extensions, leafIndex) {
		return 0, false
	}
	return binary.BigEndian.Uint64(append([]byte{0, 0, 0}, l.Extensions[len(leafIndex):]...)), true
}

// IndexExtension returns extensions with only the index of a leaf, which must be below 2^40.
func IndexExtension(index uint64) []byte {
	return append(leafIndex[:len(leafIndex):len(leafIndex)], binary.BigEndian.AppendUint64(nil, index)[3:]...)
}

// ReadDataTile returns the leaves of a data tile, at most TileWidth. The error wraps ErrDataTile. The programs that check
// a log from outside (internal/audit/judge, tests/clients/tlog) have a reader of their own.
func ReadDataTile(tile []byte) (leaves []Leaf, err error) {
	for rest := cryptobyte.String(tile); !rest.Empty(); {
		leaf, ok := readLeaf(&rest)
		if !ok {
			return nil, fmt.Errorf("%w: entry %d is invalid", ErrDataTile, len(leaves))
		}
		if len(leaves) == TileWidth {
			return nil, fmt.Errorf("%w: it has more than %d entries", ErrDataTile, TileWidth)
		}
		leaves = append(leaves, leaf)
	}
	return leaves, nil
}

// FirstEntries returns the beginning of a data tile with this number of entries. It checks only that these entries can
// be read, and not what they contain. ok is false if the tile does not begin with so many entries. A log can put
// millions of tiny entries into a tile, and those that follow take no memory.
func FirstEntries(tile []byte, count int) (beginning []byte, ok bool) {
	rest := cryptobyte.String(tile)
	for range count {
		if _, ok := readLeaf(&rest); !ok {
			return nil, false
		}
	}
	return tile[:len(tile)-len(rest)], true
}

// readLeaf reads the leaf at the beginning of the bytes, and removes it from them.
func readLeaf(tile *cryptobyte.String) (leaf Leaf, ok bool) {
	whole := *tile
	var certificate, extensions, precertificate, fingerprints cryptobyte.String
	var of uint16
	if !tile.ReadUint64(&leaf.Timestamp) || !tile.ReadUint16(&of) {
		return leaf, false
	}
	switch leaf.Type = EntryType(of); leaf.Type {
	case X509Entry:
	case PrecertEntry:
		if !tile.ReadBytes(&leaf.IssuerKeyHash, sha256.Size) {
			return leaf, false
		}
	default:
		return leaf, false
	}
	if !tile.ReadUint24LengthPrefixed(&certificate) || !tile.ReadUint16LengthPrefixed(&extensions) {
		return leaf, false
	}
	leaf.Entry = whole[: len(whole)-len(*tile) : len(whole)-len(*tile)]
	if leaf.Type == PrecertEntry && !tile.ReadUint24LengthPrefixed(&precertificate) {
		return leaf, false
	}
	if !tile.ReadUint16LengthPrefixed(&fingerprints) || len(fingerprints)%sha256.Size != 0 {
		return leaf, false
	}
	leaf.Certificate, leaf.Extensions, leaf.Precertificate, leaf.Chain = certificate, extensions, precertificate, fingerprints
	return leaf, true
}
