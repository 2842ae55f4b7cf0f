package archive

import (
	"crypto/sha256"
	"encoding/hex"
	"fmt"

	"golang.org/x/crypto/cryptobyte"

	"wagtenib/bindings/go/wagtenib"
	"wagtenib/internal/logclient"
)

// entry is an entry of an answer to get-entries, in the form of a data tile.
type entry struct {
	leaf     []byte // MerkleTreeLeaf (RFC 6962, section 3.4)
	tileLeaf []byte // TileLeaf (C2SP static-ct-api, "Log Entries"), with the extensions of the leaf, whatever they are
	issuers  [][]byte
}

// readEntry reads an entry (RFC 6962, sections 3.4 and 4.6). The error says which part is wrong.
func readEntry(raw logclient.RawEntry) (entry, error) {
	leaf, err := wagtenib.DecodeLeaf(raw.LeafInput)
	if err != nil {
		return entry{}, fmt.Errorf("leaf_input: %w", err)
	}
	extra := cryptobyte.String(raw.ExtraData)
	var precertificate, chain cryptobyte.String
	if leaf.EntryType == wagtenib.PrecertEntry && !extra.ReadUint24LengthPrefixed(&precertificate) ||
		!extra.ReadUint24LengthPrefixed(&chain) || !extra.Empty() {
		return entry{}, fmt.Errorf("extra_data: it is not the chain of an entry of type %d", leaf.EntryType)
	}
	of := entry{leaf: raw.LeafInput}
	var fingerprints []byte
	for !chain.Empty() {
		var issuer cryptobyte.String
		if !chain.ReadUint24LengthPrefixed(&issuer) || issuer.Empty() {
			return entry{}, fmt.Errorf("extra_data: certificate %d of the chain is cut off", len(of.issuers)+1)
		}
		fingerprint := sha256.Sum256(issuer)
		of.issuers = append(of.issuers, issuer)
		fingerprints = append(fingerprints, fingerprint[:]...)
	}
	// A TimestampedEntry comes after the version and the type of the leaf.
	const beforeEntry = 2
	var builder cryptobyte.Builder
	builder.AddBytes(raw.LeafInput[beforeEntry:])
	if leaf.EntryType == wagtenib.PrecertEntry {
		builder.AddUint24LengthPrefixed(func(b *cryptobyte.Builder) { b.AddBytes(precertificate) })
	}
	builder.AddUint16LengthPrefixed(func(b *cryptobyte.Builder) { b.AddBytes(fingerprints) })
	if of.tileLeaf, err = builder.Bytes(); err != nil {
		return entry{}, fmt.Errorf("extra_data: a chain of %d certificates: %w", len(of.issuers), err)
	}
	return of, nil
}

// issuerName returns the name of an issuer's object (C2SP static-ct-api, "Issuers").
func issuerName(fingerprint [sha256.Size]byte) string {
	return "issuer/" + hex.EncodeToString(fingerprint[:])
}
