package chain

import (
	"bytes"

	"golang.org/x/crypto/cryptobyte"
	"golang.org/x/crypto/cryptobyte/asn1"
)

// poisonID is the poison extension's OBJECT IDENTIFIER, 1.3.6.1.4.1.11129.2.4.3, without its header (RFC 6962, section
// 3.1).
var poisonID = []byte{0x2b, 6, 1, 4, 1, 0xd6, 0x79, 2, 4, 3}

// extensionsIn splits a TBSCertificate. It returns all bytes of the fields before the extensions, and the bytes of all
// extensions. There are none if the TBSCertificate has no such field.
func extensionsIn(tbs []byte) (before, extensions cryptobyte.String, ok bool) {
	input := cryptobyte.String(tbs)
	var fields, explicit cryptobyte.String
	if !input.ReadASN1(&fields, asn1.SEQUENCE) || !input.Empty() {
		return nil, nil, false
	}
	rest := fields
	for !rest.Empty() && !rest.PeekASN1Tag(tagExtensions) {
		var field cryptobyte.String
		var tag asn1.Tag
		if !rest.ReadAnyASN1Element(&field, &tag) {
			return nil, nil, false
		}
	}
	before = fields[:len(fields)-len(rest)]
	if rest.Empty() {
		return before, nil, true
	}
	ok = rest.ReadASN1(&explicit, tagExtensions) && rest.Empty() && explicit.ReadASN1(&extensions, asn1.SEQUENCE) &&
		explicit.Empty() && !extensions.Empty()
	return before, extensions, ok
}

// withoutPoison returns extensions without the poison. ok is whether the poison occurs exactly once.
func withoutPoison(extensions cryptobyte.String) (kept []byte, ok bool) {
	poisons := 0
	for !extensions.Empty() {
		var whole, content, identifier cryptobyte.String
		if !extensions.ReadASN1Element(&whole, asn1.SEQUENCE) {
			return nil, false
		}
		element := whole
		if !element.ReadASN1(&content, asn1.SEQUENCE) || !content.ReadASN1(&identifier, asn1.OBJECT_IDENTIFIER) {
			return nil, false
		}
		if bytes.Equal(identifier, poisonID) {
			poisons++
		} else {
			kept = append(kept, whole...)
		}
	}
	return kept, poisons == 1
}

// isCut reports whether an entry is a precertificate's TBSCertificate without the poison extension, and has no other
// difference except in the lengths around it. The function that makes entries is proved to do so. This check also finds
// faults of the call itself. A wrong entry would not be found later, since there is no root hash to compare it with.
func isCut(tbs, entry []byte) bool {
	before, extensions, ok := extensionsIn(tbs)
	entryBefore, entryExtensions, entryOK := extensionsIn(entry)
	if !ok || !entryOK {
		return false
	}
	kept, ok := withoutPoison(extensions)
	return ok && bytes.Equal(before, entryBefore) && bytes.Equal(kept, entryExtensions)
}
