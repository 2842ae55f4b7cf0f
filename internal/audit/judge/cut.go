package judge

import (
	"bytes"
	"crypto/sha256"
	"crypto/x509"
	"encoding/asn1"
	"encoding/hex"
)

// The object identifiers in RFC 6962, section 3.1, and RFC 5280.
var (
	poisonID    = asn1.ObjectIdentifier{1, 3, 6, 1, 4, 1, 11129, 2, 4, 3}
	signingID   = asn1.ObjectIdentifier{1, 3, 6, 1, 4, 1, 11129, 2, 4, 4}
	authorityID = asn1.ObjectIdentifier{2, 5, 29, 35}
)

// extension is an extension of a certificate.
type extension struct {
	ID       asn1.ObjectIdentifier
	Critical bool `asn1:"optional"`
	Value    []byte
}

// Precertificates checks the precertificates of a log in which Folder found no fault, and returns their number. The
// TBSCertificate in each leaf must be that of its precertificate without the poison, and with the name and the key
// identifier of the final issuer (RFC 6962, section 3.2). The key hash in the leaf must be that of the final issuer.
func Precertificates(path string) (count int, err error) {
	f := &folder{objects: map[string][]byte{}}
	if err := f.read(path); err != nil {
		return 0, err
	}
	var size uint64
	for name := range f.objects {
		if parts := headForm.FindStringSubmatch(name); parts != nil {
			if of := number(parts[1]); of > size {
				size = of
			}
		}
	}
	if err := f.readLeaves(size); err != nil {
		return 0, err
	}
	for i, l := range f.leaves {
		if l.precertificate == nil {
			continue
		}
		count++
		var issuers [][]byte
		for _, issuer := range l.issuers {
			issuers = append(issuers, f.objects["issuer/"+hex.EncodeToString(issuer[:])])
		}
		keyHash, tbs, err := entryOf(l.precertificate, issuers)
		if err != nil {
			return 0, wrong("leaf %d: its precertificate: %v", i, err)
		}
		// The entry begins with the type, the key hash, and three bytes of length.
		if !bytes.Equal(l.entry[2:34], keyHash[:]) {
			return 0, wrong("leaf %d has another issuer's key hash than its precertificate", i)
		}
		if !bytes.Equal(l.entry[37:], tbs) {
			return 0, wrong("leaf %d differs from its precertificate without the poison", i)
		}
	}
	return count, nil
}

// number reads decimal digits.
func number(digits string) (n uint64) {
	for _, digit := range digits {
		n = 10*n + uint64(digit-'0')
	}
	return n
}

// entryOf returns the entry of a precertificate: the final issuer's key hash and the TBSCertificate.
func entryOf(precertificate []byte, issuers [][]byte) (keyHash hash, tbs []byte, err error) {
	if len(issuers) == 0 {
		return keyHash, nil, wrong("it has no issuer")
	}
	issuer, err := x509.ParseCertificate(issuers[0])
	if err != nil {
		return keyHash, nil, err
	}
	var signing *x509.Certificate
	for _, purpose := range issuer.UnknownExtKeyUsage {
		if purpose.Equal(signingID) {
			signing = issuer
		}
	}
	if signing != nil {
		if len(issuers) < 2 {
			return keyHash, nil, wrong("its signing certificate has no issuer")
		}
		if issuer, err = x509.ParseCertificate(issuers[1]); err != nil {
			return keyHash, nil, err
		}
	}
	fields, err := inside(precertificate)
	if err != nil || len(fields) != 3 {
		return keyHash, nil, wrong("it is not a certificate: %v", err)
	}
	tbs, err = cut(fields[0].FullBytes, signing)
	return sha256.Sum256(issuer.RawSubjectPublicKeyInfo), tbs, err
}

// cut returns a precertificate's TBSCertificate without the poison. If there is a signing certificate, it replaces the
// issuer and the authority key identifier by those of the signing certificate.
func cut(tbs []byte, signing *x509.Certificate) ([]byte, error) {
	fields, err := inside(tbs)
	if err != nil || len(fields) == 0 {
		return nil, wrong("it has no TBSCertificate: %v", err)
	}
	last := len(fields) - 1
	if fields[last].Class != asn1.ClassContextSpecific || fields[last].Tag != 3 {
		return nil, wrong("it has no extensions")
	}
	var result []byte
	names := 0
	for _, field := range fields[:last] {
		// The issuer is the second SEQUENCE, after the signature's algorithm.
		isSequence := field.Class == asn1.ClassUniversal && field.Tag == asn1.TagSequence
		if isSequence {
			names++
		}
		if isSequence && names == 2 && signing != nil {
			result = append(result, signing.RawIssuer...)
		} else {
			result = append(result, field.FullBytes...)
		}
	}
	lists, err := elements(fields[last].Bytes)
	if err != nil || len(lists) != 1 {
		return nil, wrong("its extensions are not a list: %v", err)
	}
	extensions, err := withoutPoison(lists[0].Bytes, signing)
	if err != nil {
		return nil, err
	}
	if len(extensions) > 0 {
		result = append(result, wrap(0xa3, wrap(0x30, extensions))...)
	}
	return wrap(0x30, result), nil
}

// withoutPoison returns extensions without the one poison. If there is a signing certificate, it replaces the authority
// key identifier by that of the signing certificate.
func withoutPoison(list []byte, signing *x509.Certificate) (extensions []byte, err error) {
	all, err := elements(list)
	if err != nil {
		return nil, err
	}
	poisons := 0
	for _, whole := range all {
		var one extension
		if rest, err := asn1.Unmarshal(whole.FullBytes, &one); err != nil || len(rest) > 0 {
			return nil, wrong("an extension is malformed: %v", err)
		}
		switch {
		case one.ID.Equal(poisonID):
			poisons++
		case one.ID.Equal(authorityID) && signing != nil:
			replaced := false
			for _, of := range signing.Extensions {
				if of.Id.Equal(authorityID) {
					one.Value, replaced = of.Value, true
				}
			}
			encoded, err := asn1.Marshal(one)
			if err != nil || !replaced {
				return nil, wrong("its signing certificate has no authority key identifier: %v", err)
			}
			extensions = append(extensions, encoded...)
		default:
			extensions = append(extensions, whole.FullBytes...)
		}
	}
	if poisons != 1 {
		return nil, wrong("it has the poison %d times", poisons)
	}
	return extensions, nil
}

// inside returns the elements of a SEQUENCE. There must be no bytes after it.
func inside(der []byte) ([]asn1.RawValue, error) {
	var outer asn1.RawValue
	rest, err := asn1.Unmarshal(der, &outer)
	if err != nil || len(rest) > 0 || outer.Class != asn1.ClassUniversal || outer.Tag != asn1.TagSequence {
		return nil, wrong("it is not a SEQUENCE: %v", err)
	}
	return elements(outer.Bytes)
}

// elements splits bytes into DER elements.
func elements(der []byte) (all []asn1.RawValue, err error) {
	for len(der) > 0 {
		var one asn1.RawValue
		if der, err = asn1.Unmarshal(der, &one); err != nil {
			return nil, err
		}
		all = append(all, one)
	}
	return all, nil
}

// wrap returns the DER element with this identifier and this content.
func wrap(tag byte, content []byte) []byte {
	length := len(content)
	switch {
	case length < 0x80:
		return append([]byte{tag, byte(length)}, content...)
	case length < 0x100:
		return append([]byte{tag, 0x81, byte(length)}, content...)
	case length < 0x10000:
		return append([]byte{tag, 0x82, byte(length >> 8), byte(length)}, content...)
	}
	return append([]byte{tag, 0x83, byte(length >> 16), byte(length >> 8), byte(length)}, content...)
}
