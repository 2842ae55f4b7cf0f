package wagtenib_test

import (
	"bytes"
	"crypto/sha256"
	"crypto/x509/pkix"
	"errors"
	"testing"

	"golang.org/x/crypto/cryptobyte"
	"golang.org/x/crypto/cryptobyte/asn1"

	"wagtenib/bindings/go/wagtenib"
)

const (
	versionTag    = asn1.Tag(0xa0)
	extensionsTag = asn1.Tag(0xa3)
)

// poisonBytes has the poison extension in its only form (RFC 6962, section 3.1).
var poisonBytes = []byte("\x30\x13\x06\x0a\x2b\x06\x01\x04\x01\xd6\x79\x02\x04\x03\x01\x01\xff\x04\x02\x05\x00")

// The object identifiers of the poison and of the list of SCTs, without their headers.
var (
	poisonName = poisonBytes[4:14]
	listName   = append(bytes.Clone(poisonName[:9]), 2)
)

// tbsRead is a TBSCertificate (RFC 5280, section 4.1): its fields before the extensions, its subjectPublicKeyInfo, and
// its extensions.
type tbsRead struct {
	before, key []byte
	extensions  [][2][]byte // the name of each, and all its bytes
}

// onlyElement returns the content of an element with this tag, if all bytes are one such element, by cryptobyte.
func onlyElement(der []byte, tag asn1.Tag) (content cryptobyte.String, ok bool) {
	s := cryptobyte.String(der)
	return content, s.ReadASN1(&content, tag) && s.Empty()
}

// readExtensions reads the extensions of a TBSCertificate. Each has a name, possibly a BOOLEAN, and an OCTET STRING.
func readExtensions(der []byte) (found [][2][]byte, ok bool) {
	inner, ok := onlyElement(der, extensionsTag)
	listed, isList := onlyElement(inner, asn1.SEQUENCE)
	if !ok || !isList {
		return nil, false
	}
	for !listed.Empty() {
		var whole, name, value cryptobyte.String
		if !listed.ReadASN1Element(&whole, asn1.SEQUENCE) {
			return nil, false
		}
		fields, _ := onlyElement(whole, asn1.SEQUENCE)
		if !fields.ReadASN1(&name, asn1.OBJECT_IDENTIFIER) || !fields.SkipOptionalASN1(asn1.BOOLEAN) ||
			!fields.ReadASN1(&value, asn1.OCTET_STRING) || !fields.Empty() {
			return nil, false
		}
		found = append(found, [2][]byte{name, whole})
	}
	return found, true
}

// readTBS reads the fields of a TBSCertificate up to its key, or all fields if whole is true.
func readTBS(der []byte, whole bool) (tbs tbsRead, ok bool) {
	all, ok := onlyElement(der, asn1.SEQUENCE)
	rest := all
	ok = ok && rest.SkipOptionalASN1(versionTag) && rest.SkipASN1(asn1.INTEGER)
	for range 4 { // signature, issuer, validity and subject
		ok = ok && rest.SkipASN1(asn1.SEQUENCE)
	}
	var key cryptobyte.String
	if ok = ok && rest.ReadASN1Element(&key, asn1.SEQUENCE); !ok || !whole {
		return tbsRead{key: key}, ok
	}
	if !rest.SkipOptionalASN1(asn1.Tag(0x81)) || !rest.SkipOptionalASN1(asn1.Tag(0x82)) {
		return tbs, false
	}
	tbs = tbsRead{before: all[:len(all)-len(rest)], key: key}
	if !rest.Empty() {
		tbs.extensions, ok = readExtensions(rest)
	}
	return tbs, ok
}

// readCertificate returns the TBSCertificate of a certificate (RFC 5280, section 4.1) if all bytes are one certificate.
func readCertificate(der []byte) (tbs []byte, ok bool) {
	fields, ok := onlyElement(der, asn1.SEQUENCE)
	var element, signature cryptobyte.String
	ok = ok && fields.ReadASN1Element(&element, asn1.SEQUENCE) && fields.SkipASN1(asn1.SEQUENCE) &&
		fields.ReadASN1(&signature, asn1.BIT_STRING) && fields.Empty()
	return element, ok
}

// element returns a DER element (X.690, section 10.1), by cryptobyte.
func element(tag asn1.Tag, parts ...[]byte) []byte {
	var b cryptobyte.Builder
	b.AddASN1(tag, func(b *cryptobyte.Builder) { b.AddBytes(bytes.Join(parts, nil)) })
	return b.BytesOrPanic()
}

// without returns the TBSCertificate without the extension of this name, and the number of extensions with this name.
func (tbs tbsRead) without(name []byte) (der, found []byte, count int) {
	var kept []byte
	for _, one := range tbs.extensions {
		if bytes.Equal(one[0], name) {
			found, count = one[1], count+1
			continue
		}
		kept = append(kept, one[1]...)
	}
	if len(kept) > 0 {
		return element(asn1.SEQUENCE, tbs.before, element(extensionsTag, element(asn1.SEQUENCE, kept))), found, count
	}
	return element(asn1.SEQUENCE, tbs.before), found, count
}

// extensionsFault returns the expected error of a TBSCertificate with this number of extensions of a name.
func extensionsFault(count int) error {
	switch count {
	case 0:
		return wagtenib.ErrNoExtension
	case 1:
		return nil
	}
	return wagtenib.ErrSecondExtension
}

// isUnread fails the test unless the error is a DER error in a field of this document.
func isUnread(t *testing.T, err error, ofIssuer bool) {
	t.Helper()
	var unfit *wagtenib.CertificateError
	if !errors.As(err, &unfit) || !unfit.IsDER() && !errors.Is(err, wagtenib.ErrSecondExtension) ||
		(unfit.Field > 16) != ofIssuer || unfit.Field%16 == 0 || unfit.Field%16 > 14 {
		t.Fatalf("what cannot be read gives %v", err)
	}
}

func FuzzPrecertificateEntry(f *testing.F) {
	a := newAuthority(f)
	other := pkix.Extension{Id: oidList, Value: []byte("another")}
	plain := poison
	plain.Critical = false
	for _, extensions := range [][]pkix.Extension{nil, {poison}, {other, poison}, {poison, other}, {plain}} {
		f.Add(a.issue(f, extensions...).RawTBSCertificate)
	}
	for _, seed := range [][]byte{nil, {0x30, 0x80, 0, 0}, {0x30, 0x81, 0}, {0x3f, 0}, {0x30, 3, 2, 1, 7},
		element(asn1.SEQUENCE, tinyFields(), element(extensionsTag, element(asn1.SEQUENCE, poisonBytes))),
		element(asn1.SEQUENCE, tinyFields(), element(extensionsTag, element(asn1.SEQUENCE, poisonBytes, poisonBytes)))} {
		f.Add(seed)
	}
	f.Fuzz(func(t *testing.T, der []byte) {
		entry, err := wagtenib.PrecertificateEntry(der)
		tbs, ok := readTBS(der, true)
		if !ok {
			if entry != nil {
				t.Fatalf("%x gives %x", der, entry)
			}
			isUnread(t, err, false)
			return
		}
		want, found, count := tbs.without(poisonName)
		due := extensionsFault(count)
		if due == nil && !bytes.Equal(found, poisonBytes) {
			due = wagtenib.ErrBadPoison
		}
		if !errors.Is(err, due) || due == nil && !bytes.Equal(entry, want) || due != nil && entry != nil {
			t.Fatalf("%x gives %x, %v, but %x, %v is due", der, entry, err, want, due)
		}
	})
}

// tinyFields returns the fields of a TBSCertificate before its extensions, each in its shortest form.
func tinyFields() []byte {
	return append([]byte{2, 1, 7}, bytes.Repeat([]byte{0x30, 0}, 5)...)
}

// tinyCertificate returns a certificate with these extensions.
func tinyCertificate(extensions ...[]byte) []byte {
	tbs := element(asn1.SEQUENCE, tinyFields(), element(extensionsTag, element(asn1.SEQUENCE, extensions...)))
	return element(asn1.SEQUENCE, tbs, []byte{0x30, 0, 3, 1, 0})
}

func FuzzPromisedLeaf(f *testing.F) {
	list := element(asn1.SEQUENCE, element(asn1.OBJECT_IDENTIFIER, listName),
		element(asn1.OCTET_STRING, []byte("timestamps")))
	a := newAuthority(f)
	f.Add(a.issue(f, pkix.Extension{Id: oidList, Value: []byte{4, 3, 0, 1, 0}}).Raw, a.root.Raw, uint64(7),
		[]byte("extensions"))
	for _, certificate := range [][]byte{nil, tinyCertificate(), tinyCertificate(list), tinyCertificate(list, list),
		tinyCertificate(list, poisonBytes), tinyCertificate(list)[1:], append(tinyCertificate(list), 0)} {
		f.Add(certificate, tinyCertificate(list), uint64(1<<64-1), []byte(nil))
		f.Add(tinyCertificate(list), certificate, uint64(0), make([]byte, 65_535))
	}
	f.Add([]byte(nil), []byte(nil), uint64(0), make([]byte, 65_536))
	f.Fuzz(func(t *testing.T, certificate, issuer []byte, timestamp uint64, extensions []byte) {
		promise := wagtenib.Promise{Certificate: certificate, Issuer: issuer, Timestamp: timestamp, Extensions: extensions}
		leaf, err := wagtenib.PromisedLeaf(promise)
		if also := wagtenib.CheckPromise(promise, 0, 1, nil, wagtenib.LeafHash(leaf)); (err == nil) != (also == nil) ||
			err != nil && (leaf != nil || err.Error() != also.Error()) {
			t.Fatalf("%v, but CheckPromise gives %v", err, also)
		}
		if len(extensions) > 65_535 {
			if !errors.Is(err, wagtenib.ErrExtensionsTooLong) {
				t.Fatal(err)
			}
			return
		}
		der, isCertificate := readCertificate(certificate)
		tbs, isTBS := readTBS(der, true)
		if !isCertificate || !isTBS {
			isUnread(t, err, false)
			return
		}
		entry, _, count := tbs.without(listName)
		if due := extensionsFault(count); due != nil {
			if !errors.Is(err, due) {
				t.Fatalf("%x: %v, but %v is due", certificate, err, due)
			}
			return
		}
		der, isCertificate = readCertificate(issuer)
		of, isTBS := readTBS(der, false)
		if !isCertificate || !isTBS {
			isUnread(t, err, true)
			return
		}
		hash := sha256.Sum256(of.key)
		if want := leafOf(timestamp, 1, append(hash[:], opaque(3, entry)...), extensions); err != nil ||
			!bytes.Equal(leaf, want) {
			t.Fatalf("%x, %v, but %x is due", leaf, err, want)
		}
	})
}
