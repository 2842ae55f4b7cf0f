package chain

import (
	"bytes"
	"crypto/sha256"
	"crypto/x509"
	"crypto/x509/pkix"
	"encoding/asn1"
	"errors"
	"math/big"
	"testing"
	"time"
	"wagtenib/internal/ct"
)

// seeds returns certificates: the real precertificates with their issuers, and some that crypto/x509 makes.
func seeds(t testing.TB) (certificates [][]byte) {
	for _, line := range realPrecertificates(t) {
		certificates = append(certificates, line.Chain...)
	}
	key := newKey(t)
	template := authority("a root")
	template.NotAfter = time.Unix(1798761600, 0)
	template.SubjectKeyId = []byte{1, 2, 3}
	certificates = append(certificates, signedBy(t, template, template, &key.PublicKey, key))
	template = &x509.Certificate{
		SerialNumber: big.NewInt(128), NotAfter: time.Unix(1798761600, 0), AuthorityKeyId: []byte{4, 5},
		ExtraExtensions: []pkix.Extension{{Id: oidPoison, Critical: true, Value: []byte{5, 0}},
			{Id: asn1.ObjectIdentifier{1, 2, 3}}},
		UnknownExtKeyUsage: []asn1.ObjectIdentifier{oidSignPrecertificate},
	}
	return append(certificates, signedBy(t, template, template, &key.PublicKey, key))
}

// values returns the values in a sequence of DER values, as encoding/asn1 reads them.
func values(der []byte) (found []asn1.RawValue, err error) {
	for err == nil && len(der) > 0 {
		var value asn1.RawValue
		der, err = asn1.Unmarshal(der, &value)
		found = append(found, value)
	}
	return found, err
}

// inside returns the values inside of a value. The bytes must be one value in DER.
func inside(der []byte) ([]asn1.RawValue, error) {
	var value asn1.RawValue
	rest, err := asn1.Unmarshal(der, &value)
	if err == nil && len(rest) > 0 {
		err = errors.New("there are bytes after it")
	}
	if err != nil {
		return nil, err
	}
	return values(value.Bytes)
}

// wrapped returns a value that contains these values.
func wrapped(class, tag int, inner []asn1.RawValue) asn1.RawValue {
	var content []byte
	for _, value := range inner {
		content = append(content, value.FullBytes...)
	}
	whole := asn1.RawValue{Class: class, Tag: tag, IsCompound: true, Bytes: content}
	// The error is ignored, since a value whose tag is below 31 always has an encoding.
	whole.FullBytes, _ = asn1.Marshal(whole)
	return whole
}

// poisoned returns a TBSCertificate with the poison extension at a place among its extensions.
func poisoned(t *testing.T, tbs []byte, place int) []byte {
	fields, err := inside(tbs)
	if err != nil {
		t.Fatal(err)
	}
	var extensions []asn1.RawValue
	if last := len(fields) - 1; fields[last].Class == asn1.ClassContextSpecific && fields[last].Tag == 3 {
		lists, err := values(fields[last].Bytes)
		if err != nil {
			t.Fatal(err)
		}
		if extensions, err = values(lists[0].Bytes); err != nil {
			t.Fatal(err)
		}
		fields = fields[:last]
	}
	extensions = append(extensions[:place:place], append([]asn1.RawValue{{FullBytes: poison}},
		extensions[place:]...)...)
	list := wrapped(asn1.ClassUniversal, asn1.TagSequence, extensions)
	fields = append(fields, wrapped(asn1.ClassContextSpecific, 3, []asn1.RawValue{list}))
	return wrapped(asn1.ClassUniversal, asn1.TagSequence, fields).FullBytes
}

// FuzzFinalIssuer: withFinalIssuer returns a TBSCertificate with the given name and key identifier, and with the poison
// at the same place, or it refuses the TBSCertificate.
func FuzzFinalIssuer(f *testing.F) {
	for _, der := range seeds(f) {
		if certificate, err := x509.ParseCertificate(der); err == nil {
			f.Add(certificate.RawTBSCertificate, []byte{0x30, 0}, []byte{1})
		}
	}
	f.Fuzz(func(t *testing.T, tbs, name, key []byte) {
		if _, err := inside(name); err != nil || name[0] != 0x30 {
			return // crypto/x509 does not read such a name
		}
		made, err := withFinalIssuer(tbs, &finalIssuer{name, key})
		if err != nil {
			if RefusalOf(err) == "" {
				t.Errorf("an error that is not a refusal: %v", err)
			}
			return
		}
		again, err := withFinalIssuer(made, &finalIssuer{name, key})
		if err != nil || !bytes.Equal(again, made) || !bytes.Contains(made, name) {
			t.Errorf("%x, %v", made, err)
		}
		entry, place, err := cutByASN1(tbs)
		if err != nil {
			return
		}
		if _, newPlace, err := cutByASN1(made); err != nil || newPlace != place {
			t.Errorf("%x: the poison is at %d, and was at %d: %v", made, newPlace, place, err)
		}
		if restored := poisoned(t, entry, place); !bytes.Equal(restored, tbs) {
			t.Errorf("%x\nwith the poison put back is\n%x", tbs, restored)
		}
	})
}

// FuzzChain: for any two certificates with any signatures, their chain has an entry that is made from them, or it is
// refused with a Refusal.
func FuzzChain(f *testing.F) {
	all := seeds(f)
	roots, err := ParseRoots(inPEM(all[1]))
	if err != nil {
		f.Fatal(err)
	}
	for i := range all {
		f.Add(all[i], all[(i+1)%len(all)])
	}
	c := NewChecker(roots, Rules{}, byASN1{})
	c.checkSignature = func(*certificate, *x509.Certificate) error { return nil }
	f.Fuzz(func(t *testing.T, first, second []byte) {
		for _, chain := range [][][]byte{{first}, {first, second}} {
			entry, err := c.Certificate(chain)
			if (entry == nil) == (RefusalOf(err) == "") {
				t.Errorf("a certificate: %v", err)
			}
			if entry != nil && !bytes.Equal(entry.Certificate, first) {
				t.Error("another certificate")
			}
			entry, err = c.Precertificate(chain)
			if (entry == nil) == (RefusalOf(err) == "") {
				t.Errorf("a precertificate: %v", err)
			}
			if entry != nil {
				checkEntry(t, entry, first)
			}
		}
	})
}

// checkEntry checks that the entry of a precertificate contains it, and has the key hash of one of its issuers.
func checkEntry(t *testing.T, entry *ct.Entry, first []byte) {
	found := false
	for _, der := range entry.Issuers {
		issuer, err := x509.ParseCertificate(der)
		found = found || err == nil && sha256.Sum256(issuer.RawSubjectPublicKeyInfo) == entry.IssuerKeyHash
	}
	if !found || !bytes.Equal(entry.Precertificate, first) || len(entry.TBSCertificate) == 0 {
		t.Error("another entry")
	}
}

// FuzzRoots: for any text, ParseRoots returns at least one root, or an error.
func FuzzRoots(f *testing.F) {
	f.Add(inPEM(seeds(f)...))
	f.Fuzz(func(t *testing.T, text []byte) {
		roots, err := ParseRoots(text)
		if err == nil && len(roots.Certificates()) == 0 {
			t.Error("no roots, and no error")
		}
	})
}
