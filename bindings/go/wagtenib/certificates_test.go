package wagtenib_test

import (
	"bytes"
	"crypto/ecdsa"
	"crypto/elliptic"
	"crypto/rand"
	"crypto/sha256"
	"crypto/x509"
	"crypto/x509/pkix"
	"encoding/asn1"
	"errors"
	"math/big"
	"strings"
	"testing"
	"time"

	"wagtenib/bindings/go/wagtenib"
)

var (
	oidPoison = asn1.ObjectIdentifier{1, 3, 6, 1, 4, 1, 11129, 2, 4, 3}
	oidList   = asn1.ObjectIdentifier{1, 3, 6, 1, 4, 1, 11129, 2, 4, 2}
	poison    = pkix.Extension{Id: oidPoison, Critical: true, Value: []byte{5, 0}}
)

// authority is a CA of crypto/x509. It issues certificates that differ only in their extensions.
type authority struct {
	key  *ecdsa.PrivateKey
	root *x509.Certificate
}

func newAuthority(t testing.TB) *authority {
	t.Helper()
	key, err := ecdsa.GenerateKey(elliptic.P256(), rand.Reader)
	if err != nil {
		t.Fatal(err)
	}
	template := &x509.Certificate{SerialNumber: big.NewInt(1), Subject: pkix.Name{CommonName: "a root"}, IsCA: true,
		BasicConstraintsValid: true, NotAfter: time.Unix(1<<32, 0)}
	made, err := x509.CreateCertificate(rand.Reader, template, template, &key.PublicKey, key)
	if err != nil {
		t.Fatal(err)
	}
	root, err := x509.ParseCertificate(made)
	if err != nil {
		t.Fatal(err)
	}
	return &authority{key, root}
}

func (a *authority) issue(t testing.TB, extensions ...pkix.Extension) *x509.Certificate {
	t.Helper()
	template := &x509.Certificate{SerialNumber: big.NewInt(7), Subject: pkix.Name{CommonName: "www.example"},
		DNSNames: []string{"www.example"}, NotAfter: time.Unix(1<<31, 0), ExtraExtensions: extensions}
	made, err := x509.CreateCertificate(rand.Reader, template, a.root, &a.key.PublicKey, a.key)
	if err != nil {
		t.Fatal(err)
	}
	certificate, err := x509.ParseCertificate(made)
	if err != nil {
		t.Fatal(err)
	}
	return certificate
}

// TestEntriesAreTheFinalCertificates checks that the entry of a precertificate is the TBSCertificate of the final
// certificate. crypto/x509 issues both with the same fields.
func TestEntriesAreTheFinalCertificates(t *testing.T) {
	a := newAuthority(t)
	other := pkix.Extension{Id: asn1.ObjectIdentifier{1, 2, 3}, Value: bytes.Repeat([]byte{9}, 300)}
	final := a.issue(t, other).RawTBSCertificate
	for _, extensions := range [][]pkix.Extension{{poison, other}, {other, poison}} {
		entry, err := wagtenib.PrecertificateEntry(a.issue(t, extensions...).RawTBSCertificate)
		if err != nil || !bytes.Equal(entry, final) {
			t.Errorf("%v: %x", err, entry)
		}
	}
}

// TestRefusesPrecertificates checks each error of a precertificate, with its field.
func TestRefusesPrecertificates(t *testing.T) {
	a := newAuthority(t)
	precertificate := a.issue(t, poison).RawTBSCertificate
	wrong := poison
	wrong.Critical = false
	twice := bytes.Replace(a.issue(t, pkix.Extension{Id: asn1.ObjectIdentifier{1, 3, 6, 1, 4, 1, 11129, 2, 4, 9},
		Critical: true, Value: []byte{5, 0}}, poison).RawTBSCertificate,
		[]byte{0xd6, 0x79, 2, 4, 9}, []byte{0xd6, 0x79, 2, 4, 3}, 1)
	for _, test := range []struct {
		tbs   []byte
		want  wagtenib.Code
		field string
	}{
		{a.issue(t).RawTBSCertificate, wagtenib.ErrNoExtension, "extensions of the certificate"},
		{twice, wagtenib.ErrSecondExtension, "extensions of the certificate"},
		{a.issue(t, wrong).RawTBSCertificate, wagtenib.ErrBadPoison, "extensions of the certificate"},
		{nil, wagtenib.ErrDERTruncated, "tbsCertificate of the certificate"},
		{precertificate[:len(precertificate)-1], wagtenib.ErrDERTruncated, "tbsCertificate of the certificate"},
		{append(bytes.Clone(precertificate), 0), wagtenib.ErrDERTrailing, "tbsCertificate of the certificate"},
		{[]byte{0x30, 0x80, 0, 0}, wagtenib.ErrDERIndefiniteLength, "tbsCertificate of the certificate"},
		{[]byte{0x30, 0x81, 0}, wagtenib.ErrDERPaddedLength, "tbsCertificate of the certificate"},
		{[]byte{0x30, 0x85, 1, 0, 0, 0, 0}, wagtenib.ErrDERLongLength, "tbsCertificate of the certificate"},
		{[]byte{0x3f, 0}, wagtenib.ErrDERLongTag, "tbsCertificate of the certificate"},
		{[]byte{0x31, 0}, wagtenib.ErrDEROtherTag, "tbsCertificate of the certificate"},
		{[]byte{0x30, 3, 2, 1, 7}, wagtenib.ErrDERTruncated, "signature of the certificate"},
	} {
		entry, err := wagtenib.PrecertificateEntry(test.tbs)
		var unfit *wagtenib.CertificateError
		if entry != nil || !errors.Is(err, test.want) || !errors.As(err, &unfit) || unfit.Field.String() != test.field ||
			!strings.Contains(err.Error(), test.field) {
			t.Errorf("%x: %x, %v (not %v)", test.tbs, entry, err, test.want)
		}
	}
}

// promisedOf returns the MerkleTreeLeaf of a precertificate's entry (RFC 6962, section 3.4), by the standard library.
func promisedOf(issuer *x509.Certificate, tbs []byte, timestamp uint64, extensions []byte) []byte {
	hash := sha256.Sum256(issuer.RawSubjectPublicKeyInfo)
	return leafOf(timestamp, 1, append(hash[:], opaque(3, tbs)...), extensions)
}

// TestPromisedLeaves checks that the leaf of a certificate with a list of SCTs is that of the certificate without it,
// and is found in a tree of tlog.
func TestPromisedLeaves(t *testing.T) {
	a := newAuthority(t)
	without := a.issue(t).RawTBSCertificate
	promise := wagtenib.Promise{Certificate: a.issue(t, pkix.Extension{Id: oidList, Value: []byte{4, 3, 0, 1, 0}}).Raw,
		Issuer: a.root.Raw, Timestamp: 1_700_000_000_123}
	var log madeLog
	for index, extensions := range [][]byte{nil, {0, 0, 5, 0, 0, 0, 0, 1}, bytes.Repeat([]byte{1}, 65_535)} {
		promise.Extensions = extensions
		leaf, err := wagtenib.PromisedLeaf(promise)
		want := promisedOf(a.root, without, promise.Timestamp, extensions)
		if err != nil || !bytes.Equal(leaf, want) {
			t.Fatalf("leaf %d: %v", index, err)
		}
		log.append(t, want)
	}
	size := uint64(len(log.leaves))
	if err := wagtenib.CheckPromise(promise, 2, size, log.path(t, 2, size), log.root(t, size)); err != nil {
		t.Error(err)
	}
	if err := wagtenib.CheckPromise(promise, 1, size, log.path(t, 1, size),
		log.root(t, size)); !errors.Is(err, wagtenib.ErrRootMismatch) {
		t.Error(err)
	}
	if err := wagtenib.CheckPromise(promise, size, size, nil,
		log.root(t, size)); !errors.Is(err, wagtenib.ErrIndexOutOfRange) {
		t.Error(err)
	}
	refused := func(change func(p *wagtenib.Promise), want wagtenib.Code, field wagtenib.Field) {
		t.Helper()
		wrong := promise
		change(&wrong)
		_, err := wagtenib.PromisedLeaf(wrong)
		also := wagtenib.CheckPromise(wrong, 2, size, log.path(t, 2, size), log.root(t, size))
		var unfit *wagtenib.CertificateError
		if !errors.Is(err, want) || !errors.Is(also, want) || errors.As(err, &unfit) != (field > 0) ||
			field > 0 && unfit.Field != field {
			t.Errorf("%v, %v (not %v)", err, also, want)
		}
	}
	refused(func(p *wagtenib.Promise) { p.Extensions = make([]byte, 65_536) }, wagtenib.ErrExtensionsTooLong, 0)
	refused(func(p *wagtenib.Promise) { p.Certificate = a.issue(t).Raw }, wagtenib.ErrNoExtension, 14)
	refused(func(p *wagtenib.Promise) { p.Issuer = p.Issuer[:len(p.Issuer)-1] }, wagtenib.ErrDERTruncated, 17)
	refused(func(p *wagtenib.Promise) { p.Issuer = []byte{0x30, 4, 0x30, 0, 0x30, 0} }, wagtenib.ErrDERTruncated, 20)
}
