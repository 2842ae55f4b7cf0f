package judge

import (
	"bytes"
	"crypto/ecdsa"
	"crypto/elliptic"
	"crypto/rand"
	"crypto/sha256"
	"crypto/x509"
	"crypto/x509/pkix"
	"encoding/asn1"
	"fmt"
	"math/big"
	"strings"
	"testing"
	"time"
)

// issued is a certificate with its private key.
type issued struct {
	*x509.Certificate
	key *ecdsa.PrivateKey
}

func issue(t *testing.T, by *issued, template x509.Certificate) *issued {
	t.Helper()
	key, err := ecdsa.GenerateKey(elliptic.P256(), rand.Reader)
	if err != nil {
		t.Fatal(err)
	}
	return issueFor(t, by, template, key)
}

func issueFor(t *testing.T, by *issued, template x509.Certificate, key *ecdsa.PrivateKey) *issued {
	t.Helper()
	template.NotBefore, template.NotAfter = time.Unix(1_800_000_000, 0), time.Unix(1_900_000_000, 0)
	parent, signer := &template, key
	if by != nil {
		parent, signer = by.Certificate, by.key
	}
	der, err := x509.CreateCertificate(rand.Reader, &template, parent, key.Public(), signer)
	if err != nil {
		t.Fatal(err)
	}
	certificate, err := x509.ParseCertificate(der)
	if err != nil {
		t.Fatal(err)
	}
	return &issued{certificate, key}
}

// TestEntryOfPrecertificate issues a precertificate and the final certificate with the same fields. The precertificate
// is issued by the issuer, or by a precertificate signing certificate. The entry must have the TBSCertificate of the
// final certificate, byte by byte, and the key hash of its issuer.
func TestEntryOfPrecertificate(t *testing.T) {
	authority := issue(t, nil, x509.Certificate{SerialNumber: big.NewInt(1),
		Subject: pkix.Name{CommonName: "an authority"}, IsCA: true, BasicConstraintsValid: true,
		SubjectKeyId: []byte("the authority's")})
	signing := issue(t, authority, x509.Certificate{SerialNumber: big.NewInt(2),
		Subject: pkix.Name{CommonName: "its signer"}, IsCA: true, BasicConstraintsValid: true,
		SubjectKeyId: []byte("its"), UnknownExtKeyUsage: []asn1.ObjectIdentifier{signingID}})
	poison := pkix.Extension{Id: poisonID, Critical: true, Value: asn1.NullBytes}
	other := pkix.Extension{Id: asn1.ObjectIdentifier{1, 2, 3}, Value: bytes.Repeat([]byte{5}, 300)}
	template := x509.Certificate{SerialNumber: big.NewInt(3), Subject: pkix.Name{CommonName: "a name"},
		DNSNames: []string{"name.example"}, ExtraExtensions: []pkix.Extension{other}}
	final := issue(t, authority, template)
	for what, of := range map[string]struct {
		by      *issued
		issuers [][]byte
		more    []pkix.Extension
	}{
		"by its issuer":             {authority, [][]byte{authority.Raw}, []pkix.Extension{other, poison}},
		"the poison before another": {authority, [][]byte{authority.Raw}, []pkix.Extension{poison, other}},
		"by a signing certificate":  {signing, [][]byte{signing.Raw, authority.Raw}, []pkix.Extension{poison, other}},
	} {
		pre := template
		pre.ExtraExtensions = of.more
		certificate := issueFor(t, of.by, pre, final.key)
		keyHash, tbs, err := entryOf(certificate.Raw, of.issuers)
		if err != nil || !bytes.Equal(tbs, final.RawTBSCertificate) ||
			keyHash != sha256.Sum256(authority.RawSubjectPublicKeyInfo) {
			t.Errorf("%s: %x, expected %x, %v", what, tbs, final.RawTBSCertificate, err)
		}
	}
	pre := template
	pre.ExtraExtensions = []pkix.Extension{poison, other}
	bySigner := issueFor(t, signing, pre, final.key)
	for what, of := range map[string]struct {
		der     []byte
		issuers [][]byte
	}{
		"no poison": {final.Raw, [][]byte{authority.Raw}}, "no issuer": {bySigner.Raw, nil},
		"no final issuer":        {bySigner.Raw, [][]byte{signing.Raw}},
		"no certificate":         {[]byte("x"), [][]byte{authority.Raw}},
		"an issuer that is none": {bySigner.Raw, [][]byte{[]byte("x")}},
	} {
		if _, tbs, err := entryOf(of.der, of.issuers); err == nil {
			t.Errorf("%s: %x", what, tbs)
		}
	}
}

// TestPrecertificates checks logs with real precertificates. Folder finds no fault in an entry of another certificate
// that is signed and in the tree, and Precertificates must find it.
func TestPrecertificates(t *testing.T) {
	authority := issue(t, nil, x509.Certificate{SerialNumber: big.NewInt(1),
		Subject: pkix.Name{CommonName: "an authority"}, IsCA: true, BasicConstraintsValid: true,
		SubjectKeyId: []byte("its")})
	template := func(i int) x509.Certificate {
		return x509.Certificate{SerialNumber: big.NewInt(int64(1000 + i)), DNSNames: []string{"name.example"}}
	}
	finals, pres := map[int]*issued{}, map[int]*issued{}
	for _, i := range []int{2, 5} {
		finals[i] = issue(t, authority, template(i))
		pre := template(i)
		pre.ExtraExtensions = []pkix.Extension{{Id: poisonID, Critical: true, Value: asn1.NullBytes}}
		pres[i] = issueFor(t, authority, pre, finals[i].key)
	}
	keyHash, digest := sha256.Sum256(authority.RawSubjectPublicKeyInfo), sha256.Sum256(authority.Raw)
	for what, of := range map[string]struct {
		change   func(e *entered)
		expected string
	}{
		"right": {func(e *entered) {}, ""},
		"another certificate's entry": {func(e *entered) { e.certificate = finals[5].RawTBSCertificate },
			"leaf 2 differs from its precertificate"},
		"an entry with the poison": {func(e *entered) { e.certificate = pres[2].RawTBSCertificate },
			"leaf 2 differs from its precertificate"},
		"another key hash": {func(e *entered) { e.keyHash = bytes.Repeat([]byte{7}, 32) },
			"leaf 2 has another issuer's key hash"},
		"a certificate as its own pre": {func(e *entered) { e.precertificate = finals[2].Raw },
			"leaf 2: its precertificate"},
		"a precertificate without them": {func(e *entered) { e.chain = nil }, "leaf 2: its precertificate"},
	} {
		p := newLog(t, func(i int, e *entered) {
			e.kind, e.keyHash, e.precertificate = 0, nil, nil
			if pres[i] == nil {
				return
			}
			e.kind, e.keyHash, e.certificate, e.precertificate, e.chain = 1, keyHash[:], finals[i].RawTBSCertificate,
				pres[i].Raw, digest[:]
			if i == 2 {
				of.change(e)
			}
		})
		p.objects[fmt.Sprintf("issuer/%x", digest)] = authority.Raw
		folder := p.write(t)
		if _, err := Folder(folder, p.der, p.answers); err != nil {
			t.Fatalf("%s: %v", what, err)
		}
		count, err := Precertificates(folder)
		if of.expected == "" && (err != nil || count != 2) || of.expected != "" &&
			(err == nil || !strings.Contains(err.Error(), of.expected)) {
			t.Errorf("%s: %d, %v", what, count, err)
		}
	}
}
