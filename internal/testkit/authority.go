package testkit

import (
	"crypto/ecdsa"
	"crypto/elliptic"
	"crypto/rand"
	"crypto/sha256"
	"crypto/x509"
	"crypto/x509/pkix"
	"encoding/asn1"
	"encoding/json"
	"encoding/pem"
	"fmt"
	"math/big"
	"net"
	"sync/atomic"
	"time"
)

// Authority is a CA that issues certificates by crypto/x509. Its methods may be called from several goroutines.
//
// It panics if crypto/x509 cannot make a certificate: then the test, and not what it tests, is wrong.
type Authority struct {
	// Root is the CA's certificate, which it signed itself. It is valid from 2026-01-01 to 2126-01-01.
	Root *x509.Certificate
	// key is the CA's key, and leaf the key of all certificates that it issues.
	key, leaf *ecdsa.PrivateKey
	last      atomic.Int64
}

// NewAuthority returns a CA with a common name, the organization "An authority" and a new P-256 key.
func NewAuthority(name string) *Authority {
	a := &Authority{key: newKey(), leaf: newKey()}
	a.last.Store(1000)
	a.Root = &x509.Certificate{SerialNumber: big.NewInt(1), Subject: pkix.Name{CommonName: name, Organization: []string{"An authority"}},
		IsCA:                  true,
		BasicConstraintsValid: true, KeyUsage: x509.KeyUsageCertSign,
		NotBefore: time.Date(2026, 1, 1, 0, 0, 0, 0, time.UTC), NotAfter: time.Date(2126, 1, 1, 0, 0, 0, 0, time.UTC)}
	root, err := x509.ParseCertificate(made(x509.CreateCertificate(rand.Reader, a.Root, a.Root, &a.key.PublicKey, a.key)))
	if err != nil {
		panic(err)
	}
	a.Root = root
	return a
}

func newKey() *ecdsa.PrivateKey {
	key, err := ecdsa.GenerateKey(elliptic.P256(), rand.Reader)
	if err != nil {
		panic(err)
	}
	return key
}

// made returns what an encoder made.
func made(content []byte, err error) []byte {
	if err != nil {
		panic(err)
	}
	return content
}

// PEM returns the root in PEM.
func (a *Authority) PEM() []byte { return CertificatePEM(a.Root.Raw) }

// CertificatePEM returns a certificate in PEM.
func CertificatePEM(der []byte) []byte {
	return pem.EncodeToMemory(&pem.Block{Type: "CERTIFICATE", Bytes: der})
}

// KeyPEM returns the private key of the root in PEM (PKCS #8).
func (a *Authority) KeyPEM() []byte { return keyPEM(a.key) }

func keyPEM(key *ecdsa.PrivateKey) []byte {
	return pem.EncodeToMemory(&pem.Block{Type: "PRIVATE KEY", Bytes: made(x509.MarshalPKCS8PrivateKey(key))})
}

// IssuerKeyHash returns the SHA-256 hash of the CA's key (RFC 6962, section 3.2).
func (a *Authority) IssuerKeyHash() [32]byte { return sha256.Sum256(a.Root.RawSubjectPublicKeyInfo) }

// KeyPair issues a certificate of a server, and returns it and its private key in PEM. The server has the addresses, or
// otherwise the name of Template.
func (a *Authority) KeyPair(addresses ...net.IP) (certificate, key []byte) {
	template := a.Template(a.Root.NotAfter)
	template.IPAddresses = addresses
	return CertificatePEM(a.Sign(template)), keyPEM(a.leaf)
}

// Template returns a template of a certificate that ends at a time. It has a new serial number, and a new host name.
func (a *Authority) Template(end time.Time) *x509.Certificate {
	number := a.last.Add(1)
	host := fmt.Sprintf("host-%d.example", number)
	return &x509.Certificate{SerialNumber: big.NewInt(number), Subject: pkix.Name{CommonName: host},
		DNSNames: []string{host}, NotBefore: a.Root.NotBefore, NotAfter: end}
}

// Poison is the extension of precertificates (RFC 6962, section 3.1).
var Poison = pkix.Extension{Id: asn1.ObjectIdentifier{1, 3, 6, 1, 4, 1, 11129, 2, 4, 3}, Critical: true,
	Value: []byte{5, 0}}

// SCTList returns the extension of a certificate with these SCTs (RFC 6962, section 3.3).
func SCTList(scts ...[]byte) pkix.Extension {
	var list []byte
	for _, sct := range scts {
		list = append(list, vector(2, sct)...)
	}
	return pkix.Extension{Id: asn1.ObjectIdentifier{1, 3, 6, 1, 4, 1, 11129, 2, 4, 2},
		Value: made(asn1.Marshal(vector(2, list)))}
}

// Sign returns the certificate of a template in DER, with these extensions after the template's.
func (a *Authority) Sign(template *x509.Certificate, extensions ...pkix.Extension) []byte {
	extended := *template
	extended.ExtraExtensions = append(append([]pkix.Extension{}, template.ExtraExtensions...), extensions...)
	return made(x509.CreateCertificate(rand.Reader, &extended, a.Root, &a.leaf.PublicKey, a.key))
}

// SignPair returns the precertificate of a template in DER, and the TBSCertificate of its entry: that of the
// certificate without the poison.
func (a *Authority) SignPair(template *x509.Certificate) (precertificate, tbs []byte) {
	return a.Sign(template, Poison), parsed(a.Sign(template)).RawTBSCertificate
}

// Issued is a certificate with its precertificate.
type Issued struct {
	Certificate    *x509.Certificate
	Precertificate *x509.Certificate
	TBS            []byte // of the entry of the precertificate: without the poison
}

// Issue issues a certificate for these host names until 2126-01-01, and its precertificate.
func (a *Authority) Issue(hosts ...string) Issued { return a.IssueUntil(a.Root.NotAfter, hosts...) }

// IssueUntil issues a certificate for these host names that ends at a time, and its precertificate.
func (a *Authority) IssueUntil(end time.Time, hosts ...string) Issued {
	var names []Name
	for _, host := range hosts {
		names = append(names, Name{DNS, []byte(host)})
	}
	return a.issue(pkix.Name{}, end, names)
}

// IssueNames issues a certificate for any names until 2126-01-01, and its precertificate.
func (a *Authority) IssueNames(subject pkix.Name, names ...Name) Issued {
	return a.issue(subject, a.Root.NotAfter, names)
}

func (a *Authority) issue(subject pkix.Name, end time.Time, names []Name) Issued {
	template := a.Template(end)
	template.Subject, template.DNSNames = subject, nil
	if len(names) > 0 {
		template.ExtraExtensions = []pkix.Extension{altNames(names)}
	}
	return Issued{parsed(a.Sign(template, SCTList())), parsed(a.Sign(template, Poison)),
		parsed(a.Sign(template)).RawTBSCertificate}
}

// parsed returns a certificate. If crypto/x509 cannot read its names, only the fields that an entry of a log needs are
// set.
func parsed(der []byte) *x509.Certificate {
	certificate, err := x509.ParseCertificate(der)
	if err == nil {
		return certificate
	}
	var parts struct {
		TBS       asn1.RawValue
		Algorithm asn1.RawValue
		Signature asn1.BitString
	}
	if _, err := asn1.Unmarshal(der, &parts); err != nil {
		panic(err)
	}
	return &x509.Certificate{Raw: der, RawTBSCertificate: parts.TBS.FullBytes}
}

// The tags of names in subjectAltName (RFC 5280, section 4.2.1.6).
const (
	Mail    = 1
	DNS     = 2
	URI     = 6
	Address = 7
)

// Name is a name in subjectAltName, with any bytes.
type Name struct {
	Tag   int
	Bytes []byte
}

// altNames returns a subjectAltName. Its names may be ones that crypto/x509 would not write.
func altNames(names []Name) pkix.Extension {
	var values []asn1.RawValue
	for _, name := range names {
		values = append(values, asn1.RawValue{Class: asn1.ClassContextSpecific, Tag: name.Tag, Bytes: name.Bytes})
	}
	return pkix.Extension{Id: asn1.ObjectIdentifier{2, 5, 29, 17}, Value: made(asn1.Marshal(values))}
}

// CommonName returns a subject whose common name is a string with this ASN.1 tag and any bytes.
func CommonName(tag int, value []byte) pkix.Name {
	return pkix.Name{ExtraNames: []pkix.AttributeTypeAndValue{{Type: asn1.ObjectIdentifier{2, 5, 4, 3},
		Value: asn1.RawValue{Tag: tag, Bytes: value}}}}
}

// Submission returns the body of add-chain and add-pre-chain for a chain (RFC 6962, sections 4.1 and 4.2).
func Submission(chain ...[]byte) []byte {
	return made(json.Marshal(map[string][][]byte{"chain": append([][]byte{}, chain...)}))
}
