package probe

import (
	"crypto"
	"crypto/ecdsa"
	"crypto/elliptic"
	"crypto/rand"
	"crypto/sha256"
	"crypto/x509"
	"crypto/x509/pkix"
	"encoding/asn1"
	"encoding/hex"
	"encoding/pem"
	"errors"
	"fmt"
	"math/big"
	"os"
	"path/filepath"
	"slices"
	"time"

	"wagtenib/bindings/go/wagtenib"
)

// poison is the extension of precertificates (RFC 6962, section 3.1).
var poison = pkix.Extension{Id: asn1.ObjectIdentifier{1, 3, 6, 1, 4, 1, 11129, 2, 4, 3}, Critical: true,
	Value: []byte{5, 0}}

// signsPrecertificates is the extended key usage of precertificate signing certificates (RFC 6962, section 3.1).
var signsPrecertificates = asn1.ObjectIdentifier{1, 3, 6, 1, 4, 1, 11129, 2, 4, 4}

// ErrChain means that certificates or a key cannot be used for a probe.
var ErrChain = errors.New("probe: not what a chain can be made of")

// newSubmission returns the submission of a chain. The error wraps ErrChain.
func newSubmission(chain []*x509.Certificate) (Submission, error) {
	first := chain[0]
	made := Submission{Call: "add-chain", Header: []byte{0, 0}, Entry: first.Raw}
	for _, one := range chain {
		made.Chain = append(made.Chain, one.Raw)
	}
	if !slices.ContainsFunc(first.Extensions, func(e pkix.Extension) bool { return e.Id.Equal(poison.Id) }) {
		return made, nil
	}
	if len(chain) < 2 || slices.ContainsFunc(chain[1].UnknownExtKeyUsage, signsPrecertificates.Equal) {
		return Submission{}, fmt.Errorf("%w: a precertificate needs its issuer after it, which must not be a "+
			"precertificate signing certificate", ErrChain)
	}
	tbs, err := wagtenib.PrecertificateEntry(first.RawTBSCertificate)
	if err != nil {
		return Submission{}, fmt.Errorf("%w: %w", ErrChain, err)
	}
	key := sha256.Sum256(chain[1].RawSubjectPublicKeyInfo)
	made.Call, made.Header, made.Entry = "add-pre-chain", append([]byte{0, 1}, key[:]...), tbs
	return made, nil
}

// Authority is a test CA. It issues certificates and precertificates in turn, each with its own name below the domain
// "invalid", which nobody can register.
type Authority struct {
	chain  []*x509.Certificate // the CA's own certificate, and its issuers up to a root
	key    crypto.Signer
	leaf   *ecdsa.PrivateKey
	issued int
}

// NewAuthority returns a test CA. certificates has the CA's certificate and then its issuers, and key its private key,
// both in PEM. The error wraps ErrChain.
func NewAuthority(certificates, key []byte) (*Authority, error) {
	chain, err := parsePEM(certificates)
	if err != nil {
		return nil, err
	}
	block, _ := pem.Decode(key)
	for block != nil && block.Type == "EC PARAMETERS" { // openssl ecparam -genkey writes them before the key.
		block, _ = pem.Decode(key[len(pem.EncodeToMemory(block)):])
	}
	if block == nil {
		return nil, fmt.Errorf("%w: the key is not in PEM", ErrChain)
	}
	a := &Authority{chain: chain}
	if a.key, err = parseKey(block.Bytes); err != nil {
		return nil, err
	}
	if public, ok := a.key.Public().(interface{ Equal(crypto.PublicKey) bool }); !ok ||
		!public.Equal(chain[0].PublicKey) {
		return nil, fmt.Errorf("%w: the key is not the one of the certificate of %s", ErrChain, chain[0].Subject)
	}
	a.leaf, err = ecdsa.GenerateKey(elliptic.P256(), rand.Reader)
	return a, err
}

func parseKey(der []byte) (crypto.Signer, error) {
	if key, err := x509.ParsePKCS8PrivateKey(der); err == nil {
		if signer, ok := key.(crypto.Signer); ok {
			return signer, nil
		}
	}
	if key, err := x509.ParseECPrivateKey(der); err == nil {
		return key, nil
	}
	if key, err := x509.ParsePKCS1PrivateKey(der); err == nil {
		return key, nil
	}
	return nil, fmt.Errorf("%w: the key is not a private key of PKCS #8, SEC 1 or PKCS #1 without a passphrase", ErrChain)
}

func parsePEM(text []byte) (chain []*x509.Certificate, err error) {
	for block, rest := pem.Decode(text); block != nil; block, rest = pem.Decode(rest) {
		if block.Type != "CERTIFICATE" {
			continue
		}
		one, err := x509.ParseCertificate(block.Bytes)
		if err != nil {
			return nil, fmt.Errorf("%w: certificate %d: %w", ErrChain, len(chain)+1, err)
		}
		chain = append(chain, one)
	}
	if len(chain) == 0 {
		return nil, fmt.Errorf("%w: there is no certificate in PEM", ErrChain)
	}
	return chain, nil
}

// validity is the time for which a certificate is valid if the log has no interval.
const validity = 47 * 24 * time.Hour

// Next issues a certificate or a precertificate that expires in the interval.
func (a *Authority) Next(now, start, end time.Time) (Submission, error) {
	notAfter := now.Add(validity)
	if !start.IsZero() && notAfter.Before(start) {
		notAfter = start.Add(24 * time.Hour)
	}
	if !end.IsZero() && !notAfter.Before(end) {
		notAfter = end.Add(-24 * time.Hour)
	}
	if !start.IsZero() && notAfter.Before(start) {
		notAfter = start
	}
	serial := make([]byte, 16)
	if _, err := rand.Read(serial); err != nil {
		return Submission{}, err
	}
	serial[0] = serial[0]&0x7f | 0x40
	name := hex.EncodeToString(serial[:8]) + ".ct-probe.invalid"
	template := &x509.Certificate{SerialNumber: new(big.Int).SetBytes(serial), Subject: pkix.Name{CommonName: name},
		DNSNames:  []string{name},
		NotBefore: now.Add(-time.Hour), NotAfter: notAfter, ExtKeyUsage: []x509.ExtKeyUsage{x509.ExtKeyUsageServerAuth},
		KeyUsage: x509.KeyUsageDigitalSignature, BasicConstraintsValid: true}
	if a.issued++; a.issued%2 == 0 {
		template.ExtraExtensions = []pkix.Extension{poison}
	}
	der, err := x509.CreateCertificate(rand.Reader, template, a.chain[0], &a.leaf.PublicKey, a.key)
	if err != nil {
		return Submission{}, fmt.Errorf("%w: %w", ErrChain, err)
	}
	first, err := x509.ParseCertificate(der)
	if err != nil {
		return Submission{}, fmt.Errorf("%w: %w", ErrChain, err)
	}
	return newSubmission(append([]*x509.Certificate{first}, a.chain...))
}

// Folder submits the chains of a folder, one after the other. After the last one it begins again with the first.
type Folder struct {
	chains []Submission
	next   int
}

// NewFolder reads the chains of a folder. Each file .pem has one chain: first the certificate or precertificate, and
// then each issuer. The error wraps ErrChain.
func NewFolder(path string) (*Folder, error) {
	names, err := filepath.Glob(filepath.Join(path, "*.pem"))
	if err != nil {
		return nil, err
	}
	f := &Folder{}
	for _, name := range names {
		text, err := os.ReadFile(name)
		if err != nil {
			return nil, err
		}
		chain, err := parsePEM(text)
		if err != nil {
			return nil, fmt.Errorf("%s: %w", name, err)
		}
		one, err := newSubmission(chain)
		if err != nil {
			return nil, fmt.Errorf("%s: %w", name, err)
		}
		one.Old = true
		f.chains = append(f.chains, one)
	}
	if len(f.chains) == 0 {
		return nil, fmt.Errorf("%w: %s has no file *.pem", ErrChain, path)
	}
	return f, nil
}

// Next returns the next chain of the folder. It ignores the interval.
func (f *Folder) Next(_, _, _ time.Time) (Submission, error) {
	one := f.chains[f.next%len(f.chains)]
	f.next++
	return one, nil
}
