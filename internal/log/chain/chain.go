// Package chain checks the certificate chains that are submitted to a log (RFC 6962, section 3.1), and makes the log's
// entries from them (section 3.2).
//
// The only purpose of the check is that the CA that issued a certificate is known. Every certificate must be signed by
// the next one, which must be allowed to sign certificates, and the last one must be a root of the log or be signed by
// one. Names, path lengths and unknown critical extensions do not matter, since a log shows what was issued and not
// what is valid. Package chain parses the first certificate itself, and reads only the fields that it needs. So a
// certificate with a name or a key that crypto/x509 refuses is logged too. Its issuers must be accepted by crypto/x509,
// and all signatures must be of a kind that crypto/x509 checks.
//
// With Rules a log can accept only certificates for servers, or only certificates that expire within a window, so that
// the log can be closed one day.
package chain

import (
	"bytes"
	"crypto/rsa"
	"crypto/sha256"
	"crypto/x509"
	"fmt"
	"sync/atomic"
	"time"
	"wagtenib/internal/ct"
)

// The bounds of a chain.
const (
	// MaxCertificates is the maximum number of certificates in a submitted chain.
	MaxCertificates = 16
	// MaxCertificateBytes is the maximum number of bytes of one certificate.
	MaxCertificateBytes = 256 << 10
	// MaxBytes is the maximum number of bytes of all certificates of a chain together.
	MaxBytes = 700 << 10
	// MaxKeyBits is the maximum number of bits of an issuer's RSA key. The time to check a signature grows with the
	// square of this number.
	MaxKeyBits = 8192
)

// Rules hold the conditions that the first certificate of a chain must meet. The zero value has no conditions.
type Rules struct {
	// Window is the interval in which the certificate must expire.
	Window Window
	// ServerAuthentication is whether the certificate must be one for TLS servers: its extended key usage has
	// serverAuth or anyExtendedKeyUsage, or there is no such extension (RFC 5280, section 4.2.1.12).
	ServerAuthentication bool
	// RefuseExpired is whether an expired certificate is refused. RefuseNotYetValid is whether a certificate is refused
	// whose validity has not begun.
	RefuseExpired, RefuseNotYetValid bool
}

// check returns the reason why a certificate does not meet the rules at this time, or nil.
func (r Rules) check(c *certificate, now time.Time) error {
	const form = time.RFC3339
	switch {
	case !r.Window.contains(c.notAfter):
		return fmt.Errorf("%w: it ends %s", OutsideWindow, c.notAfter.UTC().Format(form))
	case r.RefuseExpired && now.After(c.notAfter):
		return fmt.Errorf("%w: it ended %s", Expired, c.notAfter.UTC().Format(form))
	case r.RefuseNotYetValid && now.Before(c.notBefore):
		return fmt.Errorf("%w: it begins %s", NotYetValid, c.notBefore.UTC().Format(form))
	case r.ServerAuthentication && !isForServers(c):
		return fmt.Errorf("%w: its extended key usage has neither serverAuth nor anyExtendedKeyUsage", NotForServers)
	}
	return nil
}

// Window is the interval in which the certificates of a log must expire: From <= notAfter < To. A zero time is no
// bound.
type Window struct {
	From, To time.Time
}

func (w Window) contains(timestamp time.Time) bool {
	return (w.From.IsZero() || !timestamp.Before(w.From)) && (w.To.IsZero() || timestamp.Before(w.To))
}

// Checker checks chains against a log's roots and its rules. Its methods may be called concurrently.
type Checker struct {
	roots  atomic.Pointer[Roots]
	rules  Rules
	cutter Cutter
	// checkSignature checks a signature. A fuzz test replaces it.
	checkSignature func(certificate *certificate, issuer *x509.Certificate) error
}

// NewChecker returns a checker. The cutter makes the entries of precertificates.
func NewChecker(roots *Roots, rules Rules, cutter Cutter) *Checker {
	c := &Checker{rules: rules, cutter: cutter, checkSignature: checkSignature}
	c.roots.Store(roots)
	return c
}

// Roots returns the roots that chains are checked against.
func (c *Checker) Roots() *Roots { return c.roots.Load() }

// Reload reads the roots again, and returns how many were added and removed. After an error the previous ones stay in
// use.
func (c *Checker) Reload(files RootFiles) (added, removed int, err error) {
	roots, err := files.Load()
	if err != nil {
		return 0, 0, err
	}
	added, removed = roots.countChanges(c.roots.Swap(roots))
	return added, removed, nil
}

// Certificate checks a chain in DER that begins with a certificate (add-chain), and returns its entry. An error wraps a
// Refusal.
func (c *Checker) Certificate(chain [][]byte) (*ct.Entry, error) {
	first, issuers, err := c.check(chain)
	if err != nil {
		return nil, err
	}
	if hasPoison(first) {
		return nil, fmt.Errorf("%w: it has the poison extension", IsPrecertificate)
	}
	return &ct.Entry{Type: ct.X509Entry, Certificate: first.raw, Issuers: inDER(issuers)}, nil
}

// Precertificate checks a chain in DER that begins with a precertificate (add-pre-chain), and returns its entry. An
// error wraps a Refusal, or is an error of the cutter.
func (c *Checker) Precertificate(chain [][]byte) (*ct.Entry, error) {
	first, issuers, err := c.check(chain)
	if err != nil {
		return nil, err
	}
	if !hasPoison(first) {
		return nil, fmt.Errorf("%w: it has no extension %s", NoPoison, oidPoison)
	}
	if len(issuers) < 1 {
		return nil, fmt.Errorf("%w: a root cannot be a precertificate", NoFinalIssuer)
	}
	issuer, tbs := issuers[0], first.tbs
	if signsPrecertificates(issuers[0]) {
		if len(issuers) < 2 {
			return nil, fmt.Errorf("%w: the precertificate signing certificate is a root", NoFinalIssuer)
		}
		issuer = issuers[1]
		if tbs, err = withFinalIssuer(tbs, finalIssuerOf(issuers[0])); err != nil {
			return nil, err
		}
	}
	if tbs, err = c.entryOf(tbs); err != nil {
		return nil, err
	}
	return &ct.Entry{
		Type:           ct.PrecertEntry,
		IssuerKeyHash:  sha256.Sum256(issuer.RawSubjectPublicKeyInfo),
		TBSCertificate: tbs,
		Precertificate: first.raw,
		Issuers:        inDER(issuers),
	}, nil
}

func inDER(issuers []*x509.Certificate) [][]byte {
	ders := make([][]byte, 0, len(issuers))
	for _, issuer := range issuers {
		ders = append(ders, issuer.Raw)
	}
	return ders
}

// check reads a chain. It returns its first certificate and the issuers, the last of which is a root of the log. There
// are no issuers if the first certificate is a root. It checks signatures from the root down, so it uses only keys that
// a root has certified. crypto/x509 reads an issuer only after the issuer's signature was checked, because reading
// takes a hundred times as long as checking the signature if the issuer has thousands of extensions.
func (c *Checker) check(chain [][]byte) (*certificate, []*x509.Certificate, error) {
	all, err := parse(chain)
	if err != nil {
		return nil, nil, err
	}
	first, last := all[0], len(all)-1
	if err := c.rules.check(first, time.Now()); err != nil {
		return nil, nil, err
	}
	for i := range last {
		if !bytes.Equal(all[i].issuer, all[i+1].subject) {
			return nil, nil, fmt.Errorf("%w: certificate %d", NotIssuedByNext, i)
		}
	}
	root, err := c.rootOf(all[last])
	if err != nil {
		return nil, nil, err
	}
	issuers := make([]*x509.Certificate, last)
	for i := last - 1; i >= 0; i-- {
		if issuers[i], err = x509.ParseCertificate(all[i+1].raw); err != nil {
			return nil, nil, fmt.Errorf("%w: certificate %d: %v", NoCertificate, i+1, err)
		}
		if err := c.checkIssued(all[i], issuers[i]); err != nil {
			return nil, nil, fmt.Errorf("%w: of certificate %d", err, i)
		}
	}
	if root != nil {
		issuers = append(issuers, root)
	}
	return first, issuers, nil
}

// parse checks the bounds of a chain, and reads those fields of its certificates that a log needs.
func parse(chain [][]byte) ([]*certificate, error) {
	if len(chain) == 0 {
		return nil, fmt.Errorf("%w: no certificate", EmptyChain)
	}
	if len(chain) > MaxCertificates {
		return nil, fmt.Errorf("%w: %d certificates", ChainTooLong, len(chain))
	}
	total := 0
	for i, der := range chain {
		if len(der) > MaxCertificateBytes {
			return nil, fmt.Errorf("%w: certificate %d of %d bytes", CertificateTooLong, i, len(der))
		}
		total += len(der)
	}
	if total > MaxBytes {
		return nil, fmt.Errorf("%w: %d bytes", ChainTooLong, total)
	}
	all := make([]*certificate, 0, len(chain))
	for i, der := range chain {
		one, err := readCertificate(der)
		if err != nil {
			return nil, fmt.Errorf("%w: certificate %d", err, i)
		}
		all = append(all, one)
	}
	return all, nil
}

// rootOf returns the root that issued the last certificate of a chain. It returns nil if the last certificate is a root
// itself.
func (c *Checker) rootOf(last *certificate) (*x509.Certificate, error) {
	roots := c.roots.Load()
	if roots.contains(last.subject, last.raw) {
		return nil, nil
	}
	var why error
	for _, root := range roots.withSubject(last.issuer) {
		err := c.checkIssued(last, root)
		if err == nil {
			return root, nil
		}
		why = fmt.Errorf("%w: %v: of the last certificate", UnknownRoot, err)
	}
	if why == nil {
		why = fmt.Errorf("%w: no accepted root has the name of the issuer of the last certificate "+
			"(see /ct/v1/get-roots)", UnknownRoot)
	}
	return nil, why
}

// checkIssued returns an error unless an issuer signed a certificate, and may sign certificates.
func (c *Checker) checkIssued(certificate *certificate, issuer *x509.Certificate) error {
	// A certificate of version 1 or 2 has no extension that says whether it is an authority. Such an issuer is accepted
	// only if it is a root, since the other issuers of a chain come from the submitter.
	authority := issuer.BasicConstraintsValid && issuer.IsCA
	if issuer.Version < 3 && !issuer.BasicConstraintsValid {
		authority = c.roots.Load().contains(issuer.RawSubject, issuer.Raw)
	}
	if !authority || issuer.KeyUsage != 0 && issuer.KeyUsage&x509.KeyUsageCertSign == 0 {
		return fmt.Errorf("%w: the issuer", NotAnAuthority)
	}
	if key, ok := issuer.PublicKey.(*rsa.PublicKey); ok && key.N.BitLen() > MaxKeyBits {
		return fmt.Errorf("%w: the issuer's key has %d bits, and the maximum is %d", KeyTooLong, key.N.BitLen(),
			MaxKeyBits)
	}
	return c.checkSignature(certificate, issuer)
}

func checkSignature(certificate *certificate, issuer *x509.Certificate) error {
	if err := issuer.CheckSignature(certificate.algorithm, certificate.tbs, certificate.signature); err != nil {
		return fmt.Errorf("%w: %v", BadSignature, err)
	}
	return nil
}
