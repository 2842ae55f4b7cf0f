package chain

import (
	"bytes"
	"crypto/ed25519"
	"crypto/x509"
	"encoding/asn1"
	"errors"
	"fmt"
	"time"

	"golang.org/x/crypto/cryptobyte"
	tags "golang.org/x/crypto/cryptobyte/asn1"
)

// certificate holds the fields of a submitted certificate that a log needs (RFC 5280, section 4.1): the issuer, the
// subject, the validity, the extensions, the signed bytes and the signature. All other fields are ignored. So a
// certificate with a name, an address, a key or an extension that crypto/x509 refuses is logged too.
type certificate struct {
	raw             []byte
	tbs             []byte
	issuer, subject []byte
	// notBefore and notAfter are the beginning and the end of its validity.
	notBefore, notAfter time.Time
	extensions          []extension
	// algorithm and signature are as crypto/x509 reads them.
	algorithm x509.SignatureAlgorithm
	signature []byte
}

// extension is an extension of a certificate: the content of its OBJECT IDENTIFIER, and the content of its OCTET
// STRING.
type extension struct {
	identifier, value []byte
}

// identifierOf returns the content of an OBJECT IDENTIFIER in DER.
func identifierOf(oid asn1.ObjectIdentifier) []byte {
	var b cryptobyte.Builder
	b.AddASN1ObjectIdentifier(oid)
	element := cryptobyte.String(b.BytesOrPanic())
	var content cryptobyte.String
	if !element.ReadASN1(&content, tags.OBJECT_IDENTIFIER) {
		panic("chains: an object identifier has another form than it was read in")
	}
	return content
}

// certificateOf returns the fields of a certificate that crypto/x509 has read.
func certificateOf(issuer *x509.Certificate) *certificate {
	c := &certificate{
		raw: issuer.Raw, tbs: issuer.RawTBSCertificate, issuer: issuer.RawIssuer, subject: issuer.RawSubject,
		notBefore: issuer.NotBefore, notAfter: issuer.NotAfter,
		algorithm: issuer.SignatureAlgorithm, signature: issuer.Signature,
	}
	for _, e := range issuer.Extensions {
		c.extensions = append(c.extensions, extension{identifierOf(e.Id), e.Value})
	}
	return c
}

// value returns the value of the first extension with this identifier (identifierOf), and whether there is one.
func (c *certificate) value(identifier []byte) ([]byte, bool) {
	for _, extension := range c.extensions {
		if bytes.Equal(extension.identifier, identifier) {
			return extension.value, true
		}
	}
	return nil, false
}

// The extended key usage extension, and two of its purposes (RFC 5280, section 4.2.1.12).
var (
	extendedKeyUsageID     = identifierOf(asn1.ObjectIdentifier{2, 5, 29, 37})
	oidAnyExtendedKeyUsage = asn1.ObjectIdentifier{2, 5, 29, 37, 0}
	oidServerAuth          = asn1.ObjectIdentifier{1, 3, 6, 1, 5, 5, 7, 3, 1}
)

// isForServers reports whether TLS servers may use a certificate, according to its extended key usage. A certificate
// without this extension may be used for anything. If the extension cannot be read, it may be used for nothing.
func isForServers(c *certificate) bool {
	value, has := c.value(extendedKeyUsageID)
	if !has {
		return true
	}
	input, found := cryptobyte.String(value), false
	var purposes cryptobyte.String
	if !input.ReadASN1(&purposes, tags.SEQUENCE) || !input.Empty() {
		return false
	}
	for !purposes.Empty() {
		var purpose asn1.ObjectIdentifier
		if !purposes.ReadASN1ObjectIdentifier(&purpose) {
			return false
		}
		found = found || purpose.Equal(oidServerAuth) || purpose.Equal(oidAnyExtendedKeyUsage)
	}
	return found
}

// readCertificate reads the fields of a certificate in DER that a log needs.
func readCertificate(der []byte) (*certificate, error) {
	c := &certificate{raw: der}
	input := cryptobyte.String(der)
	var fields, tbs, algorithm, signature cryptobyte.String
	if !input.ReadASN1(&fields, tags.SEQUENCE) || !input.Empty() {
		return nil, noDER("a certificate")
	}
	if !fields.ReadASN1Element(&tbs, tags.SEQUENCE) || !fields.ReadASN1Element(&algorithm, tags.SEQUENCE) ||
		!fields.ReadASN1Element(&signature, tags.BIT_STRING) || !fields.Empty() {
		return nil, noDER("a certificate's field")
	}
	c.tbs = tbs
	if err := c.readTBS(tbs, algorithm); err != nil {
		return nil, err
	}
	if err := c.readSignature(algorithm, signature); err != nil {
		return nil, err
	}
	return c, nil
}

// readTBS reads the fields of a TBSCertificate. Its signature algorithm must be the same as the one outside of the
// TBSCertificate (RFC 5280, section 4.1.1.2), which no signature covers. Otherwise one certificate could be submitted
// in many forms.
func (c *certificate) readTBS(tbs, algorithm cryptobyte.String) error {
	var fields, inner, issuer, validity, subject, explicit cryptobyte.String
	var has bool
	if !tbs.ReadASN1(&fields, tags.SEQUENCE) || !skipNumbers(&fields) ||
		!fields.ReadASN1Element(&inner, tags.SEQUENCE) || !fields.ReadASN1Element(&issuer, tags.SEQUENCE) ||
		!fields.ReadASN1(&validity, tags.SEQUENCE) || !fields.ReadASN1Element(&subject, tags.SEQUENCE) ||
		!fields.SkipASN1(tags.SEQUENCE) ||
		!skipIdentifiers(&fields) ||
		!fields.ReadOptionalASN1(&explicit, &has, tagExtensions) || !fields.Empty() {
		return noDER("a TBSCertificate's field")
	}
	if !bytes.Equal(inner, algorithm) {
		return fmt.Errorf("%w: the signature's algorithm differs from that in the TBSCertificate", NoCertificate)
	}
	c.issuer, c.subject = issuer, subject
	var err error
	if c.notBefore, c.notAfter, err = readValidity(validity); err != nil {
		return err
	}
	if !has {
		return nil
	}
	extensions, err := listIn(explicit)
	if err != nil {
		return err
	}
	return c.readExtensions(extensions)
}

// skipNumbers skips the version and the serial number of a TBSCertificate.
func skipNumbers(fields *cryptobyte.String) bool {
	return fields.SkipOptionalASN1(tagVersion) && fields.SkipASN1(tags.INTEGER)
}

// skipIdentifiers skips the unique identifiers of a TBSCertificate.
func skipIdentifiers(fields *cryptobyte.String) bool {
	return fields.SkipOptionalASN1(tagIssuerUnique) && fields.SkipOptionalASN1(tagSubjectUnique)
}

// readValidity returns the beginning and the end of a validity.
func readValidity(validity cryptobyte.String) (notBefore, notAfter time.Time, err error) {
	var timestamps [2]time.Time
	for i := range timestamps {
		read := validity.ReadASN1GeneralizedTime
		if validity.PeekASN1Tag(tags.UTCTime) {
			read = validity.ReadASN1UTCTime
		}
		if !read(&timestamps[i]) {
			return time.Time{}, time.Time{}, noDER("a time of the validity")
		}
	}
	if !validity.Empty() {
		return time.Time{}, time.Time{}, noDER("a validity")
	}
	return timestamps[0], timestamps[1], nil
}

func (c *certificate) readExtensions(extensions cryptobyte.String) error {
	for !extensions.Empty() {
		var content, identifier, value cryptobyte.String
		if !extensions.ReadASN1(&content, tags.SEQUENCE) || !content.ReadASN1(&identifier, tags.OBJECT_IDENTIFIER) ||
			!content.SkipOptionalASN1(tags.BOOLEAN) || !content.ReadASN1(&value, tags.OCTET_STRING) ||
			!content.Empty() {
			return noDER("an extension")
		}
		c.extensions = append(c.extensions, extension{identifier, value})
	}
	return nil
}

// anyKey is the SubjectPublicKeyInfo of an Ed25519 key (RFC 8410, section 4). Its value does not matter.
var anyKey = append([]byte("\x30\x2a\x30\x05\x06\x03\x2b\x65\x70\x03\x21\x00"), make([]byte, ed25519.PublicKeySize)...)

// commonAlgorithms maps the AlgorithmIdentifiers of most signatures (RFC 5758, section 3.2, and RFC 4055, section 5) to
// the algorithms that crypto/x509 reads from them.
var commonAlgorithms = map[string]x509.SignatureAlgorithm{
	"\x30\x0a\x06\x08\x2a\x86\x48\xce\x3d\x04\x03\x02":             x509.ECDSAWithSHA256,
	"\x30\x0a\x06\x08\x2a\x86\x48\xce\x3d\x04\x03\x03":             x509.ECDSAWithSHA384,
	"\x30\x0d\x06\x09\x2a\x86\x48\x86\xf7\x0d\x01\x01\x0b\x05\x00": x509.SHA256WithRSA,
	"\x30\x0d\x06\x09\x2a\x86\x48\x86\xf7\x0d\x01\x01\x0c\x05\x00": x509.SHA384WithRSA,
}

// readSignature reads the algorithm and the signature. It refuses a signature whose last byte has unused bits, which
// would be another form of the same certificate.
func (c *certificate) readSignature(algorithm, signature cryptobyte.String) (err error) {
	var isCommon bool
	if c.algorithm, isCommon = commonAlgorithms[string(algorithm)]; !isCommon {
		if c.algorithm, err = readAlgorithm(algorithm, signature); err != nil {
			return err
		}
	}
	if !signature.ReadASN1BitStringAsBytes(&c.signature) {
		return fmt.Errorf("%w: %v", NoCertificate, errUnusedBits)
	}
	return nil
}

// readAlgorithm lets crypto/x509 read the algorithm of a signature. It puts the algorithm and the signature into a
// certificate that has no other field of the submitted one.
func readAlgorithm(algorithm, signature cryptobyte.String) (x509.SignatureAlgorithm, error) {
	name, timestamp := []byte{0x30, 0}, []byte("\x17\x0d700101000000Z")
	var b cryptobyte.Builder
	b.AddASN1(tags.SEQUENCE, func(b *cryptobyte.Builder) {
		b.AddASN1(tags.SEQUENCE, func(b *cryptobyte.Builder) {
			b.AddASN1Int64(1)
			b.AddBytes(algorithm)
			b.AddBytes(name)
			b.AddASN1(tags.SEQUENCE, func(b *cryptobyte.Builder) {
				b.AddBytes(timestamp)
				b.AddBytes(timestamp)
			})
			b.AddBytes(name)
			b.AddBytes(anyKey)
		})
		b.AddBytes(algorithm)
		b.AddBytes(signature)
	})
	made, err := b.Bytes()
	if err != nil {
		return 0, fmt.Errorf("%w: %v", NoCertificate, err)
	}
	read, err := x509.ParseCertificate(made)
	if err != nil {
		return 0, fmt.Errorf("%w: its signature: %v", NoCertificate, err)
	}
	return read.SignatureAlgorithm, nil
}

var errUnusedBits = errors.New("its signature does not consist of whole bytes")
