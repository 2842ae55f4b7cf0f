package chain

import (
	"bytes"
	"crypto/x509"
	"encoding/asn1"
	"errors"
	"fmt"

	"golang.org/x/crypto/cryptobyte"
	tags "golang.org/x/crypto/cryptobyte/asn1"

	"wagtenib/bindings/go/wagtenib"
)

var (
	// The poison extension, and the purpose of a certificate that signs precertificates (RFC 6962, section 3.1).
	oidPoison             = asn1.ObjectIdentifier{1, 3, 6, 1, 4, 1, 11129, 2, 4, 3}
	oidSignPrecertificate = asn1.ObjectIdentifier{1, 3, 6, 1, 4, 1, 11129, 2, 4, 4}
	// The authority key identifier (RFC 5280, section 4.2.1.1).
	authorityKeyID = identifierOf(asn1.ObjectIdentifier{2, 5, 29, 35})
)

// The tags of the optional fields of a TBSCertificate (RFC 5280, section 4.1).
var (
	tagVersion       = tags.Tag(0).ContextSpecific().Constructed()
	tagIssuerUnique  = tags.Tag(1).ContextSpecific()
	tagSubjectUnique = tags.Tag(2).ContextSpecific()
	tagExtensions    = tags.Tag(3).ContextSpecific().Constructed()
)

func hasPoison(certificate *certificate) bool {
	_, has := certificate.value(poisonID)
	return has
}

// signsPrecertificates reports whether a certificate is a precertificate signing certificate.
func signsPrecertificates(certificate *x509.Certificate) bool {
	for _, purpose := range certificate.UnknownExtKeyUsage {
		if purpose.Equal(oidSignPrecertificate) {
			return true
		}
	}
	return false
}

// finalIssuer holds the fields of a TBSCertificate that depend on the issuer of the final certificate: the issuer's
// name, and the value of the authority key identifier, which is nil if there is none.
type finalIssuer struct {
	name, authorityKey []byte
}

// finalIssuerOf returns the fields for the issuer of a precertificate signing certificate.
func finalIssuerOf(signing *x509.Certificate) *finalIssuer {
	value, _ := certificateOf(signing).value(authorityKeyID)
	return &finalIssuer{signing.RawIssuer, value}
}

// noDER returns the error for a part of a certificate that is not valid DER.
func noDER(what string) error {
	return fmt.Errorf("%w: %s is not valid DER", NoCertificate, what)
}

// Cutter makes the entry of a precertificate. This is its TBSCertificate without the poison extension. All other bytes
// are unchanged, except the lengths around them. The cutter that NewCutter returns is proved to do so.
type Cutter interface {
	WithoutPoison(tbs []byte) ([]byte, error)
}

// entryOf returns the cutter's entry for a precertificate's TBSCertificate, or the refusal for the cutter's error.
func (c *Checker) entryOf(tbs []byte) ([]byte, error) {
	entry, err := c.cutter.WithoutPoison(tbs)
	switch {
	case err == nil:
		return entry, nil
	case errors.Is(err, wagtenib.ErrNoExtension), errors.Is(err, wagtenib.ErrSecondExtension):
		return nil, fmt.Errorf("%w: it must occur exactly once: %v", NoPoison, err)
	case errors.Is(err, wagtenib.ErrBadPoison):
		return nil, fmt.Errorf("%w: it is not critical, or its value is not NULL", BadPoison)
	case errors.Is(err, errUnread):
		return nil, fmt.Errorf("%w: a TBSCertificate is not valid DER: %v", NoCertificate, err)
	}
	return nil, err
}

// withFinalIssuer takes the TBSCertificate of a precertificate that a precertificate signing certificate signed. It
// returns it with the name and the authority key identifier of the final issuer (RFC 6962, section 3.2). All other
// bytes are unchanged, except the lengths around them.
func withFinalIssuer(tbs []byte, final *finalIssuer) ([]byte, error) {
	input := cryptobyte.String(tbs)
	var fields cryptobyte.String
	if !input.ReadASN1(&fields, tags.SEQUENCE) || !input.Empty() {
		return nil, noDER("a TBSCertificate")
	}
	before, after, extensions, err := fieldsOf(fields)
	if err != nil {
		return nil, err
	}
	finalExtensions, err := extensionsOf(extensions, final)
	if err != nil {
		return nil, err
	}
	var b cryptobyte.Builder
	b.AddASN1(tags.SEQUENCE, func(b *cryptobyte.Builder) {
		b.AddBytes(before)
		b.AddBytes(final.name)
		b.AddBytes(after)
		b.AddASN1(tagExtensions, func(b *cryptobyte.Builder) {
			b.AddASN1(tags.SEQUENCE, func(b *cryptobyte.Builder) { b.AddBytes(finalExtensions) })
		})
	})
	made, err := b.Bytes()
	if err != nil {
		return nil, fmt.Errorf("%w: %v", NoCertificate, err)
	}
	return made, nil
}

// fieldsOf splits the fields of a TBSCertificate into the bytes of all fields before the issuer, the bytes of all
// fields between the issuer and the extensions, and the extensions.
func fieldsOf(fields cryptobyte.String) (before, after []byte, extensions cryptobyte.String, err error) {
	read := func(into *[]byte, tag tags.Tag) bool {
		var element cryptobyte.String
		if !fields.ReadASN1Element(&element, tag) {
			return false
		}
		*into = append(*into, element...)
		return true
	}
	if fields.PeekASN1Tag(tagVersion) && !read(&before, tagVersion) {
		return nil, nil, nil, noDER("a version")
	}
	var issuer []byte
	// serialNumber, signature; issuer; validity, subject, subjectPublicKeyInfo
	if !read(&before, tags.INTEGER) || !read(&before, tags.SEQUENCE) || !read(&issuer, tags.SEQUENCE) ||
		!read(&after, tags.SEQUENCE) || !read(&after, tags.SEQUENCE) || !read(&after, tags.SEQUENCE) {
		return nil, nil, nil, noDER("a TBSCertificate's field")
	}
	for _, tag := range []tags.Tag{tagIssuerUnique, tagSubjectUnique} {
		if fields.PeekASN1Tag(tag) && !read(&after, tag) {
			return nil, nil, nil, noDER("a unique identifier")
		}
	}
	var explicit cryptobyte.String
	if !fields.ReadASN1(&explicit, tagExtensions) || !fields.Empty() {
		return nil, nil, nil, noDER("a list of extensions")
	}
	extensions, err = listIn(explicit)
	return before, after, extensions, err
}

// listIn returns the list of extensions, which must be the only content of its explicit tag.
func listIn(explicit cryptobyte.String) (list cryptobyte.String, err error) {
	if !explicit.ReadASN1(&list, tags.SEQUENCE) || !explicit.Empty() {
		return nil, noDER("a list of extensions")
	}
	return list, nil
}

// extensionsOf returns the bytes of the extensions, with the authority key identifier of the final issuer.
func extensionsOf(extensions cryptobyte.String, final *finalIssuer) ([]byte, error) {
	var finalExtensions []byte
	for !extensions.Empty() {
		var element, content, identifier cryptobyte.String
		if !extensions.ReadASN1Element(&element, tags.SEQUENCE) {
			return nil, noDER("an extension")
		}
		whole := element
		if !element.ReadASN1(&content, tags.SEQUENCE) || !content.ReadASN1(&identifier, tags.OBJECT_IDENTIFIER) {
			return nil, noDER("an extension")
		}
		if bytes.Equal(identifier, authorityKeyID) {
			replaced, err := withValue(whole, final.authorityKey)
			if err != nil {
				return nil, err
			}
			whole = replaced
		}
		finalExtensions = append(finalExtensions, whole...)
	}
	return finalExtensions, nil
}

// withValue returns an extension with another value. It does not change whether the extension is critical.
func withValue(extension cryptobyte.String, value []byte) ([]byte, error) {
	if value == nil {
		return nil, fmt.Errorf("%w: the precertificate has one", NoAuthorityKey)
	}
	var content, oid, critical, old cryptobyte.String
	if !extension.ReadASN1(&content, tags.SEQUENCE) || !content.ReadASN1Element(&oid, tags.OBJECT_IDENTIFIER) {
		return nil, noDER("an extension")
	}
	if content.PeekASN1Tag(tags.BOOLEAN) && !content.ReadASN1Element(&critical, tags.BOOLEAN) {
		return nil, noDER("an extension")
	}
	if !content.ReadASN1(&old, tags.OCTET_STRING) || !content.Empty() {
		return nil, noDER("an extension")
	}
	var b cryptobyte.Builder
	b.AddASN1(tags.SEQUENCE, func(b *cryptobyte.Builder) {
		b.AddBytes(oid)
		b.AddBytes(critical)
		b.AddASN1OctetString(value)
	})
	made, err := b.Bytes()
	if err != nil {
		return nil, fmt.Errorf("%w: %v", NoCertificate, err)
	}
	return made, nil
}
