// Package audit compares the promises and heads of a log with its tree: the timestamps in a certificate, other
// timestamps that the log returned, the cosignatures of witnesses, and the heads that others saw.
package audit

import (
	"encoding/asn1"
	"encoding/pem"
	"errors"

	"golang.org/x/crypto/cryptobyte"
	cryptobyte_asn1 "golang.org/x/crypto/cryptobyte/asn1"

	"wagtenib/internal/ct"
)

// The reasons why there is nothing to audit, for errors.Is.
var (
	// ErrCertificate means that a certificate cannot be read.
	ErrCertificate = errors.New("audit: the certificate cannot be read")
	// ErrNoSCTs means that a certificate has no timestamps.
	ErrNoSCTs = errors.New("audit: the certificate has no timestamps (SCTs)")
)

// The extensions of RFC 6962, sections 3.1 and 3.3.
var (
	poison  = asn1.ObjectIdentifier{1, 3, 6, 1, 4, 1, 11129, 2, 4, 3}
	sctList = asn1.ObjectIdentifier{1, 3, 6, 1, 4, 1, 11129, 2, 4, 2}
)

// extension returns the value of an extension of a certificate in DER, and the bytes of its TBSCertificate. It reads
// only the fields that lead to the extension, so a certificate with odd names can be audited too. The signatures of the
// timestamps decide whether they belong to this certificate.
func extension(certificate []byte, id asn1.ObjectIdentifier) (value, tbs []byte, found bool, err error) {
	der := cryptobyte.String(certificate)
	var whole, element cryptobyte.String
	if !der.ReadASN1(&whole, cryptobyte_asn1.SEQUENCE) || !der.Empty() ||
		!whole.ReadASN1Element(&element, cryptobyte_asn1.SEQUENCE) {
		return nil, nil, false, ErrCertificate
	}
	list, err := extensionsIn(element)
	if err != nil {
		return nil, nil, false, err
	}
	for !list.Empty() {
		var one, content cryptobyte.String
		var oneID asn1.ObjectIdentifier
		if !list.ReadASN1(&one, cryptobyte_asn1.SEQUENCE) || !one.ReadASN1ObjectIdentifier(&oneID) ||
			!one.SkipOptionalASN1(cryptobyte_asn1.BOOLEAN) || !one.ReadASN1(&content, cryptobyte_asn1.OCTET_STRING) {
			return nil, nil, false, ErrCertificate
		}
		if oneID.Equal(id) {
			return content, element, true, nil
		}
	}
	return nil, element, false, nil
}

// extensionsIn returns the list of extensions of a TBSCertificate, which is empty if there is none.
func extensionsIn(tbs cryptobyte.String) (list cryptobyte.String, err error) {
	const extensionsTag = 3
	var inner, wrapped cryptobyte.String
	if !tbs.ReadASN1(&inner, cryptobyte_asn1.SEQUENCE) {
		return nil, ErrCertificate
	}
	for !inner.Empty() {
		var tag cryptobyte_asn1.Tag
		var field cryptobyte.String
		if !inner.ReadAnyASN1(&field, &tag) {
			return nil, ErrCertificate
		}
		if tag == cryptobyte_asn1.Tag(extensionsTag).ContextSpecific().Constructed() {
			wrapped = field
		}
	}
	if wrapped != nil && !wrapped.ReadASN1(&list, cryptobyte_asn1.SEQUENCE) {
		return nil, ErrCertificate
	}
	return list, nil
}

// CertificateSCTs returns the timestamps in a certificate in DER (RFC 6962, section 3.3). The error is nil, or wraps
// ErrCertificate, ErrNoSCTs or ct.ErrSCT.
func CertificateSCTs(certificate []byte) ([]ct.SCT, error) {
	value, _, found, err := extension(certificate, sctList)
	if err != nil {
		return nil, err
	}
	if !found {
		return nil, ErrNoSCTs
	}
	content := cryptobyte.String(value)
	var list cryptobyte.String
	if !content.ReadASN1(&list, cryptobyte_asn1.OCTET_STRING) {
		return nil, ct.ErrSCT
	}
	return ct.ParseSCTList(list)
}

// Certificates returns the certificates of a file, in DER. The file contains certificates in PEM, or one in DER. The
// error is nil or wraps ErrCertificate.
func Certificates(content []byte) (certificates [][]byte, err error) {
	for rest := content; ; {
		var block *pem.Block
		if block, rest = pem.Decode(rest); block == nil {
			break
		}
		if block.Type == "CERTIFICATE" {
			certificates = append(certificates, block.Bytes)
		}
	}
	if len(certificates) == 0 {
		certificates = [][]byte{content}
	}
	for _, certificate := range certificates {
		if _, _, _, err := extension(certificate, sctList); err != nil {
			return nil, err
		}
	}
	return certificates, nil
}
