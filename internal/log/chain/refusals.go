package chain

import "errors"

// Refusal is the reason why a chain is not accepted: one of the names below. Errors of this package wrap one, with a
// text after it.
type Refusal string

func (r Refusal) Error() string { return string(r) }

// The refusals.
const (
	// EmptyChain: there is no certificate.
	EmptyChain Refusal = "empty-chain"
	// ChainTooLong: there are more than MaxCertificates certificates, or they have more than MaxBytes bytes together.
	ChainTooLong Refusal = "chain-too-long"
	// CertificateTooLong: a certificate has more than MaxCertificateBytes bytes.
	CertificateTooLong Refusal = "certificate-too-long"
	// NoCertificate: bytes are not a certificate, or crypto/x509 cannot read an issuer.
	NoCertificate Refusal = "no-certificate"
	// NotIssuedByNext: a certificate's issuer is not the subject of the next one.
	NotIssuedByNext Refusal = "not-issued-by-next"
	// UnknownRoot: the last certificate is not a root of the log, and no root issued it.
	UnknownRoot Refusal = "unknown-root"
	// NotAnAuthority: an issuer may not issue certificates (basicConstraints, keyUsage).
	NotAnAuthority Refusal = "not-an-authority"
	// KeyTooLong: an issuer has an RSA key of more than MaxKeyBits bits.
	KeyTooLong Refusal = "key-too-long"
	// BadSignature: a signature is not the issuer's, or is of a kind that crypto/x509 does not check (MD5, DSA).
	BadSignature Refusal = "bad-signature"
	// OutsideWindow: the first certificate's notAfter is outside of the log's window.
	OutsideWindow Refusal = "outside-window"
	// Expired: the first certificate has expired, and the log refuses expired certificates.
	Expired Refusal = "expired"
	// NotYetValid: the validity of the first certificate has not begun, and the log refuses such certificates.
	NotYetValid Refusal = "not-yet-valid"
	// NotForServers: the first certificate is not for TLS servers (extended key usage), and the log accepts only those.
	NotForServers Refusal = "not-for-servers"
	// IsPrecertificate: a certificate has the poison extension.
	IsPrecertificate Refusal = "is-precertificate"
	// NoPoison: a precertificate lacks the poison extension.
	NoPoison Refusal = "no-poison"
	// BadPoison: the poison extension is not critical, or its value is not NULL.
	BadPoison Refusal = "bad-poison"
	// NoFinalIssuer: the chain has no issuer of the final certificate. The precertificate is a root, or its
	// precertificate signing certificate is a root.
	NoFinalIssuer Refusal = "no-final-issuer"
	// NoAuthorityKey: a precertificate has an authority key identifier, and the precertificate signing certificate has
	// none.
	NoAuthorityKey Refusal = "no-authority-key"
)

// Refusals lists all refusals.
var Refusals = []Refusal{
	EmptyChain, ChainTooLong, CertificateTooLong, NoCertificate, NotIssuedByNext, UnknownRoot, NotAnAuthority,
	KeyTooLong, BadSignature,
	OutsideWindow, Expired, NotYetValid, NotForServers, IsPrecertificate, NoPoison, BadPoison, NoFinalIssuer,
	NoAuthorityKey,
}

// RefusalOf returns the refusal that an error wraps, or "" if it wraps none.
func RefusalOf(err error) Refusal {
	var refusal Refusal
	errors.As(err, &refusal)
	return refusal
}
