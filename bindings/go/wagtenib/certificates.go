//go:build linux && (amd64 || arm64)

package wagtenib

// #cgo nocallback wagtenib_precertificate_entry
// #cgo noescape wagtenib_precertificate_entry
// #cgo nocallback wagtenib_promised_leaf
// #cgo noescape wagtenib_promised_leaf
// #cgo nocallback wagtenib_check_promise
// #cgo noescape wagtenib_check_promise
// #include "wagtenib.h"
import "C"

import "fmt"

// Field is the number of a field of a certificate (RFC 5280, section 4.1), as wagtenib.h numbers them.
type Field uint32

// issuerField is added to the number of a field of the issuer's certificate.
const issuerField = 16

var fieldNames = [...]string{
	1: "certificate", 2: "tbsCertificate", 3: "signatureAlgorithm", 4: "signatureValue", 5: "version",
	6: "serialNumber", 7: "signature", 8: "issuer", 9: "validity", 10: "subject",
	11: "subjectPublicKeyInfo", 12: "issuerUniqueID", 13: "subjectUniqueID", 14: "extensions", 15: "subjectAltName",
}

// String returns the name of the field, and whether the certificate is that of the issuer.
func (f Field) String() string {
	of, number := "the certificate", f
	if f > issuerField {
		of, number = "the issuer's certificate", f-issuerField
	}
	if number == 0 || int(number) >= len(fieldNames) {
		return fmt.Sprintf("field %d", uint32(f))
	}
	return fmt.Sprintf("%s of %s", fieldNames[number], of)
}

// CertificateError is the error of a certificate from which no entry or leaf can be computed. It has the first reason
// in reading order, and the field that causes it. It wraps the Code, so errors.Is finds the reason.
type CertificateError struct {
	Code  Code
	Field Field
}

// Error returns a sentence with the reason and the field.
func (e *CertificateError) Error() string { return fmt.Sprintf("%v (in %v)", e.Code, e.Field) }

// Unwrap returns the reason.
func (e *CertificateError) Unwrap() error { return e.Code }

// IsDER reports whether the reason is that a field is not correct DER.
func (e *CertificateError) IsDER() bool { return e.Code >= ErrDERTruncated && e.Code <= ErrDERTrailing }

// certificateResult returns the error of an answer about certificates.
func certificateResult(code C.uint32_t, field C.uint32_t) error {
	if code >= C.WAGTENIB_DER_TRUNCATED && code <= C.WAGTENIB_TBS_TOO_LONG {
		return &CertificateError{Code(code), Field(field)}
	}
	return result(code)
}

// output makes a call that writes bytes of a length that only the call knows. The first call has this much room. If
// that is too little, output calls once more.
func output(room int, call func(out *C.uint8_t, room C.size_t, length *C.uint64_t) C.uint32_t) ([]byte, C.uint32_t) {
	out := make([]byte, room)
	var length C.uint64_t
	code := call(ofBytes(out), C.size_t(len(out)), &length)
	if code == C.WAGTENIB_NO_ROOM {
		out = make([]byte, length)
		code = call(ofBytes(out), C.size_t(len(out)), &length)
	}
	if code != C.WAGTENIB_OK {
		return nil, code
	}
	return out[:length:length], code
}

// PrecertificateEntry returns the entry of the precertificate with this TBSCertificate (DER): the same without the
// poison extension (RFC 6962, section 3.2). If a precertificate signing certificate issued it, the caller must replace
// the issuer and its key identifier first.
//
// The error is nil, a *CertificateError, or ErrMemory. A *CertificateError is one of ErrDERTruncated to ErrDERTrailing,
// ErrNoExtension, ErrSecondExtension and ErrBadPoison.
func PrecertificateEntry(tbs []byte) ([]byte, error) {
	var field C.uint32_t
	entry, code := output(len(tbs), func(out *C.uint8_t, room C.size_t, length *C.uint64_t) C.uint32_t {
		return C.wagtenib_precertificate_entry(ofBytes(tbs), C.size_t(len(tbs)), out, room, length, &field)
	})
	return entry, certificateResult(code, field)
}

// Promise is an SCT in a certificate: the promise of a log (RFC 6962, section 3).
type Promise struct {
	Certificate []byte // the certificate, in DER
	Issuer      []byte // the certificate of its issuer, in DER
	Timestamp   uint64 // milliseconds since 1970
	Extensions  []byte // the CtExtensions, without their length
}

// PromisedLeaf returns the leaf (MerkleTreeLeaf, RFC 6962, section 3.4) that the SCT promises. It is computed from the
// certificate without its list of SCTs, and from SHA-256 of its issuer's key. The log signs these bytes (section 3.2).
//
// The error is nil, a *CertificateError, ErrExtensionsTooLong or ErrMemory. A *CertificateError is one of
// ErrDERTruncated to ErrDERTrailing, ErrNoExtension, ErrSecondExtension and ErrTBSTooLong.
func PromisedLeaf(p Promise) ([]byte, error) {
	var field C.uint32_t
	leaf, code := output(len(p.Certificate)+len(p.Extensions)+headerBytes+issuerHashBytes+lengthBytes+2,
		func(out *C.uint8_t, room C.size_t, length *C.uint64_t) C.uint32_t {
			return C.wagtenib_promised_leaf(ofBytes(p.Certificate), C.size_t(len(p.Certificate)), ofBytes(p.Issuer),
				C.size_t(len(p.Issuer)), C.uint64_t(p.Timestamp), ofBytes(p.Extensions), C.size_t(len(p.Extensions)), out, room,
				length, &field)
		})
	return leaf, certificateResult(code, field)
}

// CheckPromise checks that the leaf that the SCT promises is in a tree. It returns nil exactly if the audit path leads
// from that leaf at index to the root of a tree of size leaves. So the leaf is in every list of leaves with this root
// (assuming no SHA-256 collision).
//
// Otherwise it returns an error of PromisedLeaf, or the first error of the path, as VerifyInclusion does.
func CheckPromise(p Promise, index, size uint64, path []Hash, root Hash) error {
	var field C.uint32_t
	code := C.wagtenib_check_promise(ofBytes(p.Certificate), C.size_t(len(p.Certificate)), ofBytes(p.Issuer),
		C.size_t(len(p.Issuer)), C.uint64_t(p.Timestamp), ofBytes(p.Extensions), C.size_t(len(p.Extensions)),
		C.uint64_t(index), C.uint64_t(size), ofHashes(path), C.size_t(len(path)), ofHash(&root), &field)
	return certificateResult(code, field)
}
