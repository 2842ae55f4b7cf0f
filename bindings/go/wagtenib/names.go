//go:build linux && (amd64 || arm64)

package wagtenib

// #cgo nocallback wagtenib_certificate_names
// #cgo noescape wagtenib_certificate_names
// #cgo nocallback wagtenib_watched_names
// #cgo noescape wagtenib_watched_names
// #cgo nocallback wagtenib_names_in_bytes
// #cgo noescape wagtenib_names_in_bytes
// #include "wagtenib.h"
import "C"

import "encoding/binary"

// NameKind is the kind of a name of a certificate.
type NameKind uint8

// The kinds of names (RFC 5280, sections 4.1.2.6 and 4.2.1.6), by their numbers in wagtenib.h.
const (
	CommonName          NameKind = 1 // a common name of the subject, in a string of bytes
	BMPCommonName       NameKind = 2 // a common name in a BMPString, two bytes a character
	UniversalCommonName NameKind = 3 // a common name in a UniversalString, four bytes a character
	DNSName             NameKind = 4 // a dNSName of subjectAltName
	MailAddress         NameKind = 5 // an rfc822Name of subjectAltName
	URI                 NameKind = 6 // a uniformResourceIdentifier of subjectAltName
	IPAddress           NameKind = 7 // an iPAddress of subjectAltName: 4 or 16 bytes, if it is well-formed
)

// Name is a name of a certificate.
type Name struct {
	Kind  NameKind
	Bytes []byte // as they are in the certificate
}

// sizeOfLength is the number of bytes in which the library writes the length of a vector, and the position of a watched
// name.
const sizeOfLength = 8

// CertificateNames returns the names of a certificate (X509Entry), or of the TBSCertificate of a precertificate
// (PrecertEntry), both in DER: the common names of its subject, and after them the names of its subjectAltName, in
// order.
//
// The error is nil, a *CertificateError of ErrDERTruncated to ErrDERTrailing, ErrBadEntryType or ErrMemory.
func CertificateNames(entryType EntryType, certificate []byte) ([]Name, error) {
	var field C.uint32_t
	text, code := output(len(certificate), func(out *C.uint8_t, room C.size_t, length *C.uint64_t) C.uint32_t {
		return C.wagtenib_certificate_names(C.uint32_t(entryType), ofBytes(certificate), C.size_t(len(certificate)), out,
			room, length, &field)
	})
	if err := certificateResult(code, field); err != nil {
		return nil, err
	}
	var names []Name
	for len(text) > 0 {
		behind := text[1+sizeOfLength:]
		length := binary.BigEndian.Uint64(text[1:])
		names = append(names, Name{NameKind(text[0]), behind[:length:length]})
		text = behind[length:]
	}
	return names, nil
}

// Place is the place in a certificate at which a watched name was found.
type Place uint8

// The places of a watched name.
const (
	InAltName    Place = 1 // it is a name of subjectAltName
	InCommonName Place = 2 // it is a common name, and no name of subjectAltName
	InBytes      Place = 3 // its text is somewhere in the bytes: the place of NamesInBytes
)

// Found is a watched name that was found in a certificate.
type Found struct {
	Position uint64 // of the name in the list of watched names
	Place    Place
}

// WatchList is a list of watched names, encoded once for many calls of WatchedNames and NamesInBytes.
type WatchList struct{ bytes []byte }

// NewWatchList returns the list of these names. A name that begins with a dot is watched with all names below it.
func NewWatchList(names []string) WatchList {
	var list WatchList
	for _, name := range names {
		list.bytes = binary.BigEndian.AppendUint64(list.bytes, uint64(len(name)))
		list.bytes = append(list.bytes, name...)
	}
	return list
}

// WatchedNames returns the watched names that are found in a certificate (X509Entry) or in a TBSCertificate
// (PrecertEntry), both in DER, in the order of the list. A watched name is found by its labels (RFC 9525, section 6.3),
// without regard to the case of ASCII letters and to one dot at its end.
//
// The errors are those of CertificateNames.
func WatchedNames(entryType EntryType, certificate []byte, watched WatchList) ([]Found, error) {
	var field C.uint32_t
	text, code := output(0, func(out *C.uint8_t, room C.size_t, length *C.uint64_t) C.uint32_t {
		return C.wagtenib_watched_names(C.uint32_t(entryType), ofBytes(certificate), C.size_t(len(certificate)),
			ofBytes(watched.bytes), C.size_t(len(watched.bytes)), out, room, length, &field)
	})
	if err := certificateResult(code, field); err != nil {
		return nil, err
	}
	return foundNames(text), nil
}

// NamesInBytes returns the watched names that are somewhere in the bytes, in the order of the list, each with the place
// InBytes. The bytes may be any bytes, for example those of a certificate that cannot be read, or that has the name in
// a field that WatchedNames does not read. A watched name is found if the bytes contain its text, without regard to the
// case of ASCII letters. The text is the name without one dot at its end, and without the "*." or the dot in front. An
// empty text is in all bytes.
//
// The error is nil or ErrMemory.
func NamesInBytes(data []byte, watched WatchList) ([]Found, error) {
	text, code := output(0, func(out *C.uint8_t, room C.size_t, length *C.uint64_t) C.uint32_t {
		return C.wagtenib_names_in_bytes(ofBytes(data), C.size_t(len(data)), ofBytes(watched.bytes),
			C.size_t(len(watched.bytes)), out, room, length)
	})
	if err := result(code); err != nil {
		return nil, err
	}
	return foundNames(text), nil
}

// foundNames reads the watched names in a result of the library.
func foundNames(text []byte) []Found {
	found := make([]Found, 0, len(text)/(sizeOfLength+1))
	for ; len(text) > 0; text = text[sizeOfLength+1:] {
		found = append(found, Found{binary.BigEndian.Uint64(text), Place(text[sizeOfLength])})
	}
	return found
}
