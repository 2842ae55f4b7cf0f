package ct

import (
	"crypto/sha256"
	"encoding/base64"
	"encoding/binary"
	"encoding/json"
	"errors"
	"fmt"

	"golang.org/x/crypto/cryptobyte"
)

// ErrSCT means that bytes are not a timestamp of a log.
var ErrSCT = errors.New("not a signed certificate timestamp of version 1")

// SCT is a signed certificate timestamp (RFC 6962, section 3.2).
type SCT struct {
	// LogID is SHA-256 over the log's key (its SubjectPublicKeyInfo in DER).
	LogID [32]byte
	// Timestamp is in milliseconds since 1970.
	Timestamp uint64
	// Extensions are the bytes of CtExtensions, without their length.
	Extensions []byte
	// Signature is the DigitallySigned: the two bytes of the algorithms, two of length, and the signature.
	Signature []byte
}

// Index returns the index of the leaf in the extension leaf_index (C2SP static-ct-api). ok is false if there is no such
// extension.
func (s SCT) Index() (index uint64, ok bool) {
	const leafIndex, bytes = 0, 5
	for rest := cryptobyte.String(s.Extensions); !rest.Empty(); {
		var kind uint8
		var value cryptobyte.String
		if !rest.ReadUint8(&kind) || !rest.ReadUint16LengthPrefixed(&value) {
			return 0, false
		}
		if kind == leafIndex && len(value) == bytes {
			return binary.BigEndian.Uint64(append([]byte{0, 0, 0}, value...)), true
		}
	}
	return 0, false
}

// Bytes returns the SignedCertificateTimestamp in the encoding of TLS (RFC 6962, section 3.2).
func (s SCT) Bytes() []byte { return s.append([]byte{0}) }

// append appends what follows the version.
func (s SCT) append(content []byte) []byte {
	content = binary.BigEndian.AppendUint64(append(content, s.LogID[:]...), s.Timestamp)
	content = append(binary.BigEndian.AppendUint16(content, uint16(len(s.Extensions))), s.Extensions...)
	return append(content, s.Signature...)
}

// ParseSCT reads a SignedCertificateTimestamp in the encoding of TLS (RFC 6962, section 3.2). The error is nil or wraps
// ErrSCT.
func ParseSCT(content []byte) (SCT, error) {
	var sct SCT
	rest := cryptobyte.String(content)
	var version uint8
	var id []byte
	var extensions cryptobyte.String
	if !rest.ReadUint8(&version) || version != 0 || !rest.ReadBytes(&id, sha256.Size) ||
		!rest.ReadUint64(&sct.Timestamp) ||
		!rest.ReadUint16LengthPrefixed(&extensions) || len(rest) < 4 ||
		int(binary.BigEndian.Uint16(rest[2:])) != len(rest)-4 {
		return SCT{}, ErrSCT
	}
	sct.LogID, sct.Extensions, sct.Signature = [32]byte(id), extensions, rest
	return sct, nil
}

// ParseSCTList reads a SignedCertificateTimestampList (RFC 6962, section 3.3). The error is nil or wraps ErrSCT.
func ParseSCTList(content []byte) (scts []SCT, err error) {
	rest := cryptobyte.String(content)
	var list cryptobyte.String
	if !rest.ReadUint16LengthPrefixed(&list) || !rest.Empty() || list.Empty() {
		return nil, fmt.Errorf("%w: not a list of them", ErrSCT)
	}
	for !list.Empty() {
		var one cryptobyte.String
		if !list.ReadUint16LengthPrefixed(&one) {
			return nil, fmt.Errorf("%w: not a list of them", ErrSCT)
		}
		sct, err := ParseSCT(one)
		if err != nil {
			return nil, err
		}
		scts = append(scts, sct)
	}
	return scts, nil
}

// sctAnswer is the answer to add-chain and add-pre-chain (RFC 6962, section 4.1). Bytes are in base64.
type sctAnswer struct {
	Version    uint8  `json:"sct_version"`
	ID         []byte `json:"id"`
	Timestamp  uint64 `json:"timestamp"`
	Extensions []byte `json:"extensions"`
	Signature  []byte `json:"signature"`
}

// MarshalJSON returns the answer of a log to add-chain and add-pre-chain (RFC 6962, section 4.1).
func (s SCT) MarshalJSON() ([]byte, error) {
	return json.Marshal(sctAnswer{0, s.LogID[:], s.Timestamp, s.Extensions, s.Signature})
}

// UnmarshalJSON reads the answer of a log to add-chain or add-pre-chain.
func (s *SCT) UnmarshalJSON(text []byte) error {
	var answer sctAnswer
	if err := json.Unmarshal(text, &answer); err != nil {
		return fmt.Errorf("%w: %v", ErrSCT, err)
	}
	if len(answer.ID) != sha256.Size {
		return fmt.Errorf("%w: the log ID has %d bytes", ErrSCT, len(answer.ID))
	}
	of := SCT{[32]byte(answer.ID), answer.Timestamp, answer.Extensions, answer.Signature}
	read, err := ParseSCT(of.append([]byte{answer.Version}))
	*s = read
	return err
}

// ReadSCTs reads timestamps in one of these forms: one in the encoding of TLS, a list of them (RFC 6962, section 3.3),
// the base64 of either, or the answer of a log to add-chain or add-pre-chain in JSON (section 4.1). The error is nil or
// wraps ErrSCT.
func ReadSCTs(content []byte) ([]SCT, error) {
	var answer SCT
	if json.Unmarshal(content, &answer) == nil && answer.Signature != nil {
		return []SCT{answer}, nil
	}
	decoded, err := base64.StdEncoding.DecodeString(string(content))
	if err != nil {
		decoded = nil
	}
	for _, candidate := range [][]byte{content, decoded} {
		if scts, err := ParseSCTList(candidate); err == nil {
			return scts, nil
		}
		if sct, err := ParseSCT(candidate); err == nil {
			return []SCT{sct}, nil
		}
	}
	return nil, fmt.Errorf("%w, no list of them, and no answer to add-chain", ErrSCT)
}
