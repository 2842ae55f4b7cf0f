// Package ct has the values of Certificate Transparency, each with one codec: tree heads, entries, leaves, timestamps,
// and the names of tiles. It verifies what a log signs: tree heads, checkpoints and timestamps.
//
// The proved library makes the bytes that were signed. crypto/ecdsa and crypto/rsa decide whether a signature is the
// key's, which is not proved.
package ct

import (
	"crypto"
	"crypto/ecdsa"
	"crypto/rsa"
	"crypto/sha256"
	"crypto/x509"
	"encoding/binary"
	"errors"
	"fmt"
)

// The reasons for which a signed text is refused. Use errors.Is.
var (
	// ErrKey means that a log may not have this public key (RFC 6962, section 2.1.4).
	ErrKey = errors.New("signature: not a log's key: it must be a SubjectPublicKeyInfo of ECDSA or RSA, in DER")
	// ErrForm means that a text is not a signed tree head, whatever its signature is.
	ErrForm = errors.New("signature: not a signed tree head")
	// ErrSigner means that a text is a signed tree head, but the log's key did not sign it.
	ErrSigner = errors.New("signature: not signed with the log's key")
)

// The numbers of algorithms in a DigitallySigned (RFC 5246, section 7.4.1.4.1).
const (
	hashSHA256     = 4
	algorithmRSA   = 1
	algorithmECDSA = 3
)

// minRSABits is the minimum size of a log's RSA key in bits (RFC 6962, section 2.1.4).
const minRSABits = 2048

// ParseKey reads a log's public key, a SubjectPublicKeyInfo in DER. The error is nil or wraps ErrKey.
func ParseKey(der []byte) (crypto.PublicKey, error) {
	key, err := x509.ParsePKIXPublicKey(der)
	if err != nil {
		return nil, fmt.Errorf("%w: %v", ErrKey, err)
	}
	switch key := key.(type) {
	case *ecdsa.PublicKey:
		return key, nil
	case *rsa.PublicKey:
		if bits := key.N.BitLen(); bits < minRSABits {
			return nil, fmt.Errorf("%w: RSA of %d bits, and the minimum is %d", ErrKey, bits, minRSABits)
		}
		return key, nil
	}
	return nil, fmt.Errorf("%w: it is a %T", ErrKey, key)
}

// Verify checks a DigitallySigned (RFC 5246, section 4.7) over a message with a log's key, a SubjectPublicKeyInfo in
// DER. The hash must be SHA-256. The error is nil, or wraps ErrKey or ErrSigner.
func Verify(publicKey, message, digitallySigned []byte) error {
	key, err := ParseKey(publicKey)
	if err != nil {
		return err
	}
	const header = 4
	if len(digitallySigned) < header || int(binary.BigEndian.Uint16(digitallySigned[2:])) != len(
		digitallySigned)-header {
		return fmt.Errorf("%w: the signature is not a DigitallySigned", ErrSigner)
	}
	hash, algorithm, signed := digitallySigned[0], digitallySigned[1], digitallySigned[header:]
	if hash != hashSHA256 {
		return fmt.Errorf("%w: the hash has the number %d, and SHA-256 is %d", ErrSigner, hash, hashSHA256)
	}
	digest := sha256.Sum256(message)
	switch key := key.(type) {
	case *ecdsa.PublicKey:
		if algorithm == algorithmECDSA && ecdsa.VerifyASN1(key, digest[:], signed) {
			return nil
		}
	case *rsa.PublicKey:
		if algorithm == algorithmRSA && rsa.VerifyPKCS1v15(key, crypto.SHA256, digest[:], signed) == nil {
			return nil
		}
	}
	return ErrSigner
}
