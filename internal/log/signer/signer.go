// Package signer signs for a log with ECDSA over P-256 and SHA-256 (RFC 6962, section 2.1.4). A guard decides what may
// be signed (docs/GUARD.md). The signer of ctserve is a process of its own, which Client asks.
package signer

import (
	"context"
	"crypto/ecdsa"
	"crypto/elliptic"
	"crypto/sha256"
	"crypto/x509"
	"errors"
	"fmt"
	"wagtenib/bindings/go/wagtenib"
	"wagtenib/internal/ct"
)

// Signer signs heads and timestamps. Its methods may be called concurrently.
type Signer interface {
	// Key returns the log's public key, a SubjectPublicKeyInfo in DER.
	Key() []byte
	// IsGuarded reports whether a guard approves each head, and each timestamp's leaf by its path in the last head's
	// tree, before it is signed.
	IsGuarded() bool
	// Last returns the head that the guard approved last. It returns nil before the first head, and if there is no
	// guard.
	Last(ctx context.Context) (*ct.TreeHead, error)
	// SignHead returns the DigitallySigned of a head (RFC 6962, section 3.5): two bytes of algorithms, two bytes of
	// length, and the signature. The proof leads from the last head to this one (section 2.1.2). The last head may be
	// signed again. A head that the guard does not approve is a Refusal.
	SignHead(ctx context.Context, head ct.TreeHead, consistency [][32]byte) ([]byte, error)
	// SignStep returns the DigitallySigned of each timestamp of a step (section 3.2), or an error.
	SignStep(ctx context.Context, step Step) ([][]byte, error)
	// SignTimestamps returns the DigitallySigned of each of some timestamps, or an error.
	SignTimestamps(ctx context.Context, receipts []Receipt) ([][]byte, error)
}

// messageOf returns the bytes that are signed for a head (RFC 6962, section 3.5).
func messageOf(head ct.TreeHead) []byte {
	message := wagtenib.TreeHeadSignature(head)
	return message[:]
}

// CheckHead returns an error unless a DigitallySigned is the key's signature of a head.
func CheckHead(key []byte, head ct.TreeHead, signed []byte) error {
	return Check(key, messageOf(head), signed)
}

// Receipt is a timestamp to sign. Its bytes are those of its leaf (RFC 6962, sections 3.2 and 3.4). The path leads from
// the leaf's index to the root of the last head.
type Receipt struct {
	Leaf  []byte
	Index uint64
	Path  [][32]byte
}

// Step holds the leaves that a step added, whose timestamps must be signed. The head of the step is the last head. The
// first leaf has the index First, and the last leaf is the last one of the head's tree. Subtrees are the roots of the
// perfect subtrees of the leaves before the step, largest first.
type Step struct {
	First    uint64
	Subtrees [][32]byte
	Leaves   [][]byte
}

// Refusal is the reason why the guard does not approve a head or a timestamp (docs/GUARD.md has the names). Nothing was
// signed.
type Refusal struct{ Name, Fault string }

func (r Refusal) Error() string {
	if r.Fault != "" {
		return "signer: refused: " + r.Name + " (" + r.Fault + ")"
	}
	return "signer: refused: " + r.Name
}

// Is reports whether the target is ErrRefused, which every refusal is.
func (r Refusal) Is(target error) bool { return target == ErrRefused }

// TooFar is the refusal of a head whose timestamp is too far after the last one's.
var TooFar = Refusal{Name: "timestamp-too-far"}

// The kinds of errors. Use errors.Is.
var (
	// ErrRefused: the guard does not approve the head or the timestamp.
	ErrRefused = errors.New("signer: refused")
	// ErrMoved: another signer has approved a head in between. Call Last, and then sign again.
	ErrMoved = errors.New("signer: another signer has approved a head in between")
	// ErrState: the guard's state is missing, damaged or rolled back.
	ErrState = errors.New("signer: no valid guard state")
	// ErrGone: the signer's process does not start, has ended, or sent no reply in time.
	ErrGone = errors.New("signer: no reply from the signer")
	// ErrReply: a reply does not belong to the request. The process is then ended, or the connection closed, since its
	// next reply may not belong to its request either.
	ErrReply = errors.New("signer: the reply does not belong to the request")
	// ErrKey: a file has no key that a log can use.
	ErrKey = errors.New("signer: not a log's key")
	// ErrSignature: a signature is not the key's signature of these bytes.
	ErrSignature = errors.New("signer: not the key's signature")
)

// Check returns an error unless a DigitallySigned is the key's signature of a message. The key is a
// SubjectPublicKeyInfo in DER.
func Check(key, message, signed []byte) error {
	public, err := parsePublicKey(key)
	if err != nil {
		return err
	}
	return check(public, message, signed)
}

func parsePublicKey(key []byte) (*ecdsa.PublicKey, error) {
	parsed, err := x509.ParsePKIXPublicKey(key)
	if err != nil {
		return nil, fmt.Errorf("%w: %v", ErrKey, err)
	}
	public, ok := parsed.(*ecdsa.PublicKey)
	if !ok || public.Curve != elliptic.P256() {
		return nil, fmt.Errorf("%w: it is not a P-256 key", ErrKey)
	}
	return public, nil
}

func check(public *ecdsa.PublicKey, message, signed []byte) error {
	if len(signed) < 4 || signed[0] != algorithms[0] || signed[1] != algorithms[1] ||
		int(signed[2])<<8|int(signed[3]) != len(signed)-4 {
		return fmt.Errorf("%w: it is not ECDSA with SHA-256", ErrSignature)
	}
	if hash := sha256.Sum256(message); !ecdsa.VerifyASN1(public, hash[:], signed[4:]) {
		return ErrSignature
	}
	return nil
}
