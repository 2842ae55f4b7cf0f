// Package witness implements both sides of C2SP tlog-witness: a witness over HTTP, whose decisions are proved code
// (docs/WITNESS.md), and the requests that a log sends to its witnesses.
package witness

import (
	"bytes"
	"crypto/ecdsa"
	"crypto/ed25519"
	"crypto/elliptic"
	"crypto/x509"
	"encoding/base64"
	"encoding/binary"
	"encoding/hex"
	"encoding/pem"
	"errors"
	"fmt"
	"strconv"
	"strings"
	"time"

	"golang.org/x/mod/sumdb/note"

	"wagtenib/internal/ct"
)

// The limits of a request, and the types of keys in signature lines (C2SP signed-note, tlog-cosignature,
// static-ct-api).
const (
	// MaxBody is the maximum number of bytes of a request, and MaxProof the maximum number of hashes in it (C2SP
	// tlog-witness).
	MaxBody  = 64 << 10
	MaxProof = 63

	algCosignature = 4
)

// The kinds of errors in notes. Use errors.Is.
var (
	// ErrRequest means that a text is neither a request nor a note.
	ErrRequest = errors.New("witness: not a request")
	// ErrKey means that a text is not a key of the expected kind.
	ErrKey = errors.New("witness: no such key")
)

// Request is an add-checkpoint request: the size of the tree from which the proof leads, the proof, and the signed
// note. Text is the text of the note.
type Request struct {
	Old   uint64
	Proof [][32]byte
	Note  []byte
	Text  string
}

// Origin returns the first line of the checkpoint, which may be empty.
func (r Request) Origin() string {
	origin, _, _ := strings.Cut(r.Text, "\n")
	return origin
}

// parseNumber reads a number in decimal, without leading zeros, below 2^63.
func parseNumber(text string) (uint64, error) {
	n, err := strconv.ParseUint(text, 10, 63)
	if err != nil || strconv.FormatUint(n, 10) != text {
		return 0, fmt.Errorf("%w: a size is not a decimal number", ErrRequest)
	}
	return n, nil
}

// parseHash reads a hash of 32 bytes in base64.
func parseHash(text string) (h [32]byte, err error) {
	read, err := base64.StdEncoding.DecodeString(text)
	if err != nil || len(read) != len(h) || base64.StdEncoding.EncodeToString(read) != text {
		return h, fmt.Errorf("%w: a hash is not 32 bytes in base64", ErrRequest)
	}
	return *(*[32]byte)(read), nil
}

// ParseRequest reads the body of add-checkpoint: "old N", the proof's hashes, an empty line, the signed note.
func ParseRequest(body []byte) (r Request, err error) {
	if len(body) > MaxBody {
		return r, fmt.Errorf("%w: more than %d bytes", ErrRequest, MaxBody)
	}
	head, signed, found := bytes.Cut(body, []byte("\n\n"))
	if !found {
		return r, fmt.Errorf("%w: there is no empty line before the note", ErrRequest)
	}
	lines := strings.Split(string(head), "\n")
	if !strings.HasPrefix(lines[0], "old ") || len(lines) > 1+MaxProof {
		return r, fmt.Errorf("%w: it has no old size, or more than %d hashes", ErrRequest, MaxProof)
	}
	if r.Old, err = parseNumber(strings.TrimPrefix(lines[0], "old ")); err != nil {
		return r, err
	}
	for _, line := range lines[1:] {
		h, err := parseHash(line)
		if err != nil {
			return r, err
		}
		r.Proof = append(r.Proof, h)
	}
	r.Note = signed
	if r.Text, err = ct.NoteText(signed); err != nil {
		return r, fmt.Errorf("%w: %w", ErrRequest, err)
	}
	return r, nil
}

// Body returns the bytes of a request.
func (r Request) Body() []byte {
	body := []byte("old " + strconv.FormatUint(r.Old, 10) + "\n")
	for i := range r.Proof {
		body = append(body, base64.StdEncoding.EncodeToString(r.Proof[i][:])+"\n"...)
	}
	return append(append(body, '\n'), r.Note...)
}

// LogKey reads a log's public key: a verifier key of a signed note (type 1, Ed25519), or a SubjectPublicKeyInfo in PEM,
// of Ed25519 (type 1) or P-256 (type 5).
func LogKey(origin, text string) (note.Verifier, error) {
	block, _ := pem.Decode([]byte(text))
	if block == nil {
		key, err := note.NewVerifier(strings.TrimSpace(text))
		if err != nil {
			return nil, fmt.Errorf("%w: it is neither an Ed25519 verifier key nor a key in PEM", ErrKey)
		}
		return key, nil
	}
	parsed, err := x509.ParsePKIXPublicKey(block.Bytes)
	if err != nil {
		return nil, fmt.Errorf("%w: %v", ErrKey, err)
	}
	switch key := parsed.(type) {
	case ed25519.PublicKey:
		written, err := note.NewEd25519VerifierKey(origin, key)
		if err != nil {
			return nil, fmt.Errorf("%w: %v", ErrKey, err)
		}
		return note.NewVerifier(written)
	case *ecdsa.PublicKey:
		if key.Curve == elliptic.P256() {
			return ct.LogVerifier(origin, block.Bytes), nil
		}
	}
	return nil, fmt.Errorf("%w: it is neither an Ed25519 nor a P-256 key", ErrKey)
}

// Message returns the bytes that a cosignature signs (C2SP tlog-cosignature, "cosignature/v1"). They contain the
// timestamp in seconds and the checkpoint's text.
func Message(seconds uint64, text string) []byte {
	return []byte("cosignature/v1\ntime " + strconv.FormatUint(seconds, 10) + "\n" + text)
}

// OfCosigner returns the key of a witness (type 4). The signature line contains the timestamp, and the signature is
// over Message.
func OfCosigner(name string, key ed25519.PublicKey) note.Verifier {
	return ct.NewVerifier(name, algCosignature, key, func(text, signature []byte) bool {
		return len(signature) == 8+ed25519.SignatureSize && ed25519.Verify(key,
			Message(binary.BigEndian.Uint64(signature[:8]), string(text)), signature[8:])
	})
}

// TimestampOf returns the name of the witness and the timestamp in a cosignature line. ok is false for any other line.
func TimestampOf(line string) (name string, at time.Time, ok bool) {
	name, text, _ := strings.Cut(strings.TrimPrefix(line, "— "), " ")
	blob, err := base64.StdEncoding.DecodeString(text)
	if err != nil || len(blob) != 4+8+ed25519.SignatureSize || !strings.HasPrefix(line, "— ") {
		return "", time.Time{}, false
	}
	return name, time.Unix(int64(binary.BigEndian.Uint64(blob[4:12])), 0), true
}

// VerifierKey returns a witness's key as text: its name, the four bytes of its key ID in hexadecimal, and base64 of the
// type and the key.
func VerifierKey(name string, key ed25519.PublicKey) string {
	return fmt.Sprintf("%s+%08x+%s", name, OfCosigner(name, key).KeyHash(),
		base64.StdEncoding.EncodeToString(append([]byte{algCosignature}, key...)))
}

// ReadVerifierKey reads the text that VerifierKey returns.
func ReadVerifierKey(text string) (name string, key ed25519.PublicKey, err error) {
	name, rest, _ := strings.Cut(text, "+")
	id, written, _ := strings.Cut(rest, "+")
	raw, err := base64.StdEncoding.DecodeString(written)
	if err != nil || len(raw) != 1+ed25519.PublicKeySize || raw[0] != algCosignature || !isName(name) {
		return "", nil, fmt.Errorf("%w: it is not a verifier key of a witness", ErrKey)
	}
	if given, err := hex.DecodeString(id); err != nil || len(given) != 4 ||
		binary.BigEndian.Uint32(given) != OfCosigner(name, raw[1:]).KeyHash() {
		return "", nil, fmt.Errorf("%w: the ID in the verifier key is not that of its name and key", ErrKey)
	}
	return name, raw[1:], nil
}

// isName reports whether a text can be a key's name in a note.
func isName(name string) bool {
	return name != "" && !strings.ContainsAny(name, "+") && len(strings.Fields(name)) == 1 &&
		strings.TrimSpace(name) == name
}

// ReadKey reads a witness's private key in PEM: an Ed25519 key as openssl genpkey writes it.
func ReadKey(text []byte) (ed25519.PrivateKey, error) {
	block, _ := pem.Decode(text)
	if block == nil || block.Type != "PRIVATE KEY" {
		return nil, fmt.Errorf("%w: there is no private key in PEM", ErrKey)
	}
	parsed, err := x509.ParsePKCS8PrivateKey(block.Bytes)
	if err != nil {
		return nil, fmt.Errorf("%w: %v", ErrKey, err)
	}
	key, ok := parsed.(ed25519.PrivateKey)
	if !ok {
		return nil, fmt.Errorf("%w: it is not an Ed25519 key", ErrKey)
	}
	return key, nil
}
