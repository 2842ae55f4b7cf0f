package ct

import (
	"encoding/base64"
	"encoding/binary"
	"errors"
	"fmt"
	"strings"

	"golang.org/x/mod/sumdb/note"

	"wagtenib/bindings/go/wagtenib"
)

// algorithmRFC6962 is the type of a log's key in a signature line (C2SP static-ct-api, "Checkpoints"), and timestampBytes
// the length of the timestamp before the signature.
const (
	algorithmRFC6962 = 5
	timestampBytes   = 8
)

// verifier is a key of a type that x/mod's note package does not know.
type verifier struct {
	name   string
	id     uint32
	verify func(text, signature []byte) bool
}

func (v verifier) Name() string                       { return v.name }
func (v verifier) KeyHash() uint32                    { return v.id }
func (v verifier) Verify(text, signature []byte) bool { return v.verify(text, signature) }

// NewVerifier returns a key of a signed note. Its ID is a hash of its name, its type and its bytes (C2SP signed-note).
func NewVerifier(name string, algorithm uint8, key []byte, verify func(text, signature []byte) bool) note.Verifier {
	id := wagtenib.NoteKeyID(name, algorithm, key)
	return verifier{name, binary.BigEndian.Uint32(id[:]), verify}
}

// LogVerifier returns the key of a log in its checkpoints (type 5, RFC6962NoteSignature), from the log's public key in
// DER. Such a signature is over the tree head at the timestamp in the signature line. It covers neither the origin nor
// extension lines, so Verify compares the origin and refuses extension lines.
func LogVerifier(origin string, publicKey []byte) note.Verifier {
	logID := wagtenib.LogID(publicKey)
	return NewVerifier(origin, algorithmRFC6962, logID[:], func(text, signature []byte) bool {
		checkpoint, err := wagtenib.ReadCheckpoint(string(text))
		if err != nil || checkpoint.Origin != origin || len(signature) <= timestampBytes {
			return false
		}
		message := wagtenib.TreeHeadSignature(headOf(checkpoint, signature))
		return Verify(publicKey, message[:], signature[timestampBytes:]) == nil
	})
}

// headOf returns the head of a checkpoint, at the timestamp of a signature.
func headOf(checkpoint wagtenib.Checkpoint, signature []byte) TreeHead {
	return TreeHead{TreeSize: checkpoint.TreeSize, Timestamp: binary.BigEndian.Uint64(signature), Root: checkpoint.Root}
}

// SignatureLine returns the line of a note that has a signature with a timestamp, as logs (C2SP static-ct-api) and
// witnesses (C2SP tlog-cosignature) sign.
func SignatureLine(key note.Verifier, timestamp uint64, signature []byte) string {
	content := binary.BigEndian.AppendUint32(nil, key.KeyHash())
	content = append(binary.BigEndian.AppendUint64(content, timestamp), signature...)
	return "— " + key.Name() + " " + base64.StdEncoding.EncodeToString(content) + "\n"
}

// NoteText returns the text of a signed note. It verifies no signature. The error is nil or wraps ErrForm.
func NoteText(signed []byte) (string, error) {
	var unknown *note.UnverifiedNoteError
	if _, err := note.Open(signed, nil); !errors.As(err, &unknown) {
		return "", fmt.Errorf("%w: it is not a signed note", ErrForm)
	}
	return unknown.Note.Text, nil
}

// OpenNote reads the checkpoint of a tiled log, which is a signed note (C2SP signed-note, tlog-checkpoint,
// static-ct-api), and verifies the signature of the log's key. It ignores all other signatures. The error is nil, or
// wraps ErrForm or ErrSigner, and the error of x/mod's note package.
func OpenNote(signed []byte, key note.Verifier) (SignedHead, error) {
	opened, err := note.Open(signed, note.VerifierList(key))
	var unverified *note.UnverifiedNoteError
	var invalid *note.InvalidSignatureError
	switch {
	case errors.As(err, &invalid):
		return SignedHead{}, fmt.Errorf("%w: checkpoint of %q: %w", ErrSigner, key.Name(), err)
	case errors.As(err, &unverified):
		found, _, _ := strings.Cut(unverified.Note.Text, "\n")
		if _, wrong := wagtenib.ReadCheckpoint(unverified.Note.Text); wrong != nil {
			return SignedHead{}, fmt.Errorf("%w: %v: %w", ErrForm, wrong, err)
		}
		return SignedHead{}, fmt.Errorf("%w: checkpoint of %.100q, and %q is expected: %w", ErrSigner, found, key.Name(), err)
	case err != nil:
		return SignedHead{}, fmt.Errorf("%w: it is not a signed note: %w", ErrForm, err)
	}
	checkpoint, err := wagtenib.ReadCheckpoint(opened.Text)
	if err != nil {
		return SignedHead{}, fmt.Errorf("%w: %v", ErrForm, err)
	}
	content, err := base64.StdEncoding.DecodeString(opened.Sigs[0].Base64)
	const idBytes = 4
	if err != nil || len(content) <= idBytes+timestampBytes {
		return SignedHead{}, fmt.Errorf("%w: the signature has no timestamp", ErrForm)
	}
	signature := content[idBytes:]
	return SignedHead{headOf(checkpoint, signature), signed, signature[timestampBytes:]}, nil
}

// OpenCheckpoint reads the checkpoint of a tiled log, as OpenNote does, and verifies it with the log's public key in
// DER.
func OpenCheckpoint(signed []byte, origin string, publicKey []byte) (SignedHead, error) {
	return OpenNote(signed, LogVerifier(origin, publicKey))
}
