//go:build linux && (amd64 || arm64)

package wagtenib

// #cgo nocallback wagtenib_checkpoint_text
// #cgo noescape wagtenib_checkpoint_text
// #cgo nocallback wagtenib_read_checkpoint
// #cgo noescape wagtenib_read_checkpoint
// #cgo nocallback wagtenib_tree_head_signature
// #cgo noescape wagtenib_tree_head_signature
// #cgo nocallback wagtenib_cosignature_message
// #cgo noescape wagtenib_cosignature_message
// #cgo nocallback wagtenib_note_key_id
// #cgo noescape wagtenib_note_key_id
// #cgo nocallback wagtenib_log_id
// #cgo noescape wagtenib_log_id
// #cgo nocallback wagtenib_version
// #cgo noescape wagtenib_version
// #include "wagtenib.h"
import "C"

import "unsafe"

// Checkpoint has the content of a checkpoint's text (C2SP tlog-checkpoint).
type Checkpoint struct {
	Origin   string
	TreeSize uint64 // leaves
	Root     Hash
}

// textRoom is enough room for a checkpoint's size, its root in base64 and its three line ends.
const textRoom = 20 + 44 + 3

// CheckpointText returns the text of a checkpoint without signatures and extension lines. The error is nil, ErrOrigin
// or ErrMemory.
func CheckpointText(c Checkpoint) (string, error) {
	text, code := output(len(c.Origin)+textRoom, func(out *C.uint8_t, room C.size_t, length *C.uint64_t) C.uint32_t {
		return C.wagtenib_checkpoint_text(ofText(c.Origin), C.size_t(len(c.Origin)), C.uint64_t(c.TreeSize), ofHash(&c.Root),
			out, room, length)
	})
	return string(text), result(code)
}

// ReadCheckpoint reads the text of a checkpoint without extension lines, with its last line end, and without the empty
// line and the signatures after it. The error is nil, ErrNoCheckpoint or ErrMemory.
func ReadCheckpoint(text string) (Checkpoint, error) {
	var found C.struct_wagtenib_checkpoint
	if err := result(C.wagtenib_read_checkpoint(ofText(text), C.size_t(len(text)), &found)); err != nil {
		return Checkpoint{}, err
	}
	return Checkpoint{Origin: text[:uint64(found.origin_length)], TreeSize: uint64(found.tree_size),
		Root: *(*Hash)(unsafe.Pointer(&found.root))}, nil
}

// TreeHeadSignature returns the bytes that a log signs for a head (RFC 6962, section 3.5). A checkpoint's
// RFC6962NoteSignature is also over these bytes (C2SP static-ct-api, "Checkpoints").
func TreeHeadSignature(head TreeHead) (signed SignedBytes) {
	of := head.inC()
	C.wagtenib_tree_head_signature(&of, ofSigned(&signed))
	return signed
}

// CosignatureMessage returns the bytes that a witness signs for a cosignature with this time, in seconds since 1970, of
// the text of a note (C2SP tlog-cosignature). The text may have extension lines. A witness calls WitnessCosign instead,
// which decides whether it may sign them. The error is nil, ErrNotUTF8 or ErrMemory.
func CosignatureMessage(time uint64, text string) ([]byte, error) {
	message, code := output(maxBeforeText+len(text), func(out *C.uint8_t, room C.size_t, length *C.uint64_t) C.uint32_t {
		return C.wagtenib_cosignature_message(C.uint64_t(time), ofText(text), C.size_t(len(text)), out, room, length)
	})
	return message, result(code)
}

// NoteKeyID returns the ID of a key in a note's signature (C2SP signed-note): the first 4 bytes of SHA-256 over the
// key's name, a line feed, the byte of its algorithm, and the public key. For an RFC6962NoteSignature, algorithm 5, the
// LogID replaces the key.
func NoteKeyID(name string, algorithm uint8, publicKey []byte) (id [4]byte) {
	C.wagtenib_note_key_id(ofText(name), C.size_t(len(name)), C.uint8_t(algorithm), ofBytes(publicKey),
		C.size_t(len(publicKey)), (*C.uint8_t)(unsafe.Pointer(&id)))
	return id
}

// LogID returns the LogID of a log: SHA-256 of its public key, a SubjectPublicKeyInfo in DER (RFC 6962, section 3.2).
func LogID(publicKey []byte) (id Hash) {
	C.wagtenib_log_id(ofBytes(publicKey), C.size_t(len(publicKey)), ofHash(&id))
	return id
}

// HeaderVersion is the version of wagtenib.h: 1,000,000 times the first number of the release, 1,000 times the second,
// and the third.
const HeaderVersion uint32 = C.WAGTENIB_VERSION

// Version returns the version of the library's code, in the form of HeaderVersion.
func Version() uint32 { return uint32(C.wagtenib_version()) }
