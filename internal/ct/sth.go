package ct

import (
	"encoding/json"
	"fmt"

	"wagtenib/bindings/go/wagtenib"
)

// sth is the answer to get-sth (RFC 6962, section 4.3).
type sth struct {
	TreeSize  uint64 `json:"tree_size"`
	Timestamp uint64 `json:"timestamp"`
	Root      []byte `json:"sha256_root_hash"`
	Signature []byte `json:"tree_head_signature"`
}

// WriteSTH returns the answer to get-sth with a head.
func WriteSTH(head SignedHead) (json.RawMessage, error) {
	return json.Marshal(sth{head.TreeSize, head.Timestamp, head.Root[:], head.Signature})
}

// ReadSTH reads the answer to get-sth (RFC 6962, section 4.3). It does not verify the signature. The error is nil or
// wraps ErrForm.
func ReadSTH(answer []byte) (SignedHead, error) {
	var read sth
	if err := json.Unmarshal(answer, &read); err != nil {
		return SignedHead{}, fmt.Errorf("%w: %v", ErrForm, err)
	}
	if len(read.Root) != wagtenib.HashSize || len(read.Signature) == 0 {
		return SignedHead{}, fmt.Errorf("%w: get-sth must have a root of 32 bytes and a signature", ErrForm)
	}
	head := TreeHead{TreeSize: read.TreeSize, Timestamp: read.Timestamp, Root: wagtenib.Hash(read.Root)}
	return SignedHead{head, answer, read.Signature}, nil
}

// OpenSTH reads the answer to get-sth (RFC 6962, section 4.3) and verifies its signature. The error is nil, or wraps
// ErrForm or ErrSigner.
func OpenSTH(answer, publicKey []byte) (SignedHead, error) {
	head, err := ReadSTH(answer)
	if err != nil {
		return SignedHead{}, err
	}
	message := wagtenib.TreeHeadSignature(head.TreeHead)
	if err := Verify(publicKey, message[:], head.Signature); err != nil {
		return SignedHead{}, err
	}
	return head, nil
}

// CheckpointOfSTH verifies an answer to get-sth, and returns its head with the checkpoint of a log with this origin.
// The signature of a checkpoint is over the same bytes (C2SP static-ct-api, "Checkpoints"), so no new signature is
// needed. The error is that of OpenSTH, or wraps ErrForm if the origin is invalid.
func CheckpointOfSTH(answer []byte, origin string, publicKey []byte) (SignedHead, error) {
	head, err := OpenSTH(answer, publicKey)
	if err != nil {
		return SignedHead{}, err
	}
	text, err := wagtenib.CheckpointText(wagtenib.Checkpoint{Origin: origin, TreeSize: head.TreeSize, Root: head.Root})
	if err != nil {
		return SignedHead{}, fmt.Errorf("%w: %v", ErrForm, err)
	}
	key := LogVerifier(origin, publicKey)
	checkpoint, err := OpenNote([]byte(text+"\n"+SignatureLine(key, head.Timestamp, head.Signature)), key)
	if err != nil || checkpoint.TreeHead != head.TreeHead {
		return SignedHead{}, fmt.Errorf("%w: it cannot be a checkpoint of %q: %v", ErrForm, origin, err)
	}
	return checkpoint, nil
}
