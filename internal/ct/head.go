package ct

import (
	"fmt"

	"wagtenib/bindings/go/wagtenib"
)

// TreeHead has the size, the timestamp and the root of a tree head, without its signature (RFC 6962, section 3.5). It
// is the type of the proved library, so a head is passed to the library as it is.
type TreeHead = wagtenib.TreeHead

// SignedHead is a tree head with the log's signature.
type SignedHead struct {
	TreeHead
	// Signed shows to others that the log signed the head: the signed note of a tiled log (C2SP tlog-checkpoint,
	// static-ct-api), or the answer to get-sth (RFC 6962, section 4.3).
	Signed []byte
	// Signature is the DigitallySigned over the TreeHeadSignature (RFC 6962, section 3.5), in the form of SCT.Signature.
	// It is in Signed, too, so it is not stored beside it.
	Signature []byte `json:"-"`
}

// HeadJSON is a tree head in JSON, with the field names of get-sth (RFC 6962, section 4.3) in byte order.
type HeadJSON struct {
	Root      []byte `json:"sha256_root_hash"`
	Timestamp uint64 `json:"timestamp"`
	TreeSize  uint64 `json:"tree_size"`
}

// NewHeadJSON returns a head in JSON. It returns nil if there is no head.
func NewHeadJSON(head *TreeHead) *HeadJSON {
	if head == nil {
		return nil
	}
	return &HeadJSON{head.Root[:], head.Timestamp, head.TreeSize}
}

// Head returns the head, or nil if there is none. The error is nil or wraps ErrForm.
func (h *HeadJSON) Head() (*TreeHead, error) {
	if h == nil {
		return nil, nil
	}
	if len(h.Root) != wagtenib.HashSize {
		return nil, fmt.Errorf("%w: a root of %d bytes", ErrForm, len(h.Root))
	}
	return &TreeHead{TreeSize: h.TreeSize, Timestamp: h.Timestamp, Root: wagtenib.Hash(h.Root)}, nil
}
