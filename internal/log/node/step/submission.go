package step

import (
	"fmt"

	"wagtenib/bindings/go/wagtenib"
)

// lengthOf returns the maximum number of bytes that a submission has in a batch.
func lengthOf(s wagtenib.Submission) int {
	return 64 + len(s.Certificate) + len(s.PreCertificate) + len(s.TBSCertificate) + wagtenib.HashSize*len(s.Chain)
}

// batchBytes returns the bytes of a batch, or BadBatch.
func batchBytes(batch []wagtenib.Submission) ([]byte, error) {
	room := 0
	for i := range batch {
		room += lengthOf(batch[i])
	}
	text := make([]byte, 0, room)
	for i := range batch {
		var err error
		if text, err = wagtenib.AppendSubmission(text, batch[i]); err != nil {
			return nil, fmt.Errorf("%w: submission %d: %v", BadBatch, i, err)
		}
	}
	return text, nil
}

// edgeBytes returns the bytes of an edge.
func edgeBytes(edge [][]byte) []byte {
	room := 0
	for _, content := range edge {
		room += 8 + len(content)
	}
	text := make([]byte, 0, room)
	for _, content := range edge {
		text = wagtenib.AppendContent(text, content)
	}
	return text
}
