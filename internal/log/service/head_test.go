package service_test

import (
	"bytes"
	"encoding/base64"
	"os"
	"path/filepath"
	"slices"
	"strings"
	"testing"

	"wagtenib/internal/ct"
	"wagtenib/internal/log/node"
	"wagtenib/internal/log/service"
)

// newestHead returns the path of the newest head in the store, and its note.
func (p *place) newestHead() (path string, note []byte) {
	p.t.Helper()
	paths, err := filepath.Glob(p.object("heads/*"))
	must(p.t, err)
	path = slices.Max(paths)
	note, err = os.ReadFile(path)
	must(p.t, err)
	return path, note
}

// withOtherSignature returns a note in which the last bit of the log's signature is changed, so the key never made it.
func withOtherSignature(t *testing.T, note []byte) []byte {
	t.Helper()
	lines := strings.Split(string(note), "\n")
	parts := strings.Split(lines[4], " ")
	blob, err := base64.StdEncoding.DecodeString(parts[2])
	must(t, err)
	blob[len(blob)-1] ^= 1
	lines[4] = strings.Join([]string{parts[0], parts[1], base64.StdEncoding.EncodeToString(blob)}, " ")
	return []byte(strings.Join(lines, "\n"))
}

// TestHeadWithAnotherSignatureIsNotServed checks that a head in the store is not served if it has the size, the
// timestamp and the root of the lock's state, but a signature that the log's key did not make. A node that starts does
// not publish it either.
func TestHeadWithAnotherSignatureIsNotServed(t *testing.T) {
	t.Parallel()
	p, got := newPlace(t), &answers{}
	l := started(t, p.config())
	got.submit(t, l, 0, 3)
	ends(t, l)
	path, note := p.newestHead()
	forged := withOtherSignature(t, note)
	if bytes.Equal(forged, note) {
		t.Fatal("the note was not changed")
	}
	must(t, os.WriteFile(path, forged, 0o644))
	again, err := service.Open(limited(t), p.config())
	if err == nil {
		t.Cleanup(func() { ends(t, again) })
		var head ct.SignedHead
		if head, err = again.Checkpoint(limited(t)); err == nil {
			t.Fatalf("the node serves %q", head.Signed)
		}
	}
	wants(t, err, node.ErrDamaged)
	must(t, os.WriteFile(path, note, 0o644))
	recovered := again
	if recovered == nil {
		recovered = started(t, p.config())
	}
	eventually(t, "the head of the store is served after it was restored", func() bool {
		head, err := recovered.Checkpoint(limited(t))
		return err == nil && bytes.Equal(head.Signed, note)
	})
}
