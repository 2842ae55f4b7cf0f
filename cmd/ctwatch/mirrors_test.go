package main

import (
	"crypto/sha256"
	"encoding/hex"
	"os"
	"path/filepath"
	"testing"
)

// TestMirrorsWithoutNames: with --keep alone, a log is mirrored from its first entry on, and continued. No alert says
// that the names of a certificate cannot be read. If the log forks, the status says so, and the mirror stays as it was.
func TestMirrorsWithoutNames(t *testing.T) {
	log := serveLog(t, "log.example/2027")
	folder := t.TempDir()
	run := []string{"run", "--once", "--folder", filepath.Join(folder, "store"), "--keep", filepath.Join(folder, "mirrors"),
		"--log", log.setting(true)}
	id := sha256.Sum256(log.PublicKey())
	mirrored := func(name string) string {
		content, err := os.ReadFile(filepath.Join(folder, "mirrors", hex.EncodeToString(id[:]), filepath.FromSlash(name)))
		must(t, err)
		return string(content)
	}
	for _, size := range []int{300, 200} {
		log.fill(size)
		if status, out, faults := ctwatch(t, run...); status != 0 || out != "" {
			t.Fatalf("with %d entries: status %d: %s%s", log.Size(), status, out, faults)
		}
		if mirrored("checkpoint") != string(log.Checkpoint()) || len(mirrored("tile/0/000")) != 256*32 {
			t.Errorf("with %d entries, the checkpoint is %q", log.Size(), mirrored("checkpoint"))
		}
	}
	before := mirrored("checkpoint")
	log.PublishRoot(500, 4_000_000_000_000, [32]byte{1})
	if status, _, faults := ctwatch(t, run...); status != statusAccused || mirrored("checkpoint") != before {
		t.Errorf("a fork: status %d: %s: %s", status, faults, mirrored("checkpoint"))
	}
}
