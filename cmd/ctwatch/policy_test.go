package main

import (
	"crypto/ed25519"
	"crypto/rand"
	"crypto/sha256"
	"encoding/base64"
	"encoding/binary"
	"fmt"
	"os"
	"path/filepath"
	"strings"
	"testing"
)

// TestRequiresCosignatures: a head meets a policy of witnesses only with the line of a witness (C2SP tlog-cosignature).
func TestRequiresCosignatures(t *testing.T) {
	public, key, err := ed25519.GenerateKey(rand.Reader)
	must(t, err)
	full := append([]byte{4}, public...)
	id := sha256.Sum256(append([]byte("w.example\n"), full...))
	verifier := fmt.Sprintf("w.example+%x+%s", id[:4], base64.StdEncoding.EncodeToString(full))
	log := serveLog(t, "log.example/2027")
	log.fill(300)
	folder, keys := t.TempDir(), filepath.Join(t.TempDir(), "witnesses")
	must(t, os.WriteFile(keys, []byte(verifier+"\n"), 0o600))
	run := func(store string, more ...string) []string {
		return append([]string{"run", "--once", "--listen=", "--folder", filepath.Join(folder, store), "--name",
			"a.example", "--log", log.setting(true)}, more...)
	}
	policy := []string{"--witnesses", keys, "--quorum", "1"}
	if status, out, faults := ctwatch(t, run("without", policy...)...); status != statusAccused {
		t.Errorf("without the line: status %d: %s%s", status, out, faults)
	}
	if status, out, _ := ctwatch(t, "health", "--folder", filepath.Join(folder, "without")); status != statusAccused ||
		!strings.Contains(out, "the policy requires 1 of 1") {
		t.Errorf("the health: status %d: %s", status, out)
	}
	text, _, _ := strings.Cut(string(log.Checkpoint()), "\n\n")
	signed := ed25519.Sign(key, []byte("cosignature/v1\ntime 1800000000\n"+text+"\n"))
	content := append(binary.BigEndian.AppendUint64(id[:4:4], 1_800_000_000), signed...)
	log.SetCheckpoint(fmt.Appendf(log.Checkpoint(), "— w.example %s\n", base64.StdEncoding.EncodeToString(content)))
	if status, out, faults := ctwatch(t, run("with", policy...)...); status != 0 {
		t.Errorf("with the line: status %d: %s%s", status, out, faults)
	}
	if status, _, faults := ctwatch(t, run("other", "--quorum", "1")...); status != statusUsage ||
		!strings.Contains(faults, "needs --witnesses") {
		t.Errorf("a quorum without witnesses: status %d: %s", status, faults)
	}
}
