package main

import (
	"bytes"
	"net/http"
	"strings"
	"syscall"
	"testing"

	"wagtenib/internal/testkit"
)

// maxMemory is the maximum memory of ctwatch, in bytes, while a log gives hostile answers. The systemd unit allows
// twice as much for all logs.
const maxMemory = 1 << 30

// TestHostileAnswersTakeBoundedMemory: a log answers with millions of tiny entries, as many as fit into an answer. The
// log is refused, and ctwatch uses at most maxMemory.
func TestHostileAnswersTakeBoundedMemory(t *testing.T) {
	authority := testkit.NewAuthority("Test CA 1")
	// This is a TileLeaf of an x509_entry with a certificate of one byte (C2SP static-ct-api).
	tiny := []byte{0, 0, 0, 0, 0, 0, 0, 1, 0, 0, 0, 0, 1, 0x30, 0, 0, 0, 0}
	for what, answer := range map[string][]byte{
		"get-entries": []byte(`{"entries":[` + strings.Repeat("{},", 16<<20) + "{}]}"),
		"tile/data/":  bytes.Repeat(tiny, 48<<20/len(tiny)-1),
	} {
		log := serveLog(t, "a.example")
		for range 100 {
			log.add(authority, authority.Issue("shop.example.org"))
		}
		log.Intercept(func(w http.ResponseWriter, r *http.Request) bool {
			if !strings.Contains(r.URL.Path, what) {
				return false
			}
			// The error is ignored, because ctwatch may close the connection.
			_, _ = w.Write(answer)
			return true
		})
		program := testkit.Program(t, "run", "--once", "--from-start", "--name", "example.org", "--folder", t.TempDir(),
			"--log", log.setting(what == "tile/data/"))
		out, err := program.CombinedOutput()
		if program.ProcessState.ExitCode() != statusUnread && program.ProcessState.ExitCode() != statusAccused {
			t.Errorf("%s: %v: %s", what, err, out)
		}
		usage := program.ProcessState.SysUsage().(*syscall.Rusage)
		t.Logf("%s: status %d, %d MiB", what, program.ProcessState.ExitCode(), usage.Maxrss>>10)
		if usage.Maxrss<<10 > maxMemory {
			t.Errorf("%s: ctwatch used %d MiB: %s", what, usage.Maxrss>>10, out)
		}
	}
}
