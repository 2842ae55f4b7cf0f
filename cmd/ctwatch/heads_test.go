package main

import (
	"net/http"
	"os"
	"path/filepath"
	"strings"
	"testing"
	"time"

	"wagtenib/internal/audit/judge"
	"wagtenib/internal/testkit"
)

// TestRunComparesHeadsOfOthers: a run compares the log with the heads in a file. A fork of the log that lags is accused
// by the log's own answers. A wrong proof causes an alert that accuses nobody, and is no evidence.
func TestRunComparesHeadsOfOthers(t *testing.T) {
	log, authority, folder := serveLog(t, "a.example"), testkit.NewAuthority("Test CA 1"), t.TempDir()
	log.add(authority, authority.Issue("other.net"))
	fork := log.Fork(1)
	fork.Add(testkit.Entry{Timestamp: 1000, Certificate: []byte{0x30, 0}})
	fork.Publish(2, uint64(time.Now().Add(-time.Hour).UnixMilli()))
	heads := filepath.Join(folder, "heads")
	must(t, os.WriteFile(heads, fork.STH(), 0o600))
	log.add(authority, authority.Issue("more.net"))
	wrong := func(w http.ResponseWriter, r *http.Request) bool {
		if !strings.HasSuffix(r.URL.Path, "get-sth-consistency") {
			return false
		}
		_, err := w.Write([]byte(`{"consistency":["` + strings.Repeat("A", 43) + `="]}`))
		return err == nil
	}
	store := filepath.Join(folder, "store")
	arguments := []string{"run", "--once", "--from-start", "--name", "example.org", "--folder", store, "--log",
		log.setting(false), "--heads", heads}
	log.Intercept(wrong)
	status, out, faults := ctwatch(t, arguments...)
	if status != statusFoundByOnce || !strings.Contains(out, "UNPROVED ") || !strings.Contains(out, "this is no accusation") {
		t.Errorf("a wrong proof: status %d: %s%s", status, out, faults)
	}
	if status, out, faults = ctwatch(t, "health", "--folder", store); status != statusUnread ||
		!strings.Contains(out, "1 head UNPROVED") || strings.Contains(out, "EVIDENCE") {
		t.Errorf("health after a wrong proof: status %d: %s%s", status, out, faults)
	}
	log.Intercept(nil)
	status, out, faults = ctwatch(t, arguments...)
	if status != statusAccused || !strings.Contains(out, ": other history: ") {
		t.Errorf("a fork: status %d: %s%s", status, out, faults)
	}
	for number, expected := range map[string]string{"1": "this is no accusation", "2": "Nothing else must be believed"} {
		written := filepath.Join(folder, "evidence", number)
		if status, out, faults = ctwatch(t, "evidence", number, written, "--folder", store); status != 0 {
			t.Fatalf("status %d: %s%s", status, out, faults)
		}
		if shown, err := judge.Evidence(written, log.PublicKey()); err != nil || !strings.Contains(shown, expected) {
			t.Errorf("evidence %s: %s, %v", number, shown, err)
		}
	}
	if status, out, faults = ctwatch(t, "health", "--folder", store); status != 0 {
		t.Errorf("health at the end: status %d: %s%s", status, out, faults)
	}
	if status, _, faults = ctwatch(t, "run", "--name", "a.example", "--heads", filepath.Join(folder, "none")); status !=
		statusUsage || !strings.Contains(faults, "--heads") {
		t.Errorf("no such file: status %d: %s", status, faults)
	}
}
