package main

import (
	"bufio"
	"net/http"
	"net/http/httptest"
	"os"
	"path/filepath"
	"strings"
	"sync/atomic"
	"syscall"
	"testing"

	"wagtenib/internal/testkit"
)

// TestProbeReportsTheFirstFailureAtOnce: while the log does not answer, the probe says so before it gives up.
func TestProbeReportsTheFirstFailureAtOnce(t *testing.T) {
	server := httptest.NewServer(http.HandlerFunc(func(w http.ResponseWriter, _ *http.Request) {
		w.WriteHeader(http.StatusServiceUnavailable)
	}))
	defer server.Close()
	authority, folder := testkit.NewAuthority("A test CA"), t.TempDir()
	certificate, key := filepath.Join(folder, "ca.pem"), filepath.Join(folder, "ca.key")
	must(t, os.WriteFile(certificate, authority.PEM(), 0o600))
	must(t, os.WriteFile(key, authority.KeyPEM(), 0o600))
	program := testkit.Program(t, "probe", server.URL, "--issuer", certificate, "--issuer-key", key)
	stderr, err := program.StderrPipe()
	must(t, err)
	must(t, program.Start())
	lines := bufio.NewScanner(stderr)
	if !lines.Scan() || !strings.Contains(lines.Text(), server.URL+"/log.v3.json: ") ||
		!strings.Contains(lines.Text(), "it is tried again") {
		t.Errorf("the first line is %q", lines.Text())
	}
	must(t, program.Process.Signal(syscall.SIGTERM))
	for lines.Scan() {
	}
	if program.Wait(); program.ProcessState.ExitCode() != statusFault {
		t.Errorf("after SIGTERM: %v", program.ProcessState)
	}
}

// TestReportsTheFirstFailureAtOnce: while the server of the log list refuses, the first line says so, and that it is
// asked again. The command ends after the server has answered, with no other line about a refusal.
func TestReportsTheFirstFailureAtOnce(t *testing.T) {
	var asked atomic.Int64
	var isOpen atomic.Bool
	server := httptest.NewServer(http.HandlerFunc(func(w http.ResponseWriter, _ *http.Request) {
		asked.Add(1)
		if !isOpen.Load() {
			w.WriteHeader(http.StatusServiceUnavailable)
		}
	}))
	defer server.Close()
	file, _ := promised(t, newTestLog(t, 1), 0)
	program := testkit.Program(t, "sct", file, "--log-list", server.URL)
	stderr, err := program.StderrPipe()
	must(t, err)
	must(t, program.Start())
	lines := bufio.NewScanner(stderr)
	if !lines.Scan() || !strings.Contains(lines.Text(), server.URL) || !strings.Contains(lines.Text(), "status 503") ||
		!strings.Contains(lines.Text(), "it is tried again") {
		t.Fatalf("the first line is %q", lines.Text())
	}
	testkit.Eventually(t, "the list is asked for three times", func() bool { return asked.Load() >= 3 })
	isOpen.Store(true)
	var others []string
	for lines.Scan() {
		others = append(others, lines.Text())
	}
	// The answer, which is empty, is no log list.
	if program.Wait(); program.ProcessState.ExitCode() != statusUnread || len(others) != 1 ||
		!strings.HasPrefix(others[0], "ctaudit: the log list cannot be read: ") {
		t.Errorf("%v: %q", program.ProcessState, others)
	}
}
