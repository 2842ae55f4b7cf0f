package main

import (
	"bytes"
	"crypto/tls"
	"encoding/json"
	"net/http"
	"os"
	"os/exec"
	"path/filepath"
	"strings"
	"testing"
	"time"

	"wagtenib/internal/testkit"
)

// served is a log of ctserve on a folder, with a test CA that is its only root, and its entry for a log list.
type served struct {
	t         *testing.T
	ctserve   string // the program
	folder    string
	url       string
	authority *testkit.Authority
	arguments []string // of ctserve, except --create
	running   *exec.Cmd
	ended     chan struct{} // is closed after the running ctserve ended
}

// client accepts each TLS certificate.
var client = http.Client{Transport: &http.Transport{TLSClientConfig: &tls.Config{InsecureSkipVerify: true},
	DisableKeepAlives: true}}

// buildServer builds ctserve, and returns its path.
func buildServer(t *testing.T) string {
	t.Helper()
	path := filepath.Join(t.TempDir(), "ctserve")
	if output, err := exec.Command("go", "build", "-o", path, "wagtenib/cmd/ctserve").CombinedOutput(); err != nil {
		t.Fatalf("go build: %v: %s", err, output)
	}
	return path
}

// newServed makes the files of a log. It does not start the log.
func newServed(t *testing.T, ctserve string) *served {
	t.Helper()
	address := testkit.Free(t)
	s := &served{t: t, ctserve: ctserve, folder: t.TempDir(), url: "http://" + address}
	s.authority = testkit.NewAuthority("A test CA")
	s.write("ca.pem", s.authority.PEM())
	s.write("ca.key", s.authority.KeyPEM())
	_, key := s.authority.KeyPair()
	s.write("log.pem", key)
	s.write("settings", []byte(strings.Join([]string{"origin log.example/2027h1", "signing-key " + s.path("log.pem"),
		"roots " + s.path("ca.pem"), "folder " + s.path("log"), "interval 50ms", "not-after-start 2027-01-01",
		"not-after-limit 2027-07-01", "max-merge-delay 24h"}, "\n")))
	entry, err := exec.Command(ctserve, "list-entry", "--config", s.path("settings"), "--operator", "An operator",
		"--email", "log@example.org").Output()
	must(t, err)
	s.write("entry.json", entry)
	s.arguments = []string{"--config", s.path("settings"), "--listen", address, "--operator-listen", "127.0.0.1:0"}
	for _, limit := range []string{"open-timeout", "shutdown-timeout", "submission-timeout", "header-timeout",
		"request-timeout", "response-timeout", "idle-timeout"} {
		s.arguments = append(s.arguments, "--"+limit, testkit.Longest.String())
	}
	return s
}

func (s *served) path(name string) string { return filepath.Join(s.folder, name) }

func (s *served) write(name string, content []byte) {
	s.t.Helper()
	must(s.t, os.WriteFile(s.path(name), content, 0o600))
}

// start starts the log, and waits until it serves.
func (s *served) start(more ...string) {
	s.t.Helper()
	for until := time.Now().Add(testkit.Longest); ; {
		var faults bytes.Buffer
		s.running = exec.Command(s.ctserve, append(s.arguments, more...)...)
		s.running.Stderr = &faults
		must(s.t, s.running.Start())
		running, ended := s.running, make(chan struct{})
		s.ended = ended
		go func() {
			running.Wait()
			close(ended)
		}()
		s.t.Cleanup(func() {
			running.Process.Kill()
			<-ended
		})
		for isRunning := true; isRunning; {
			select {
			case <-ended:
				isRunning = false
			case <-time.After(10 * time.Millisecond):
				if s.size() >= 0 {
					return
				}
			}
		}
		// On a busy machine the signer may not reply in time.
		if !strings.Contains(faults.String(), "no reply from the signer: none in ") || time.Now().After(until) {
			s.t.Fatalf("ctserve ends: %s", &faults)
		}
	}
}

// kill kills the log.
func (s *served) kill() {
	s.t.Helper()
	must(s.t, s.running.Process.Kill())
	<-s.ended
}

// size returns the size of the log's newest tree, or -1 if the log does not answer.
func (s *served) size() int {
	answer, err := client.Get(s.url + "/ct/v1/get-sth")
	if err != nil {
		return -1
	}
	defer answer.Body.Close()
	head := struct {
		Size int `json:"tree_size"`
	}{-1}
	if answer.StatusCode != http.StatusOK || json.NewDecoder(answer.Body).Decode(&head) != nil {
		return -1
	}
	return head.Size
}
