package main

import (
	"crypto/x509"
	"encoding/base64"
	"encoding/json"
	"encoding/pem"
	"fmt"
	"io"
	"net/http"
	"net/http/httptest"
	"os"
	"path/filepath"
	"strings"
	"sync/atomic"
	"testing"
	"time"

	"wagtenib/internal/audit/judge"
	"wagtenib/internal/testkit"
)

func TestMain(m *testing.M) { testkit.Main(m, main) }

// TestProgram checks that the program adds its root to the file before it runs the command that makes the nodes reload
// it, that its certificates expire on the given day, and that it appends the answers to the file.
func TestProgram(t *testing.T) {
	folder := t.TempDir()
	roots, answers, reloaded := filepath.Join(folder, "roots.pem"), filepath.Join(folder, "answers"),
		filepath.Join(folder, "reloaded")
	must(t, os.WriteFile(answers, []byte("{}\n"), 0o600))
	var submitted, rootRequests atomic.Int32
	server := httptest.NewServer(http.HandlerFunc(func(w http.ResponseWriter, q *http.Request) {
		if q.URL.Path == "/ct/v1/get-roots" {
			// The nodes reload their roots a little after the command.
			if rootRequests.Add(1) == 1 {
				return
			}
			if submitted.Load() > 0 {
				t.Error("something is submitted before a node has the root")
			}
			text, _ := os.ReadFile(reloaded)
			for block, rest := pem.Decode(text); block != nil; block, rest = pem.Decode(rest) {
				fmt.Fprintf(w, "%s\n", base64.StdEncoding.EncodeToString(block.Bytes))
			}
			return
		}
		submitted.Add(1)
		_, _ = io.Copy(io.Discard, q.Body)
		answerRight(0, w)
	}))
	defer server.Close()
	arguments := []string{"--nodes", server.URL, "--roots", roots, "--answers", answers, "--clients", "1", "--most",
		"6",
		"--repeats", "0", "--not-after", "2027-03-01", "--reload", "cp " + roots + " " + reloaded}
	status, out, problem := testkit.Runs(t, arguments...)
	if rootRequests.Load() < 2 {
		t.Error("the program does not wait for its root")
	}
	if status != 0 || problem != "" || !strings.HasPrefix(out, "6 answered in ") || submitted.Load() != 6 {
		t.Fatalf("status %d, %q and %q, %d submitted", status, out, problem, submitted.Load())
	}
	text, err := os.ReadFile(answers)
	must(t, err)
	lines := strings.Split(strings.TrimSuffix(string(text), "\n"), "\n")
	if len(lines) != 7 || lines[0] != "{}" {
		t.Fatalf("%d lines, the first of which is %s", len(lines), lines[0])
	}
	for _, line := range lines[1:] {
		var answer judge.Answer
		must(t, json.Unmarshal([]byte(line), &answer))
		if answer.Timestamp != 7 || len(answer.Certificate) == 0 == (len(answer.TBSCertificate) == 0) {
			t.Errorf("%s", line)
		}
		if len(answer.Certificate) > 0 {
			certificate, err := x509.ParseCertificate(answer.Certificate)
			if must(t, err); !certificate.NotAfter.Equal(time.Date(2027, 3, 1, 0, 0, 0, 0, time.UTC)) {
				t.Errorf("a certificate expires at %v", certificate.NotAfter)
			}
		}
	}
	// An impossible setting is an error with status 1, and nothing is submitted.
	for _, of := range []struct {
		arguments []string
		expected  string
	}{
		{append(arguments, "--not-after", "tomorrow"), "tomorrow"},
		{append(arguments, "--reload", "exit 3"), "exit status 3"},
		{append(arguments, "--roots", filepath.Join(folder, "nowhere", "roots.pem")), "no such file"},
		{append(arguments, "--answers", filepath.Join(folder, "nowhere", "answers")), "no such file"},
		{append(arguments, "word"), `unexpected argument "word"`},
		{append(arguments, "--ready", "-1"), "--ready must be 0 or more"},
	} {
		if status, out, problem := testkit.Runs(t, of.arguments...); status != 1 || out != "" ||
			!strings.Contains(problem, of.expected) || submitted.Load() != 6 {
			t.Errorf("%q: status %d, %q and %q", of.expected, status, out, problem)
		}
	}
	if status, out, _ := testkit.Runs(t, "--version"); status != 0 || !strings.HasPrefix(out, "ctload ") {
		t.Errorf("--version: status %d, %q", status, out)
	}
}

// TestTimed checks that the program ends after its duration, even if no node answers, and that the status is 1 if a
// submission is refused as wrong.
func TestTimed(t *testing.T) {
	folder := t.TempDir()
	roots := filepath.Join(folder, "roots.pem")
	// The server may still answer requests of a process that has ended.
	var refusesAll atomic.Bool
	server := httptest.NewServer(http.HandlerFunc(func(w http.ResponseWriter, q *http.Request) {
		switch {
		case q.URL.Path == "/ct/v1/get-roots":
			text, _ := os.ReadFile(roots)
			for block, rest := pem.Decode(text); block != nil; block, rest = pem.Decode(rest) {
				fmt.Fprintf(w, "%s\n", base64.StdEncoding.EncodeToString(block.Bytes))
			}
		case refusesAll.Load():
			w.WriteHeader(http.StatusBadRequest)
		default:
			w.WriteHeader(http.StatusServiceUnavailable)
		}
	}))
	defer server.Close()
	arguments := []string{"--nodes", server.URL, "--roots", roots, "--answers", filepath.Join(folder, "answers"),
		"--rate", "1000"}
	if status, out, problem := testkit.Runs(t, append(arguments, "--for", "100ms")...); status != 0 || problem != "" ||
		!strings.HasPrefix(out, "0 answered in ") {
		t.Errorf("status %d, %q and %q", status, out, problem)
	}
	refusesAll.Store(true)
	if status, _, problem := testkit.Runs(t, append(arguments, "--for", "1h")...); status != 1 ||
		!strings.Contains(problem, ": 400: ") {
		t.Errorf("status %d, %q", status, problem)
	}
}
