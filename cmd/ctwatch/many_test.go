package main

import (
	"bytes"
	"encoding/json"
	"flag"
	"fmt"
	"os"
	"path/filepath"
	"strings"
	"testing"
	"time"

	"wagtenib/internal/testkit"
	"wagtenib/internal/watch/alert"
)

// A long run is: go test ./cmd/ctwatch -run ManyFindings -v -args -reported 30000
var reported = flag.Int("reported", 3_000, "number of findings that are reported to a command")

// findings is the number of issuances that are reported as lines of JSON.
const findings = 30_000

// hostOf returns the host name of an issuance. All host names have the same length.
func hostOf(number int) string { return fmt.Sprintf("h%05d.example.org", number) }

// TestReportsManyFindings reads a log with 30,000 certificates, each a different issuance for a watched name. The
// program must report each of them once, in their order, as a line of JSON with the host name. The test prints the
// duration, but does not check it, because the machine may be busy.
func TestReportsManyFindings(t *testing.T) {
	path := filepath.Join(t.TempDir(), "lines")
	reportAll(t, findings, "--json", path)
	content, err := os.ReadFile(path)
	must(t, err)
	lines := bytes.SplitAfter(content, []byte("\n"))
	if len(lines) != findings+1 || len(lines[findings]) > 0 {
		t.Fatalf("%d lines", len(lines)-1)
	}
	for i, line := range lines[:findings] {
		var one alert.Alert
		must(t, json.Unmarshal(line, &one))
		if one.ID != int64(i+1) || one.Again || one.Certificate.Names[0] != hostOf(i) ||
			one.Certificate.Sightings[0].Index != uint64(i) {
			t.Fatalf("line %d is %s", i, line)
		}
	}
}

// TestReportsManyFindingsToACommand checks that a command runs once for each of many findings.
func TestReportsManyFindingsToACommand(t *testing.T) {
	folder := t.TempDir()
	path, program := filepath.Join(folder, "notified"), filepath.Join(folder, "notify")
	script := "#!/bin/sh\necho \"$CTWATCH_ID $CTWATCH_AGAIN $CTWATCH_HOSTS\" >>" + path + "\n"
	must(t, os.WriteFile(program, []byte(script), 0o700))
	reportAll(t, *reported, "--command", program)
	content, err := os.ReadFile(path)
	must(t, err)
	seen := map[string]int{}
	for _, line := range strings.Split(strings.TrimSpace(string(content)), "\n") {
		seen[line]++
	}
	for i := range *reported {
		if line := fmt.Sprintf("%d no %s", i+1, hostOf(i)); seen[line] != 1 {
			t.Fatalf("the command got %q %d times", line, seen[line])
		}
	}
	if len(seen) != *reported {
		t.Errorf("the command got %d alerts", len(seen))
	}
}

// reportAll lets the program read a log with this number of issuances, and report them to an output.
func reportAll(t *testing.T, count int, output ...string) {
	t.Helper()
	arguments := []string{"run", "--once", "--from-start", "--name", "example.org", "--folder", t.TempDir(),
		"--log", manyIssuances(t, count).setting(true)}
	program := testkit.Program(t, append(arguments, output...)...)
	began := time.Now()
	out, err := program.CombinedOutput()
	duration := time.Since(began)
	state := program.ProcessState
	if state.ExitCode() != statusFoundByOnce {
		t.Fatalf("%v: %s", err, out)
	}
	t.Logf("%d findings were read, stored and reported in %v (%v of processor time)", count, duration,
		state.UserTime()+state.SystemTime())
}

// manyIssuances returns a log with this number of certificates. They are copies of one certificate with different host
// names. Their signatures are wrong, but neither the log nor the monitor checks them.
func manyIssuances(t *testing.T, count int) served {
	t.Helper()
	log := serveLog(t, "a.example")
	der := testkit.NewAuthority("Test CA 1").Issue(hostOf(0)).Certificate.Raw
	if bytes.Count(der, []byte(hostOf(0))) != 1 {
		t.Fatal("the certificate does not contain its host name exactly once")
	}
	now := uint64(time.Now().UnixMilli())
	for i := range count {
		log.Add(testkit.Entry{Timestamp: now, Certificate: bytes.Replace(der, []byte(hostOf(0)), []byte(hostOf(i)), 1)})
	}
	log.Publish(log.Size(), now+1)
	return log
}
