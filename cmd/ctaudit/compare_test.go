package main

import (
	"net/http"
	"os"
	"path/filepath"
	"strings"
	"testing"

	"wagtenib/internal/audit/judge"
)

// TestComparesHeads: each head that others saw is compared with the log that signed it.
func TestComparesHeads(t *testing.T) {
	log := newTestLog(t, 300)
	earlier, forked := log.Fork(100), log.Fork(300)
	earlier.Publish(100, 5000)
	forked.PublishRoot(300, 6000, [32]byte{1})
	folder := t.TempDir()
	must(t, os.WriteFile(filepath.Join(folder, "earlier"), earlier.Checkpoint(), 0o600))
	arguments := append([]string{"compare", folder}, logArguments(t, log)...)
	if status, out, faults := ctaudit(t, arguments...); status != 0 || !strings.HasPrefix(out,
		"1 heads are consistent with their logs, 0 are not, 0 are not proved, and 0 are signed by no log") {
		t.Errorf("status %d: %s%s", status, out, faults)
	}
	must(t, os.WriteFile(filepath.Join(folder, "other"), newTestLog(t, 1).Checkpoint(), 0o600))
	must(t, os.WriteFile(filepath.Join(folder, "forked"), forked.Checkpoint(), 0o600))
	evidence := filepath.Join(t.TempDir(), "evidence")
	status, out, _ := ctaudit(t, append(arguments, "--evidence", evidence)...)
	if status != statusAccused || !strings.Contains(out, "two roots of 300 leaves") ||
		!strings.Contains(out, "1 are not, 0 are not proved, and 1 are signed by no log") {
		t.Errorf("status %d: %s", status, out)
	}
	if _, err := judge.Evidence(filepath.Join(evidence, "1"), log.PublicKey()); err != nil {
		t.Error(err)
	}
}

// TestWritesNoEvidenceToAnOldFolder: a folder for evidence that has files is refused as a wrong argument, before a log
// is asked.
func TestWritesNoEvidenceToAnOldFolder(t *testing.T) {
	log := newTestLog(t, 3)
	log.Intercept(func(http.ResponseWriter, *http.Request) bool {
		t.Error("the log was asked")
		return false
	})
	file, _ := promised(t, log, 0)
	heads, old := t.TempDir(), t.TempDir()
	must(t, os.WriteFile(filepath.Join(heads, "head"), log.Checkpoint(), 0o600))
	must(t, os.WriteFile(filepath.Join(old, "evidence.json"), []byte("{}"), 0o600))
	for _, arguments := range [][]string{{"compare", heads}, {"sct", file}} {
		arguments = append(append(arguments, logArguments(t, log)...), "--evidence", old)
		if status, out, faults := ctaudit(t, arguments...); status != statusUsage || out != "" ||
			!strings.Contains(faults, "name a new folder") {
			t.Errorf("%s: status %d: %s%s", arguments[0], status, out, faults)
		}
	}
}

// TestRefusesPlacesWithoutHeads checks that a place that does not exist or has no tree head is refused with its name. A
// checkpoint of a log that was named by its calls of RFC 6962 has no signer, and the message says how to name the log.
func TestRefusesPlacesWithoutHeads(t *testing.T) {
	log := newTestLog(t, 3)
	folder := t.TempDir()
	heads, nonsense, empty := filepath.Join(folder, "heads"), filepath.Join(folder, "nonsense"), t.TempDir()
	must(t, os.WriteFile(heads, log.Checkpoint(), 0o600))
	must(t, os.WriteFile(nonsense, []byte("hello\n"), 0o600))
	named := logArguments(t, log)
	address, rest, _ := strings.Cut(strings.TrimPrefix(named[1], "tiled+"), " ")
	key, _, _ := strings.Cut(rest, " ")
	for _, of := range []struct {
		place  string
		named  []string
		status int
		text   string
	}{
		{filepath.Join(folder, "absent"), named, statusUsage, "ctaudit: stat " + filepath.Join(folder, "absent") + ": "},
		{nonsense, named, statusUsage, "ctaudit: " + nonsense + " has no tree head (give "},
		{empty, named, statusUsage, "ctaudit: " + empty + " has no tree head (give "},
		{address + "/absent", named, statusUnread, "ctaudit: " + address + "/absent: "},
		{heads, []string{"--log", address + " " + key}, statusUnknownLog, "(name a log that has checkpoints as tiled+"},
	} {
		status, out, faults := ctaudit(t, append([]string{"compare", of.place}, of.named...)...)
		if status != of.status || !strings.Contains(faults, of.text) {
			t.Errorf("%s: status %d: %s%s", of.place, status, out, faults)
		}
	}
}
