package main

import (
	"encoding/pem"
	"os"
	"path/filepath"
	"regexp"
	"strings"
	"testing"
	"time"

	"wagtenib/internal/testkit"
)

// The page about the program, the pattern of code in it, and the pattern of flags in a help text.
var (
	pageOfProgram = "../../docs/WATCH.md"
	code          = regexp.MustCompile("`([^`\n]+)`")
	flagName      = regexp.MustCompile(`(?m)^  -([a-z-]+)`)
)

// TestPageNamesRealFlags: each flag that the page names is a flag of a command.
func TestPageNamesRealFlags(t *testing.T) {
	known := map[string]bool{"--help": true, "--now": true} // The last one is a flag of systemctl.
	for name := range commands {
		_, out, _ := ctwatch(t, name, "--help")
		for _, found := range flagName.FindAllStringSubmatch(out, -1) {
			known["--"+found[1]] = true
		}
	}
	named := 0
	for _, span := range code.FindAllStringSubmatch(readAll(t, pageOfProgram), -1) {
		for _, word := range strings.Fields(span[1]) {
			word, _, _ = strings.Cut(word, "=")
			if strings.HasPrefix(word, "--") {
				named++
				if !known[word] {
					t.Errorf("the page has the flag %s, which no command has", word)
				}
			}
		}
	}
	if named == 0 {
		t.Error("the page names no flag")
	}
}

// TestRunsTheCommandsOfItsPage runs each command of docs/WATCH.md that begins with ctwatch, with the log, folder and
// files of this test instead of those of the page. tests/readme.py runs the command that begins with cmd/out.
func TestRunsTheCommandsOfItsPage(t *testing.T) {
	folder := t.TempDir()
	t.Setenv("HOME", folder)
	log, authority := serveLog(t, "a.example"), testkit.NewAuthority("Test CA 1")
	one := authority.Issue("shop.example.org")
	log.add(authority, one)
	must(t, os.Mkdir(filepath.Join(folder, ".certspotter"), 0o700))
	for name, content := range map[string]string{"names": "example.org\n", ".certspotter/watchlist": ".example.org\n",
		"log.pem": string(pem.EncodeToMemory(&pem.Block{Type: "PUBLIC KEY", Bytes: log.PublicKey()}))} {
		must(t, os.WriteFile(filepath.Join(folder, name), []byte(content), 0o600))
	}
	store := []string{"--folder", filepath.Join(folder, "ct-watch")}
	setting := log.address + " " + filepath.Join(folder, "log.pem")
	run := append([]string{"--once", "--from-start", "--log", setting}, store...)
	// The head of a fork causes the evidence that a command of the page writes.
	fork := func() { log.PublishRoot(log.Size(), uint64(time.Now().UnixMilli())+2, [32]byte{1}) }
	ran := map[string]bool{}
	for _, command := range []struct {
		typed    string   // the command of the page
		more     []string // further arguments
		status   int
		expected string // a part of the output
		after    func() // called after the command, unless it is nil
	}{
		{"ctwatch run --help", nil, 0, "-from-start", nil},
		{"ctwatch names FILE", nil, 0, "this name, all names below it", nil},
		{"ctwatch run --name example.org", run, statusFoundByOnce, "FOUND example.org: shop.example.org", nil},
		{"ctwatch run --once", append(run[1:], "--name", "example.org"), 0, "", nil},
		{"ctwatch run --certspotter-watchlist ~/.certspotter/watchlist", run, 0, "", nil},
		{"ctwatch query example.org --valid", store, 0, "shop.example.org", nil},
		{"ctwatch certificate HASH", store, 0, "BEGIN CERTIFICATE", nil},
		{"ctwatch show LOG INDEX", []string{"--log", setting}, 0, "shop.example.org", nil},
		{"ctwatch health", store, 0, "1 log; all are read", fork},
		{"ctwatch run", append(run, "--name", "example.org"), statusAccused, "fork", nil},
		{"ctwatch evidence NUMBER FOLDER", store, 0, "fork", nil},
	} {
		ran[command.typed] = true
		if !strings.Contains(readAll(t, pageOfProgram), "`"+command.typed+"`") {
			t.Errorf("the page does not have %q", command.typed)
		}
		typed := strings.NewReplacer("FILE", filepath.Join(folder, "names"), "~", folder, "NUMBER", "1", "FOLDER",
			filepath.Join(folder, "evidence"), "LOG", log.address, "INDEX", "1", "HASH", hashIn(t, store)).Replace(command.typed)
		status, out, faults := ctwatch(t, append(strings.Fields(typed)[1:], command.more...)...)
		if status != command.status || !strings.Contains(out, command.expected) {
			t.Errorf("%s: status %d: %s%s", typed, status, out, faults)
		}
		if command.after != nil {
			command.after()
		}
	}
	for _, span := range code.FindAllStringSubmatch(readAll(t, pageOfProgram), -1) {
		if strings.HasPrefix(span[1], "ctwatch ") && !ran[span[1]] {
			t.Errorf("the page has %q, which this test does not run", span[1])
		}
	}
}

// hashIn returns the hash of the first certificate of a store, or HASH if there is none.
func hashIn(t *testing.T, store []string) string {
	t.Helper()
	_, out, _ := ctwatch(t, append([]string{"query", "example.org", "--json"}, store...)...)
	if found := regexp.MustCompile(`"sha256":"([0-9a-f]{64})"`).FindStringSubmatch(out); found != nil {
		return found[1]
	}
	return "HASH"
}
