package main

import (
	"crypto/sha256"
	"encoding/base64"
	"encoding/json"
	"io"
	"mime/quotedprintable"
	"net/mail"
	"os"
	"path/filepath"
	"slices"
	"strconv"
	"strings"
	"testing"
	"unicode"
	"unicode/utf8"

	"golang.org/x/net/html"

	"wagtenib/internal/testkit"
	"wagtenib/internal/watch/alert"
	"wagtenib/internal/watch/watchstore"
)

// hostileTexts holds names that a CA might certify, or that a log list might give a log. Each of them would have an
// effect on a terminal, in a mail, in HTML or in a shell if it were not escaped.
var hostileTexts = []string{
	"\x1b]0;owned\x07\x1b[2J", "\u009b31m\u0085", "\u202egro.live\u2066", "a\r\nBcc: victim@evil.example\r\n\r\nbody",
	"\n.\n", `"><script>alert(1)</script>`, `'><img src=x onerror=alert(1)>`, "$(touch owned)", "`touch owned`",
	"; touch owned", "a\x00b", strings.Repeat("long", 25_000), "\xff\xfe", "-oQ/tmp", "%s%n{{.}}", "=?utf-8?q?owned?=",
}

// injected lets the program find a certificate for each of hostileTexts, in a log whose name has all of them, and
// report them to every output. It returns the folder with the outputs, and what the program printed.
func injected(t *testing.T) (folder, out string) {
	t.Helper()
	folder = t.TempDir()
	log, authority := serveLog(t, "a.example"), testkit.NewAuthority("Test CA 1")
	for _, text := range hostileTexts {
		log.add(authority, authority.IssueNames(testkit.CommonName(12, []byte(text)),
			testkit.Name{Tag: testkit.DNS, Bytes: []byte(text + ".example.org")}))
	}
	id := log.PublicKey()
	list, err := json.Marshal(map[string]any{"operators": []any{map[string]any{"name": hostileTexts[3], "logs": []any{
		map[string]any{"description": strings.Join(hostileTexts, " "), "key": id, "log_id": logID(id), "mmd": 86400,
			"url": log.address, "state": map[string]any{"usable": map[string]any{}}}}}}})
	must(t, err)
	must(t, os.WriteFile(filepath.Join(folder, "list"), list, 0o600))
	for name, script := range map[string]string{
		"sendmail": `echo "$@" >>"` + folder + `/arguments"; cat >>"` + folder + `/mail"`,
		// This script is careless: the shell splits the values, because they are not quoted.
		"notify": `cd "` + folder + `"; echo $CTWATCH_SUMMARY $CTWATCH_NAMES >>notified; env >"env.$CTWATCH_ID"`,
	} {
		must(t, os.WriteFile(filepath.Join(folder, name), []byte("#!/bin/sh\n"+script+"\n"), 0o700))
	}
	program := testkit.Program(t, "run", "--once", "--from-start", "--name", "example.org", "--folder",
		filepath.Join(folder, "store"), "--log-list", filepath.Join(folder, "list"), "--json", filepath.Join(folder, "lines"),
		"--mail", "owner@example.org", "--sendmail", filepath.Join(folder, "sendmail"), "--command",
		filepath.Join(folder, "notify"))
	var faults strings.Builder
	program.Stderr = &faults
	printed, err := program.Output()
	if program.ProcessState.ExitCode() != statusFoundByOnce {
		t.Fatalf("%v: %s", err, faults.String())
	}
	return folder, string(printed)
}

func logID(key []byte) string {
	id := sha256.Sum256(key)
	return base64.StdEncoding.EncodeToString(id[:])
}

// isHarmless reports whether all characters of a text are printable.
func isHarmless(text string) bool {
	return utf8.ValidString(text) && !strings.ContainsFunc(text, func(one rune) bool { return !unicode.IsPrint(one) })
}

func readAll(t *testing.T, elements ...string) string {
	t.Helper()
	content, err := os.ReadFile(filepath.Join(elements...))
	must(t, err)
	return string(content)
}

// TestEscapesHostileNames checks that each output of the program is harmless for certificates with hostile names.
func TestEscapesHostileNames(t *testing.T) {
	folder, out := injected(t)
	t.Run("terminal", func(t *testing.T) {
		lines := strings.Split(strings.TrimSuffix(out, "\n"), "\n")
		if len(lines) != len(hostileTexts) {
			t.Errorf("%d lines for %d alerts", len(lines), len(hostileTexts))
		}
		for _, line := range lines {
			if !isHarmless(line) || !strings.HasPrefix(line, "FOUND example.org: ") {
				t.Errorf("%.300q", line)
			}
		}
	})
	t.Run("JSON", func(t *testing.T) { checkLines(t, readAll(t, folder, "lines")) })
	t.Run("mail", func(t *testing.T) { checkMail(t, readAll(t, folder, "arguments"), readAll(t, folder, "mail")) })
	t.Run("command", func(t *testing.T) { checkCommand(t, folder) })
	t.Run("page", func(t *testing.T) {
		store, err := watchstore.OpenToRead(filepath.Join(folder, "store"))
		must(t, err)
		defer func() { must(t, store.Close()) }()
		for _, path := range []string{"/", "/logs", "/alerts", "/?name=example.org"} {
			answer := ask(store, path)
			tokens := html.NewTokenizer(answer.Body)
			for tokens.Next() != html.ErrorToken {
				token := tokens.Token()
				checkToken(t, path, token)
				if token.Type == html.TextToken && !isHarmless(strings.ReplaceAll(token.Data, "\n", "")) {
					t.Errorf("%s has the text %.300q", path, token.Data)
				}
			}
		}
	})
}

// checkLines checks that there is a line for each alert, and that each text in it is printable.
func checkLines(t *testing.T, content string) {
	t.Helper()
	lines := strings.Split(strings.TrimSuffix(content, "\n"), "\n")
	if len(lines) != len(hostileTexts) {
		t.Errorf("%d lines for %d alerts", len(lines), len(hostileTexts))
	}
	for i, line := range lines {
		var one alert.Alert
		must(t, json.Unmarshal([]byte(line), &one))
		c := one.Certificate
		if len(c.Matches) != 1 || len(c.Matches[0].Hosts) < 1 || len(c.Sightings) != 2 {
			t.Errorf("line %d has no host, or not both entries: %.1000s", i, line)
			continue
		}
		for _, text := range append(c.Names, c.Fields.Subject, c.Sightings[0].Log, c.Matches[0].Hosts[0]) {
			if !isHarmless(text) || len(text) > 400 {
				t.Errorf("line %d has the text %.500q", i, text)
			}
		}
		if !isHarmless(line) {
			t.Errorf("line %d is %.500q", i, line)
		}
	}
}

// checkMail checks that there is one mail, to the owner, with only the program's headers, and without a line that a
// certificate has put there.
func checkMail(t *testing.T, arguments, content string) {
	t.Helper()
	if arguments != "-oi -f owner@example.org -- owner@example.org\n" {
		t.Errorf("sendmail is called with %q", arguments)
	}
	message, err := mail.ReadMessage(strings.NewReader(content))
	must(t, err)
	var names []string
	for name := range message.Header {
		names = append(names, name)
	}
	slices.Sort(names)
	expected := []string{"Auto-Submitted", "Content-Transfer-Encoding", "Content-Type", "Date", "From", "Message-Id",
		"Mime-Version", "Subject", "To"}
	if !slices.Equal(names, expected) || message.Header.Get("To") != "owner@example.org" {
		t.Errorf("the headers are %q", message.Header)
	}
	body, err := io.ReadAll(quotedprintable.NewReader(message.Body))
	must(t, err)
	for _, line := range strings.Split(strings.ReplaceAll(string(body), "\r\n", "\n"), "\n") {
		name, _, isField := strings.Cut(line, ": ")
		isField = isField && len(name) <= 22 || strings.HasPrefix(line, "FOUND example.org: ")
		if !isHarmless(line) || line != "" && !isField {
			t.Errorf("the mail has the line %.300q", line)
		}
	}
}

// checkCommand checks that the command ran once for each alert, that each variable is one line, and that nothing else
// was run.
func checkCommand(t *testing.T, folder string) {
	t.Helper()
	if notified := readAll(t, folder, "notified"); strings.Count(notified, "\n") != len(hostileTexts) {
		t.Errorf("the command wrote %.3000q", notified)
	}
	files, err := os.ReadDir(folder)
	must(t, err)
	expected := []string{"arguments", "lines", "list", "mail", "notified", "notify", "sendmail", "store"}
	for _, file := range files {
		if name := file.Name(); !strings.HasPrefix(name, "env.") && !slices.Contains(expected, name) {
			t.Errorf("there is a file %q: a text of a certificate was run", name)
		}
	}
	if len(files) != len(expected)+len(hostileTexts) {
		t.Errorf("there are %d files", len(files))
	}
	for i := range hostileTexts {
		content := readAll(t, folder, "env."+strconv.Itoa(i+1))
		for _, line := range strings.Split(strings.TrimSuffix(content, "\n"), "\n") {
			if name, _, ok := strings.Cut(line, "="); !ok || strings.HasPrefix(name, "CTWATCH_") && !isHarmless(line) {
				t.Errorf("the environment has the line %.300q", line)
			}
		}
	}
}
