package main

import (
	"bytes"
	"encoding/json"
	"fmt"
	"os"
	"path/filepath"
	"strings"
	"syscall"
	"testing"

	"wagtenib/internal/testkit"
	"wagtenib/internal/watch/alert"
)

// TestReloadsSettings: after a SIGHUP, ctwatch continues with the new settings of the config file. If they are wrong,
// it says why and continues with the old ones. It sends no alert to an output twice.
func TestReloadsSettings(t *testing.T) {
	authority, folder := testkit.NewAuthority("Test CA 1"), t.TempDir()
	log := serveLog(t, "a.example")
	log.add(authority, authority.Issue("other.net"))
	config, first, second := filepath.Join(folder, "settings"), filepath.Join(folder, "1"), filepath.Join(folder, "2")
	write := func(alerts string, names ...string) {
		must(t, os.WriteFile(config, []byte(fmt.Sprintf("name %s\nlog %s\nfolder %s\npause 1s\nlisten\njson %s\n",
			strings.Join(names, "\nname "), log.setting(true), folder, alerts)), 0o600))
	}
	write(first, "example.org")
	program := testkit.Program(t, "run", "--config", config)
	stderr, err := os.Create(filepath.Join(folder, "stderr"))
	must(t, err)
	defer stderr.Close()
	program.Stderr = stderr
	must(t, program.Start())
	awaitText := func(text string) {
		t.Helper()
		testkit.Eventually(t, text, func() bool {
			content, err := os.ReadFile(stderr.Name())
			return err == nil && bytes.Contains(content, []byte(text))
		})
	}
	testkit.Eventually(t, "the log is read to its end", func() bool {
		status, out, _ := ctwatch(t, "health", "--folder", folder)
		return status == 0 && strings.HasPrefix(out, "1 log;")
	})
	write(first, "*.example.net")
	must(t, program.Process.Signal(syscall.SIGHUP))
	awaitText("write example.net")
	log.add(authority, authority.Issue("a.example.org"))
	checkHosts(t, first, "a.example.org")
	write(second, "example.org", "example.net")
	must(t, program.Process.Signal(syscall.SIGHUP))
	awaitText(`"event":"reloading"`)
	awaitText(`"names":2`)
	log.add(authority, authority.Issue("b.example.net"))
	checkHosts(t, second, "b.example.net")
	must(t, program.Process.Signal(syscall.SIGTERM))
	if err := program.Wait(); err != nil {
		t.Error(err)
	}
	if content := readAll(t, stderr.Name()); strings.Count(content, `"event":"ending"`) != 1 ||
		strings.Count(content, `"event":"reloading"`) != 1 {
		t.Errorf("one reload and one end are expected: %s", content)
	}
	checkHosts(t, first, "a.example.org")
	checkHosts(t, second, "b.example.net")
}

// checkHosts waits until a file has as many alerts as there are hosts, and checks that they are for these hosts.
func checkHosts(t *testing.T, path string, hosts ...string) {
	t.Helper()
	testkit.Eventually(t, "the alert is sent", func() bool {
		content, err := os.ReadFile(path)
		return err == nil && bytes.Count(content, []byte("\n")) >= len(hosts)
	})
	content, err := os.ReadFile(path)
	must(t, err)
	var found []string
	for _, line := range bytes.Split(bytes.TrimSpace(content), []byte("\n")) {
		var one alert.Alert
		must(t, json.Unmarshal(line, &one))
		found = append(found, one.Certificate.Matches[0].Hosts...)
	}
	if strings.Join(found, " ") != strings.Join(hosts, " ") {
		t.Errorf("%s has alerts for %q, and %q are expected", filepath.Base(path), found, hosts)
	}
}
