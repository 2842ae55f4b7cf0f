package main

import (
	"encoding/json"
	"net/http"
	"os"
	"path/filepath"
	"slices"
	"strings"
	"testing"

	"wagtenib/internal/testkit"
	"wagtenib/internal/watch/alert"
	"wagtenib/internal/watch/watchstore"
)

// TestShowsRepeatedNamesOnce: the common name of a certificate repeats a name of its subjectAltName. Each output, the
// commands query and show, and the page show that name once, and count two names. query finds the certificate by both
// names.
func TestShowsRepeatedNamesOnce(t *testing.T) {
	authority, log, folder := testkit.NewAuthority("Test CA 1"), serveLog(t, "a.example"), t.TempDir()
	log.add(authority, authority.IssueNames(testkit.CommonName(12, []byte("shop.example.org")),
		testkit.Name{Tag: testkit.DNS, Bytes: []byte("shop.example.org")},
		testkit.Name{Tag: testkit.DNS, Bytes: []byte("www.example.org")}))
	script, notified := filepath.Join(folder, "notify"), filepath.Join(folder, "notified")
	lines := filepath.Join(folder, "lines")
	must(t, os.WriteFile(script, []byte("#!/bin/sh\necho \"$CTWATCH_NAME_COUNT: $CTWATCH_NAMES: $CTWATCH_HOSTS\" >"+
		notified+"\n"), 0o700))
	status, out, faults := ctwatch(t, "run", "--once", "--from-start", "--name", "example.org", "--folder", folder,
		"--command", script, "--json", lines, "--log", log.setting(true))
	if status != statusFoundByOnce || !strings.Contains(out, "shop.example.org, www.example.org (2 names)") {
		t.Errorf("status %d: %s%s", status, out, faults)
	}
	const names = "shop.example.org www.example.org"
	if content, err := os.ReadFile(notified); err != nil || string(content) != "2: "+names+": "+names+"\n" {
		t.Errorf("the command got %q, %v", content, err)
	}
	content, err := os.ReadFile(lines)
	must(t, err)
	var one alert.Alert
	must(t, json.Unmarshal(content, &one))
	expected := strings.Fields(names)
	if c := one.Certificate; c.NameCount != 2 || !slices.Equal(c.Names, expected) ||
		!slices.Equal(c.Matches[0].Hosts, expected) {
		t.Errorf("the JSON has %+v", c)
	}
	for _, name := range expected {
		if status, out, _ := ctwatch(t, "query", name, "--folder", folder); status != 0 ||
			!strings.Contains(out, "(2 names)") {
			t.Errorf("query %s: status %d: %s", name, status, out)
		}
	}
	status, out, faults = ctwatch(t, "show", log.address, "1", "--log", log.setting(true))
	if status != 0 || strings.Count(out, "Name:                  shop.example.org\n") != 1 ||
		strings.Contains(out, "More names") {
		t.Errorf("show: status %d: %s%s", status, out, faults)
	}
	store, err := watchstore.OpenToRead(folder)
	must(t, err)
	defer store.Close()
	if answer := ask(store, "/"); answer.Code != http.StatusOK || strings.Count(answer.Body.String(),
		"shop.example.org") != 1 {
		t.Errorf("the page: %s", answer.Body)
	}
}
