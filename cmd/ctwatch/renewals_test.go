package main

import (
	"encoding/json"
	"net/http"
	"os"
	"path/filepath"
	"strings"
	"testing"
	"time"

	"wagtenib/internal/testkit"
	"wagtenib/internal/watch/alert"
	"wagtenib/internal/watch/watchstore"
)

// TestReportsRenewals: a certificate of an expected CA, which alone causes no alert, ends in 6 days. With --renewals 7d
// there is one alert about it, on each kind of output and on the page, and one that takes it back after a newer
// certificate was logged.
func TestReportsRenewals(t *testing.T) {
	authority, log, folder := testkit.NewAuthority("Test CA 1"), serveLog(t, "a.example"), t.TempDir()
	end := time.Now().Add(6 * 24 * time.Hour)
	log.add(authority, authority.IssueUntil(end, "www.example.org"))
	script, notified := filepath.Join(folder, "notify"), filepath.Join(folder, "notified")
	must(t, os.WriteFile(script, []byte("#!/bin/sh\necho \"$CTWATCH_KIND: $CTWATCH_TEXT: $CTWATCH_CERTIFICATE_SHA256\" >>"+
		notified+"\n"), 0o700))
	carrier, mails := filepath.Join(folder, "sendmail"), filepath.Join(folder, "mails")
	must(t, os.WriteFile(carrier, []byte("#!/bin/sh\ncat >>"+mails+"\n"), 0o700))
	lines := filepath.Join(folder, "lines")
	arguments := []string{"run", "--once", "--from-start", "--name", "example.org", "--name", "=www.example.org", "--folder",
		folder, "--expect-issuer", "An authority", "--command", script, "--json", lines, "--mail", "you@example.org",
		"--sendmail", carrier, "--log", log.setting(true)}
	if status, out, faults := ctwatch(t, arguments...); status != 0 || out != "" {
		t.Fatalf("without --renewals: status %d: %s%s", status, out, faults)
	}
	arguments = append(arguments, "--renewals", "7d")
	text := "www.example.org: the certificate ends at " + end.UTC().Format(time.DateTime) + " UTC, and no newer one was logged"
	status, out, faults := ctwatch(t, arguments...)
	if status != statusFoundByOnce || !strings.HasPrefix(out, "UNRENEWED "+text+": www.example.org (1 name); ") ||
		strings.Count(out, "\n") != 1 {
		t.Errorf("status %d: %s%s", status, out, faults)
	}
	if status, out, faults = ctwatch(t, arguments...); status != 0 || out != "" {
		t.Errorf("the second run: status %d: %s%s", status, out, faults)
	}
	newer := time.Now().Add(90 * 24 * time.Hour)
	log.add(authority, authority.IssueUntil(newer, "www.example.org"))
	taken := "www.example.org: a newer certificate was logged, which ends at " + newer.UTC().Format(time.DateTime) + " UTC"
	if status, out, faults = ctwatch(t, arguments...); status != statusFoundByOnce ||
		!strings.HasPrefix(out, "RENEWED "+taken+": ") || strings.Count(out, "\n") != 1 {
		t.Errorf("status %d: %s%s", status, out, faults)
	}
	var alerts []alert.Alert
	for _, line := range strings.Split(strings.TrimSpace(readAll(t, lines)), "\n") {
		var one alert.Alert
		must(t, json.Unmarshal([]byte(line), &one))
		alerts = append(alerts, one)
	}
	if len(alerts) != 2 || alerts[0].Kind != "unrenewed" || alerts[0].Text != text || alerts[1].Kind != "renewed" ||
		alerts[1].Text != taken || alerts[0].Certificate.SHA256 != alerts[1].Certificate.SHA256 {
		t.Fatalf("the JSON has %+v", alerts)
	}
	hash := alerts[0].Certificate.SHA256
	if content := readAll(t, notified); content != "unrenewed: "+text+": "+hash+"\nrenewed: "+taken+": "+hash+"\n" {
		t.Errorf("the command got %s", content)
	}
	if content := readAll(t, mails); strings.Count(content, "Subject: [ctwatch] ") != 2 ||
		!strings.Contains(strings.ReplaceAll(content, "=\n", ""), "What happened:         "+text) {
		t.Errorf("the mails are %s", content)
	}
	store, err := watchstore.OpenToRead(folder)
	must(t, err)
	defer store.Close()
	if answer := ask(store, "/alerts"); answer.Code != http.StatusOK || !strings.Contains(answer.Body.String(),
		"UNRENEWED "+text) || !strings.Contains(answer.Body.String(), "RENEWED "+taken) {
		t.Errorf("the page: %s", answer.Body)
	}
}
