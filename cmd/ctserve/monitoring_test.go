package main

import (
	"io"
	"strings"
	"testing"
)

// TestMonitoringURL checks that a log's monitoring prefix may have another host than its submission prefix, which
// always follows from the origin.
func TestMonitoringURL(t *testing.T) {
	_, file := settingsFile(t, "monitoring-url https://read.example/a/2027h1/")
	status, stdout, stderr := does("list-entry", "--config", file, "--operator", "o", "--email", "e")
	for _, want := range []string{`"submission_url": "https://log.example/2027h1/",`,
		`"monitoring_url": "https://read.example/a/2027h1/",`} {
		if status != 0 || !strings.Contains(stdout, want) {
			t.Errorf("status %d, without %s: %s%s", status, want, stdout, stderr)
		}
	}
	s, err := parse([]string{"--config", file}, io.Discard)
	if err != nil {
		t.Fatal(err)
	}
	if about, err := aboutOf(s, []byte("a key")); err != nil ||
		!strings.Contains(string(about.Entry), `"monitoring_url": "https://read.example/a/2027h1/",`) {
		t.Errorf("/log.v3.json: %v %s", err, about.Entry)
	}
	for _, address := range []string{"http://read.example/", "https://read.example/a", "https://read.example",
		"https:///a/", "read.example/a/", "https://a:b@read.example/", "https://read.example/?a/",
		"https://read.example/#/", ":"} {
		if _, err := parse([]string{"--roots", "r", "--origin", "o.example", "--signing-key", "k", "--monitoring-url",
			address}, io.Discard); err == nil ||
			!strings.Contains(err.Error(), "is not an https URL that ends with a slash") {
			t.Errorf("%q: %v", address, err)
		}
	}
}
