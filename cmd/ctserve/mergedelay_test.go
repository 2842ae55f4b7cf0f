package main

import (
	"encoding/json"
	"io"
	"strings"
	"testing"
	"time"

	"wagtenib/internal/testkit"
)

// TestMergeDelay checks that the refresh interval follows from the merge delay, and that one that breaks the merge
// delay is refused.
func TestMergeDelay(t *testing.T) {
	for arguments, want := range map[string]struct {
		delay, refresh time.Duration
		refusal        string
	}{
		"":                        {delay: time.Minute, refresh: 30 * time.Second},
		"--max-merge-delay=24h":   {delay: 24 * time.Hour, refresh: 12 * time.Hour},
		"--refresh-interval=59s":  {delay: time.Minute, refresh: 59 * time.Second},
		"--refresh-interval=60s":  {refusal: "--refresh-interval 1m0s is not below --max-merge-delay 1m0s"},
		"--max-merge-delay=1.5s":  {refusal: "--max-merge-delay 1.5s is not a whole number of seconds"},
		"--max-merge-delay=999ms": {refusal: "is not a whole number of seconds"},
		"--max-merge-delay=0":     {refusal: "--max-merge-delay 0s is not above 0"},
		"--max-merge-delay=-1m":   {refusal: "--max-merge-delay -1m0s is not above 0"},
		"--max-merge-delay=1s --refresh-interval=1ms": {delay: time.Second, refresh: time.Millisecond},
	} {
		s, err := parse(append([]string{"--roots", "r", "--origin", "o.example", "--signing-key", "k"},
			strings.Fields(arguments)...), io.Discard)
		if want.refusal != "" {
			if err == nil || !strings.Contains(err.Error(), want.refusal) {
				t.Errorf("%q: %v", arguments, err)
			}
			continue
		}
		if err != nil || s.node.maxMergeDelay != want.delay || s.node.refresh != want.refresh {
			t.Errorf("%q: %v, a merge delay of %v and a head every %v", arguments, err, s.node.maxMergeDelay, s.node.refresh)
		}
	}
}

// TestListedMergeDelay checks that list-entry and check print the merge delay of the settings.
func TestListedMergeDelay(t *testing.T) {
	_, file := settingsFile(t, "max-merge-delay 2m")
	if status, stdout, stderr := does("list-entry", "--config", file, "--operator", "o", "--email", "e"); status != 0 ||
		!strings.Contains(stdout, `"mmd": 120,`) {
		t.Errorf("list-entry: status %d, %s%s", status, stdout, stderr)
	}
	if status, stdout, stderr := does("check", file); status != 0 ||
		!strings.Contains(stdout, "2m0s, so a head is made at least each 1m0s\n") {
		t.Errorf("check: status %d, %s%s", status, stdout, stderr)
	}
	_, file = settingsFile(t, "max-merge-delay 30s", "refresh-interval 1h")
	if status, _, stderr := does("check", file); status != 2 ||
		!strings.Contains(stderr, "is not below --max-merge-delay 30s") {
		t.Errorf("check of a refresh interval that is too long: status %d, %s", status, stderr)
	}
}

// TestIdleLogMakesHeads checks that a log without submissions publishes its merge delay, and makes new heads.
func TestIdleLogMakesHeads(t *testing.T) {
	t.Parallel()
	at := newPlace(t)
	p := started(t, "", at.realArguments("--signing-key", at.path("log.pem"), "--create", "--max-merge-delay", "2s")...)
	p.shows("ctserve_max_merge_delay_seconds 2")
	var entry struct {
		MMD int `json:"mmd"`
	}
	if status, text := read(p.clients, "/log.v3.json"); status != 200 || json.Unmarshal([]byte(text), &entry) != nil ||
		entry.MMD != 2 {
		t.Errorf("/log.v3.json: %d %s", status, text)
	}
	first := timestampOf(t, p)
	for until := testkit.Limited(t, testkit.Longest); timestampOf(t, p) == first; time.Sleep(10 * time.Millisecond) {
		if until.Err() != nil {
			t.Fatal("no head without entries was made")
		}
	}
	if status, text := read(p.clients, "/ct/v1/get-sth"); status != 200 || !strings.Contains(text, `"tree_size":0,`) {
		t.Errorf("the log has entries: %d %s", status, text)
	}
}

// timestampOf returns the timestamp of the newest head, in milliseconds.
func timestampOf(t *testing.T, p *program) (milliseconds uint64) {
	t.Helper()
	var head struct {
		Timestamp uint64 `json:"timestamp"`
	}
	if status, text := read(p.clients, "/ct/v1/get-sth"); status != 200 || json.Unmarshal([]byte(text), &head) != nil {
		t.Fatalf("get-sth: %d %s", status, text)
	}
	return head.Timestamp
}
