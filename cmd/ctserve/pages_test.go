package main

import (
	"bytes"
	"fmt"
	"os"
	"regexp"
	"strings"
	"testing"
	"time"

	"wagtenib/internal/log/chain"
	"wagtenib/internal/testkit"
)

// defaults returns the settings that --help lists, each with its help text, which has the default if there is one.
func defaults(t *testing.T, arguments ...string) map[string]string {
	t.Helper()
	var help bytes.Buffer
	if len(arguments) == 0 {
		if _, err := parse([]string{"--help"}, &help); err == nil {
			t.Fatal("no help")
		}
	} else {
		run(arguments, &help, openNode)
	}
	found := map[string]string{}
	for _, part := range regexp.MustCompile(`(?m)^  -`).Split(help.String(), -1)[1:] {
		name, _, _ := strings.Cut(strings.Fields(part)[0], "\n")
		found[name] = part
	}
	return found
}

// TestPagesNameSettings checks that each setting that docs/OPERATING.md and INCIDENTS.md name exists, and has the
// default that they state.
func TestPagesNameSettings(t *testing.T) {
	settings := defaults(t)
	for name, help := range defaults(t, "signer", "--help") {
		if settings[name] == "" {
			settings[name] = help
		}
	}
	for _, name := range []string{"listen", "max-write-rate", "guard-state", "require-synchronized-clock"} {
		if settings[name] == "" {
			t.Fatalf("--help does not list %s: %d settings", name, len(settings))
		}
	}
	// These have a hyphen and are not settings.
	others := map[string]bool{"list-entry": true, "made-again": true, "root-left-out": true, "refused-caller": true,
		"read-only": true, "too-often": true, "statement_timeout": true, "pre-vote": true,
		"auto-compaction-mode=periodic": true}
	for _, refusal := range chain.Refusals {
		others[string(refusal)] = true
	}
	whole := ""
	for _, page := range []string{"../../docs/OPERATING.md", "../../docs/INCIDENTS.md"} {
		text := testkit.Page(t, page)
		whole += text + "\n"
		for _, quoted := range regexp.MustCompile("`([^`]+)`").FindAllStringSubmatch(text, -1) {
			word := strings.TrimLeft(strings.Fields(quoted[1])[0], "-")
			if !regexp.MustCompile(`^[a-z]+(-[a-z]+)+$`).MatchString(word) || others[word] {
				continue
			}
			if settings[word] == "" {
				t.Errorf("%s: %s is no setting", page, word)
			}
		}
	}
	for _, stated := range []struct{ name, onPage, inHelp string }{
		{"operator-listen", "`operator-listen` (127.0.0.1:8619;", `default "127.0.0.1:8619"`},
		{"max-connections-per-address",
			"64 connections at once, or 64 requests at once through nginx (`max-connections-per-address`)",
			"default 64)"},
		{"max-clock-skew", "`max-clock-skew` (10 s)", "default 10s)"},
		{"shutdown-timeout", "`shutdown-timeout` (30 s)", "default 30s)"},
		{"guard", "`guard` is on by default", "default true)"},
		{"latest-head", "`latest-head`, by default `FOLDER.latest-head`", "default FOLDER.latest-head"},
		{"guard-state", "`guard-state`, by default `FOLDER.guard`", "FOLDER.guard"},
		{"max-merge-delay", "`max-merge-delay` (a minute)", "default 1m0s)"},
		{"refresh-interval", "each `refresh-interval` (half of `max-merge-delay`)", "default half of it)"},
		{"interval", "twenty heads a second", "50ms means at most twenty a second"},
		{"interval", "| 5 ms, the default of a log on a folder |", "and 5ms for a folder"},
		{"interval", "| 50 ms, the default with witnesses and with stores on other machines |",
			"By default, 50ms with witnesses and with stores on other machines"},
	} {
		if !strings.Contains(whole, stated.onPage) {
			t.Errorf("the pages do not say %q", stated.onPage)
		}
		if !strings.Contains(settings[stated.name], stated.inHelp) {
			t.Errorf("the help of %s does not say %s: %s", stated.name, stated.inHelp, settings[stated.name])
		}
	}
}

// TestPageSaysBounds checks that docs/SERVICE.md states the limits that are the program's defaults.
func TestPageSaysBounds(t *testing.T) {
	s, err := parse([]string{"--roots", "r", "--origin", "o.example", "--signing-key", "k"}, &bytes.Buffer{})
	testkit.Must(t, err)
	testkit.Says(t, testkit.Page(t, "../../docs/SERVICE.md"), map[string]bool{
		"more than `max-write-rate` allows in a second (16 MiB)": s.node.maxWritten == 16<<20,
	})
	if s.node.maxProofs != 64 || s.limits.ProofsByAddress != 16 {
		t.Errorf("the limits are %d proofs at once, and %d of one address", s.node.maxProofs, s.limits.ProofsByAddress)
	}
}

// TestScraped checks that Prometheus's configuration reads a log's metrics with the job name of the alert rules, and
// includes the rules.
func TestScraped(t *testing.T) {
	s, err := parse([]string{"--roots", "r", "--origin", "o.example", "--signing-key", "k"}, &bytes.Buffer{})
	testkit.Must(t, err)
	rules, err := os.ReadFile("../../release/prometheus/ctserve.rules.yml")
	testkit.Must(t, err)
	jobs := regexp.MustCompile(`job="(\w+)"`).FindAllSubmatch(rules, -1)
	if len(jobs) == 0 {
		t.Fatal("no alert names a job")
	}
	settings := testkit.Page(t, "../../release/prometheus/prometheus.yml")
	testkit.Says(t, settings, map[string]bool{
		"rule_files: [ctserve.rules.yml]":       true,
		`targets: ["` + s.operator + `"]`:       s.operator != "",
		"job_name: " + string(jobs[0][1]) + " ": true,
	})
	for _, job := range jobs {
		if string(job[1]) != string(jobs[0][1]) {
			t.Errorf("one alert is of %s, and another of %s", jobs[0][1], job[1])
		}
	}
	testkit.Says(t, testkit.Page(t, "../../docs/OPERATING.md"), map[string]bool{
		"Prometheus reads /metrics at `operator-listen` (" + s.operator + ";": true,
	})
}

// TestUnit checks that the systemd unit waits for longer than an end takes, and does not restart a log with wrong
// settings or rolled back stores. It must allow as many connections as ctserve accepts, and start after the clock is
// synchronized.
func TestUnit(t *testing.T) {
	text, err := os.ReadFile("../../release/systemd/ctserve@.service")
	testkit.Must(t, err)
	unit := map[string]string{}
	for _, line := range strings.Split(string(text), "\n") {
		if name, value, isSet := strings.Cut(line, "="); isSet {
			unit[name] += value
		}
	}
	s, err := parse([]string{"--roots", "r", "--origin", "o.example", "--signing-key", "k"}, &bytes.Buffer{})
	testkit.Must(t, err)
	seconds, err := time.ParseDuration(unit["TimeoutStopSec"] + "s")
	if err != nil || seconds <= s.endWithin {
		t.Errorf("systemd kills it after %v, %v, and an end takes up to %v", seconds, err, s.endWithin)
	}
	var files, memory int
	if _, err := fmt.Sscanf(unit["LimitNOFILE"]+" "+unit["MemoryMax"], "%d %dG", &files, &memory); err != nil ||
		files < 2*s.limits.Connections {
		t.Errorf("%d files, %v, for %d connections", files, err, s.limits.Connections)
	}
	// Half of the memory is for what a log needs apart from answers and submissions.
	if wanted := s.limits.AnswerBytes + s.limits.WaitingBytes; int64(memory)<<30 < 2*wanted {
		t.Errorf("%d GiB of memory, and answers and submissions may have %d bytes", memory, wanted)
	}
	if wanted := fmt.Sprint(2, statusRolledBack); unit["RestartPreventExitStatus"] != wanted ||
		unit["Restart"] != "always" {
		t.Errorf("the unit restarts it except after %q, and not %q", unit["RestartPreventExitStatus"], wanted)
	}
	for _, name := range []string{"After", "Wants"} {
		if !strings.Contains(unit[name], "time-sync.target") {
			t.Errorf("%s is %q", name, unit[name])
		}
	}
	testkit.Says(t, testkit.Page(t, "../../docs/OPERATING.md"), map[string]bool{
		"ends with status 3, and the unit does not start the log again": statusRolledBack == 3,
		"A setting with an unknown name ends a start with status 2": run([]string{"--no-such-word"}, &bytes.Buffer{},
			openNode) == 2,
	})
}
