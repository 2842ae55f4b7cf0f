package main

import (
	"bytes"
	"fmt"
	"io"
	"os"
	"path/filepath"
	"strings"
	"testing"
	"time"
)

// TestMinimumOfEachSetting checks that each setting that is a time or a limit is accepted at its minimum, and refused
// one below it, with an error that has the minimum.
func TestMinimumOfEachSetting(t *testing.T) {
	with := func(name string, value any) (*settings, error) {
		return parse([]string{"--roots", "r", "--origin", "o.example", "--signing-key", "k",
			fmt.Sprintf("--%s=%v", name, value)}, io.Discard)
	}
	for name, minimum := range map[string]int64{
		"max-connections": 1, "max-connections-per-address": 1, "max-checks": 1, "max-queued-bytes": 1 << 20,
		"max-response-bytes": 64 << 20,
		"max-queue":          1, "max-batch": 1, "max-write-rate": 1, "max-proofs": 1,
	} {
		if _, err := with(name, minimum); err != nil {
			t.Errorf("%s %d: %v", name, minimum, err)
		}
		expected := fmt.Sprintf("--%s %d is too small (write at least %d, or leave %s out)", name, minimum-1, minimum, name)
		if _, err := with(name, minimum-1); err == nil || !strings.Contains(err.Error(), expected) {
			t.Errorf("%s %d: %v", name, minimum-1, err)
		}
	}
	for _, name := range []string{"shutdown-timeout", "header-timeout", "request-timeout", "submission-timeout",
		"response-timeout", "idle-timeout", "interval", "refresh-interval", "open-timeout",
		"delete-heads-after", "delete-tiles-after", "scrub-interval", "scrub-period", "max-clock-skew"} {
		if _, err := with(name, time.Nanosecond); err != nil {
			t.Errorf("%s: %v", name, err)
		}
		for _, time := range []time.Duration{0, -1} {
			if _, err := with(name, time); err == nil || !strings.Contains(err.Error(), "--"+name) ||
				!strings.Contains(err.Error(), fmt.Sprintf(" %v is not above 0 (write for example ", time)) {
				t.Errorf("%s %v: %v", name, time, err)
			}
		}
	}
	for name, rate := range map[string]func(*settings) int{
		"submission-rate-per-address": func(s *settings) int { return s.limits.SubmissionRate },
		"read-rate-per-address":       func(s *settings) int { return s.limits.ReadRate },
	} {
		for _, aSecond := range []int{0, 1, 500} {
			if s, err := with(name, aSecond); err != nil || rate(s) != aSecond || s.limits.SubmissionRate+
				s.limits.ReadRate != aSecond {
				t.Errorf("%s %d: %v", name, aSecond, err)
			}
		}
		if _, err := with(name, -1); err == nil || !strings.Contains(err.Error(),
			fmt.Sprintf("--%s -1 is too small (write at least 0, or leave %s out)", name, name)) {
			t.Errorf("%s -1: %v", name, err)
		}
	}
	for all, ofOne := range map[int]int{1: 1, 3: 1, 4: 1, 8: 2, 64: 16, 67: 16} {
		if s, err := with("max-proofs", all); err != nil || s.limits.ProofsByAddress != ofOne ||
			s.node.maxProofs != all {
			t.Errorf("the share of one address of %d proofs is not %d: %v", all, ofOne, err)
		}
	}
}

// TestRefusesWhatCannotBeOpened checks that, if a file, a folder or a store of a log cannot be opened, the start ends
// with status 1, names it, and leaves nothing open.
func TestRefusesWhatCannotBeOpened(t *testing.T) {
	t.Parallel()
	at := newPlace(t)
	at.write("file", []byte("no folder"))
	for what, arguments := range map[string][]string{
		"mkdir " + at.path("file"): {"--folder", at.path("file/log"), "--latest-head",
			at.path("latest-head"), "--guard-state", "file:" + at.path("guard")},
		"mkdir " + at.path("file/below"): {"--latest-head", at.path("file/below/latest-head")},
		at.path("file/objects"):          {"--store", "folder:" + at.path("file/objects")},
		at.path("file/register"):         {"--lock", "file:" + at.path("file/register")},
		at.path("file/index"):            {"--index", "leveldb:" + at.path("file/index")},
		"open " + at.path("none.pem"):    {"--signing-key", at.path("none.pem")},
		"objects are at folder:PATH":     {"--store", "nowhere:x"},
		"a lock is at file:PATH":         {"--lock", "nowhere:x"},
		"an index is at leveldb:PATH":    {"--index", "nowhere:x"},
	} {
		whole := at.realArguments("--signing-key", at.path("log.pem"))
		whole = append(append(whole, "--create"), arguments...)
		if status, output := runs(whole); status != 1 || !strings.Contains(output, what) {
			t.Errorf("%s: status %d: %s", what, status, output)
		}
		// Everything that was opened before must be closed, so no signer whose arguments name this folder may be left.
		for _, left := range processesOf(t, at.folder) {
			t.Errorf("%s: this process still runs: %s", what, left)
		}
	}
}

// processesOf returns the command lines of the processes whose command lines contain a text.
func processesOf(t *testing.T, text string) (found []string) {
	t.Helper()
	files, err := filepath.Glob("/proc/[0-9]*/cmdline")
	if err != nil || len(files) == 0 {
		t.Fatalf("no processes: %v", err)
	}
	for _, file := range files {
		// The process may have ended by now.
		if arguments, err := os.ReadFile(file); err == nil && bytes.Contains(arguments, []byte(text)) {
			found = append(found, strings.ReplaceAll(string(arguments), "\x00", " "))
		}
	}
	return found
}
