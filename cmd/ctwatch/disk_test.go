package main

import (
	"bytes"
	"os"
	"path/filepath"
	"strings"
	"syscall"
	"testing"

	"wagtenib/internal/testkit"
)

// TestFullDiskLosesNoAlert runs the program on a disk that gets full while it reads a log. The program reports this
// with the name of the store. With room again it continues, and each certificate gets its alert. An alert that is sent
// twice has Again set.
func TestFullDiskLosesNoAlert(t *testing.T) {
	t.Run("a small disk", func(t *testing.T) {
		folder := t.TempDir()
		if err := syscall.Mount("tmpfs", folder, "tmpfs", 0, "size=2m"); err != nil {
			t.Skipf("no disk can be mounted here, so only the other test checks this: %v", err)
		}
		defer func() { must(t, syscall.Unmount(folder, 0)) }()
		runFull(t, folder, "the disk is full", false, func() {
			must(t, syscall.Mount("tmpfs", folder, "tmpfs", syscall.MS_REMOUNT, "size=64m"))
		})
	})
	t.Run("files that cannot grow", func(t *testing.T) {
		runFull(t, t.TempDir(), filepath.Join("store", "ctwatch.sqlite"), true, func() {})
	})
}

// runFull runs the program twice over a log with more certificates than the disk has room for, and makes room between
// the runs. The first run must print the expected text. If isLimited is set, no file of the first run can grow beyond
// 512 KiB.
func runFull(t *testing.T, folder, expected string, isLimited bool, makeRoom func()) {
	t.Helper()
	const count = 2000
	log, wanted := manyIssuances(t, count), map[string]bool{}
	for i := range count {
		wanted[hostOf(i)] = true
	}
	log.add(testkit.NewAuthority("Test CA 1"), testkit.NewAuthority("Test CA 1").Issue("other.net"))
	alerts := filepath.Join(t.TempDir(), "alerts")
	arguments := []string{"run", "--once", "--from-start", "--name", "example.org", "--folder",
		filepath.Join(folder, "store"), "--json", alerts, "--log", log.setting(true)}
	var out bytes.Buffer
	program := testkit.Program(t, arguments...)
	program.Stdout, program.Stderr = &out, &out
	if isLimited {
		// The program inherits the bound.
		_ = testkit.ShortFiles(t, 512<<10, program.Run)
	} else {
		_ = program.Run()
	}
	if status := program.ProcessState.ExitCode(); status != statusUnread && status != statusFault ||
		!strings.Contains(out.String(), expected) {
		t.Fatalf("on a full disk: status %d: %s", status, out.String())
	}
	content, err := os.ReadFile(alerts)
	must(t, err)
	if sent := bytes.Count(content, []byte("\n")); sent == count {
		t.Fatal("the disk was not full")
	}
	makeRoom()
	status, printed, faults := ctwatch(t, arguments...)
	if status != statusFoundByOnce {
		t.Fatalf("with room: status %d: %s%s", status, printed, faults)
	}
	again, cut := judgeAlerts(t, alerts, wanted, 0)
	t.Logf("%d alerts were sent again, %d lines are cut off", again, cut)
}
