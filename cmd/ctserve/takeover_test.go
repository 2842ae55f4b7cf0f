package main

import (
	"errors"
	"os"
	"strings"
	"syscall"
	"testing"
	"time"

	"wagtenib/internal/audit/judge"
	"wagtenib/internal/log/service"
	"wagtenib/internal/log/signer"
)

// testdata/before has the folder, the guard's state and the latest head of a log with three entries, which an earlier
// version of ctserve made, and its answers.

// takenOver returns a place with a copy of that log, and the arguments to serve it. The operator has named today.
func takenOver(t *testing.T) (*place, []string) {
	t.Helper()
	p := &place{t: t, folder: t.TempDir()}
	if err := os.CopyFS(p.folder, os.DirFS("testdata/before")); err != nil {
		t.Fatal(err)
	}
	if err := os.Chmod(p.path("log.key"), 0o400); err != nil {
		t.Fatal(err)
	}
	now := time.Now()
	if err := service.NameDay(p.path("log.day"), now.UTC().Format("2006-01-02"), now); err != nil {
		t.Fatal(err)
	}
	return p, append(patient(), "--listen", "127.0.0.1:0", "--operator-listen", "127.0.0.1:0", "--origin",
		"log.example/old", "--roots", p.path("root.pem"),
		"--signing-key", p.path("log.key"), "--folder", p.path("log"))
}

// kept returns the content of a file of the place.
func (p *place) kept(name string) string {
	p.t.Helper()
	content, err := os.ReadFile(p.path(name))
	if err != nil {
		p.t.Fatal(err)
	}
	return string(content)
}

// indexed builds the index. It checks that a start demands that if it finds only the index of the earlier version.
func (p *place) indexed(arguments []string) {
	p.t.Helper()
	if status, output := runs(arguments); status != statusRolledBack || !strings.Contains(output, p.path("log/places")) ||
		!strings.Contains(output, "run ctserve index") {
		p.t.Errorf("a start without a new index: status %d: %s", status, output)
	}
	if isThere(p.path("log/index")) {
		p.t.Error("the start makes an empty index")
	}
	if status, stdout, stderr := does(append([]string{"index"}, arguments...)...); status != 0 ||
		stdout != "0 entries are left\n" {
		p.t.Fatalf("index: status %d, %q, %q", status, stdout, stderr)
	}
}

// goesOn starts a log that was taken over. It checks that the log answers its entries as before, and accepts new ones.
func (p *place) goesOn(arguments []string) {
	p.t.Helper()
	s := started(p.t, "", arguments...)
	for _, number := range []string{"1", "2", "3"} {
		status, text := post(s.clients, []byte(p.kept("chain-"+number+".json")))
		if status != 200 || timestampIn(p.t, text) != timestampIn(p.t, p.kept("sct-"+number+".json")) {
			p.t.Errorf("entry %s: %d %s, and not %s", number, status, text, p.kept("sct-"+number+".json"))
		}
	}
	if _, text := read(s.clients, "/checkpoint"); strings.Split(text, "\n")[1] != "3" || strings.Split(text,
		"\n")[2] != strings.Split(p.kept("checkpoint"), "\n")[2] {
		p.t.Errorf("its head is %s, and was %s", text, p.kept("checkpoint"))
	}
	// A chain of only the root's certificate is an entry that the log does not have yet.
	root := strings.Split(p.kept("chain-1.json"), `","`)[1]
	if status, text := post(s.clients, []byte(`{"chain":["`+root)); status != 200 {
		p.t.Errorf("a new entry: %d %s", status, text)
	}
	s.signal(syscall.SIGTERM)
	if status := s.ends(); status != 0 {
		p.t.Errorf("ctserve ended with status %d", status)
	}
	key, err := signer.OpenKey(p.path("log.key"))
	if err != nil {
		p.t.Fatal(err)
	}
	defer key.Close()
	if report, err := judge.Folder(p.path("log/objects"), key.Key(), nil); err != nil || report.Leaves != 4 ||
		report.Repeats != 0 {
		p.t.Errorf("%+v, %v", report, err)
	}
}

// TestTakesOver checks that a log that an earlier version of ctserve created goes on.
func TestTakesOver(t *testing.T) {
	t.Parallel()
	p, arguments := takenOver(t)
	p.indexed(arguments)
	p.goesOn(arguments)
}

// TestTakesOverUnpublished checks that a step that an earlier version of ctserve did not publish after the swap of the
// lock is published from its staged batch.
func TestTakesOverUnpublished(t *testing.T) {
	t.Parallel()
	p, arguments := takenOver(t)
	for _, name := range []string{"heads/00000000000000000003-00000001795991630331", "tile/0/000.p/3",
		"tile/data/000.p/3"} {
		if err := os.Remove(p.path("log/objects/" + name)); err != nil {
			t.Fatal(err)
		}
	}
	p.write("log/register/head", []byte("2 1795991629981"))
	// The machine had not stored that state yet.
	if err := os.Remove(p.path("log.latest-head")); err != nil {
		t.Fatal(err)
	}
	p.indexed(arguments)
	p.goesOn(arguments)
}

// TestTakesOverNothingOlder checks that a log of an earlier version of ctserve is refused if a part of it is missing or
// older than the rest.
func TestTakesOverNothingOlder(t *testing.T) {
	t.Parallel()
	for _, test := range []struct {
		what string
		do   func(p *place) error
		why  string
	}{
		{"the lock is missing", func(p *place) error { return os.RemoveAll(p.path("log/register")) },
			"the lock is older than the log"},
		{"the guard's state is missing", func(p *place) error { return os.RemoveAll(p.path("log.guard")) },
			"no valid guard state"},
		{"the index is missing", func(p *place) error {
			return errors.Join(os.RemoveAll(p.path("log/places")), os.RemoveAll(p.path("log/index")))
		}, "the index is not the log's"},
		{"this machine saw a later head", func(p *place) error {
			text := strings.Replace(p.kept("log.latest-head"), `"tree_size":3`, `"tree_size":4`, 1)
			return errors.Join(os.Remove(p.path("log.latest-head")), os.WriteFile(p.path("log.latest-head"),
				[]byte(text), 0o600))
		}, "the lock is older than the log"},
	} {
		p, arguments := takenOver(t)
		p.indexed(arguments)
		if err := test.do(p); err != nil {
			t.Fatal(err)
		}
		if status, output := runs(arguments); status != statusRolledBack || !strings.Contains(output, test.why) {
			t.Errorf("%s: status %d: %s", test.what, status, output)
		}
	}
}
