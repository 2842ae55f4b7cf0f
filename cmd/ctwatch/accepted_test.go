package main

import (
	"errors"
	"io"
	"os"
	"path/filepath"
	"strings"
	"testing"

	"golang.org/x/mod/sumdb/note"

	"wagtenib/bindings/go/wagtenib"
	"wagtenib/internal/command/eventlog"
	"wagtenib/internal/ct"
	"wagtenib/internal/watch"
	"wagtenib/internal/witness"
)

// TestWritesAcceptedHead: a run writes the accepted head to the folder, as the log signed it, and a witness reads it
// there. A later head whose root differs from that of the entries is not written.
func TestWritesAcceptedHead(t *testing.T) {
	log := serveLog(t, "log.example/2027")
	log.fill(300)
	folder := t.TempDir()
	run := []string{"run", "--once", "--listen=", "--from-start", "--unread", "none",
		"--folder", filepath.Join(folder, "store"), "--accepted-folder", filepath.Join(folder, "accepted"),
		"--name", "a.example", "--log", log.setting(true)}
	if status, out, faults := ctwatch(t, run...); status != 0 {
		t.Fatalf("run: status %d: %s%s", status, out, faults)
	}
	path := filepath.Join(folder, "accepted", strings.ReplaceAll(log.Origin, "/", "%2F"))
	accepted := log.Checkpoint()
	content, err := os.ReadFile(path)
	must(t, err)
	if string(content) != string(accepted) {
		t.Errorf("the file has %q, and the log's checkpoint is %q", content, accepted)
	}
	keys := []note.Verifier{ct.LogVerifier(log.Origin, log.PublicKey())}
	size, root, err := witness.AcceptedBy(path, log.Origin, keys)
	if err != nil || size != 300 || root != log.Root(300) {
		t.Errorf("%d leaves with the root %x: %v", size, root, err)
	}
	log.PublishRoot(300, 2_000_000_000_000, [32]byte{1})
	if status, out, faults := ctwatch(t, run...); status != statusAccused {
		t.Errorf("a fork: status %d: %s%s", status, out, faults)
	}
	if content, err = os.ReadFile(path); err != nil || string(content) != string(accepted) {
		t.Errorf("after a fork the file has %q: %v", content, err)
	}
}

// failing is a watch.Keeper that stores nothing.
type failing struct{ watch.Keeper }

func (failing) Keep(watch.Log, watch.State, []watch.Entry) error {
	return errors.New("the disk is full")
}

// TestWritesNoHeadThatTheStoreRefuses: a head that could not be stored is not written for a witness.
func TestWritesNoHeadThatTheStoreRefuses(t *testing.T) {
	folder := filepath.Join(t.TempDir(), "accepted")
	keeper, err := newAcceptedFolder(failing{}, folder, eventlog.NewLines(io.Discard))
	must(t, err)
	log := watch.Log{ID: watch.LogID{1}, Origin: "log.example"}
	head := watch.Head{TreeHead: wagtenib.TreeHead{TreeSize: 1, Timestamp: 1}, Signed: []byte("a checkpoint")}
	if err := keeper.Keep(log, watch.State{Accepted: watch.Tree{Head: head}}, nil); err == nil {
		t.Error("the store's fault is not reported")
	}
	if files, err := os.ReadDir(folder); err != nil || len(files) != 0 {
		t.Errorf("%v %v", files, err)
	}
}
