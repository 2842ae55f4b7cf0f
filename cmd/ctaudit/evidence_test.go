package main

import (
	"context"
	"crypto/sha256"
	"encoding/json"
	"encoding/pem"
	"errors"
	"net/http/httptest"
	"os"
	"path/filepath"
	"strings"
	"testing"

	"wagtenib/internal/testkit"
	"wagtenib/internal/watch"
	"wagtenib/internal/watch/namesearch"
	"wagtenib/internal/watch/watchstore"
)

// TestEvidence checks that two signed heads and the log's key show a fork, and that no other key and no other files do.
func TestEvidence(t *testing.T) {
	log := testkit.NewLog("log.example/2027")
	folder, keys := t.TempDir(), t.TempDir()
	about, err := json.Marshal(map[string]any{"verdict": "fork", "origin": log.Origin, "key": log.PublicKey()})
	must(t, err)
	write := func(folder, name string, content []byte) string {
		must(t, os.WriteFile(filepath.Join(folder, name), content, 0o600))
		return filepath.Join(folder, name)
	}
	write(folder, "evidence.json", about)
	for i, name := range []string{"head-1", "head-2"} {
		log.PublishRoot(300, 1000, [32]byte{byte(i)})
		write(folder, name, log.Checkpoint())
	}
	other := testkit.NewLog("log.example/2027")
	pemOf := func(der []byte) []byte { return pem.EncodeToMemory(&pem.Block{Type: "PUBLIC KEY", Bytes: der}) }
	own, stranger := write(keys, "own", pemOf(log.PublicKey())), write(keys, "stranger", pemOf(other.PublicKey()))
	none := write(keys, "none", []byte("no key"))
	for key, expected := range map[string]string{own: "two roots of 300 leaves", stranger: "another key",
		none: "not a public key"} {
		status, out, problem := ctaudit(t, "evidence", folder, key)
		if (status == 0) != (key == own) || !strings.Contains(out+problem, expected) {
			t.Errorf("%s: status %d: %s%s", filepath.Base(key), status, out, problem)
		}
	}
	for _, arguments := range [][]string{{folder}, {folder, own, own}, {}} {
		if status, _, problem := ctaudit(t, append([]string{"evidence"}, arguments...)...); status != statusUsage ||
			!strings.Contains(problem, "write ctaudit evidence FOLDER KEY.PEM;") {
			t.Errorf("%d arguments: status %d: %s", len(arguments), status, problem)
		}
	}
	for _, arguments := range [][]string{{folder, "/absent"}, {"/absent", own}, {folder, none}} {
		if status, _, problem := ctaudit(t, append([]string{"evidence"}, arguments...)...); status != statusUsage ||
			problem == "" {
			t.Errorf("%q: status %d: %s", arguments, status, problem)
		}
	}
	if status, _, problem := ctaudit(t, "evidence", t.TempDir(), own); status != statusUsage ||
		!strings.Contains(problem, "evidence.json: no such file or directory (give the folder of one piece of evidence; ") {
		t.Errorf("a folder without evidence: status %d: %s", status, problem)
	}
	write(folder, "head-2", log.Checkpoint()[:60])
	if status, out, problem := ctaudit(t, "evidence", folder, own); status != 1 ||
		!strings.Contains(problem, "head-2") {
		t.Errorf("half a head: status %d: %s%s", status, out, problem)
	}
	must(t, os.Remove(filepath.Join(folder, "head-2")))
	if status, _, problem := ctaudit(t, "evidence", folder, own); status != 1 ||
		!strings.Contains(problem, "head-2 is missing") {
		t.Errorf("no head: status %d: %s", status, problem)
	}
}

// TestEvidenceOfAFork makes a log that ctwatch follows sign another root. The command must accept the evidence in the store
// of ctwatch, with the log's key and without the log, in one command.
func TestEvidenceOfAFork(t *testing.T) {
	for _, kind := range []string{"tiled", "RFC 6962"} {
		log := testkit.NewLog("log.example/2027")
		for i := range uint64(300) {
			log.Add(testkit.Entry{Timestamp: 1000 + i, Certificate: []byte{0x30, 3, 1, byte(i >> 8), byte(i)}})
		}
		log.Publish(300, 2000)
		server := httptest.NewServer(log)
		of := watch.Log{ID: sha256.Sum256(log.PublicKey()), Name: "a log", URL: server.URL, PublicKey: log.PublicKey()}
		if kind == "tiled" {
			of.Origin = log.Origin
		}
		store, err := watchstore.Open(t.TempDir(), watchstore.Options{Searcher: namesearch.NewSearcher(nil)})
		must(t, err)
		follower, err := watch.NewFollower(of, store, watch.Options{FromStart: true})
		must(t, err)
		must(t, follower.Pass(context.Background()))
		log.PublishRoot(300, 3000, [32]byte{1})
		if err := follower.Pass(context.Background()); !errors.As(err, new(*watch.AccusedError)) {
			t.Fatalf("%s: the log forks, and the pass ends with %v", kind, err)
		}
		evidence, _, err := store.Evidence(1)
		must(t, err)
		must(t, store.Close())
		server.Close()
		folder, key := t.TempDir(), filepath.Join(t.TempDir(), "key")
		for name, content := range evidence.Files {
			must(t, os.WriteFile(filepath.Join(folder, name), content, 0o600))
		}
		must(t, os.WriteFile(key, pem.EncodeToMemory(&pem.Block{Type: "PUBLIC KEY", Bytes: log.PublicKey()}), 0o600))
		if status, out, problem := ctaudit(t, "evidence", folder, key); status != 0 ||
			!strings.Contains(out, "two roots of 300 leaves") {
			t.Errorf("%s: status %d: %s%s", kind, status, out, problem)
		}
		head := filepath.Join(folder, watch.FileHead)
		must(t, os.WriteFile(head, evidence.Files[watch.FileFirst], 0o600))
		if status, out, problem := ctaudit(t, "evidence", folder, key); status != 1 {
			t.Errorf("%s: the same head twice: status %d: %s%s", kind, status, out, problem)
		}
	}
}
