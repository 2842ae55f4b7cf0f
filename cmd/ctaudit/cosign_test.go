package main

import (
	"context"
	"crypto/ed25519"
	"crypto/rand"
	"crypto/sha256"
	"encoding/base64"
	"encoding/binary"
	"fmt"
	"io"
	"net/http"
	"net/http/httptest"
	"os"
	"path/filepath"
	"strings"
	"testing"

	"golang.org/x/mod/sumdb/note"

	"wagtenib/internal/testkit"
	"wagtenib/internal/watch"
	"wagtenib/internal/watch/namesearch"
	"wagtenib/internal/watch/watchstore"
	"wagtenib/internal/witness"
)

// serveWitness serves a witness that cosigns each head, and returns its URL and verifier key as the command has them,
// and the verifier of its cosignatures.
func serveWitness(t *testing.T) (one string, cosigner note.Verifier) {
	t.Helper()
	public, key, err := ed25519.GenerateKey(rand.Reader)
	must(t, err)
	full := append([]byte{4}, public...)
	id := sha256.Sum256(append([]byte("w.example\n"), full...))
	server := httptest.NewServer(http.HandlerFunc(func(w http.ResponseWriter, r *http.Request) {
		body, err := io.ReadAll(r.Body)
		if err != nil {
			t.Error(err)
		}
		_, head, _ := strings.Cut(string(body), "\n\n")
		text, _, _ := strings.Cut(head, "\n\n")
		signed := ed25519.Sign(key, []byte("cosignature/v1\ntime 1800000000\n"+text+"\n"))
		content := append(binary.BigEndian.AppendUint64(id[:4:4], 1_800_000_000), signed...)
		fmt.Fprintf(w, "— w.example %s\n", base64.StdEncoding.EncodeToString(content))
	}))
	t.Cleanup(server.Close)
	return fmt.Sprintf("%s,w.example+%x+%s", server.URL, id[:4], base64.StdEncoding.EncodeToString(full)),
		witness.OfCosigner("w.example", public)
}

// acceptHead has a follower read a log to its newest head, and returns the folder of the store that accepted it.
func acceptHead(t *testing.T, log *testkit.Log) (folder string) {
	t.Helper()
	server := httptest.NewServer(log)
	defer server.Close()
	folder = t.TempDir()
	store, err := watchstore.Open(folder, watchstore.Options{Searcher: namesearch.NewSearcher(nil)})
	must(t, err)
	follower, err := watch.NewFollower(watch.Log{ID: sha256.Sum256(log.PublicKey()), Name: "a log", Origin: log.Origin,
		URL: server.URL, PublicKey: log.PublicKey()}, store, watch.Options{FromStart: true})
	must(t, err)
	must(t, follower.Pass(context.Background()))
	must(t, store.Close())
	return folder
}

// TestCosigns: a witness cosigns the head that was accepted, and the file has the checkpoint with the cosignature. The
// same is printed if no file is named.
func TestCosigns(t *testing.T) {
	log := newTestLog(t, 300)
	one, cosigner := serveWitness(t)
	folder, into := acceptHead(t, log), filepath.Join(t.TempDir(), "cosigned")
	checkpoint := log.Checkpoint()
	// A later head is not accepted yet, so no witness sees it.
	log.Add(testkit.Entry{Timestamp: 1000, Certificate: []byte{0x30, 0}})
	log.Publish(301, 4_000_000_000_000)
	arguments := append([]string{"cosign", one, "--folder", folder}, logArguments(t, log)...)
	if status, out, faults := ctaudit(t, append(arguments, "--into", into)...); status != 0 ||
		out != "300 leaves are cosigned by w.example\n" {
		t.Fatalf("status %d: %s%s", status, out, faults)
	}
	cosigned, err := os.ReadFile(into)
	must(t, err)
	if opened, err := note.Open(cosigned, note.VerifierList(cosigner)); err != nil || len(opened.Sigs) != 1 ||
		!strings.HasPrefix(string(cosigned), string(checkpoint)) {
		t.Errorf("%v: %q", err, cosigned)
	}
	if status, out, faults := ctaudit(t, arguments...); status != 0 || out != string(cosigned) {
		t.Errorf("without a file: status %d: %s%s", status, out, faults)
	}
}

// TestRefusesToCosign: a head of another log, a witness that does not answer and wrong arguments have a status each.
func TestRefusesToCosign(t *testing.T) {
	log, other := newTestLog(t, 3), newTestLog(t, 3)
	one, _ := serveWitness(t)
	_, verifier, _ := strings.Cut(one, ",")
	folder := acceptHead(t, log)
	named := logArguments(t, log)
	for what, expected := range map[string]struct {
		arguments []string
		status    int
		text      string
	}{
		"a log without an accepted head": {append([]string{one, "--folder", folder}, logArguments(t, other)...), statusFault,
			"no head of"},
		"no store":     {append([]string{one, "--folder", t.TempDir()}, named...), statusFault, "start ctwatch run first"},
		"no answer":    {append([]string{"http://127.0.0.1:1," + verifier, "--folder", folder}, named...), statusUnread, ""},
		"no key":       {append([]string{"http://127.0.0.1:1", "--folder", folder}, named...), statusUsage, "a witness is its URL"},
		"no log":       {[]string{one, "--folder", folder}, statusUsage, "name one tiled log"},
		"no tiled log": {[]string{one, "--log", strings.TrimPrefix(named[1], "tiled+")[:len(named[1])-len("tiled+")-len(log.Origin)-1]}, statusUsage, "name one tiled log"},
	} {
		status, out, faults := ctaudit(t, append([]string{"cosign"}, expected.arguments...)...)
		if status != expected.status || out != "" || !strings.Contains(faults, expected.text) || faults == "" {
			t.Errorf("%s: status %d: %s%s", what, status, out, faults)
		}
	}
}
