package main

import (
	"encoding/pem"
	"errors"
	"fmt"
	"net/http"
	"net/http/httptest"
	"os"
	"path/filepath"
	"slices"
	"strings"
	"testing"

	"wagtenib/internal/audit/judge"
	"wagtenib/internal/testkit"
	"wagtenib/internal/watch"
)

// TestShowsAnEntry: show prints an entry of either kind of log with its names, its certificate, byte for byte, and the
// head whose tree contains it.
func TestShowsAnEntry(t *testing.T) {
	authority := testkit.NewAuthority("Test CA 1")
	one := authority.Issue("shop.example.org")
	log := serveLog(t, "a.example")
	for range 200 {
		log.add(authority, authority.Issue("other.net"))
	}
	log.add(authority, one) // It adds the entries 400 and 401, which are in the second tile.
	log.add(authority, authority.Issue("other.net"))
	for _, isTiled := range []bool{false, true} {
		for index, expected := range map[string][]byte{"400": one.Precertificate.Raw, "401": one.Certificate.Raw} {
			status, out, faults := ctwatch(t, "show", log.address, index, "--log", log.setting(isTiled))
			block, _ := pem.Decode([]byte(out))
			if status != 0 || block == nil || !slices.Equal(block.Bytes, expected) ||
				!strings.Contains(out, "Name:                  shop.example.org\n") ||
				!strings.Contains(out, "the tree head of size 404") || strings.Contains(out, "does not cover") {
				t.Errorf("tiled %v, entry %s: status %d: %s%s", isTiled, index, status, out, faults)
			}
		}
		status, out, faults := ctwatch(t, "show", log.address, "404", "--log", log.setting(isTiled))
		if status != statusFault || out != "" || !strings.Contains(faults, "404 entries, numbered from 0 on") {
			t.Errorf("tiled %v, entry 404: status %d: %s%s", isTiled, status, out, faults)
		}
	}
	for arguments, expected := range map[string]string{"nowhere 1": "give the log by --log",
		log.address + " x": "write a number", log.address: "needs 2 arguments"} {
		status, _, faults := ctwatch(t, append(append([]string{"show"}, strings.Fields(arguments)...), "--log",
			log.setting(true))...)
		if status != statusUsage || !strings.Contains(faults, expected) {
			t.Errorf("%s: status %d: %s", arguments, status, faults)
		}
	}
}

// TestWritesTheProofOfAnEntry: show writes files that the independent judge confirms later, without the log. The judge
// refuses a changed leaf, tree head or proof.
func TestWritesTheProofOfAnEntry(t *testing.T) {
	authority, log := testkit.NewAuthority("Test CA 1"), serveLog(t, "a.example")
	for range 5 {
		log.add(authority, authority.Issue("shop.example.org"))
	}
	for _, isTiled := range []bool{false, true} {
		folder := filepath.Join(t.TempDir(), "kept")
		arguments := []string{"show", log.address, "6", "--evidence", folder, "--log", log.setting(isTiled)}
		status, out, faults := ctwatch(t, arguments...)
		if status != 0 || !strings.Contains(out, folder+" has the files") {
			t.Fatalf("tiled %v: status %d: %s%s", isTiled, status, out, faults)
		}
		shown, err := judge.Evidence(folder, log.PublicKey())
		if err != nil || !strings.Contains(shown, "its leaf 6 is the file leaf") {
			t.Errorf("tiled %v: %v: %s", isTiled, err, shown)
		}
		if status, _, faults = ctwatch(t, arguments...); status != statusUsage || !strings.Contains(faults, "new folder") {
			t.Errorf("tiled %v: the folder is not new: status %d: %s", isTiled, status, faults)
		}
		for _, name := range []string{watch.FileLeaf, watch.FileHead, watch.FileProof} {
			path := filepath.Join(folder, name)
			content, err := os.ReadFile(path)
			must(t, err)
			changed := slices.Clone(content)
			changed[len(changed)/2] ^= 1
			must(t, os.WriteFile(path, changed, 0o600))
			if shown, err := judge.Evidence(folder, log.PublicKey()); !errors.Is(err, judge.ErrEvidence) {
				t.Errorf("tiled %v: %s is changed: %v: %s", isTiled, name, err, shown)
			}
			must(t, os.WriteFile(path, content, 0o600))
		}
	}
}

// TestShowsWhatIsNotProved: show reports an entry that the tree does not contain, and a precertificate that does not
// belong to the leaf.
func TestShowsWhatIsNotProved(t *testing.T) {
	authority := testkit.NewAuthority("Test CA 1")
	one, other := authority.Issue("shop.example.org"), authority.Issue("b.example.org")
	log := serveLog(t, "a.example")
	log.add(authority, one)
	issuer := authority.IssuerKeyHash()
	log.Add(testkit.Entry{Timestamp: 5, Certificate: one.TBS, IssuerKeyHash: issuer[:],
		Precertificate: other.Precertificate.Raw})
	log.Publish(3, 1000)
	forged := testkit.NewLog("a.example")
	forged.Add(testkit.Entry{Timestamp: 1, Certificate: other.Certificate.Raw},
		testkit.Entry{Certificate: []byte{1}}, testkit.Entry{Certificate: []byte{2}})
	forged.Publish(3, 1000)
	log.Intercept(func(w http.ResponseWriter, r *http.Request) bool {
		if r.URL.Query().Get("start") != "0" && !strings.HasPrefix(r.URL.Path, "/tile/data/") {
			return false
		}
		recorded := httptest.NewRecorder()
		forged.ServeHTTP(recorded, r)
		_, err := w.Write(recorded.Body.Bytes())
		return err == nil
	})
	for _, isTiled := range []bool{false, true} {
		status, out, faults := ctwatch(t, "show", log.address, "0", "--log", log.setting(isTiled))
		if status != statusAccused || !strings.Contains(out, "b.example.org") || !strings.Contains(faults, "entry 0") {
			t.Errorf("tiled %v: a forged entry: status %d: %s%s", isTiled, status, out, faults)
		}
	}
	log.Intercept(nil)
	status, out, faults := ctwatch(t, "show", log.address, "2", "--log", log.setting(true))
	if status != 0 || !strings.Contains(out, "The proof does not cover the precertificate below") {
		t.Errorf("another precertificate: status %d: %s%s", status, out, faults)
	}
	log.Intercept(func(w http.ResponseWriter, _ *http.Request) bool {
		w.WriteHeader(http.StatusForbidden)
		_, err := fmt.Fprint(w, "no")
		return err == nil
	})
	if status, _, faults = ctwatch(t, "show", log.address, "0", "--log", log.setting(true)); status != statusUnread {
		t.Errorf("a log that does not answer: status %d: %s", status, faults)
	}
}
