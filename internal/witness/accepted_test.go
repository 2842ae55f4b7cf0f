package witness

import (
	"bytes"
	"crypto/sha256"
	"errors"
	"net/http/httptest"
	"os"
	"path/filepath"
	"strings"
	"testing"

	"golang.org/x/mod/sumdb/note"
)

// TestAccepted checks that a witness beside a monitor cosigns the head that the monitor accepted last, and no other
// one: no head that the monitor has not read yet, no older head, and no fork of it, which the witness logs. It refuses
// everything else by the same names as without a monitor.
func TestAccepted(t *testing.T) {
	by, folder := headKey(t, origin), t.TempDir()
	one, other := leavesOf(t, "a", "b", "c", "d", "e"), leavesOf(t, "a", "b", "c", "x", "y")
	state := filepath.Join(folder, "monitor")
	var events []string
	s, err := New(Options{Name: "w.example", Key: newKey(t),
		Log: func(event string, _ ...any) { events = append(events, event) }})
	must(t, err)
	log := Log{Origin: origin, Keys: []note.Verifier{by.key}, State: stateIn(t, folder),
		Accepted: func() (uint64, [32]byte, error) { return AcceptedBy(state, origin, []note.Verifier{by.key}) }}
	must(t, log.Create(limited(t)))
	s.SetLogs([]Log{log})
	accept := func(size int64, of *leaves) {
		must(t, os.WriteFile(state, by.sign(checkpoint(origin, size, of.root(t, size))), 0o600))
	}
	signed := func(of *leaves, n int64) []byte { return by.sign(checkpoint(origin, n, of.root(t, n))) }
	asks := func(what string, body []byte, status int, text, event string) {
		t.Helper()
		before, err := log.State.Read(limited(t))
		must(t, err)
		events = nil
		w := post(t, s, body)
		if w.Code != status || !strings.HasPrefix(w.Body.String(), text) || strings.Join(events, " ") != event {
			t.Errorf("%s: %d %q, and the log has %q", what, w.Code, w.Body, events)
		}
		after, err := log.State.Read(limited(t))
		must(t, err)
		if (before != after) != (status == 200) {
			t.Errorf("%s: the state changed, or should have: %s", what, after)
		}
	}
	asks("there is no file of a monitor", request(0, nil, signed(one, 3)), 503, "monitor\n", "monitor")
	must(t, os.WriteFile(state, nil, 0o600))
	asks("the file is empty", request(0, nil, signed(one, 3)), 503, "monitor\n", "monitor")
	accept(2, one)
	asks("a head that the monitor has not read", request(0, nil, signed(one, 3)), 503, "unread\n", "")
	accept(3, one)
	asks("the head that it accepted", request(0, nil, signed(one, 3)), 200, "— w.example ", "")
	asks("the same once more", request(3, nil, signed(one, 3)), 200, "— w.example ", "")
	asks("the next one, unread", request(3, one.proof(t, 3, 5), signed(one, 5)), 503, "unread\n", "")
	accept(5, one)
	asks("an older head than the accepted", request(3, one.proof(t, 3, 4), signed(one, 4)), 503, "unread\n", "")
	asks("the one before, once more", request(3, nil, signed(one, 3)), 503, "unread\n", "")
	asks("a fork of the accepted", request(3, other.proof(t, 3, 5), signed(other, 5)), 503, "unread\n", "fork")
	asks("from another size", request(2, one.proof(t, 2, 5), signed(one, 5)), 409, "3\n", "")
	asks("without a proof", request(3, nil, signed(one, 5)), 422, "inconsistent ", "")
	must(t, os.WriteFile(state, by.sign(checkpoint(origin, 4, one.root(t, 5))), 0o600))
	asks("another size with the accepted root", request(3, one.proof(t, 3, 5), signed(one, 5)), 503, "unread\n", "")
	accept(5, one)
	asks("the accepted, with its proof", request(3, one.proof(t, 3, 5), signed(one, 5)), 200, "— w.example ", "")
	w := httptest.NewRecorder()
	s.Operator().ServeHTTP(w, httptest.NewRequest("GET", "/metrics", nil))
	if line := `ctwitness_refusals_total{origin="` + origin + `",refused="unread"} 6` +
		"\n"; !strings.Contains(w.Body.String(), line) {
		t.Errorf("no %s", line)
	}
}

// TestAcceptedBy checks that AcceptedBy takes a checkpoint that the log signed, and nothing else.
func TestAcceptedBy(t *testing.T) {
	by, other := plainKey(t, origin), plainKey(t, "other.example/log")
	path, root := filepath.Join(t.TempDir(), "accepted"), sha256.Sum256([]byte("a root"))
	keys := []note.Verifier{by.key}
	right := by.sign(checkpoint(origin, 12, root))
	must(t, os.WriteFile(path, right, 0o600))
	if size, read, err := AcceptedBy(path, origin, keys); err != nil || size != 12 || read != root {
		t.Errorf("%d %x: %v", size, read, err)
	}
	for what, wrong := range map[string][]byte{
		"nothing":                             nil,
		"a page":                              []byte("<html>\n"),
		"half of it":                          right[:len(right)/2],
		"another size":                        bytes.Replace(right, []byte("\n12\n"), []byte("\n13\n"), 1),
		"bytes after it":                      append(bytes.Clone(right), 'x'),
		"another log's":                       other.sign(checkpoint("other.example/log", 12, root)),
		"this log's key, over another origin": by.sign(checkpoint("other.example/log", 12, root)),
		"no checkpoint":                       by.sign("some text\n"),
		"too long":                            append(bytes.Clone(right), make([]byte, maxAccepted)...),
	} {
		must(t, os.WriteFile(path, wrong, 0o600))
		if size, _, err := AcceptedBy(path, origin, keys); !errors.Is(err, ErrAccepted) || size != 0 {
			t.Errorf("%s: %d, %v", what, size, err)
		}
	}
	must(t, os.WriteFile(path, right, 0o600))
	if _, _, err := AcceptedBy(path, origin, []note.Verifier{by.key, other.key}); !errors.Is(err, ErrAccepted) {
		t.Errorf("one signature of two: %v", err)
	}
	must(t, os.Remove(path))
	if _, _, err := AcceptedBy(path, origin, keys); !errors.Is(err, ErrAccepted) {
		t.Errorf("no file: %v", err)
	}
	must(t, os.Mkdir(path, 0o700))
	if _, _, err := AcceptedBy(path, origin, keys); !errors.Is(err, ErrAccepted) {
		t.Errorf("a folder: %v", err)
	}
}
