package witness

import (
	"context"
	"crypto/ed25519"
	"errors"
	"io"
	"net/http"
	"net/http/httptest"
	"strconv"
	"strings"
	"sync/atomic"
	"testing"
	"time"

	"golang.org/x/mod/sumdb/note"

	"wagtenib/internal/ct"
)

// TestClientAsksOnce checks that each call of a client sends one request: for a size that the witness did not see, for
// the right size, and to a witness that does not answer.
func TestClientAsksOnce(t *testing.T) {
	by, key, log := headKey(t, origin), newKey(t), leavesOf(t, "a", "b", "c")
	over := httptest.NewServer(witnessOf(t, t.TempDir(), key, by))
	defer over.Close()
	c := Client{One{URL: over.URL, Name: "w.example", Key: key.Public().(ed25519.PublicKey)}, over.Client()}
	text := checkpoint(origin, 3, log.root(t, 3))
	signed := by.sign(text)
	if status, answer, err := c.AddCheckpoint(limited(t), request(2, nil, signed)); status != http.StatusConflict ||
		answer != "0\n" || err != nil {
		t.Errorf("from another size: %d %q, %v", status, answer, err)
	}
	status, answer, err := c.AddCheckpoint(limited(t), request(0, nil, signed))
	if err != nil || status != http.StatusOK {
		t.Fatalf("the first: %d %q, %v", status, answer, err)
	}
	if opened, err := note.Open([]byte(text+"\n"+answer), note.VerifierList(c.Verifier())); err != nil ||
		len(opened.Sigs) != 1 {
		t.Errorf("%q is not a cosignature of the client's witness: %v", answer, err)
	}
	ended, cancel := context.WithCancel(limited(t))
	cancel()
	if _, _, err := c.AddCheckpoint(ended, request(3, nil, signed)); !errors.Is(err, context.Canceled) {
		t.Errorf("after the context's end: %v", err)
	}
}

// TestClientFollowsNoRedirect checks that a client follows no redirect of a witness, whatever its status.
func TestClientFollowsNoRedirect(t *testing.T) {
	var asked atomic.Int64
	elsewhere := httptest.NewServer(http.HandlerFunc(func(http.ResponseWriter, *http.Request) { asked.Add(1) }))
	defer elsewhere.Close()
	for _, status := range []int{http.StatusMovedPermanently, http.StatusFound, http.StatusSeeOther,
		http.StatusTemporaryRedirect, http.StatusPermanentRedirect} {
		over := httptest.NewServer(http.HandlerFunc(func(w http.ResponseWriter, r *http.Request) {
			http.Redirect(w, r, elsewhere.URL, status)
		}))
		c := Client{One{URL: over.URL, Name: "w.example"}, over.Client()}
		got, _, err := c.AddCheckpoint(limited(t), []byte("old 0\n"))
		over.Close()
		if got != status || err != nil {
			t.Errorf("a redirect by %d: %d, %v", status, got, err)
		}
	}
	if n := asked.Load(); n != 0 {
		t.Errorf("the other address was asked %d times", n)
	}
}

// TestClientReadsWholeAnswers checks that an incomplete response is an error, and that a client reads only the
// beginning of a long response.
func TestClientReadsWholeAnswers(t *testing.T) {
	var length int
	var text string
	over := httptest.NewServer(http.HandlerFunc(func(w http.ResponseWriter, _ *http.Request) {
		w.Header().Set("Content-Length", strconv.Itoa(length))
		w.WriteHeader(http.StatusConflict)
		_, _ = io.WriteString(w, text)
	}))
	defer over.Close()
	c := Client{One{URL: over.URL, Name: "w.example"}, over.Client()}
	length, text = 100, "5"
	if _, answer, err := c.AddCheckpoint(limited(t), nil); !errors.Is(err, io.ErrUnexpectedEOF) || answer != "" {
		t.Errorf("%q, %v", answer, err)
	}
	text = strings.Repeat("12345678", 4096)
	length = len(text)
	if _, answer, err := c.AddCheckpoint(limited(t), nil); err != nil || answer != text[:16<<10] {
		t.Errorf("%d bytes, %v", len(answer), err)
	}
}

// TestTimestamps checks that TimestampOf reads the witness and the time of a cosignature, and refuses every other line.
func TestTimestamps(t *testing.T) {
	by, key := plainKey(t, origin), newKey(t)
	s, list := witnessOf(t, t.TempDir(), key, by), leavesOf(t, "a", "b", "c")
	signed := by.sign(checkpoint(origin, 3, list.root(t, 3)))
	before := time.Now().Add(-time.Second)
	line := strings.TrimSuffix(post(t, s, request(0, nil, signed)).Body.String(), "\n")
	if name, at, ok := TimestampOf(line); !ok || name != s.options.Name || at.Before(before) || at.After(time.Now()) {
		t.Errorf("%q: %s at %v, %v", line, name, at, ok)
	}
	public := key.Public().(ed25519.PublicKey)
	line = strings.TrimSuffix(ct.SignatureLine(OfCosigner("w.example", public), 1234567890, ed25519.Sign(key, []byte("x"))), "\n")
	if name, at, ok := TimestampOf(line); !ok || name != "w.example" || at.Unix() != 1234567890 {
		t.Errorf("%s at %v, %v", name, at, ok)
	}
	own := strings.Split(strings.TrimSuffix(string(signed), "\n"), "\n")
	for _, line := range []string{
		"", "— ", "— w.example", "— w.example AAAA", line[4:], line + "A", strings.Replace(line, " ", "", 2),
		own[len(own)-1],
	} {
		if name, at, ok := TimestampOf(line); ok {
			t.Errorf("%q: %s at %v", line, name, at)
		}
	}
}
