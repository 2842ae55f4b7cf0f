package witness

import (
	"crypto/ecdsa"
	"crypto/ed25519"
	"crypto/elliptic"
	"crypto/rand"
	"crypto/rsa"
	"crypto/x509"
	"encoding/base64"
	"encoding/binary"
	"encoding/pem"
	"errors"
	"fmt"
	"io"
	"net/http/httptest"
	"strings"
	"testing"
	"testing/iotest"
	"time"

	"golang.org/x/mod/sumdb/note"

	"wagtenib/bindings/go/wagtenib"
	"wagtenib/internal/blob"
	"wagtenib/internal/ct"
)

var errTried = errors.New("tried")

// TestFaultyLock checks that if a call of the lock fails, nothing is signed unless its state is stored. After a lost
// swap the request is decided again. A swap of unknown outcome is repeated.
func TestFaultyLock(t *testing.T) {
	by, one := headKey(t, origin), leavesOf(t, "a", "b", "c")
	body := request(0, nil, by.sign(checkpoint(origin, 3, one.root(t, 3))))
	for name, test := range map[string]struct {
		call        string
		err         error
		times       int
		status      int
		text, event string
		calls, lost int
	}{
		"it cannot be read":                 {"read", errTried, 1, 503, "state\n", "state", 1, 0},
		"it cannot be swapped":              {"swap", errTried, 1, 503, "state\n", "state", 1, 0},
		"another one is there once":         {"swap", blob.ErrLost, 1, 200, "— w.example ", "", 2, 1},
		"another one is there four times":   {"swap", blob.ErrLost, 4, 200, "— w.example ", "", 5, 4},
		"another one is there each time":    {"swap", blob.ErrLost, 99, 503, "busy\n", "", 5, 5},
		"the outcome is unknown once":       {"swap", blob.ErrUnknown, 1, 200, "— w.example ", "", 2, 0},
		"the outcome is unknown four times": {"swap", blob.ErrUnknown, 4, 200, "— w.example ", "", 5, 0},
		"the outcome is never known":        {"swap", blob.ErrUnknown, 99, 503, "state\n", "state", 5, 0},
		"it is gone before the swap":        {"swap", blob.ErrAbsent, 1, 503, "state\n", "state", 1, 0},
	} {
		state, calls, events := &memoryLock{}, 0, []string{}
		s := witnessOver(t, state, newKey(t), by)
		s.options.Log = func(event string, _ ...any) { events = append(events, event) }
		before := state.text
		test := test
		state.hook = func(call string) error {
			if call != test.call {
				return nil
			}
			if calls++; calls <= test.times {
				return fmt.Errorf("%w, again", test.err)
			}
			return nil
		}
		w := post(t, s, body)
		if w.Code != test.status || !strings.HasPrefix(w.Body.String(), test.text) ||
			strings.Join(events, " ") != test.event || calls != test.calls {
			t.Errorf("%s: %d %q after %d calls, and the log has %q", name, w.Code, w.Body, calls, events)
		}
		if (state.text == before) != (test.status != 200) {
			t.Errorf("%s: the state changed, or should have: %s", name, state.text)
		}
		if line := fmt.Sprintf("ctwitness_lost_swaps_total %d\n", test.lost); !strings.Contains(metricsOf(s), line) {
			t.Errorf("%s: no %s", name, line)
		}
	}
	// These are the errors that a start may find.
	s := witnessOver(t, &memoryLock{}, newKey(t), by)
	for _, test := range []struct{ err, kind error }{{blob.ErrAbsent, ErrState}, {errTried, errTried}} {
		of := Log{Origin: origin, Keys: []note.Verifier{by.key},
			State: &memoryLock{hook: func(string) error { return test.err }}}
		if err := s.Check(limited(t), of); !errors.Is(err, test.kind) || errors.Is(test.kind, errTried) &&
			errors.Is(err, ErrState) {
			t.Errorf("%v: %v", test.err, err)
		}
		if err := of.Create(limited(t)); !errors.Is(err, test.err) {
			t.Errorf("%v: created: %v", test.err, err)
		}
	}
}

// metricsOf returns the metrics that Prometheus reads.
func metricsOf(s *Server) string {
	w := httptest.NewRecorder()
	s.Operator().ServeHTTP(w, httptest.NewRequest("GET", "/metrics", nil))
	return w.Body.String()
}

// TestStoredState checks that the stored state has the tree, the origin and the timestamp, that no two swaps have the
// same text, even for one tree in one second, and that the metrics count them.
func TestStoredState(t *testing.T) {
	by, one, state := headKey(t, origin), leavesOf(t, "a", "b", "c"), &memoryLock{}
	s := witnessOver(t, state, newKey(t), by)
	s.now = func() uint64 { return 1234567 }
	signed := by.sign(checkpoint(origin, 3, one.root(t, 3)))
	texts := map[string]bool{state.text: true}
	for _, old := range []int64{0, 3, 3} {
		if w := post(t, s, request(old, nil, signed)); w.Code != 200 {
			t.Fatalf("%d %s", w.Code, w.Body)
		}
		if texts[state.text] {
			t.Error("two swaps have one text")
		}
		texts[state.text] = true
		stored, err := readState(state.text, origin)
		if err != nil || stored.tree != (wagtenib.WitnessedTree{TreeSize: 3, Time: 1234567, Root: one.root(t, 3)}) ||
			string(stored.message) != string(Message(1234567, checkpoint(origin, 3, one.root(t, 3)))) {
			t.Errorf("%s: %v", state.text, err)
		}
	}
	for _, line := range []string{`ctwitness_entries{origin="` + origin + `"} 3`,
		`ctwitness_last_cosignature_seconds{origin="` + origin + `"} 1.234567e+06`,
		`ctwitness_cosignatures_total{origin="` + origin + `"} 3`, `ctwitness_requests_total{status="200"} 3`} {
		if !strings.Contains(metricsOf(s), line+"\n") {
			t.Errorf("no %s", line)
		}
	}
	// Another process has the metrics from its start on, and deletes them with the log.
	other := witnessOver(t, state, newKey(t), by)
	for _, line := range []string{`ctwitness_entries{origin="` + origin + `"} 3`,
		`ctwitness_last_cosignature_seconds{origin="` + origin + `"} 1.234567e+06`} {
		if !strings.Contains(metricsOf(other), line+"\n") {
			t.Errorf("at a start no %s", line)
		}
	}
	other.SetLogs(nil)
	if text := metricsOf(other); strings.Contains(text, "ctwitness_entries{") ||
		strings.Contains(text, "ctwitness_last_cosignature_seconds{") {
		t.Error("a log that is no longer witnessed has metrics")
	}
}

// TestAnswers checks that no answer may be cached or taken for a page, that each request frees its slot, and that an
// incomplete body is refused.
func TestAnswers(t *testing.T) {
	s := witnessOver(t, &memoryLock{}, newKey(t), plainKey(t, origin))
	for _, body := range []io.Reader{strings.NewReader("x"), iotest.ErrReader(errTried)} {
		w := httptest.NewRecorder()
		s.ServeHTTP(w, httptest.NewRequest("POST", "/add-checkpoint", body))
		if w.Code != 400 || w.Header().Get("Cache-Control") != "no-store" ||
			w.Header().Get("X-Content-Type-Options") != "nosniff" || w.Header().Get("Retry-After") != "" {
			t.Errorf("%d %q %s", w.Code, w.Header(), w.Body)
		}
		if len(s.slots) != 0 {
			t.Error("a request is over, and its slot is not free")
		}
	}
	w := httptest.NewRecorder()
	s.ServeHTTP(w, httptest.NewRequest("POST", "/add-checkpoint", iotest.ErrReader(errTried)))
	if w.Body.String() != "the body is incomplete\n" {
		t.Errorf("%s", w.Body)
	}
	w = httptest.NewRecorder()
	s.ServeHTTP(w, httptest.NewRequest("PUT", "/add-checkpoint", nil))
	if w.Code != 405 || w.Header().Get("Allow") != "POST" {
		t.Errorf("%d %q", w.Code, w.Header())
	}
	w = httptest.NewRecorder()
	s.Operator().ServeHTTP(w, httptest.NewRequest("GET", "/healthz", nil))
	if w.Code != 200 || w.Body.String() != "ok\n" {
		t.Errorf("/healthz: %d %s", w.Code, w.Body)
	}
	if at := s.now(); at < uint64(time.Now().Add(-time.Hour).Unix()) || at > uint64(time.Now().Add(time.Hour).Unix()) {
		t.Errorf("its clock says %d", at)
	}
	// The maximum numbers of bytes and hashes are accepted.
	if _, err := ParseRequest([]byte("old 0\n\n" + strings.Repeat("x", MaxBody-7))); !errors.Is(err, ErrRequest) ||
		strings.Contains(err.Error(), "more than") {
		t.Errorf("the longest body: %v", err)
	}
	if _, err := ParseRequest([]byte("old 0\n\n" + strings.Repeat("x", MaxBody-6))); !errors.Is(err, ErrRequest) ||
		!strings.Contains(err.Error(), "more than") {
		t.Errorf("a byte more: %v", err)
	}
	signed := plainKey(t, origin).sign(checkpoint(origin, 9, [32]byte{}))
	if r, err := ParseRequest(request(3, make([][32]byte, MaxProof), signed)); err != nil || len(r.Proof) != MaxProof ||
		r.Old != 3 || r.Origin() != origin {
		t.Errorf("the longest proof: %v", err)
	}
	if _, err := ParseRequest(request(3, make([][32]byte, MaxProof+1), signed)); !errors.Is(err, ErrRequest) {
		t.Errorf("a hash more: %v", err)
	}
}

// TestTexts checks that numbers, hashes and checkpoints are accepted in only one form.
func TestTexts(t *testing.T) {
	for _, wrong := range []string{"", "+5", "-1", " 5", "5 ", "05", "00", "5\n", "0x5", "1e3", "9223372036854775808",
		"18446744073709551616"} {
		if n, err := parseNumber(wrong); !errors.Is(err, ErrRequest) {
			t.Errorf("%q is %d", wrong, n)
		}
	}
	for text, n := range map[string]uint64{"0": 0, "5": 5, "9223372036854775807": 1<<63 - 1} {
		if read, err := parseNumber(text); err != nil || read != n {
			t.Errorf("%q: %d, %v", text, read, err)
		}
	}
	right := base64.StdEncoding.EncodeToString(make([]byte, 32))
	if h, err := parseHash(right); err != nil || h != [32]byte{} {
		t.Error(err)
	}
	for _, wrong := range []string{"", right[:43], right[:42] + "B=", right + "\n", strings.TrimRight(right, "="),
		base64.StdEncoding.EncodeToString(make([]byte, 31)),
		base64.StdEncoding.EncodeToString(make([]byte, 33)), "-" + right[1:]} {
		if _, err := parseHash(wrong); !errors.Is(err, ErrRequest) {
			t.Errorf("%q is a hash", wrong)
		}
	}
}

// TestOtherKeys checks that keys of another kind or with another name are refused, and that zero bytes of any length
// are not a signature.
func TestOtherKeys(t *testing.T) {
	inPEM := func(kind string, der []byte, err error) string {
		must(t, err)
		return string(pem.EncodeToMemory(&pem.Block{Type: kind, Bytes: der}))
	}
	wide, err := ecdsa.GenerateKey(elliptic.P384(), rand.Reader)
	must(t, err)
	old, err := rsa.GenerateKey(rand.Reader, 2048)
	must(t, err)
	key := newKey(t)
	publicOf := func(key any) ([]byte, error) { return x509.MarshalPKIXPublicKey(key) }
	for _, public := range []any{&wide.PublicKey, &old.PublicKey} {
		der, err := publicOf(public)
		if _, err := LogKey(origin, inPEM("PUBLIC KEY", der, err)); !errors.Is(err, ErrKey) {
			t.Errorf("%T is a log's key: %v", public, err)
		}
	}
	der, err := publicOf(key.Public())
	if read, err := LogKey(origin, inPEM("PUBLIC KEY", der, err)); err != nil || read.Name() != origin {
		t.Errorf("a key of Ed25519 in PEM: %v", err)
	}
	secret, err := x509.MarshalPKCS8PrivateKey(key)
	if read, err := ReadKey([]byte(inPEM("PRIVATE KEY", secret, err))); err != nil || !read.Equal(key) {
		t.Errorf("its own key: %v", err)
	}
	if _, err := ReadKey([]byte(inPEM("ED25519 KEY", secret, nil))); !errors.Is(err, ErrKey) {
		t.Errorf("a private key under another name: %v", err)
	}
	der, err = x509.MarshalPKCS8PrivateKey(wide)
	if _, err := ReadKey([]byte(inPEM("PRIVATE KEY", der, err))); !errors.Is(err, ErrKey) {
		t.Errorf("a private key of P-384: %v", err)
	}
	public := key.Public().(ed25519.PublicKey)
	id := OfCosigner("w.example", public).KeyHash()
	written := func(name string, kind byte) string {
		return fmt.Sprintf("%s+%08x+%s", name, id, base64.StdEncoding.EncodeToString(append([]byte{kind}, public...)))
	}
	if name, read, err := ReadVerifierKey(written("w.example", algCosignature)); err != nil || name != "w.example" ||
		!read.Equal(public) {
		t.Error(err)
	}
	for what, wrong := range map[string]string{"of type 1": written("w.example", 1),
		"of another name": written("v.example", algCosignature), "with a space": VerifierKey("w example", public)} {
		if _, _, err := ReadVerifierKey(wrong); !errors.Is(err, ErrKey) {
			t.Errorf("a verifier key %s: %v", what, err)
		}
	}
	text := []byte(checkpoint(origin, 3, [32]byte{}))
	der, err = publicOf(&wide.PublicKey)
	must(t, err)
	for length := 0; length < 80; length++ {
		for _, of := range []note.Verifier{OfCosigner("w.example", public), ct.LogVerifier(origin, der),
			headKey(t, origin).key} {
			if of.Verify(text, make([]byte, length)) {
				t.Errorf("%d bytes of 0 are a signature", length)
			}
		}
	}
	// A cosignature is over its timestamp and the whole text.
	signed := ed25519.Sign(key, Message(7, string(text)))
	blob := append(binary.BigEndian.AppendUint64(nil, 7), signed...)
	of := OfCosigner("w.example", public)
	if !of.Verify(text, blob) || of.Verify(text, append(binary.BigEndian.AppendUint64(nil, 8), signed...)) ||
		of.Verify(text[:len(text)-1], blob) || of.Verify(text, append(blob, 0)) {
		t.Error("a cosignature is accepted for another time or text")
	}
}

// TestCheckConsistent checks that the second check of a request, by x/mod's tlog, refuses what does not lead from the
// last tree to the checkpoint's tree.
func TestCheckConsistent(t *testing.T) {
	one := leavesOf(t, "a", "b", "c", "d", "e")
	of := func(n int64) wagtenib.WitnessedTree {
		return wagtenib.WitnessedTree{TreeSize: uint64(n), Root: one.root(t, n)}
	}
	for old, right := range map[uint64]bool{3: true, 2: false, 4: false} {
		err := checkConsistent(of(3), Request{Old: old, Proof: one.proof(t, 3, 5)}, wagtenib.Checkpoint{TreeSize: 5, Root: one.root(t, 5)})
		if (err == nil) != right {
			t.Errorf("from %d: %v", old, err)
		}
	}
	if err := checkConsistent(of(3), Request{Old: 3}, wagtenib.Checkpoint{TreeSize: 4, Root: one.root(t, 4)}); err == nil {
		t.Error("one more entry needs no proof")
	}
	if err := checkConsistent(of(5), Request{Old: 5}, wagtenib.Checkpoint{TreeSize: 4, Root: one.root(t, 4)}); err == nil {
		t.Error("a smaller tree follows")
	}
}
