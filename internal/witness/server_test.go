package witness

import (
	"context"
	"crypto/ecdsa"
	"crypto/ed25519"
	"crypto/elliptic"
	"crypto/rand"
	"encoding/base64"
	"encoding/binary"
	"errors"
	"fmt"
	"net/http"
	"net/http/httptest"
	"os"
	"os/exec"
	"path/filepath"
	"strings"
	"sync"
	"testing"

	"golang.org/x/mod/sumdb/note"
	"golang.org/x/mod/sumdb/tlog"

	"wagtenib/bindings/go/wagtenib"
	"wagtenib/internal/blob"
	"wagtenib/internal/ct"
	"wagtenib/internal/log/signer"
	"wagtenib/internal/testkit"
)

var must = testkit.Must

func limited(t testing.TB) context.Context { return testkit.Limited(t, testkit.Longest) }

const origin = "log.example/1"

// leaves is a list of leaves with its hashes, in the order in which x/mod stores them.
type leaves struct {
	n      int64
	hashes []tlog.Hash
}

func (l *leaves) ReadHashes(indexes []int64) (found []tlog.Hash, err error) {
	for _, i := range indexes {
		found = append(found, l.hashes[i])
	}
	return found, nil
}

// leavesOf returns the leaves with these texts.
func leavesOf(t testing.TB, texts ...string) *leaves {
	l := &leaves{}
	for _, text := range texts {
		hashes, err := tlog.StoredHashes(l.n, []byte(text), l)
		must(t, err)
		l.hashes, l.n = append(l.hashes, hashes...), l.n+1
	}
	return l
}

func (l *leaves) root(t testing.TB, n int64) tlog.Hash {
	if n == 0 {
		return emptyRoot
	}
	root, err := tlog.TreeHash(n, l)
	must(t, err)
	return root
}

func (l *leaves) proof(t testing.TB, from, to int64) (all [][32]byte) {
	proof, err := tlog.ProveTree(to, from, l)
	must(t, err)
	for _, h := range proof {
		all = append(all, h)
	}
	return all
}

// signing is a log's key with a function that signs a checkpoint's text.
type signing struct {
	key note.Verifier
	// text is the verifier key, if there is one.
	text string
	sign func(text string) []byte
}

func checkpoint(origin string, size int64, root tlog.Hash) string {
	return fmt.Sprintf("%s\n%d\n%s\n", origin, size, base64.StdEncoding.EncodeToString(root[:]))
}

// plainKey returns a key that signs notes as x/mod does (type 1).
func plainKey(t testing.TB, origin string) signing {
	private, public, err := note.GenerateKey(rand.Reader, origin)
	must(t, err)
	by, err := note.NewSigner(private)
	must(t, err)
	key, err := LogKey(origin, public+"\n")
	must(t, err)
	return signing{key, public, func(text string) []byte {
		signed, err := note.Sign(&note.Note{Text: text}, by)
		must(t, err)
		return signed
	}}
}

// headKey returns a key that signs tree heads (type 5).
func headKey(t testing.TB, origin string) signing {
	private, err := ecdsa.GenerateKey(elliptic.P256(), rand.Reader)
	must(t, err)
	key, err := signer.FromKey(private)
	must(t, err)
	of := ct.LogVerifier(origin, key.Key())
	return signing{of, "", func(text string) []byte {
		read, err := wagtenib.ReadCheckpoint(text)
		must(t, err)
		const timestamp = 1_700_000_000_000
		signed, err := key.SignHead(context.Background(), ct.TreeHead{TreeSize: read.TreeSize, Timestamp: timestamp,
			Root: read.Root}, nil)
		must(t, err)
		return []byte(text + "\n" + ct.SignatureLine(of, timestamp, signed))
	}}
}

func newKey(t testing.TB) ed25519.PrivateKey {
	_, private, err := ed25519.GenerateKey(rand.Reader)
	must(t, err)
	return private
}

func stateIn(t testing.TB, folder string) blob.Lock {
	r, err := blob.OpenFile(filepath.Join(folder, "state"))
	must(t, err)
	t.Cleanup(func() { r.Close() })
	return r
}

// witnessOf returns a witness of one log, whose state is in a folder.
func witnessOf(t testing.TB, folder string, key ed25519.PrivateKey, by signing) *Server {
	return witnessOver(t, stateIn(t, folder), key, by)
}

// witnessOver returns a witness of one log, whose state is in a lock.
func witnessOver(t testing.TB, state blob.Lock, key ed25519.PrivateKey, by signing) *Server {
	s, err := New(Options{Name: "w.example", Key: key})
	must(t, err)
	log := Log{Origin: origin, Keys: []note.Verifier{by.key}, State: state}
	if err := log.Create(limited(t)); err != nil && !errors.Is(err, blob.ErrExists) {
		t.Fatal(err)
	}
	must(t, s.Check(limited(t), log))
	s.SetLogs([]Log{log})
	return s
}

// post sends a request to a witness, and returns the response.
func post(t testing.TB, s http.Handler, body []byte) *httptest.ResponseRecorder {
	w := httptest.NewRecorder()
	s.ServeHTTP(w, httptest.NewRequest(http.MethodPost, "/add-checkpoint", strings.NewReader(string(body))))
	return w
}

func request(old int64, proof [][32]byte, signed []byte) []byte {
	return Request{Old: uint64(old), Proof: proof, Note: signed}.Body()
}

// cosignatureIn checks that a line is the witness's cosignature of a text.
func cosignatureIn(t testing.TB, s *Server, text, line string) {
	t.Helper()
	opened, err := note.Open([]byte(text+"\n"+line), note.VerifierList(OfCosigner(s.options.Name, s.public)))
	if err != nil || len(opened.Sigs) != 1 || len(opened.UnverifiedSigs) != 0 || opened.Text != text {
		t.Fatalf("%q is no cosignature of %q: %v", line, text, err)
	}
}

// TestAddCheckpoint checks each status that a witness answers, for both types of keys.
func TestAddCheckpoint(t *testing.T) {
	for kind, by := range map[string]signing{"plain": plainKey(t, origin), "head": headKey(t, origin)} {
		by := by
		t.Run(kind, func(t *testing.T) { addsCheckpoints(t, by) })
	}
}

func addsCheckpoints(t *testing.T, by signing) {
	one, other := leavesOf(t, "a", "b", "c", "d", "e", "f", "g"), leavesOf(t, "a", "b", "c", "x", "y", "z", "w")
	head := func(of *leaves, n int64) string { return checkpoint(origin, n, of.root(t, n)) }
	signed := func(of *leaves, n int64) []byte { return by.sign(head(of, n)) }
	s := witnessOf(t, t.TempDir(), newKey(t), by)
	some := one.proof(t, 3, 5)
	many := make([][32]byte, 64)
	damaged := signed(one, 5)
	at := len(damaged) - 6
	if damaged[at] == 'A' {
		damaged[at] = 'B'
	} else {
		damaged[at] = 'A'
	}
	// The requests are sent in this order. Only status 200 changes the state.
	for _, test := range []struct {
		name   string
		body   []byte
		status int
		text   string
	}{
		{"another size than nothing", request(2, nil, signed(one, 3)), 409, "0\n"},
		{"a proof from nothing", request(0, some, signed(one, 3)), 422, "proof-not-empty\n"},
		{"the first", request(0, nil, signed(one, 3)), 200, ""},
		{"the same once more", request(3, nil, signed(one, 3)), 200, ""},
		{"a proof between two that are one", request(3, some, signed(one, 3)), 422, "proof-not-empty\n"},
		{"from nothing, after the first", request(0, nil, signed(one, 5)), 409, "3\n"},
		{"without a proof", request(3, nil, signed(one, 5)), 422, "inconsistent "},
		{"a proof of another list", request(3, other.proof(t, 3, 6), signed(one, 5)), 422, "inconsistent "},
		{"grown", request(3, one.proof(t, 3, 5), signed(one, 5)), 200, ""},
		{"a fork of as many", request(5, nil, signed(other, 5)), 409, "5\n"},
		{"a fork of more", request(5, other.proof(t, 5, 7), signed(other, 7)), 422, "inconsistent "},
		{"an older one", request(3, nil, signed(one, 3)), 409, "5\n"},
		{"an older one, from the newest size", request(5, nil, signed(one, 3)), 400, "old-above\n"},
		{"no empty line", []byte("old 5\n" + string(signed(one, 5))[:30]), 400, "witness: not a request"},
		{"no old size", []byte("new 5\n\n" + string(signed(one, 5))), 400, "witness: not a request"},
		{"a leading zero", []byte("old 05\n\n" + string(signed(one, 5))), 400, "witness: not a request"},
		{"no number", []byte("old 9223372036854775808\n\n" + string(signed(one, 5))), 400, "witness: not a request"},
		{"64 hashes", request(5, many, signed(one, 5)), 400, "witness: not a request"},
		{"a short hash", []byte("old 5\nAAAA\n\n" + string(signed(one, 5))), 400, "witness: not a request"},
		{"no note", []byte("old 5\n\n"), 400, "witness: not a request"},
		{"a note without signatures", []byte("old 5\n\n" + head(one, 5) + "\n"), 400, "witness: not a request"},
		{"another origin", request(5, nil, by.sign(checkpoint("x"+origin, 5, one.root(t, 5)))), 404, "no such log\n"},
		{"a damaged signature", request(5, nil, damaged), 403, "no signature"},
		{"another key's", request(5, nil, plainKey(t, origin).sign(head(one, 5))), 403, "no signature"},
		{"another root below the signature", request(5, nil,
			[]byte(strings.Replace(string(signed(one, 5)), head(one, 5), head(other, 5), 1))), 403, "no signature"},
		{"grown once more", request(5, one.proof(t, 5, 7), signed(one, 7)), 200, ""},
	} {
		w := post(t, s, test.body)
		kind := textPlain
		if test.status == 409 {
			kind = "text/x.tlog.size"
		}
		if w.Code != test.status || !strings.HasPrefix(w.Body.String(), test.text) ||
			w.Header().Get("Content-Type") != kind {
			t.Errorf("%s: %d %s %q", test.name, w.Code, w.Header().Get("Content-Type"), w.Body)
			continue
		}
		if test.status == 200 {
			r, err := ParseRequest(test.body)
			must(t, err)
			cosignatureIn(t, s, r.Text, w.Body.String())
		}
	}
}

// TestExtensionLines checks that extension lines are refused: a signature of type 5 does not cover them (403), and a
// checkpoint with them and a signature of type 1 is not supported (400).
func TestExtensionLines(t *testing.T) {
	one := leavesOf(t, "a", "b")
	text := checkpoint(origin, 2, one.root(t, 2))
	head, plain := headKey(t, origin), plainKey(t, origin)
	for _, test := range []struct {
		status int
		by     signing
		signed []byte
	}{
		{403, head, []byte(strings.Replace(string(head.sign(text)), "\n\n", "\nmore\n\n", 1))},
		{403, head, []byte(strings.Replace(string(head.sign(text)), "\n\n", "\n\nmore\n\n", 1))},
		{400, plain, plain.sign(text + "more\n")},
	} {
		if w := post(t, witnessOf(t, t.TempDir(), newKey(t), test.by),
			request(0, nil, test.signed)); w.Code != test.status {
			t.Errorf("status %d, expected %d: %s", w.Code, test.status, w.Body)
		}
	}
	// A signature of type 5 does not cover the origin, so the key compares it.
	other := strings.Replace(string(head.sign(text)), origin, "other.example", 1)
	if _, err := note.Open([]byte(other), note.VerifierList(head.key)); err == nil {
		t.Error("a head of another log is accepted")
	}
}

// TestCalls checks that requests to other paths, with other methods, and too long or too many requests are refused.
func TestCalls(t *testing.T) {
	s := witnessOf(t, t.TempDir(), newKey(t), plainKey(t, origin))
	for _, test := range []struct {
		method, path, body string
		status             int
	}{
		{"GET", "/add-checkpoint", "", 405},
		{"POST", "/", "", 404},
		{"POST", "/add-checkpoint", "old 0\n\n" + strings.Repeat("x", MaxBody), 413},
		{"POST", "/add-checkpoint", "", 400},
	} {
		w := httptest.NewRecorder()
		s.ServeHTTP(w, httptest.NewRequest(test.method, test.path, strings.NewReader(test.body)))
		if w.Code != test.status {
			t.Errorf("%s %s: status %d, expected %d", test.method, test.path, w.Code, test.status)
		}
	}
	for i := 0; i < maxConcurrent; i++ {
		s.slots <- struct{}{}
	}
	if w := post(t, s, nil); w.Code != 503 || w.Header().Get("Retry-After") == "" {
		t.Errorf("too many at once: %d", w.Code)
	}
}

// TestOpenssl checks a cosignature by openssl, over a message and a key ID that this test builds itself.
func TestOpenssl(t *testing.T) {
	command, err := exec.LookPath("openssl")
	if err != nil {
		t.Skip("openssl is missing")
	}
	folder, by, one := t.TempDir(), headKey(t, origin), leavesOf(t, "a", "b", "c")
	pem := filepath.Join(folder, "key.pem")
	run := func(arguments ...string) []byte {
		t.Helper()
		out, err := exec.Command(command, arguments...).Output()
		must(t, err)
		return out
	}
	run("genpkey", "-algorithm", "ed25519", "-out", pem)
	text, err := os.ReadFile(pem)
	must(t, err)
	key, err := ReadKey(text)
	must(t, err)
	s := witnessOf(t, folder, key, by)
	s.now = func() uint64 { return 1234567890 }
	head := checkpoint(origin, 3, one.root(t, 3))
	w := post(t, s, request(0, nil, by.sign(head)))
	fields := strings.Fields(w.Body.String())
	if w.Code != 200 || len(fields) != 3 || fields[0] != "—" || fields[1] != "w.example" {
		t.Fatalf("%d %q", w.Code, w.Body)
	}
	blob, err := base64.StdEncoding.DecodeString(fields[2])
	must(t, err)
	// C2SP signed-note defines the four bytes of the key ID: SHA-256(NAME || 0x0A || 4 || key).
	public := run("pkey", "-in", pem, "-pubout", "-outform", "DER")
	raw := public[len(public)-32:]
	named := filepath.Join(folder, "named")
	must(t, os.WriteFile(named, append([]byte("w.example\n\x04"), raw...), 0o600))
	if sum := run("dgst", "-sha256", "-binary", named); string(blob[:4]) != string(sum[:4]) ||
		binary.BigEndian.Uint64(blob[4:12]) != 1234567890 || len(blob) != 76 {
		t.Errorf("a blob %x", blob)
	}
	must(t, os.WriteFile(filepath.Join(folder, "signed"), []byte("cosignature/v1\ntime 1234567890\n"+head), 0o600))
	must(t, os.WriteFile(filepath.Join(folder, "signature"), blob[12:], 0o600))
	out := run("pkeyutl", "-verify", "-inkey", pem, "-rawin", "-in", filepath.Join(folder, "signed"), "-sigfile",
		filepath.Join(folder, "signature"))
	if !strings.Contains(string(out), "Verified Successfully") {
		t.Errorf("%s", out)
	}
}

// swappedState is a lock that calls functions before each swap, and after each swap that succeeded.
type swappedState struct {
	blob.Lock
	before, after func()
}

func (s swappedState) Swap(ctx context.Context, old, new string) error {
	s.before()
	err := s.Lock.Swap(ctx, old, new)
	if err == nil {
		s.after()
	}
	return err
}

// TestStaleReader checks that a request that was decided over an outdated state signs nothing, even if the state has
// the same tree.
func TestStaleReader(t *testing.T) {
	by, key, folder := headKey(t, origin), newKey(t), t.TempDir()
	one := leavesOf(t, "a", "b", "c", "d", "e")
	signed := func(n int64) []byte { return by.sign(checkpoint(origin, n, one.root(t, n))) }
	fast, once := witnessOf(t, folder, key, by), sync.Once{}
	// Between the decision and the swap of the slow witness, the fast one cosigns a later head.
	state := swappedState{stateIn(t, folder), func() {
		once.Do(func() {
			if w := post(t, fast, request(3, one.proof(t, 3, 5), signed(5))); w.Code != 200 {
				t.Errorf("%d %s", w.Code, w.Body)
			}
		})
	}, func() {}}
	slow := witnessOver(t, state, key, by)
	if w := post(t, fast, request(0, nil, signed(3))); w.Code != 200 {
		t.Fatalf("%d %s", w.Code, w.Body)
	}
	if w := post(t, slow, request(3, nil, signed(3))); w.Code != 409 || w.Body.String() != "5\n" {
		t.Errorf("an older head is cosigned late: %d %s", w.Code, w.Body)
	}
}

// TestRefusesRolledBackState rolls a log's state back while a witness runs, as a restored backup does. The witness must
// cosign neither a fork nor anything else until the newer state is back, and it must log the reason.
func TestRefusesRolledBackState(t *testing.T) {
	by, ctx, state := headKey(t, origin), limited(t), stateIn(t, t.TempDir())
	one, fork := leavesOf(t, "a", "b", "c", "d", "e"), leavesOf(t, "a", "b", "c", "another", "e")
	signed := func(of *leaves, n int64) []byte { return by.sign(checkpoint(origin, n, of.root(t, n))) }
	s := witnessOver(t, state, newKey(t), by)
	var logged []string
	s.options.Log = func(event string, arguments ...any) {
		logged = append(logged, fmt.Sprint(append([]any{event}, arguments...)...))
	}
	cosigns := func(old, n int64, of *leaves) int {
		t.Helper()
		w := post(t, s, request(old, of.proof(t, old, n), signed(of, n)))
		if w.Code == 503 && w.Body.String() != "state\n" {
			t.Errorf("%s", w.Body)
		}
		return w.Code
	}
	if w := post(t, s, request(0, nil, signed(one, 3))); w.Code != 200 {
		t.Fatalf("%d %s", w.Code, w.Body)
	}
	older, err := state.Read(ctx)
	must(t, err)
	if status := cosigns(3, 4, one); status != 200 {
		t.Fatalf("%d", status)
	}
	newer, err := state.Read(ctx)
	must(t, err)
	must(t, state.Swap(ctx, newer, older))
	for _, of := range []*leaves{fork, one} {
		if status := cosigns(3, 4, of); status != 503 {
			t.Errorf("over a state that was rolled back: %d", status)
		}
	}
	if len(logged) != 2 || !strings.Contains(logged[0], "it was rolled back") {
		t.Errorf("it logs %q", logged)
	}
	// Another tree of the newest size and the state of a log that was never cosigned are also refused.
	never, err := emptyState(origin).text()
	must(t, err)
	must(t, state.Swap(ctx, older, never))
	if w := post(t, s, request(0, nil, signed(fork, 3))); w.Code != 503 {
		t.Errorf("over the state of a log that was never cosigned: %d", w.Code)
	}
	last, err := readMessage(Message(s.now(), checkpoint(origin, 4, fork.root(t, 4))), origin)
	must(t, err)
	forked, err := last.text()
	must(t, err)
	must(t, state.Swap(ctx, never, forked))
	if status := cosigns(4, 5, fork); status != 503 {
		t.Errorf("over another tree of this size: %d", status)
	}
	must(t, state.Swap(ctx, forked, newer))
	if status := cosigns(4, 5, one); status != 200 {
		t.Errorf("after the newer state is back: %d", status)
	}
}
