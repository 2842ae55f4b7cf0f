package witness

import (
	"crypto/ed25519"
	"crypto/rand"
	"encoding/base64"
	"encoding/binary"
	"errors"
	"fmt"
	"net/http/httptest"
	"strings"
	"testing"

	"golang.org/x/mod/sumdb/note"
	"golang.org/x/mod/sumdb/tlog"

	"wagtenib/bindings/go/wagtenib"
	"wagtenib/internal/blob"
)

// acceptsAll accepts every request, and returns the right message for it.
func acceptsAll(_ state, r Request, now uint64) ([]byte, error) { return Message(now, r.Text), nil }

// TestWrongDecisions replaces the proved decision by wrong ones, and checks that the witness signs nothing that does
// not follow the last tree, and that the state does not change.
func TestWrongDecisions(t *testing.T) {
	by, key, folder := headKey(t, origin), newKey(t), t.TempDir()
	one, other := leavesOf(t, "a", "b", "c", "d", "e"), leavesOf(t, "a", "b", "x", "y", "z")
	signed := func(of *leaves, n int64) []byte { return by.sign(checkpoint(origin, n, of.root(t, n))) }
	right := witnessOf(t, folder, key, by)
	if w := post(t, right, request(0, nil, signed(one, 3))); w.Code != 200 {
		t.Fatalf("%d %s", w.Code, w.Body)
	}
	before, err := stateIn(t, folder).Read(limited(t))
	must(t, err)
	growth := request(3, one.proof(t, 3, 5), signed(one, 5))
	const timestamp = 1 << 40
	text := checkpoint(origin, 5, one.root(t, 5))
	returns := func(message []byte, err error) decision {
		return func(state, Request, uint64) ([]byte, error) { return message, err }
	}
	for name, test := range map[string]struct {
		decide decision
		body   []byte
		event  string
	}{
		"a fork of as many":          {acceptsAll, request(3, nil, signed(other, 3)), "decision"},
		"a fork of more":             {acceptsAll, request(3, other.proof(t, 3, 5), signed(other, 5)), "decision"},
		"no proof":                   {acceptsAll, request(3, nil, signed(one, 5)), "decision"},
		"another size than the last": {acceptsAll, request(2, one.proof(t, 2, 5), signed(one, 5)), "decision"},
		"an older one":               {acceptsAll, request(3, nil, signed(one, 2)), "decision"},
		"bytes of another time":      {returns(Message(1, text), nil), growth, "decision"},
		"bytes of another text": {returns(Message(timestamp, checkpoint(origin, 5, other.root(t, 5))), nil),
			growth, "decision"},
		"a log's head in its bytes": {returns([]byte(text), nil), growth, "decision"},
		"no bytes":                  {returns(nil, nil), growth, "decision"},
		"an unknown code":           {returns(nil, wagtenib.Code(1000)), growth, "decision"},
		"the code of another call":  {returns(nil, wagtenib.ErrLaterLeaf), growth, "decision"},
		"out of memory":             {returns(nil, wagtenib.ErrMemory), growth, "decision"},
		"a bad state":               {returns(nil, wagtenib.ErrState), growth, "state"},
		"another log's state":       {returns(nil, wagtenib.ErrOtherOrigin), growth, "state"},
		"an earlier time":           {returns(nil, wagtenib.ErrTimeFalls), growth, "clock"},
	} {
		s := witnessOf(t, folder, key, by)
		s.decision = test.decide
		s.now = func() uint64 { return timestamp }
		var events []string
		s.options.Log = func(event string, _ ...any) { events = append(events, event) }
		w := post(t, s, test.body)
		if w.Code != 503 || strings.Contains(w.Body.String(), "—") || strings.Join(events, " ") != test.event {
			t.Errorf("%s: %d %s %q", name, w.Code, w.Body, events)
		}
		if text, err := stateIn(t, folder).Read(limited(t)); err != nil || text != before {
			t.Errorf("%s: the state changed: %s, %v", name, text, err)
		}
	}
	if w := post(t, right, growth); w.Code != 200 {
		t.Errorf("after all that: %d %s", w.Code, w.Body)
	}
}

// TestJSONState checks that a witness reads a lock of earlier builds: it cosigns from the tree and the time in the
// lock, and the next swap writes the new form of the text.
func TestJSONState(t *testing.T) {
	by, one := headKey(t, origin), leavesOf(t, "a", "b", "c", "d", "e")
	of := func(n int64, root tlog.Hash, time uint64) string {
		return fmt.Sprintf(`{"last_root":"%s","last_size":%d,"origin":"%s","salt":"AAECAwQFBgcICQoLDA0ODw==","time":%d}`,
			base64.StdEncoding.EncodeToString(root[:]), n, origin, time)
	}
	for name, test := range map[string]struct {
		text   string
		old    int64
		status int
	}{
		"cosigned":           {of(3, one.root(t, 3), 1000), 3, 200},
		"cosigned at 0":      {of(3, one.root(t, 3), 0), 3, 200},
		"another tree":       {of(3, one.root(t, 2), 1000), 3, 422},
		"later than now":     {of(3, one.root(t, 3), 3000), 3, 503},
		"never cosigned":     {of(0, emptyRoot, 0), 0, 200},
		"without a leaf":     {of(0, emptyRoot, 1000), 0, 200},
		"no root of a tree":  {of(0, tlog.Hash{}, 0), 0, 200},
		"asked from nothing": {of(3, one.root(t, 3), 1000), 0, 409},
	} {
		lock := &memoryLock{}
		must(t, lock.Create(limited(t), test.text))
		s := witnessOver(t, lock, newKey(t), by)
		s.now = func() uint64 { return 2000 }
		var proof [][32]byte
		if test.old > 0 {
			proof = one.proof(t, test.old, 5)
		}
		w := post(t, s, request(test.old, proof, by.sign(checkpoint(origin, 5, one.root(t, 5)))))
		if w.Code != test.status || (lock.text == test.text) != (test.status != 200) {
			t.Errorf("%s: %d %s, and then %q", name, w.Code, w.Body, lock.text)
		}
		if test.status == 200 && !strings.HasSuffix(lock.text, "\n"+
			string(Message(2000, checkpoint(origin, 5, one.root(t, 5))))) {
			t.Errorf("%s: %q", name, lock.text)
		}
	}
}

// TestRefusesWrongStates checks that a state that is missing, malformed or of another log is never taken for the state
// of a new log.
func TestRefusesWrongStates(t *testing.T) {
	by, one := headKey(t, origin), leavesOf(t, "a")
	for name, text := range map[string]string{
		"none":          "",
		"another log's": `{"last_root":"47DEQpj8HBSa+/TImW+5JCeuQeRkm5NMpJWZG3hSuFU=","last_size":0,"origin":"other","salt":"","time":0}`,
		"a short root":  `{"last_root":"47DE","last_size":0,"origin":"` + origin + `","salt":"","time":0}`,
		"an unknown key": `{"last_root":"47DEQpj8HBSa+/TImW+5JCeuQeRkm5NMpJWZG3hSuFU=","last_size":0,"origin":"` +
			origin + `","salt":"","time":0,"x":1}`,
		"no form":        "x",
		"an empty line":  "\n",
		"no message":     stateVersion + "\nAAECAwQFBgcICQoLDA0ODw==\n",
		"half a message": stateVersion + "\nAAECAwQFBgcICQoLDA0ODw==\ncosignature/v1\ntime 7\n" + origin + "\n0\n",
		"a plain head":   stateVersion + "\nAAECAwQFBgcICQoLDA0ODw==\n" + checkpoint(origin, 0, emptyRoot),
		"another origin": stateVersion + "\nAAECAwQFBgcICQoLDA0ODw==\n" +
			string(Message(7, checkpoint("other", 0, emptyRoot))),
		"never, another": stateVersion + "\nAAECAwQFBgcICQoLDA0ODw==\nnone yet\nother\n",
		"two":            `{} {}`,
	} {
		s, err := New(Options{Name: "w.example", Key: newKey(t)})
		must(t, err)
		state := stateIn(t, t.TempDir())
		if text != "" {
			must(t, state.Create(limited(t), text))
		}
		log := Log{Origin: origin, Keys: []note.Verifier{by.key}, State: state}
		if err := s.Check(limited(t), log); !errors.Is(err, ErrState) {
			t.Errorf("%s: %v", name, err)
		}
		s.SetLogs([]Log{log})
		if w := post(t, s, request(0, nil, by.sign(checkpoint(origin, 1, one.root(t, 1))))); w.Code != 503 ||
			w.Body.String() != "state\n" {
			t.Errorf("%s: %d %s", name, w.Code, w.Body)
		}
		if text != "" {
			if err := log.Create(limited(t)); !errors.Is(err, blob.ErrExists) {
				t.Errorf("%s is created again: %v", name, err)
			}
		}
	}
}

// TestClock checks that the times of cosignatures never decrease. If the clock is behind by a little, a cosignature has
// the last time. If it is far behind, nothing is cosigned.
func TestClock(t *testing.T) {
	by, one := headKey(t, origin), leavesOf(t, "a", "b", "c")
	s := witnessOf(t, t.TempDir(), newKey(t), by)
	body := request(0, nil, by.sign(checkpoint(origin, 3, one.root(t, 3))))
	again := request(3, nil, by.sign(checkpoint(origin, 3, one.root(t, 3))))
	for _, test := range []struct {
		now       uint64
		body      []byte
		status    int
		timestamp uint64
	}{{1000, body, 200, 1000}, {1000, again, 200, 1000}, {940, again, 200, 1000}, {939, again, 503, 0},
		{1001, again, 200, 1001}} {
		s.now = func() uint64 { return test.now }
		w := post(t, s, test.body)
		if w.Code != test.status {
			t.Fatalf("at %d: %d %s", test.now, w.Code, w.Body)
		}
		if test.status == 200 {
			blob, err := base64.StdEncoding.DecodeString(strings.Fields(w.Body.String())[2])
			must(t, err)
			if timestamp := binary.BigEndian.Uint64(blob[4:12]); timestamp != test.timestamp {
				t.Errorf("at %d: the timestamp is %d", test.now, timestamp)
			}
		}
	}
}

// TestSeveralLogs checks that each log has its own state, and that a log that was removed from the settings is unknown.
func TestSeveralLogs(t *testing.T) {
	first, second := headKey(t, "a.example"), plainKey(t, "b.example")
	s, err := New(Options{Name: "w.example", Key: newKey(t)})
	must(t, err)
	logs := []Log{
		{Origin: "a.example", Keys: []note.Verifier{first.key}, State: stateIn(t, t.TempDir())},
		{Origin: "b.example", Keys: []note.Verifier{second.key, headKey(t, "b.example").key},
			State: stateIn(t, t.TempDir())},
	}
	for _, log := range logs {
		must(t, log.Create(limited(t)))
	}
	s.SetLogs(logs)
	one := leavesOf(t, "a", "b", "c")
	a, b := first.sign(checkpoint("a.example", 3, one.root(t, 3))),
		second.sign(checkpoint("b.example", 2, one.root(t, 2)))
	for _, test := range []struct {
		body   []byte
		status int
	}{{request(0, nil, a), 200}, {request(0, nil, b), 200}, {request(3, nil, a), 200}, {request(2, nil, b), 200},
		{request(0, nil, b), 409}} {
		if w := post(t, s, test.body); w.Code != test.status {
			t.Errorf("status %d, expected %d: %s", w.Code, test.status, w.Body)
		}
	}
	s.SetLogs(logs[:1])
	if w := post(t, s, request(2, nil, b)); w.Code != 404 {
		t.Errorf("a log that is no longer witnessed: %d %s", w.Code, w.Body)
	}
	w := httptest.NewRecorder()
	s.Operator().ServeHTTP(w, httptest.NewRequest("GET", "/metrics", nil))
	for _, line := range []string{`ctwitness_entries{origin="a.example"} 3`,
		`ctwitness_cosignatures_total{origin="b.example"} 2`, `ctwitness_requests_total{status="409"} 1`,
		`ctwitness_refusals_total{origin="b.example",refused="not-last"} 1`} {
		if !strings.Contains(w.Body.String(), line+"\n") {
			t.Errorf("the metrics lack %s", line)
		}
	}
	if strings.Contains(w.Body.String(), `ctwitness_entries{origin="b.example"}`) {
		t.Error("a log that is no longer witnessed has a metric")
	}
}

// TestKeys checks that keys are read from exactly the texts that are written, and from no others.
func TestKeys(t *testing.T) {
	key := newKey(t)
	text := VerifierKey("w.example", key.Public().(ed25519.PublicKey))
	if name, public, err := ReadVerifierKey(text); err != nil || name != "w.example" || !public.Equal(key.Public()) {
		t.Errorf("%s: %s, %v", text, name, err)
	}
	other := VerifierKey("v.example", key.Public().(ed25519.PublicKey))
	_, plain, err := note.GenerateKey(rand.Reader, "w.example")
	must(t, err)
	for _, wrong := range []string{"", "w.example", "x" + text, text[:len(text)-4],
		strings.Replace(other, "v.", "w.", 1), plain, "+" + strings.SplitN(text, "+", 2)[1]} {
		if _, _, err := ReadVerifierKey(wrong); !errors.Is(err, ErrKey) {
			t.Errorf("%q: %v", wrong, err)
		}
	}
	for _, wrong := range []string{"", "x", text, "-----BEGIN PUBLIC KEY-----\nAAAA\n-----END PUBLIC KEY-----\n"} {
		if _, err := LogKey(origin, wrong); !errors.Is(err, ErrKey) {
			t.Errorf("%q: %v", wrong, err)
		}
		if _, err := ReadKey([]byte(wrong)); !errors.Is(err, ErrKey) {
			t.Errorf("%q: %v", wrong, err)
		}
	}
	for _, name := range []string{"", "a b", "a+b", " a"} {
		if _, err := New(Options{Name: name, Key: key}); !errors.Is(err, ErrKey) {
			t.Errorf("%q: %v", name, err)
		}
	}
}
