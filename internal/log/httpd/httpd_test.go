package httpd

import (
	"bytes"
	"context"
	"crypto/ecdsa"
	"crypto/sha256"
	"encoding/base64"
	"encoding/hex"
	"encoding/json"
	"encoding/pem"
	"net/http"
	"net/http/httptest"
	"net/netip"
	"strings"
	"sync"
	"testing"
	"time"

	"wagtenib/internal/blob"
	"wagtenib/internal/command/eventlog"
	"wagtenib/internal/ct"
	"wagtenib/internal/log/chain"
	"wagtenib/internal/testkit"
	"wagtenib/internal/testkit/memorylog"
	"wagtenib/internal/tiles"
)

// fixture is a front of a log in memory.
type fixture struct {
	t         testing.TB
	log       *memorylog.Log
	authority *testkit.Authority
	checker   *chain.Checker
	front     *Front
	lines     *text
}

// text holds what was written. Several goroutines may write at once.
type text struct {
	mutex  sync.Mutex
	buffer bytes.Buffer
}

func (b *text) Write(some []byte) (int, error) {
	b.mutex.Lock()
	defer b.mutex.Unlock()
	return b.buffer.Write(some)
}

func (b *text) String() string {
	b.mutex.Lock()
	defer b.mutex.Unlock()
	return b.buffer.String()
}

var ends = time.Date(2027, 1, 1, 0, 0, 0, 0, time.UTC)

func newFixture(t testing.TB, every time.Duration, change func(*Options)) *fixture {
	t.Helper()
	authority := testkit.NewAuthority("A root")
	roots, err := chain.ParseRoots(authority.PEM())
	if err != nil {
		t.Fatal(err)
	}
	of := memorylog.New(every)
	t.Cleanup(func() { of.End(context.Background()) })
	window := chain.Window{From: ends.AddDate(-1, 0, 0), To: ends.AddDate(1, 0, 0)}
	f := &fixture{t: t, log: of, authority: authority, lines: &text{}}
	options := Options{Limits: DefaultLimits(), Lines: eventlog.NewLines(f.lines), Stores: &blob.Calls{}}
	// A busy machine may take so long.
	options.Limits.Reading = testkit.Longest
	if change != nil {
		change(&options)
	}
	f.checker = chain.NewChecker(roots, chain.Rules{Window: window}, chain.NewCutter())
	f.front = New(of, tiles.NewProver(of.Object, 4), f.checker, options)
	return f
}

// unlessLate repeats a request until the response does not say that it is late. /readyz has a limit of two seconds.
func unlessLate(ask func() *httptest.ResponseRecorder) (w *httptest.ResponseRecorder) {
	for until := time.Now().Add(testkit.Patience); ; {
		if w = ask(); w.Code != 503 || !strings.Contains(w.Body.String(), `"late"`) || time.Now().After(until) {
			return w
		}
	}
}

// ready returns the answer of /readyz.
func (f *fixture) ready() *httptest.ResponseRecorder {
	return unlessLate(func() *httptest.ResponseRecorder { return f.get("/readyz") })
}

// eventually waits until something holds.
var eventually = testkit.Eventually

func (f *fixture) do(method, target string, body []byte) *httptest.ResponseRecorder {
	r := httptest.NewRequest(method, target, bytes.NewReader(body))
	w := httptest.NewRecorder()
	f.front.ServeHTTP(w, r)
	return w
}

func (f *fixture) get(target string) *httptest.ResponseRecorder { return f.do("GET", target, nil) }

func (f *fixture) issue(poison bool) []byte {
	f.t.Helper()
	if poison {
		return f.authority.Sign(f.authority.Template(ends), testkit.Poison)
	}
	return f.authority.Sign(f.authority.Template(ends))
}

// fill adds entries to the log, without the front.
func (f *fixture) fill(count int) (certificates [][]byte) {
	f.t.Helper()
	one := f.issue(false)
	var entries []ct.Entry
	for i := 0; i < count; i++ {
		entry := ct.Entry{Certificate: append([]byte{byte(i >> 8), byte(i)}, one...),
			Issuers: [][]byte{f.authority.Root.Raw}}
		certificates, entries = append(certificates, entry.Certificate), append(entries, entry)
	}
	f.log.Add(entries)
	return certificates
}

// refused fails the test unless an answer is a refusal with this status and name, which no cache keeps.
func refused(t testing.TB, what string, w *httptest.ResponseRecorder, status int, name string) {
	t.Helper()
	var reply struct {
		Message string `json:"error_message"`
		Detail  string `json:"detail"`
	}
	if err := json.Unmarshal(w.Body.Bytes(), &reply); err != nil {
		t.Fatalf("%s: %d %q: %v", what, w.Code, w.Body, err)
	}
	if w.Code != status || reply.Message != name || w.Header().Get("Cache-Control") != "no-store" {
		t.Errorf("%s: %d %s (%s), %q, where %d %s was expected", what, w.Code, reply.Message, reply.Detail,
			w.Header()["Cache-Control"], status, name)
	}
}

// verifies reports whether a DigitallySigned is the log's over some bytes.
func (f *fixture) verifies(signed, signature []byte) bool {
	digest := sha256.Sum256(signed)
	return len(signature) > 4 && bytes.HasPrefix(signature, []byte{4, 3, 0}) && int(signature[3]) == len(signature)-4 &&
		ecdsa.VerifyASN1(&f.log.Key.PublicKey, digest[:], signature[4:])
}

func TestRoots(t *testing.T) {
	f := newFixture(t, 0, nil)
	other := testkit.NewAuthority("Another root")
	for i := 1; i <= 2; i++ {
		var reply struct {
			Certificates [][]byte `json:"certificates"`
		}
		w := f.get("/ct/v1/get-roots")
		if err := json.Unmarshal(w.Body.Bytes(), &reply); err != nil || w.Code != 200 {
			t.Fatal(w.Code, err)
		}
		if len(reply.Certificates) != i || !bytes.Equal(reply.Certificates[0], f.authority.Root.Raw) ||
			!bytes.Equal(reply.Certificates[i-1], [][]byte{f.authority.Root.Raw, other.Root.Raw}[i-1]) {
			t.Errorf("roots: %s", w.Body)
		}
		path := t.TempDir() + "/roots.pem"
		writeFile(t, path, append(f.authority.PEM(), other.PEM()...))
		if _, _, err := f.checker.Reload(chain.RootFiles{Paths: []string{path}}); err != nil {
			t.Fatal(err)
		}
	}
}

// TestRefusesLateReads checks that a call of a log that answers too late is refused as late, and not as a failed store.
func TestRefusesLateReads(t *testing.T) {
	f := newFixture(t, 0, func(o *Options) { o.Limits.Reading = 20 * time.Millisecond })
	f.fill(1)
	f.log.Slow = 5 * time.Second
	for _, path := range []string{"/checkpoint", "/tile/0/000.p/1", "/issuer/" + strings.Repeat("0", 64),
		"/ct/v1/get-sth", "/ct/v1/get-entries?start=0&end=0"} {
		refused(t, path, f.get(path), 503, "late")
	}
}

func TestMethodsAndPaths(t *testing.T) {
	f := newFixture(t, 0, nil)
	for path, c := range calls {
		for _, method := range []string{"GET", "POST", "PUT", "DELETE", "PATCH", "OPTIONS", "HEAD", "X"} {
			if method == c.method || (method == "HEAD" || method == "OPTIONS") && c.method == "GET" {
				continue
			}
			w := f.do(method, path, nil)
			refused(t, method+" "+path, w, 405, "method")
			if w.Header().Get("Allow") != allowed(c) {
				t.Errorf("%s %s: Allow %q", method, path, w.Header().Get("Allow"))
			}
		}
		if c.method == "GET" {
			refused(t, path, f.do("GET", path, []byte("x")), 400, "body")
		}
	}
	for _, path := range []string{
		"//", "/checkpoint/", "//checkpoint", "/./checkpoint", "/ct/v1/../v1/get-sth", "/check%70oint",
		"/ct%2fv1/get-sth", "/tile", "/tile/", "/issuer/",
		"/index.html", "/metrics", "/ct/v1/", "/tile/0/000%2ep/1", "/issuer/../checkpoint", "/Checkpoint",
	} {
		refused(t, path, f.get(path), 404, "no-such-path")
	}
}

func TestPage(t *testing.T) {
	f := newFixture(t, 0, nil)
	w := f.get("/")
	if w.Code != 200 || w.Header().Get("Content-Type") != "text/html; charset=utf-8" ||
		!bytes.Equal(w.Body.Bytes(), pageText) {
		t.Errorf("/: %d %v", w.Code, w.Header())
	}
	_, script, _ := strings.Cut(w.Body.String(), "<script>")
	script, _, _ = strings.Cut(script, "</script>")
	hash := sha256.Sum256([]byte(script))
	if policy := w.Header().Get("Content-Security-Policy"); script == "" ||
		!strings.Contains(policy, base64.StdEncoding.EncodeToString(hash[:])) {
		t.Errorf("the page's script may not run: %s", policy)
	}
}

// TestAbout checks that the log's key and its entry for a log list are served to everybody as they were given. Without
// them, their paths do not exist.
func TestAbout(t *testing.T) {
	of := About{Key: []byte("a key"), Entry: []byte(`{"log_id":"an id"}`)}
	f := newFixture(t, 0, func(o *Options) { o.About = of })
	block, rest := pem.Decode(f.get("/key").Body.Bytes())
	if block == nil || block.Type != "PUBLIC KEY" || string(block.Bytes) != "a key" || len(rest) != 0 {
		t.Errorf("/key: %q", f.get("/key").Body)
	}
	w := f.get("/log.v3.json")
	if w.Code != 200 || w.Header().Get("Content-Type") != "application/json" || w.Body.String() != string(of.Entry) ||
		w.Header().Get("Access-Control-Allow-Origin") != "*" {
		t.Errorf("/log.v3.json: %d %v %s", w.Code, w.Header(), w.Body)
	}
	none := newFixture(t, 0, nil)
	for _, path := range []string{"/key", "/log.v3.json"} {
		refused(t, path, none.get(path), 404, "no-such-path")
	}
}

// TestPanic checks that a panic of the log is answered by a refusal, and is logged.
func TestPanic(t *testing.T) {
	f := newFixture(t, 0, nil)
	f.front.log = nil
	refused(t, "a panic", f.get("/checkpoint"), 500, "internal")
	if !strings.Contains(f.lines.String(), `"event":"panic"`) {
		t.Error("the panic is not logged")
	}
}

// TestClientsBehindProxies checks that only a proxy's header is believed, and that its last address counts. One
// client's requests do not count in the bound of another one.
func TestClientsBehindProxies(t *testing.T) {
	f := newFixture(t, 0, func(o *Options) {
		o.Proxies = []netip.Prefix{netip.MustParsePrefix("127.0.0.0/8"), netip.MustParsePrefix("::1/128")}
		o.Limits.ConnectionsByAddress = 1
	})
	for _, test := range []struct{ peer, named, client string }{
		{"192.0.2.1:7", "", "192.0.2.1"},
		{"192.0.2.1:7", "198.51.100.7", "192.0.2.1"},
		{"127.0.0.1:7", "198.51.100.7", "198.51.100.7"},
		{"127.0.0.1:7", "203.0.113.1, 198.51.100.7", "198.51.100.7"},
		{"[::1]:7", "2001:db8::7", "2001:db8::7"},
		{"[::ffff:127.0.0.1]:7", "::ffff:198.51.100.7", "198.51.100.7"},
		{"127.0.0.1:7", "nobody", "127.0.0.1"},
		{"127.0.0.1:7", "", "127.0.0.1"},
	} {
		r := httptest.NewRequest("GET", "/", nil)
		r.RemoteAddr = test.peer
		if test.named != "" {
			r.Header.Set("X-Forwarded-For", test.named)
		}
		if client := f.front.clientOf(r).String(); client != test.client {
			t.Errorf("%s for %q is %s", test.peer, test.named, client)
		}
	}
	twice := httptest.NewRequest("GET", "/", nil)
	twice.RemoteAddr = "127.0.0.1:7"
	twice.Header["X-Forwarded-For"] = []string{"203.0.113.1", "198.51.100.7"}
	if client := f.front.clientOf(twice).String(); client != "198.51.100.7" {
		t.Errorf("of two headers %s is taken", client)
	}
	one, same, other := netip.MustParseAddr("2001:db8::1"), netip.MustParseAddr("2001:db8::2:3"),
		netip.MustParseAddr("2001:db8:0:1::1")
	if !f.front.uses.requests.take(one) || f.front.uses.requests.take(same) || !f.front.uses.requests.take(other) {
		t.Error("IPv6 addresses are not counted by /64")
	}
	r := httptest.NewRequest("GET", "/", nil)
	r.RemoteAddr = "[2001:db8::77]:7"
	w := httptest.NewRecorder()
	f.front.ServeHTTP(w, r)
	refused(t, "a second request", w, 429, "too-many-requests")
	f.front.uses.requests.give(one)
	f.front.uses.requests.give(other)
	if len(f.front.uses.requests.byGroup) != 0 {
		t.Error("addresses are still counted")
	}
}

// TestSubmitters checks that all addresses of a submitter's prefix count together, up to the bound of the longest
// prefix that contains them. Other addresses count by themselves.
func TestSubmitters(t *testing.T) {
	submitters := []Submitter{{netip.MustParsePrefix("198.51.100.0/24"), 3},
		{netip.MustParsePrefix("198.51.100.128/25"), 1}, {netip.MustParsePrefix("2001:db8::/32"), 2},
		{netip.MustParsePrefix("2001::/16"), 9}}
	f := newFixture(t, 0, func(o *Options) {
		o.Limits.ConnectionsByAddress, o.Limits.Submitters = 1, submitters
		o.Proxies = []netip.Prefix{netip.MustParsePrefix("127.0.0.1/32")}
	})
	for what, counted := range map[string]*counts{"requests": &f.front.uses.requests,
		"connections": &f.front.uses.connections.byAddress} {
		var taken []netip.Addr
		for _, test := range []struct {
			address string
			is      bool
		}{
			{"198.51.100.1", true}, {"198.51.100.2", true}, {"198.51.100.2", true}, {"198.51.100.3", false},
			{"198.51.100.200", true}, {"198.51.100.201", false},
			{"2001:db8:1::1", true}, {"2001:db8:2::1", true}, {"2001:db8:3::1", false},
			{"198.51.101.1", true}, {"198.51.101.1", false}, {"198.51.101.2", true},
		} {
			address := netip.MustParseAddr(test.address)
			if is := counted.take(address); is != test.is {
				t.Errorf("%s of %s: %v", what, address, is)
			} else if is {
				taken = append(taken, address)
			}
		}
		for _, address := range taken {
			counted.give(address)
		}
		if len(counted.byGroup) != 0 {
			t.Errorf("%s are still counted: %v", what, counted.byGroup)
		}
	}
	if counted := &f.front.uses.waitingByClient; len(counted.submitters) != 0 {
		t.Error("bytes count by submitter")
	}
}

func fingerprintOf(der []byte) string {
	fingerprint := sha256.Sum256(der)
	return hex.EncodeToString(fingerprint[:])
}

var _ http.Handler = (*Front)(nil)

// TestReadOnly checks that a read-only log refuses each submission with a name of its own and reads nothing of it. Its
// entries can be read as before.
func TestReadOnly(t *testing.T) {
	f := newFixture(t, 10*time.Millisecond, func(o *Options) { o.ReadOnly = true })
	f.fill(2)
	for _, path := range []string{"/ct/v1/add-chain", "/ct/v1/add-pre-chain"} {
		w := f.do("POST", path, testkit.Submission(f.issue(path == "/ct/v1/add-pre-chain")))
		refused(t, path, w, 403, "read-only")
		if w.Header().Get("Connection") != "close" {
			t.Errorf("%s: the connection is kept, with a body that nobody read", path)
		}
	}
	if queue := f.log.Metrics().Queue; queue != 0 {
		t.Errorf("%d submissions wait", queue)
	}
	for _, path := range []string{"/checkpoint", "/ct/v1/get-entries?start=0&end=1"} {
		if w := f.get(path); w.Code != 200 {
			t.Errorf("%s: %d", path, w.Code)
		}
	}
	if w := f.ready(); w.Code != 200 {
		t.Errorf("/readyz: %d", w.Code)
	}
}
