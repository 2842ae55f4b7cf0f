package httpd

import (
	"bytes"
	"context"
	"encoding/json"
	"errors"
	"fmt"
	"net/http/httptest"
	"net/netip"
	"strings"
	"sync"
	"testing"
	"time"

	"wagtenib/bindings/go/wagtenib"
	"wagtenib/internal/command/eventlog"
	"wagtenib/internal/log"
	"wagtenib/internal/log/chain"
	"wagtenib/internal/testkit"
	"wagtenib/internal/testkit/memorylog"
	"wagtenib/internal/tiles"
)

// TestPrecertificatesWithoutMemory checks that, if there is no memory to cut the poison out, a precertificate is
// refused with Retry-After, and certificates are accepted.
func TestPrecertificatesWithoutMemory(t *testing.T) {
	f := newFixture(t, 10*time.Millisecond, nil)
	outOfMemory := chain.CutterOver(func([]byte) ([]byte, error) { return nil, wagtenib.ErrMemory })
	checker := chain.NewChecker(f.checker.Roots(), chain.Rules{}, outOfMemory)
	f.front = New(f.log, tiles.NewProver(f.log.Object, 4), checker,
		Options{Limits: DefaultLimits(), Lines: eventlog.NewLines(f.lines)})
	w := f.do("POST", "/ct/v1/add-pre-chain", testkit.Submission(f.issue(true), f.authority.Root.Raw))
	if w.Code != 503 || w.Header().Get("Retry-After") != "1" || !strings.Contains(w.Body.String(), `"busy"`) {
		t.Errorf("%d %v %s", w.Code, w.Header(), w.Body)
	}
	if w := f.do("POST", "/ct/v1/add-chain", testkit.Submission(f.issue(false), f.authority.Root.Raw)); w.Code != 200 {
		t.Errorf("%d %s", w.Code, w.Body)
	}
}

func TestSubmissionsAreAnsweredWithTimestamps(t *testing.T) {
	f := newFixture(t, 10*time.Millisecond, nil)
	for number, test := range []struct {
		path  string
		der   []byte
		check chainCheck
	}{
		{"/ct/v1/add-chain", f.issue(false), f.checker.Certificate},
		{"/ct/v1/add-pre-chain", f.issue(true), f.checker.Precertificate},
	} {
		w := f.do("POST", test.path, testkit.Submission(test.der, f.authority.Root.Raw))
		if w.Code != 200 || w.Header().Get("Content-Type") != "application/json" ||
			w.Header().Get("Cache-Control") != "no-store" {
			t.Fatalf("%s: %d %v %s", test.path, w.Code, w.Header(), w.Body)
		}
		var keys map[string]any
		if err := json.Unmarshal(w.Body.Bytes(), &keys); err != nil || len(keys) != 5 || keys["sct_version"] != 0.0 {
			t.Errorf("%s: %v, %v", test.path, keys, err)
		}
		var reply struct {
			ID, Extensions, Signature []byte
			Timestamp                 uint64
		}
		if err := json.Unmarshal(w.Body.Bytes(), &reply); err != nil {
			t.Fatal(err)
		}
		entry, err := test.check([][]byte{test.der})
		if err != nil {
			t.Fatal(err)
		}
		if !bytes.Equal(reply.Extensions, []byte{0, 0, 5, 0, 0, 0, 0, byte(number)}) {
			t.Errorf("%s: extensions %x", test.path, reply.Extensions)
		}
		if !f.verifies(memorylog.EntryOf(*entry, reply.Timestamp).MerkleLeaf(uint64(number)), reply.Signature) ||
			len(reply.ID) != 32 {
			t.Errorf("%s: the signature is not over the entry: %s", test.path, w.Body)
		}
	}
}

func TestChainsAreRefusedByName(t *testing.T) {
	f := newFixture(t, 10*time.Millisecond, nil)
	other := testkit.NewAuthority("Another root")
	foreign := other.Sign(other.Template(ends))
	late := f.authority.Sign(f.authority.Template(ends.AddDate(1, 0, 0)))
	certificate, precertificate := f.issue(false), f.issue(true)
	forged := append([]byte(nil), certificate...)
	forged[len(forged)-1] ^= 1
	for _, test := range []struct {
		name, path string
		chain      [][]byte
	}{
		{"empty-chain", "add-chain", nil},
		{"no-certificate", "add-chain", [][]byte{[]byte("none")}},
		{"chain-too-long", "add-chain", bytes.SplitN(bytes.Repeat([]byte("a"), 17), nil, 17)},
		{"certificate-too-long", "add-chain", [][]byte{make([]byte, chain.MaxCertificateBytes+1)}},
		{"not-issued-by-next", "add-chain", [][]byte{certificate, other.Root.Raw}},
		{"unknown-root", "add-chain", [][]byte{foreign}},
		{"unknown-root", "add-chain", [][]byte{foreign, other.Root.Raw}},
		{"unknown-root", "add-chain", [][]byte{forged}},
		{"bad-signature", "add-chain", [][]byte{forged, f.authority.Root.Raw}},
		{"outside-window", "add-chain", [][]byte{late}},
		{"is-precertificate", "add-chain", [][]byte{precertificate}},
		{"no-poison", "add-pre-chain", [][]byte{certificate}},
	} {
		w := f.do("POST", "/ct/v1/"+test.path, testkit.Submission(test.chain...))
		refused(t, test.name, w, 400, test.name)
	}
	if size := f.log.Metrics().Entries; size != 0 {
		t.Errorf("the log has %d entries of them", size)
	}
}

func TestBodiesAreRefused(t *testing.T) {
	f := newFixture(t, 10*time.Millisecond, func(o *Options) { o.Limits.WaitingBytes = 4096 })
	for _, body := range []string{"", "chain", `{"chain":"AAAA"}`, `{"chain":["!"]}`, `[]`, `{"chain":[]} {}`,
		`{"chain":[7]}`, `{"chain":["AAAA"]`} {
		refused(t, body, f.do("POST", "/ct/v1/add-chain", []byte(body)), 400, "no-submission")
	}
	refused(t, "no chain", f.do("POST", "/ct/v1/add-chain", []byte(`{}`)), 400, "empty-chain")
	refused(t, "bytes", f.do("POST", "/ct/v1/add-chain", make([]byte, MaxBody+1)), 413, "body-too-large")
	refused(t, "bytes that wait", f.do("POST", "/ct/v1/add-chain", make([]byte, 4097)), 503, "busy")
	if used := f.front.uses.waiting.used.Load(); used != 0 {
		t.Errorf("%d bytes are still counted", used)
	}
	r := httptest.NewRequest("POST", "/ct/v1/add-chain", strings.NewReader("{}"))
	r.ContentLength = -1
	w := httptest.NewRecorder()
	f.front.ServeHTTP(w, r)
	refused(t, "without a length", w, 411, "length-required")
	if w.Header().Get("Connection") != "close" {
		t.Error("a connection with a body of unknown length is not closed")
	}
}

// TestBytesByAddress checks that the bodies of one address may have an eighth of the bytes of all, and at least one
// body of the maximum size. Another address has its own bytes.
func TestBytesByAddress(t *testing.T) {
	for _, test := range []struct{ all, one int }{{64 << 20, 8 << 20}, {3 << 20, MaxBody}} {
		f := newFixture(t, 5*time.Millisecond, func(o *Options) { o.Limits.WaitingBytes = int64(test.all) })
		client, same := netip.MustParseAddr("2001:db8::1"), "[2001:db8::2:3]:7"
		from := func(peer string) *httptest.ResponseRecorder {
			r := httptest.NewRequest("POST", "/ct/v1/add-chain", bytes.NewReader(testkit.Submission(f.issue(false))))
			r.RemoteAddr = peer
			w := httptest.NewRecorder()
			f.front.ServeHTTP(w, r)
			return w
		}
		if !f.front.uses.waitingByClient.takeSome(client, test.one) || f.front.uses.waitingByClient.takeSome(client, 1) {
			t.Errorf("of %d bytes one address may not have exactly %d", test.all, test.one)
		}
		refused(t, "the same address", from(same), 429, "too-many-bytes")
		if w := from("[2001:db8:0:1::1]:7"); w.Code != 200 {
			t.Errorf("another address: %d %s", w.Code, w.Body)
		}
		f.front.uses.waitingByClient.giveSome(client, test.one)
		if w := from(same); w.Code != 200 {
			t.Errorf("the same address, after it gave bytes back: %d %s", w.Code, w.Body)
		}
		if used := f.front.uses.waiting.used.Load(); used != 0 || len(f.front.uses.waitingByClient.byGroup) != 0 {
			t.Errorf("%d bytes and %v are still counted", used, f.front.uses.waitingByClient.byGroup)
		}
	}
}

// TestTooLargeSaysTheBound checks that the refusal of an entry that is too large says how large an entry may be.
func TestTooLargeSaysTheBound(t *testing.T) {
	f := newFixture(t, 10*time.Millisecond, nil)
	f.log.SetFault(fmt.Errorf("%w: it has 131073 bytes, and may have 131072", log.ErrTooLarge))
	w := f.do("POST", "/ct/v1/add-chain", testkit.Submission(f.issue(false)))
	if w.Code != 400 || !strings.Contains(w.Body.String(), "entry-too-large") ||
		!strings.Contains(w.Body.String(), "it has 131073 bytes, and may have 131072") {
		t.Errorf("%d %s", w.Code, w.Body)
	}
}

// TestErrorsOfTheLog checks that each error of the log is answered with its status, and a temporary one with
// Retry-After.
func TestErrorsOfTheLog(t *testing.T) {
	f := newFixture(t, 10*time.Millisecond, nil)
	body := testkit.Submission(f.issue(false))
	for _, test := range []struct {
		err    error
		status int
		name   string
		after  string
	}{
		{log.ErrBusy, 503, "busy", "1"},
		{log.ErrTooLarge, 400, "entry-too-large", ""},
		{log.ErrEnded, 503, "ended", "10"},
		{log.ErrClock, 503, "clock", "10"},
		{log.ErrStore, 503, "store", "5"},
		{fmt.Errorf("deep inside: %w", log.ErrStore), 503, "store", "5"},
		{fmt.Errorf("deep inside: %w", wagtenib.ErrMemory), 503, "busy", "1"},
		{fmt.Errorf("deep inside: %w", tiles.ErrReply), 500, "internal", ""},
		{context.DeadlineExceeded, 503, "late", "5"},
		{errors.New("secret of the machine"), 500, "internal", ""},
	} {
		f.log.SetFault(test.err)
		w := f.do("POST", "/ct/v1/add-chain", body)
		refused(t, "add-chain "+test.name, w, test.status, test.name)
		if after := w.Header().Get("Retry-After"); after != test.after {
			t.Errorf("%s: Retry-After %q", test.name, after)
		}
		if strings.Contains(w.Body.String(), "secret") {
			t.Errorf("the secret is sent to a client: %s", w.Body)
		}
		for _, path := range []string{"/checkpoint", "/ct/v1/get-sth", "/ct/v1/get-entries?start=0&end=0"} {
			refused(t, path+" "+test.name, f.get(path), test.status, test.name)
		}
		if unready := f.get("/readyz"); unready.Code != 503 {
			t.Errorf("%s: /readyz %d", test.name, unready.Code)
		}
	}
	refused(t, "a tile", f.get("/tile/0/000.p/1"), 503, "store")
	if !strings.Contains(f.lines.String(), "secret of the machine") {
		t.Error("the error is not logged for the operator")
	}
	f.log.SetFault(nil)
	if w := f.ready(); w.Code != 200 || w.Body.String() != "ready\n" {
		t.Errorf("/readyz: %d %s", w.Code, w.Body)
	}
}

func TestFullQueue(t *testing.T) {
	f := newFixture(t, 0, nil)
	f.log.MaxQueue = 3
	var all sync.WaitGroup
	answers := make(chan *httptest.ResponseRecorder, 3)
	for i := 0; i < 3; i++ {
		body := testkit.Submission(f.issue(false))
		all.Add(1)
		go func() {
			defer all.Done()
			answers <- f.do("POST", "/ct/v1/add-chain", body)
		}()
	}
	for f.log.Metrics().Queue < 3 {
		time.Sleep(time.Millisecond)
	}
	w := f.do("POST", "/ct/v1/add-chain", testkit.Submission(f.issue(false)))
	refused(t, "the fourth", w, 503, "busy")
	if w.Header().Get("Retry-After") != "1" {
		t.Error("the answer has no Retry-After of 1 second")
	}
	refused(t, "/readyz", f.get("/readyz"), 503, "busy")
	f.log.Publish()
	all.Wait()
	for i := 0; i < 3; i++ {
		if w := <-answers; w.Code != 200 {
			t.Errorf("a submission that waited: %d %s", w.Code, w.Body)
		}
	}
}

// TestSubmissionsThatWait checks that a submission that is not answered in time is refused, and that one whose client
// left holds no bytes.
func TestSubmissionsThatWait(t *testing.T) {
	f := newFixture(t, 0, func(o *Options) { o.Limits.Submission = 30 * time.Millisecond })
	w := f.do("POST", "/ct/v1/add-chain", testkit.Submission(f.issue(false)))
	refused(t, "late", w, 503, "late")
	ctx, cancel := context.WithCancel(context.Background())
	r := httptest.NewRequest("POST", "/ct/v1/add-chain", bytes.NewReader(
		testkit.Submission(f.issue(false)))).WithContext(ctx)
	cancel()
	w = httptest.NewRecorder()
	f.front.ServeHTTP(w, r)
	refused(t, "gone", w, statusGone, "gone")
	if used := f.front.uses.waiting.used.Load(); used != 0 {
		t.Errorf("%d bytes are still counted", used)
	}
}
