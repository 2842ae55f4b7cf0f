package httpd

import (
	"bytes"
	"context"
	"encoding/base64"
	"fmt"
	"net/http/httptest"
	"net/url"
	"strings"
	"sync/atomic"
	"testing"
	"time"

	"wagtenib/internal/ct"
	"wagtenib/internal/log"
	"wagtenib/internal/testkit"
)

// late is a log that returns an older head so many times.
type late struct {
	log.Log
	head  ct.SignedHead
	times int
}

func (l *late) Checkpoint(ctx context.Context) (ct.SignedHead, error) {
	if l.times--; l.times >= 0 {
		return l.head, nil
	}
	return l.Log.Checkpoint(ctx)
}

func (l *late) HeadOf(ctx context.Context, _ uint64) (ct.SignedHead, error) {
	return l.Checkpoint(ctx)
}

// TestReadsFullTileAfterPartialWasDeleted checks that a partial tile that was deleted after the head was read is no
// fault if a newer head has the full tile.
func TestReadsFullTileAfterPartialWasDeleted(t *testing.T) {
	f := newFixture(t, 0, nil)
	f.fill(3)
	head, _ := f.log.Checkpoint(context.Background())
	f.fill(257)
	refused(t, "the partial tile", f.get("/tile/data/000.p/3"), 404, "absent")
	f.front.log = &late{f.log, head, 1}
	if entries := f.entries(1, 2); len(entries) != 2 {
		t.Errorf("%d entries", len(entries))
	}
	f.front.log = &late{f.log, head, 2}
	refused(t, "an older head again", f.get("/ct/v1/get-entries?start=0&end=1"), 503, "store")
}

// unasked is a log that knows a head, but never returns its newest one.
type unasked struct {
	log.Log
	head  ct.SignedHead
	asked atomic.Int64
}

func (u *unasked) Checkpoint(ctx context.Context) (ct.SignedHead, error) {
	u.asked.Add(1)
	<-ctx.Done()
	return ct.SignedHead{}, ctx.Err()
}

func (u *unasked) HeadOf(ctx context.Context, entries uint64) (ct.SignedHead, error) {
	if entries <= u.head.TreeSize {
		return u.head, nil
	}
	return u.Checkpoint(ctx)
}

// TestReadersAskForNoNewerHead checks that entries and proofs below a known head are answered while the newest one is
// unknown. A request for more entries waits for the newest one.
func TestReadersAskForNoNewerHead(t *testing.T) {
	f := newFixture(t, 0, func(o *Options) { o.Limits.Reading = time.Minute })
	f.fill(300)
	head, err := f.log.Checkpoint(context.Background())
	if err != nil {
		t.Fatal(err)
	}
	var reply struct {
		Entries []struct {
			Leaf []byte `json:"leaf_input"`
		}
	}
	f.reads("get-entries?start=299&end=299", &reply)
	hash := testkit.LeafHash(reply.Entries[0].Leaf)
	of := &unasked{Log: f.log, head: head}
	f.front.log = of
	for _, path := range []string{"get-entries?start=0&end=299", "get-entries?start=256&end=299",
		"get-entries?start=7&end=7", "get-sth-consistency?first=7&second=300",
		"get-entry-and-proof?leaf_index=299&tree_size=300",
		"get-proof-by-hash?tree_size=300&hash=" + url.QueryEscape(base64.StdEncoding.EncodeToString(hash[:]))} {
		if w := f.get("/ct/v1/" + path); w.Code != 200 {
			t.Errorf("%s: %d %s", path, w.Code, w.Body)
		}
	}
	if asked := of.asked.Load(); asked != 0 {
		t.Errorf("the newest head is asked for %d times", asked)
	}
	f.front.limits.Reading = 100 * time.Millisecond
	for _, path := range []string{"/checkpoint", "/ct/v1/get-sth", "/ct/v1/get-entries?start=256&end=300",
		"/ct/v1/get-sth-consistency?first=7&second=301"} {
		refused(t, path, f.get(path), 503, "late")
	}
}

// TestDamagedObjects checks that an object with a wrong content is a fault of the store, and is not served as entries.
func TestDamagedObjects(t *testing.T) {
	f := newFixture(t, 0, nil)
	f.fill(2)
	w := f.get("/tile/data/000.p/2")
	tile := w.Body.Bytes()
	for what, content := range map[string][]byte{
		"missing": nil, "empty": {}, "short": tile[:len(tile)-1], "long": append(append([]byte(nil), tile...), 0),
		"one":             tile[:len(tile)/2],
		"of another type": append([]byte{0, 0, 0, 0, 0, 0, 0, 0, 0, 2}, tile[10:]...),
	} {
		f.log.Change("tile/data/000.p/2", content)
		refused(t, what, f.get("/ct/v1/get-entries?start=0&end=1"), 503, "store")
	}
	f.log.Change("tile/data/000.p/2", tile)
	issuer := "issuer/" + fingerprintOf(f.authority.Root.Raw)
	f.log.Change(issuer, []byte("another"))
	refused(t, "another issuer", f.get("/ct/v1/get-entries?start=0&end=1"), 503, "store")
	f.log.Change(issuer, nil)
	refused(t, "no issuer", f.get("/ct/v1/get-entries?start=0&end=1"), 503, "store")
	f.log.Change(issuer, f.authority.Root.Raw)
	if entries := f.entries(0, 1); len(entries) != 2 {
		t.Errorf("%d entries", len(entries))
	}
	// The issuer is in the cache now.
	f.log.Change(issuer, nil)
	if entries := f.entries(0, 1); len(entries) != 2 {
		t.Errorf("%d entries", len(entries))
	}
	// A full cache is emptied.
	f.log.Change(issuer, f.authority.Root.Raw)
	f.front.issuers.kept, f.front.issuers.bytes = map[[32]byte][]byte{{}: {7}}, maxIssuerBytes
	f.entries(0, 1)
	if kept := &f.front.issuers; len(kept.kept) != 1 || kept.bytes != len(f.authority.Root.Raw) {
		t.Errorf("%d issuers of %d bytes are kept", len(kept.kept), kept.bytes)
	}
}

// whole records an answer, and calls onWhole after the whole answer was received.
type whole struct {
	*httptest.ResponseRecorder
	onWhole func()
}

func (w whole) Write(some []byte) (int, error) {
	n, err := w.ResponseRecorder.Write(some)
	if fmt.Sprint(w.Body.Len()) == w.Header().Get("Content-Length") {
		w.onWhole()
	}
	return n, err
}

// TestAnswersComeLast checks that after a response was received, its request holds no slot and no bytes, and is counted
// and logged. So a client that asks again at once is answered even if only one request may run at a time.
func TestAnswersComeLast(t *testing.T) {
	f := newFixture(t, 5*time.Millisecond, func(o *Options) {
		o.Limits.ConnectionsByAddress, o.Limits.ProofsByAddress, o.LogRequests = 1, 1, true
	})
	f.fill(300)
	body := testkit.Submission(f.issue(false))
	for _, test := range []struct {
		method, target, call, header, value string
		status                              int
	}{
		{"GET", "/checkpoint", "checkpoint", "", "", 200},
		{"GET", "/tile/0/000", "tile", "", "", 200},
		{"GET", "/tile/data/000", "tile", "", "", 200},
		{"GET", "/tile/data/000", "tile", "Accept-Encoding", "gzip", 200},
		{"GET", "/tile/data/000", "tile", "Range", "bytes=7-8", 206},
		{"GET", "/tile/data/000", "tile", "Range", "bytes=0-0", 206},
		{"GET", "/tile/data/000", "tile", "Range", "bytes=0-99,200-299", 206},
		{"GET", "/ct/v1/get-entries?start=0&end=255", "get-entries", "", "", 200},
		{"GET", "/ct/v1/get-sth-consistency?first=1&second=300", "get-sth-consistency", "", "", 200},
		{"GET", "/none", "none", "", "", 404},
		{"POST", "/ct/v1/add-chain", "add-chain", "", "", 200},
	} {
		what := fmt.Sprint(test.target, " ", test.value)
		ask := func(onWhole func()) whole {
			r := httptest.NewRequest(test.method, test.target, nil)
			if test.method == "POST" {
				r = httptest.NewRequest(test.method, test.target, bytes.NewReader(body))
			}
			if test.header != "" {
				r.Header.Set(test.header, test.value)
			}
			w := whole{httptest.NewRecorder(), onWhole}
			f.front.ServeHTTP(w, r)
			return w
		}
		counted := func() (count int) {
			w := httptest.NewRecorder()
			f.front.Operator().ServeHTTP(w, httptest.NewRequest("GET", "/metrics", nil))
			_, text, _ := strings.Cut(w.Body.String(), fmt.Sprintf("\nctserve_requests_total{call=%q,status=\"%d\"} ",
				test.call, test.status))
			fmt.Sscan(text, &count)
			return count
		}
		logged := func() int { return strings.Count(f.lines.String(), fmt.Sprintf(`"call":%q`, test.call)) }
		before, lines, times := counted(), logged(), 0
		w := ask(func() {
			times++
			for which, of := range map[string]*counts{"requests": &f.front.uses.requests,
				"proofs":      &f.front.uses.proofsByClient,
				"submissions": &f.front.uses.waitingByClient, "answers": &f.front.uses.answersByClient} {
				if len(of.byGroup) != 0 {
					t.Errorf("%s: of %s %v is held", what, which, of.byGroup)
				}
			}
			if submitted, read := f.front.uses.waiting.used.Load(), f.front.uses.answers.used.Load(); submitted != 0 ||
				read != 0 {
				t.Errorf("%s: %d and %d bytes are held", what, submitted, read)
			}
			if now, nowLogged := counted(), logged(); now != before+1 || nowLogged != lines+1 {
				t.Errorf("%s: %d are counted after %d, and %d logged after %d", what, now, before, nowLogged, lines)
			}
			if again := ask(func() {}); again.Code != test.status {
				t.Errorf("%s, at once: %d %s", what, again.Code, again.Body)
			}
		})
		if w.Code != test.status || times != 1 {
			t.Errorf("%s: %d, which was received whole %d times", what, w.Code, times)
		}
	}
}
