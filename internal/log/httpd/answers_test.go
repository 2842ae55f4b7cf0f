package httpd

import (
	"bytes"
	"context"
	"encoding/base64"
	"fmt"
	"net/http"
	"net/http/httptest"
	"net/netip"
	"net/url"
	"sync/atomic"
	"testing"

	"wagtenib/internal/blob"
	"wagtenib/internal/ct"
	"wagtenib/internal/log"
)

// TestAnswersAreBounded checks that, if responses have as many bytes as allowed, a call that reads objects is refused,
// and other calls are not. An object does not count after its response, and one that does not exist never counts.
func TestAnswersAreBounded(t *testing.T) {
	f := newFixture(t, 0, func(o *Options) { o.Limits.AnswerBytes = 2 << 20 })
	f.fill(260)
	leaves, _ := f.leaves()
	objects := []string{
		"/tile/0/000", "/tile/data/000", "/issuer/" + fingerprintOf(f.authority.Root.Raw),
		"/ct/v1/get-entries?start=0&end=1",
		"/ct/v1/get-proof-by-hash?tree_size=260&hash=" + url.QueryEscape(
			base64.StdEncoding.EncodeToString(leaves[1][:])), "/ct/v1/get-entry-and-proof?leaf_index=1&tree_size=260",
	}
	none := []string{"/checkpoint", "/ct/v1/get-sth", "/ct/v1/get-sth-consistency?first=0&second=7", "/healthz"}
	answered := func(paths ...string) {
		t.Helper()
		for _, path := range paths {
			if w := f.get(path); w.Code != 200 {
				t.Errorf("%s: %d %s", path, w.Code, w.Body)
			}
		}
	}
	for i := 0; i < 3; i++ {
		answered(objects...)
		refused(t, "no tile", f.get("/tile/data/007"), 404, "absent")
	}
	// The issuers are in the cache by now.
	f.front.issuers.kept, f.front.issuers.bytes = nil, 0
	const all = 2<<20 - 4096
	if !f.front.uses.answers.take(all) {
		t.Fatalf("%d bytes are still counted", f.front.uses.answers.used.Load())
	}
	for _, path := range objects {
		w := f.get(path)
		if refused(t, path, w, 503, "busy"); w.Header().Get("Retry-After") != "1" {
			t.Errorf("%s: the answer has no Retry-After of 1 second", path)
		}
	}
	answered(none...)
	f.front.uses.answers.give(all)
	answered(objects...)
	// This object is longer than it counts until its length is known.
	f.log.Change("tile/data/001.p/4", dataTileOf(700000, 700000, 700000, 700000))
	refused(t, "a large tile", f.get("/tile/data/001.p/4"), 503, "busy")
	if used := f.front.uses.answers.used.Load(); used != 0 || len(f.front.uses.answersByClient.byGroup) != 0 {
		t.Errorf("%d bytes and %v of addresses are still counted", used, f.front.uses.answersByClient.byGroup)
	}
}

// countedWriter records how many bytes count as held by answers while an answer is written. The last byte is written
// after none counts any more.
type countedWriter struct {
	*httptest.ResponseRecorder
	front   *Front
	counted int64
}

func (w *countedWriter) Write(content []byte) (int, error) {
	if now := w.front.uses.answers.used.Load(); now > w.counted {
		w.counted = now
	}
	return w.ResponseRecorder.Write(content)
}

// TestAnswersWithEntriesCount asks for entries whose issuers are far longer than their data tile. All bytes of the
// answer must count while it is written. An answer that has no room must be refused before it is made.
func TestAnswersWithEntriesCount(t *testing.T) {
	f := newFixture(t, 0, func(o *Options) { o.Limits.AnswerBytes = 64 << 20 })
	issuers := [][]byte{bytes.Repeat([]byte("a"), 1300), bytes.Repeat([]byte("b"), 1300),
		bytes.Repeat([]byte("c"), 1300)}
	var entries []ct.Entry
	for i := 0; i < 256; i++ {
		entries = append(entries, ct.Entry{
			Type: ct.X509Entry, Certificate: []byte(fmt.Sprint("certificate ", i)),
			Issuers: issuers,
		})
	}
	f.log.Add(entries)
	paths := []string{"/ct/v1/get-entries?start=0&end=255", "/ct/v1/get-entry-and-proof?leaf_index=1&tree_size=256"}
	for _, path := range paths {
		w := &countedWriter{httptest.NewRecorder(), f.front, 0}
		f.front.ServeHTTP(w, httptest.NewRequest(http.MethodGet, path, nil))
		if w.Code != http.StatusOK || w.counted < int64(w.Body.Len())-1024 {
			t.Errorf("%s: %d, %d bytes count of an answer of %d", path, w.Code, w.counted, w.Body.Len())
		}
	}
	// There is room for the tile, but not for the answer.
	const room = likelyEntries + 64<<10
	if !f.front.uses.answers.take(64<<20 - room) {
		t.Fatalf("%d bytes are still counted", f.front.uses.answers.used.Load())
	}
	if w := f.get("/tile/data/000"); w.Code != http.StatusOK {
		t.Errorf("the tile: %d %s", w.Code, w.Body)
	}
	refused(t, "the entries", f.get(paths[0]), 503, "busy")
	f.front.uses.answers.give(64<<20 - room)
	if used := f.front.uses.answers.used.Load(); used != 0 {
		t.Errorf("%d bytes are still counted", used)
	}
}

// readsLong is a log that records how many bytes of long objects are read at once. It holds each read until release is
// closed.
type readsLong struct {
	log.Log
	now, peak atomic.Int64
	release   chan struct{}
}

func (l *readsLong) Object(ctx context.Context, name string, maxBytes int64) ([]byte, error) {
	content, err := l.Log.Object(ctx, name, maxBytes)
	if err == nil && len(content) > likelyEntries {
		if now := l.now.Add(int64(len(content))); now > l.peak.Load() {
			l.peak.Store(now)
		}
		<-l.release
		l.now.Add(-int64(len(content)))
	}
	return content, err
}

// TestLongObjectsAreCountedFirst checks that a long object is read only after its bytes are counted. If many clients
// ask for it at once, those for whom there is no room are refused, and nothing of it is read for them.
func TestLongObjectsAreCountedFirst(t *testing.T) {
	f := newFixture(t, 0, func(o *Options) { o.Limits.AnswerBytes = 40 << 20 })
	f.fill(3)
	f.log.Change("tile/data/000.p/3", dataTileOf(2<<20, 2<<20, 2<<20))
	const length = 3 * (2 << 20)
	long := &readsLong{Log: f.log, release: make(chan struct{})}
	f.front.log = long
	const many, room = 20, 6
	codes := make(chan int, many)
	for i := 0; i < many; i++ {
		go func(i int) {
			w, r := httptest.NewRecorder(), httptest.NewRequest("GET", "/tile/data/000.p/3", nil)
			r.RemoteAddr = fmt.Sprintf("192.0.2.%d:7", i)
			f.front.ServeHTTP(w, r)
			codes <- w.Code
		}(i)
	}
	refused := 0
	for ; refused < many-room; refused++ {
		if code := <-codes; code != 503 {
			t.Errorf("a client for whom there is no room: %d", code)
		}
	}
	close(long.release)
	for ; refused < many; refused++ {
		if code := <-codes; code != 200 && code != 503 {
			t.Errorf("another client: %d", code)
		}
	}
	if peak := long.peak.Load(); peak < length || peak > 40<<20 {
		t.Errorf("%d bytes were read at once, of tiles of %d", peak, length)
	}
	if used := f.front.uses.answers.used.Load(); used != 0 {
		t.Errorf("%d bytes are still counted", used)
	}
}

// TestAnswersByAddress checks that the answers of one address may have an eighth of the bytes of all, and at least one
// object of the maximum size. Another address has its own bytes.
func TestAnswersByAddress(t *testing.T) {
	for _, test := range []struct{ all, one int }{{1 << 30, 128 << 20}, {512 << 20, 65 << 20},
		{80 << 20, blob.MaxObject + 1<<20}} {
		f := newFixture(t, 0, func(o *Options) { o.Limits.AnswerBytes = int64(test.all) })
		f.fill(5)
		client, same, other := netip.MustParseAddr("2001:db8::1"), "[2001:db8::2:3]:7", "[2001:db8:0:1::1]:7"
		from := func(peer string) *httptest.ResponseRecorder {
			r := httptest.NewRequest("GET", "/tile/data/000.p/5", nil)
			r.RemoteAddr = peer
			w := httptest.NewRecorder()
			f.front.ServeHTTP(w, r)
			return w
		}
		taken := test.one - likelyEntries
		if !f.front.uses.answersByClient.takeSome(client, taken) {
			t.Fatalf("of %d bytes one address may not have %d", test.all, taken)
		}
		if w := from(same); w.Code != 200 {
			t.Errorf("an object that has room: %d %s", w.Code, w.Body)
		}
		if !f.front.uses.answersByClient.takeSome(client, 1) {
			t.Errorf("of %d bytes one address may not have %d", test.all, taken+1)
		}
		w := from(same)
		if refused(t, "the same address", w, 429, "too-many-bytes"); w.Header().Get("Retry-After") != "1" {
			t.Error("the answer has no Retry-After of 1 second")
		}
		if w := from(other); w.Code != 200 {
			t.Errorf("another address: %d %s", w.Code, w.Body)
		}
		f.front.uses.answersByClient.giveSome(client, taken+1)
		if w := from(same); w.Code != 200 {
			t.Errorf("the same address, after it gave bytes back: %d %s", w.Code, w.Body)
		}
		if used := f.front.uses.answers.used.Load(); used != 0 || len(f.front.uses.answersByClient.byGroup) != 0 {
			t.Errorf("%d bytes and %v are still counted", used, f.front.uses.answersByClient.byGroup)
		}
	}
}
