package logclient_test

import (
	"compress/gzip"
	"context"
	"errors"
	"fmt"
	"net/http"
	"net/http/httptest"
	"slices"
	"strings"
	"sync"
	"sync/atomic"
	"testing"
	"time"

	"wagtenib/internal/logclient"
	"wagtenib/internal/testkit"
)

// clock is a clock whose waits end immediately and advance its time. It records them.
type clock struct {
	mutex sync.Mutex
	now   time.Time
	waits []time.Duration
}

func newClock() *clock { return &clock{now: time.Date(2027, 3, 1, 12, 0, 0, 0, time.UTC)} }

func (c *clock) Now() time.Time {
	c.mutex.Lock()
	defer c.mutex.Unlock()
	return c.now
}

func (c *clock) Wait(ctx context.Context, d time.Duration) error {
	c.mutex.Lock()
	defer c.mutex.Unlock()
	c.now = c.now.Add(max(d, 0))
	c.waits = append(c.waits, d)
	return ctx.Err()
}

// client returns a client of a server with this handler.
func client(t testing.TB, handler http.Handler, options logclient.Options) *logclient.Client {
	t.Helper()
	server := httptest.NewServer(handler)
	t.Cleanup(server.Close)
	c, err := logclient.New(server.URL, options)
	if err != nil {
		t.Fatal(err)
	}
	return c
}

// newLog returns a log with count entries and a head over them.
func newLog(t testing.TB, count uint64) *testkit.Log {
	t.Helper()
	log := testkit.NewLog("log.example/2027")
	for i := range count {
		log.Add(testkit.Entry{Timestamp: 1000 + i, Certificate: []byte{0x30, 3, byte(i >> 16), byte(i >> 8), byte(i)}})
	}
	log.Publish(count, 1000+count)
	return log
}

// quick has limits that end a slow answer soon.
var quick = logclient.Limits{Request: 400 * time.Millisecond, Grace: 100 * time.Millisecond, Attempts: 2}

// repeat writes the same bytes again and again, until the client disconnects.
func repeat(w http.ResponseWriter, r *http.Request, content string, pause time.Duration) {
	for r.Context().Err() == nil {
		if _, err := w.Write([]byte(content)); err != nil {
			return
		}
		w.(http.Flusher).Flush()
		select {
		case <-r.Context().Done():
		case <-time.After(pause): // (this is the server's pace, not what the test waits for)
		}
	}
}

// TestRefusesByName checks the error for each answer that a log must not give, within a limited time.
func TestRefusesByName(t *testing.T) {
	elsewhere := httptest.NewServer(http.HandlerFunc(func(http.ResponseWriter,
		*http.Request) {
		t.Error("the other host was asked")
	}))
	defer elsewhere.Close()
	for what, of := range map[string]struct {
		answer   func(w http.ResponseWriter, r *http.Request)
		expected error
	}{
		"not found": {func(w http.ResponseWriter, r *http.Request) { http.NotFound(w, r) }, logclient.ErrNotFound},
		"gone": {func(w http.ResponseWriter, _ *http.Request) { w.WriteHeader(http.StatusGone) },
			logclient.ErrNotFound},
		"forbidden": {func(w http.ResponseWriter, _ *http.Request) { w.WriteHeader(http.StatusForbidden) },
			logclient.ErrStatus},
		"no content": {func(w http.ResponseWriter, _ *http.Request) { w.WriteHeader(http.StatusNoContent) },
			logclient.ErrStatus},
		"fails": {func(w http.ResponseWriter, _ *http.Request) { w.WriteHeader(http.StatusBadGateway) },
			logclient.ErrStatus},
		"busy": {func(w http.ResponseWriter, _ *http.Request) { w.WriteHeader(http.StatusServiceUnavailable) },
			logclient.ErrBusy},
		"another host": {func(w http.ResponseWriter, r *http.Request) {
			http.Redirect(w, r, elsewhere.URL,
				http.StatusFound)
		}, logclient.ErrRedirect},
		"a file": {func(w http.ResponseWriter, r *http.Request) {
			http.Redirect(w, r, "file:///etc/passwd", http.StatusFound)
		}, logclient.ErrRedirect},
		"in a circle": {func(w http.ResponseWriter, r *http.Request) {
			http.Redirect(w, r, "/checkpoint",
				http.StatusFound)
		}, logclient.ErrRedirect},
		"endless": {func(w http.ResponseWriter, r *http.Request) { repeat(w, r, strings.Repeat("a", 1<<16), 0) },
			logclient.ErrTooLarge},
		"drips": {func(w http.ResponseWriter, r *http.Request) { repeat(w, r, "a", 20*time.Millisecond) },
			logclient.ErrTooSlow},
		"says nothing": {func(_ http.ResponseWriter, r *http.Request) { <-r.Context().Done() }, logclient.ErrTooSlow},
		"breaks off":   {func(http.ResponseWriter, *http.Request) { panic(http.ErrAbortHandler) }, logclient.ErrUnreachable},
		"is cut off":   {func(w http.ResponseWriter, _ *http.Request) { cutOff(w) }, logclient.ErrUnreachable},
		"a long length": {func(w http.ResponseWriter, _ *http.Request) { w.Header().Set("Content-Length", "1000000000000") },
			logclient.ErrTooLarge},
		"a gzip bomb": {bomb, logclient.ErrTooLarge},
	} {
		t.Run(what, func(t *testing.T) {
			limits := logclient.Limits{Attempts: 2}
			if of.expected == logclient.ErrTooSlow {
				limits = quick
			}
			c := client(t, http.HandlerFunc(of.answer), logclient.Options{Clock: newClock(), Limits: limits})
			if content, err := c.Checkpoint(context.Background()); !errors.Is(err, of.expected) || content != nil {
				t.Errorf("%d bytes, %v, expected %v", len(content), err, of.expected)
			}
		})
	}
}

func cutOff(w http.ResponseWriter) {
	w.Header().Set("Content-Length", "100")
	if _, err := w.Write([]byte("half")); err == nil {
		panic(http.ErrAbortHandler)
	}
}

// bomb answers with a few bytes that decompress to gigabytes.
func bomb(w http.ResponseWriter, r *http.Request) {
	w.Header().Set("Content-Encoding", "gzip")
	packed := gzip.NewWriter(w)
	zeros := make([]byte, 1<<20)
	for i := 0; i < 1<<12 && r.Context().Err() == nil; i++ {
		if _, err := packed.Write(zeros); err != nil {
			return
		}
	}
}

// TestRefusesPages checks that a page in place of the answer to a call is refused.
func TestRefusesPages(t *testing.T) {
	for _, page := range []string{"<!DOCTYPE html><title>Welcome</title>", "", "[]", "null", `{"entries":`,
		`{"entries":[]}`, `{"consistency":["AAAA"]}`, `{"audit_path":[]}`} {
		c := client(t, http.HandlerFunc(func(w http.ResponseWriter, _ *http.Request) { fmt.Fprint(w, page) }),
			logclient.Options{})
		ctx := context.Background()
		for call, err := range map[string]error{
			"get-entries":       c.Entries(ctx, 0, 5, func(logclient.Page, bool) error { return nil }),
			"get-proof-by-hash": third(c.ProofByHash(ctx, [32]byte{}, 5)),
		} {
			if !errors.Is(err, logclient.ErrNonsense) {
				t.Errorf("%s with %q: %v", call, page, err)
			}
		}
		if _, err := c.STH(ctx); !errors.Is(err, logclient.ErrNonsense) && !strings.HasSuffix(page, "}") {
			t.Errorf("get-sth with %q: %v", page, err)
		}
		if _, err := c.Consistency(ctx, 1, 2); !errors.Is(err, logclient.ErrNonsense) && !strings.HasSuffix(page, "]}") {
			t.Errorf("get-sth-consistency with %q: %v", page, err)
		}
	}
}

func third[A, B any](_ A, _ B, err error) error { return err }

// TestSendsUserAgent checks that each request names the program and its contact.
func TestSendsUserAgent(t *testing.T) {
	agent, err := logclient.UserAgent("ctwatch", "1.2.3", "mailto:owner@example.org")
	if err != nil {
		t.Fatal(err)
	}
	seen := ""
	c := client(t, http.HandlerFunc(func(_ http.ResponseWriter, r *http.Request) { seen = r.UserAgent() }),
		logclient.Options{UserAgent: agent})
	if _, err := c.Checkpoint(context.Background()); err != nil || seen != "ctwatch/1.2.3 (+mailto:owner@example.org)" {
		t.Errorf("the log sees %q, %v", seen, err)
	}
	if _, err := logclient.UserAgent("ctwatch", "1", "a\r\nHost: b"); err == nil {
		t.Error("a contact with a line end is accepted")
	}
}

// TestWaitsAsTheLogSays checks that the client waits as long as a busy log asks for, in seconds or as a date, and that
// it tries again after a temporary failure.
func TestWaitsAsTheLogSays(t *testing.T) {
	for what, of := range map[string]struct {
		status  int
		retry   string
		minWait time.Duration
	}{
		"seconds":              {http.StatusTooManyRequests, "7", 7 * time.Second},
		"a date":               {http.StatusServiceUnavailable, "Mon, 01 Mar 2027 12:00:30 GMT", 30 * time.Second},
		"a date in the past":   {http.StatusServiceUnavailable, "Mon, 01 Mar 2027 11:00:00 GMT", 0},
		"nothing":              {http.StatusTooManyRequests, "", 0},
		"nonsense":             {http.StatusTooManyRequests, "soon", 0},
		"a gateway that fails": {http.StatusBadGateway, "", 0},
	} {
		t.Run(what, func(t *testing.T) {
			testClock, asked := newClock(), 0
			c := client(t, http.HandlerFunc(func(w http.ResponseWriter, _ *http.Request) {
				if asked++; asked == 1 {
					w.Header().Set("Retry-After", of.retry)
					w.WriteHeader(of.status)
					return
				}
				fmt.Fprint(w, "the checkpoint")
			}), logclient.Options{Clock: testClock})
			content, err := c.Checkpoint(context.Background())
			if string(content) != "the checkpoint" || err != nil || len(testClock.waits) != 1 ||
				testClock.waits[0] < of.minWait || testClock.waits[0] > of.minWait+time.Second {
				t.Errorf("%q, %v after waits of %v", content, err, testClock.waits)
			}
		})
	}
}

// TestStopsAtALongWait checks that a log that asks for a long wait is not asked again, and that the error contains the
// time.
func TestStopsAtALongWait(t *testing.T) {
	testClock := newClock()
	c := client(t, http.HandlerFunc(func(w http.ResponseWriter, _ *http.Request) {
		w.Header().Set("Retry-After", "7200")
		w.WriteHeader(http.StatusTooManyRequests)
	}), logclient.Options{Clock: testClock})
	_, err := c.Checkpoint(context.Background())
	var busy *logclient.BusyError
	if !errors.As(err, &busy) || !busy.Until.Equal(testClock.now.Add(2*time.Hour)) || len(testClock.waits) != 0 {
		t.Errorf("%v after waits of %v", err, testClock.waits)
	}
}

// TestReadsDespiteRefusals checks that all 30,000 entries are read in order and in one run from a server that refuses
// one request in five, for either kind of log.
func TestReadsDespiteRefusals(t *testing.T) {
	const size = 30_000
	log := newLog(t, size)
	var asked, refused atomic.Int64
	log.Intercept(func(w http.ResponseWriter, _ *http.Request) bool {
		if asked.Add(1)%5 != 0 {
			return false
		}
		refused.Add(1)
		w.Header().Set("Retry-After", "1")
		w.WriteHeader(http.StatusTooManyRequests)
		return true
	})
	c := client(t, log, logclient.Options{Clock: newClock()})
	next := uint64(0)
	err := c.Entries(context.Background(), 0, size, func(page logclient.Page, _ bool) error {
		for i, entry := range page.Entries {
			expected := testkit.Entry{Timestamp: 1000 + next,
				Certificate: []byte{0x30, 3, byte(next >> 16), byte(next >> 8), byte(next)}}
			if page.Start+uint64(i) != next || !slices.Equal(entry.LeafInput, expected.MerkleLeaf(next)) {
				return fmt.Errorf("entry %d is %x", next, entry.LeafInput)
			}
			next++
		}
		return nil
	})
	if err != nil || next != size || refused.Load() < 20 {
		t.Errorf("%d entries after %d refusals: %v", next, refused.Load(), err)
	}
	refusedByCalls := refused.Load()
	tiles := uint64(0)
	err = c.DataTiles(context.Background(), 0, size, func(tile logclient.DataTile, _ bool) error {
		if tile.Index != tiles {
			return fmt.Errorf("tile %d comes after %d", tile.Index, tiles)
		}
		tiles++
		return nil
	})
	if err != nil || tiles != 118 || refused.Load()-refusedByCalls < 20 {
		t.Errorf("%d tiles after %d refusals: %v", tiles, refused.Load()-refusedByCalls, err)
	}
}
