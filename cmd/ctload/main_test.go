package main

import (
	"bytes"
	"context"
	"encoding/base64"
	"encoding/json"
	"errors"
	"fmt"
	"io"
	"math/rand"
	"net/http"
	"net/http/httptest"
	"os"
	"path/filepath"
	"strings"
	"sync"
	"testing"
	"time"

	"wagtenib/internal/audit/judge"
	"wagtenib/internal/testkit"
)

var must = testkit.Must

func limited(t testing.TB) context.Context { return testkit.Limited(t, testkit.Longest) }

// node is a node of a log whose answers are determined by the test.
type node struct {
	*httptest.Server
	mu       sync.Mutex
	requests []*http.Request
	answer   func(nth int, w http.ResponseWriter)
}

func newNode(t testing.TB, answer func(nth int, w http.ResponseWriter)) *node {
	n := &node{answer: answer}
	n.Server = httptest.NewServer(http.HandlerFunc(func(w http.ResponseWriter, q *http.Request) {
		n.mu.Lock()
		n.requests = append(n.requests, q)
		nth := len(n.requests)
		n.mu.Unlock()
		n.answer(nth, w)
	}))
	t.Cleanup(n.Close)
	return n
}

func (n *node) count() int {
	n.mu.Lock()
	defer n.mu.Unlock()
	return len(n.requests)
}

const timestamp = `{"sct_version":0,"id":"AQI=","timestamp":7,"extensions":"AwQ=","signature":"BQY="}`

func answerRight(_ int, w http.ResponseWriter) { fmt.Fprint(w, timestamp) }

// loadOf returns a load on nodes, and the text to which its answers are written.
func loadOf(t testing.TB, nodes ...*node) (*load, *bytes.Buffer) {
	authority := testkit.NewAuthority("An authority of tests")
	var answers bytes.Buffer
	l := &load{settings: settings{authority: authority, notAfter: time.Now().AddDate(0, 6, 0)},
		answers: json.NewEncoder(&answers), results: results{retries: map[string]int{}},
		client: &http.Client{Timeout: requestTimeout}}
	for _, n := range nodes {
		l.nodes = append(l.nodes, n.URL)
	}
	return l, &answers
}

var some = submission{"add-chain", []byte(`{"chain":[]}`), judge.Answer{Certificate: []byte("a certificate")}}

// TestSubmit checks that after an answer that a node is busy, late or broken, the next node is asked, that a submission
// that is refused as wrong is not repeated, and that answers are returned with their entries.
func TestSubmit(t *testing.T) {
	busy := newNode(t, func(_ int, w http.ResponseWriter) { w.WriteHeader(http.StatusServiceUnavailable) })
	many := newNode(t, func(_ int, w http.ResponseWriter) { w.WriteHeader(http.StatusTooManyRequests) })
	answers := newNode(t, answerRight)
	l, _ := loadOf(t, answers, busy, many)
	answer, err := l.submit(limited(t), some, 1)
	expected := judge.Answer{Certificate: []byte("a certificate"), Timestamp: 7, Extensions: []byte{3, 4},
		Signature: []byte{5, 6}, LogID: []byte{1, 2}}
	if err != nil || fmt.Sprint(*answer) != fmt.Sprint(expected) {
		t.Fatalf("%+v, %v", answer, err)
	}
	if busy.count() != 1 || many.count() != 1 || answers.count() != 1 || fmt.Sprint(l.retries) != "map[429:1 503:1]" {
		t.Errorf("asked %d, %d and %d times; again: %v", busy.count(), many.count(), answers.count(), l.retries)
	}
	for _, n := range []*node{busy, answers} {
		if q := n.requests[0]; q.Method != "POST" || q.URL.Path != "/ct/v1/add-chain" ||
			q.Header.Get("Content-Type") != "application/json" {
			t.Errorf("%s %s, %q", q.Method, q.URL.Path, q.Header)
		}
	}
	for _, status := range []int{400, 403, 404, 413, 422} {
		wrong := newNode(t, func(_ int, w http.ResponseWriter) {
			w.WriteHeader(status)
			fmt.Fprint(w, "why")
		})
		l, _ := loadOf(t, wrong)
		if answer, err := l.submit(limited(t), some, 0); err == nil ||
			!strings.Contains(err.Error(), fmt.Sprintf("add-chain: %d: why", status)) || answer != nil ||
			wrong.count() != 1 {
			t.Errorf("%d: %+v, %v, asked %d times", status, answer, err, wrong.count())
		}
	}
	ended, cancel := context.WithCancel(context.Background())
	cancel()
	if answer, err := l.submit(ended, some, 0); answer != nil || err != nil || answers.count() != 1 {
		t.Errorf("after the end: %+v, %v", answer, err)
	}
	// A submission that is not answered before the end is not sent again.
	ending, cancel := context.WithCancel(context.Background())
	l, _ = loadOf(t, newNode(t, func(_ int, w http.ResponseWriter) {
		cancel()
		w.WriteHeader(http.StatusServiceUnavailable)
	}))
	if answer, err := l.submit(ending, some, 0); answer != nil || err != nil || len(l.retries) != 0 {
		t.Errorf("at the end: %+v, %v; again: %v", answer, err, l.retries)
	}
}

// TestReadAnswer checks that an answer that is not an SCT of version 1 is an error.
func TestReadAnswer(t *testing.T) {
	for _, reply := range []string{"", "x", "[]", strings.Replace(timestamp, `"sct_version":0`, `"sct_version":1`, 1),
		strings.Replace(timestamp, "7", `"7"`, 1), strings.Replace(timestamp, "AQI=", "AQI", 1)} {
		if answer, err := readAnswer(some, []byte(reply)); err == nil || !strings.Contains(err.Error(),
			"no timestamp") ||
			answer != nil {
			t.Errorf("%q: %+v, %v", reply, answer, err)
		}
	}
}

// zeros is a random source that always returns the smallest value.
type zeros struct{}

func (zeros) Int63() int64 { return 0 }
func (zeros) Seed(int64)   {}

// TestNext checks that nothing is submitted twice if repeats is 0, and that a past submission is repeated otherwise.
func TestNext(t *testing.T) {
	l, _ := loadOf(t)
	random := rand.New(zeros{})
	must(t, l.store(some, judge.Answer{}, time.Second))
	s := l.next(random)
	if s.call != "add-pre-chain" || len(s.of.TBSCertificate) == 0 || len(s.of.IssuerKeyHash) != 32 ||
		s.of.Certificate != nil {
		t.Errorf("%s of %+v", s.call, s.of)
	}
	l.repeats = 1
	if s = l.next(random); s.call != "add-chain" || string(s.of.Certificate) != "a certificate" {
		t.Errorf("%s of %+v", s.call, s.of)
	}
}

// TestPrepared checks that prepared submissions are sent first, each once, and that new ones are made after them.
func TestPrepared(t *testing.T) {
	l, _ := loadOf(t)
	l.prepare(20)
	if len(l.prepared) != 20 {
		t.Fatalf("%d are prepared", len(l.prepared))
	}
	seen, calls := map[string]bool{}, map[string]int{}
	for i := 0; i < 25; i++ {
		s := l.next(rand.New(zeros{}))
		if seen[string(s.body)] {
			t.Errorf("%d: %s is repeated", i, s.call)
		}
		seen[string(s.body)] = true
		calls[s.call]++
	}
	if len(l.prepared) != 0 || calls["add-chain"] == 0 || calls["add-pre-chain"] == 0 {
		t.Errorf("%d are left, of %v", len(l.prepared), calls)
	}
}

// TestStore checks that each answer is written, and that its latency and its submission are stored up to a maximum
// number.
func TestStore(t *testing.T) {
	l, answers := loadOf(t)
	for i := 0; i < maxPast+3; i++ {
		one := some
		one.call = fmt.Sprint(i)
		must(t, l.store(one, judge.Answer{Timestamp: uint64(i)}, time.Duration(i)*time.Millisecond))
	}
	calls := map[string]bool{}
	for _, one := range l.past {
		calls[one.call] = true
	}
	if l.count != maxPast+3 || len(l.past) != maxPast || len(calls) != maxPast || !calls[fmt.Sprint(maxPast+2)] ||
		len(l.latencies) != maxPast+3 {
		t.Errorf("%d answers, %d submissions of which %d differ, %d latencies", l.count, len(l.past),
			len(calls), len(l.latencies))
	}
	if lines := strings.Count(answers.String(), "\n"); lines != maxPast+3 ||
		!strings.Contains(answers.String(), fmt.Sprintf(`"timestamp":%d,`, maxPast+2)) {
		t.Errorf("%d lines", lines)
	}
	// The newest latencies are also stored.
	l.latencies, l.answers = make([]time.Duration, maxLatencies), json.NewEncoder(io.Discard)
	for i := 0; i < 3; i++ {
		must(t, l.store(some, judge.Answer{}, time.Hour))
	}
	hours := 0
	for _, latency := range l.latencies {
		if latency == time.Hour {
			hours++
		}
	}
	if len(l.latencies) != maxLatencies || hours != 3 {
		t.Errorf("%d latencies are stored, and %d of the last three", len(l.latencies), hours)
	}
	full := errors.New("the disk is full")
	l.answers = json.NewEncoder(failing{full})
	if err := l.store(some, judge.Answer{}, 0); !errors.Is(err, full) {
		t.Error(err)
	}
}

// failing is a writer that fails.
type failing struct{ why error }

func (f failing) Write([]byte) (int, error) { return 0, f.why }

// TestMetrics checks the median, the 99th percentile and the maximum of the latencies.
func TestMetrics(t *testing.T) {
	l, _ := loadOf(t)
	if line := l.metrics(2 * time.Second); line != "0 answered in 2.0 s: 0.0 a second; median 0.000 s, 99th "+
		"percentile 0.000 s, longest 0.000 s" {
		t.Error(line)
	}
	for i := 100; i >= 0; i-- {
		l.latencies, l.count = append(l.latencies, time.Duration(i)*time.Millisecond), l.count+1
	}
	l.retries["503"] = 2
	if line := l.metrics(2 * time.Second); line != "101 answered in 2.0 s: 50.5 a second; median 0.050 s, 99th "+
		"percentile 0.099 s, longest 0.100 s; sent again: map[503:2]" {
		t.Error(line)
	}
}

// TestWaitForRoot checks that each node is asked until its roots have the CA, and that the wait ends with the program.
func TestWaitForRoot(t *testing.T) {
	var l *load
	slow := newNode(t, func(nth int, w http.ResponseWriter) {
		switch root := base64.StdEncoding.EncodeToString(l.authority.Root.Raw); nth {
		case 1:
			w.WriteHeader(http.StatusServiceUnavailable)
		case 2:
			fmt.Fprint(w, `{"certificates":["AAAA"]}`)
		default:
			fmt.Fprintf(w, `{"certificates":["AAAA",%q]}`, root)
		}
	})
	l, _ = loadOf(t, slow)
	must(t, l.waitForRoot(limited(t)))
	if slow.count() != 3 || slow.requests[0].URL.Path != "/ct/v1/get-roots" {
		t.Errorf("asked %d times", slow.count())
	}
	never := newNode(t, func(_ int, w http.ResponseWriter) { fmt.Fprint(w, `{"certificates":[]}`) })
	l, _ = loadOf(t, never)
	ended, cancel := context.WithCancel(context.Background())
	cancel()
	errs := make(chan error, 1)
	go func() { errs <- l.waitForRoot(ended) }()
	select {
	case err := <-errs:
		if !errors.Is(err, context.Canceled) {
			t.Error(err)
		}
	case <-limited(t).Done():
		t.Error("the wait does not end with its context")
	}
}

// TestRunClients checks that clients end after the requested number of answers, each of which is written. If one is
// refused, all end with the reason.
func TestRunClients(t *testing.T) {
	answers := newNode(t, answerRight)
	l, written := loadOf(t, answers)
	l.maxAnswers = 5
	must(t, l.runClients(limited(t), 1, time.Minute))
	if l.count != 5 || answers.count() != 5 || strings.Count(written.String(), "\n") != 5 {
		t.Errorf("%d answers of %d requests, %d written", l.count, answers.count(),
			strings.Count(written.String(), "\n"))
	}
	refuses := newNode(t, func(nth int, w http.ResponseWriter) {
		if nth == 4 {
			w.WriteHeader(http.StatusBadRequest)
			return
		}
		answerRight(nth, w)
	})
	l, _ = loadOf(t, refuses)
	timeout := time.AfterFunc(testkit.Longest, func() { l.mu.Lock(); defer l.mu.Unlock(); l.maxAnswers = 1 })
	defer timeout.Stop()
	err := l.runClients(limited(t), 3, time.Minute)
	if err == nil || !strings.Contains(err.Error(), ": 400: ") {
		t.Errorf("one is refused: %v", err)
	}
	l.mu.Lock()
	defer l.mu.Unlock()
	if l.maxAnswers != 0 {
		t.Error("one is refused, and the others continue")
	}
}

// TestAdd checks that add appends to a file.
func TestAdd(t *testing.T) {
	path := filepath.Join(t.TempDir(), "roots.pem")
	for _, text := range []string{"one\n", "two\n"} {
		must(t, add(path, []byte(text)))
	}
	if text, err := os.ReadFile(path); err != nil || string(text) != "one\ntwo\n" {
		t.Errorf("%q, %v", text, err)
	}
	for _, wrong := range []string{filepath.Join(path, "x"), "/dev/full"} {
		if err := add(wrong, []byte("x")); err == nil {
			t.Errorf("text is appended to %s", wrong)
		}
	}
}
