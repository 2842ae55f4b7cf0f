package httpd

import (
	"bytes"
	"fmt"
	"net/http/httptest"
	"net/netip"
	"strings"
	"sync"
	"sync/atomic"
	"testing"
	"time"

	"wagtenib/internal/testkit"
)

// began is the time of the first requests in these tests.
var began = time.Date(2027, 1, 1, 0, 0, 0, 0, time.UTC)

func groupOfText(address string) netip.Prefix { return groupOf(netip.MustParseAddr(address)) }

// takes fails the test unless exactly so many requests of one address are accepted at a time.
func takes(t *testing.T, what string, r *rates, address string, at time.Time, count int) {
	t.Helper()
	for taken := 0; taken <= count; taken++ {
		if r.take(groupOfText(address), at) != (taken < count) {
			t.Fatalf("%s: after %d accepted requests of %d: %v", what, taken, count, taken >= count)
		}
	}
}

// TestRate checks that an address that asked nothing may send the requests of ten seconds of its rate at once, and then
// one more after each interval.
func TestRate(t *testing.T) {
	for _, aSecond := range []int{1, 4, 100} {
		r, interval := newRates(aSecond), time.Second/time.Duration(aSecond)
		takes(t, "at first", r, "192.0.2.1", began, 10*aSecond)
		takes(t, "just before an interval ends", r, "192.0.2.1", began.Add(interval-1), 0)
		takes(t, "after an interval", r, "192.0.2.1", began.Add(interval), 1)
		takes(t, "after three more intervals", r, "192.0.2.1", began.Add(4*interval), 3)
		takes(t, "half of the burst later", r, "192.0.2.1", began.Add(4*interval+burst/2), 5*aSecond)
		// A bucket does not hold more, however long it is not used.
		takes(t, "an hour later", r, "192.0.2.1", began.Add(time.Hour), 10*aSecond)
		takes(t, "another one", r, "192.0.2.2", began.Add(time.Hour), 10*aSecond)
	}
	// A bucket that was not empty has what it had, and what came since.
	r := newRates(1)
	for i := 0; i < 4; i++ {
		if !r.take(groupOfText("192.0.2.1"), began) {
			t.Fatal("a request within the burst is refused")
		}
	}
	takes(t, "two seconds later", r, "192.0.2.1", began.Add(2*time.Second), 8)
}

// TestRateOff checks that without a rate all requests are accepted, and no address is remembered.
func TestRateOff(t *testing.T) {
	r := newRates(0)
	if r != nil {
		t.Errorf("%+v", r)
	}
	for i := 0; i < 1000; i++ {
		if !r.take(groupOfText("192.0.2.1"), began) {
			t.Fatalf("after %d", i)
		}
	}
}

// TestRateByGroup checks that IPv6 addresses count by /64, and IPv4 addresses one by one.
func TestRateByGroup(t *testing.T) {
	r := newRates(1)
	takes(t, "an address", r, "2001:db8::1", began, 10)
	takes(t, "the same /64", r, "2001:db8::ffff:ffff:ffff:ffff", began, 0)
	takes(t, "the next /64", r, "2001:db8:0:1::", began, 10)
	takes(t, "of IPv4", r, "192.0.2.1", began, 10)
	takes(t, "the next one", r, "192.0.2.2", began, 10)
}

// TestRateAfterAClockJump checks that, if the clock jumps back, no client waits for longer than an empty bucket takes
// to fill, and none has more than a full bucket.
func TestRateAfterAClockJump(t *testing.T) {
	r := newRates(1)
	takes(t, "at first", r, "192.0.2.1", began, 10)
	before := began.Add(-time.Hour)
	takes(t, "an hour before", r, "192.0.2.1", before, 0)
	takes(t, "a second after that", r, "192.0.2.1", before.Add(time.Second), 1)
	takes(t, "eleven seconds after that", r, "192.0.2.1", before.Add(12*time.Second), 10)
	// If it jumps back by less than a bucket takes to fill, the bucket still lacks what was used: three, and five
	// seconds.
	for i := 0; i < 3; i++ {
		r.take(groupOfText("192.0.2.2"), began)
	}
	takes(t, "five seconds before", r, "192.0.2.2", began.Add(-5*time.Second), 2)
}

// knows fails the test unless the buckets are exactly those of these addresses, the last one that asked first.
func knows(t *testing.T, what string, r *rates, addresses ...string) {
	t.Helper()
	var found, wanted []string
	for one := r.buckets.Front(); one != nil; one = one.Next() {
		group := one.Value.(*bucket).group
		if r.elements[group] != one {
			t.Errorf("%s: %s has another element in the map", what, group)
		}
		found = append(found, group.String())
	}
	for _, address := range addresses {
		wanted = append(wanted, groupOfText(address).String())
	}
	if fmt.Sprint(found) != fmt.Sprint(wanted) || len(r.elements) != len(wanted) {
		t.Errorf("%s: %v and %d are known, not %v", what, found, len(r.elements), wanted)
	}
}

// TestRateForgets checks that an address whose bucket is full again is forgotten when an unknown address asks. Others
// are not.
func TestRateForgets(t *testing.T) {
	r := newRates(1)
	at := func(seconds float64, addresses ...string) {
		for _, address := range addresses {
			if !r.take(groupOfText(address), began.Add(time.Duration(seconds*float64(time.Second)))) {
				t.Fatalf("%s is refused at %v", address, seconds)
			}
		}
	}
	at(0, "192.0.2.1", "192.0.2.2", "192.0.2.2", "192.0.2.3")
	knows(t, "at first", r, "192.0.2.3", "192.0.2.2", "192.0.2.1")
	at(0.5, "192.0.2.1")
	knows(t, "one that asked again", r, "192.0.2.1", "192.0.2.3", "192.0.2.2")
	// 2 is full at 2 s, 3 at 1 s, 1 at 2 s.
	at(1.5, "192.0.2.4")
	knows(t, "a full one is used later than one that is not full", r, "192.0.2.4", "192.0.2.1", "192.0.2.3", "192.0.2.2")
	at(2, "192.0.2.5")
	knows(t, "as they are full", r, "192.0.2.5", "192.0.2.4")
	at(100, "192.0.2.5")
	knows(t, "a known one forgets none", r, "192.0.2.5", "192.0.2.4")
	at(100, "192.0.2.6")
	knows(t, "another one", r, "192.0.2.6", "192.0.2.5")
}

// TestRateTableIsFull checks that, if the maximum number of addresses is known, a new one replaces the one that asked
// the longest time ago. A refused request counts as one, too.
func TestRateTableIsFull(t *testing.T) {
	r := newRates(1)
	of := func(i int) string { return netip.AddrFrom4([4]byte{10, byte(i >> 16), byte(i >> 8), byte(i)}).String() }
	takes(t, "the first", r, of(0), began, 10)
	takes(t, "the second", r, of(1), began, 10)
	for i := 2; i < 65536; i++ {
		if !r.take(groupOfText(of(i)), began) {
			t.Fatalf("%d is refused", i)
		}
	}
	takes(t, "all of them", r, of(0), began, 0)
	if len(r.elements) != 65536 || r.buckets.Len() != 65536 {
		t.Fatalf("%d and %d are known", len(r.elements), r.buckets.Len())
	}
	takes(t, "one more", r, of(65536), began, 10)
	if len(r.elements) != 65536 || r.buckets.Len() != 65536 {
		t.Errorf("after one more %d and %d are known", len(r.elements), r.buckets.Len())
	}
	takes(t, "the one that asked lately, and was refused", r, of(0), began, 0)
	takes(t, "the one that did not", r, of(1), began, 10)
}

// TestRateAtOnce checks that goroutines that ask at once for one address get together what that address may have, and
// that each gets what its own address may have.
func TestRateAtOnce(t *testing.T) {
	r, taken, done := newRates(100), atomic.Int64{}, sync.WaitGroup{}
	for i := 0; i < 16; i++ {
		done.Add(1)
		go func(i int) {
			defer done.Done()
			for j := 0; j < 1000; j++ {
				if r.take(groupOfText("192.0.2.1"), began) {
					taken.Add(1)
				}
				if of := netip.AddrFrom4([4]byte{10, byte(i), byte(j >> 8), byte(j)}); !r.take(groupOf(of), began) {
					t.Errorf("%s is refused", of)
				}
			}
		}(i)
	}
	done.Wait()
	if taken.Load() != 1000 || len(r.elements) != 16001 || r.buckets.Len() != 16001 {
		t.Errorf("%d requests of one address are accepted, and %d and %d addresses are known", taken.Load(),
			len(r.elements), r.buckets.Len())
	}
}

// rated returns a front with rates, behind a proxy.
func rated(t *testing.T, submissions, reads int) *fixture {
	return newFixture(t, 5*time.Millisecond, func(o *Options) {
		o.Limits.SubmissionRate, o.Limits.ReadRate = submissions, reads
		o.Limits.Submitters = []Submitter{{netip.MustParsePrefix("203.0.113.0/24"), 9}}
		o.Proxies = []netip.Prefix{netip.MustParsePrefix("127.0.0.1/32")}
	})
}

// askedBy sends a client's request to a front through the proxy. The client 192.0.2.99 sends it without the proxy.
func (f *fixture) askedBy(client, method, path string, body []byte) *httptest.ResponseRecorder {
	r := httptest.NewRequest(method, path, bytes.NewReader(body))
	r.RemoteAddr = client + ":7"
	if client != "192.0.2.99" {
		r.RemoteAddr = "127.0.0.1:7"
		r.Header.Set("X-Forwarded-For", "192.0.2.99, "+client)
	}
	w := httptest.NewRecorder()
	f.front.ServeHTTP(w, r)
	return w
}

// These calls count in the rate of submissions, in that of reads, and in none. Their parameters are wrong or missing,
// so the front refuses them or answers from memory.
var (
	submitting = []string{"POST /ct/v1/add-chain", "POST /ct/v1/add-pre-chain"}
	costlyOnes = []string{"GET /ct/v1/get-entries", "HEAD /ct/v1/get-entries", "GET /ct/v1/get-sth-consistency",
		"GET /ct/v1/get-proof-by-hash", "GET /ct/v1/get-entry-and-proof"}
	cheapOnes = []string{"GET /", "GET /checkpoint", "GET /key", "GET /log.v3.json", "GET /healthz", "GET /readyz",
		"GET /ct/v1/get-roots", "GET /ct/v1/get-sth",
		"GET /tile/0/000", "GET /issuer/x", "GET /none", "OPTIONS /ct/v1/get-entries", "POST /ct/v1/get-entries",
		"GET /ct/v1/add-chain"}
)

func (f *fixture) statusOf(client, call string) int {
	method, path, _ := strings.Cut(call, " ")
	return f.askedBy(client, method, path, nil).Code
}

// empties sends requests of a client until its bucket is empty, however slow that is.
func (f *fixture) empties(client, call string) {
	f.t.Helper()
	for until := time.Now().Add(testkit.Patience); f.statusOf(client, call) != 429; {
		if time.Now().After(until) {
			f.t.Fatalf("%s of %s is never refused", call, client)
		}
	}
}

// TestRatesOfCalls checks that submissions count in one rate of an address, calls that read tiles in another one, and
// all other calls in none. Calls of submitters count in none.
func TestRatesOfCalls(t *testing.T) {
	for _, test := range []struct {
		submissions, reads int
		counted, free      []string
	}{
		{1, 0, submitting, append(costlyOnes, cheapOnes...)},
		{0, 1, costlyOnes, append(submitting, cheapOnes...)},
		{0, 0, nil, append(append(submitting, costlyOnes...), cheapOnes...)},
	} {
		f := rated(t, test.submissions, test.reads)
		for i, call := range test.counted {
			// This address has asked nothing yet.
			f.empties(fmt.Sprintf("2001:db8:0:%d::1", i), call)
		}
		for _, call := range test.free {
			for i := 0; i < 30; i++ {
				if f.statusOf("2001:db8::1", call) == 429 {
					t.Fatalf("%d and %d a second: %s is refused as the %dth", test.submissions, test.reads, call, i)
				}
			}
		}
		for _, call := range append(append([]string{}, submitting...), costlyOnes...) {
			for i := 0; i < 30; i++ {
				if f.statusOf("203.0.113.7", call) == 429 {
					t.Fatalf("%s of a submitter is refused as the %dth", call, i)
				}
			}
		}
	}
}

// TestTooOften checks that a client above a rate is refused with a name of its own, which is counted. It may ask again
// after the seconds of Retry-After. The addresses of a /64 count together. Behind a proxy the address that the proxy
// names counts. Other clients are answered all the time.
func TestTooOften(t *testing.T) {
	f := rated(t, 1, 1)
	f.fill(3)
	const entries = "/ct/v1/get-entries?start=0&end=1"
	// again sends the same call, each time from another address of one /64, until it is refused. It returns how many
	// were answered, the time before the refused request, and the refusal.
	again := func(call string) (w *httptest.ResponseRecorder, taken int, before time.Time) {
		t.Helper()
		method, path, _ := strings.Cut(call, " ")
		for until := time.Now().Add(testkit.Patience); time.Now().Before(until); taken++ {
			before = time.Now()
			if w := f.askedBy(fmt.Sprintf("2001:db8::%x", taken+1), method, path, nil); w.Code == 429 {
				return w, taken, before
			}
		}
		t.Fatalf("%s is never refused", call)
		return nil, 0, before
	}
	w, _, since := again("GET /ct/v1/get-entries")
	refused(t, "a read", w, 429, "too-often")
	if w.Header().Get("Retry-After") != "1" || !strings.Contains(w.Body.String(),
		"this address sent too many requests") || w.Header().Get("Connection") != "" {
		t.Errorf("%v %s", w.Header(), w.Body)
	}
	if _, taken, _ := again("GET /ct/v1/get-sth-consistency"); time.Duration(taken) > time.Since(since)/time.Second+1 {
		t.Errorf("%d proofs are accepted %v after a read was refused", taken, time.Since(since))
	}
	if w := f.askedBy("2001:db8:0:1::1", "GET", entries, nil); w.Code != 200 {
		t.Errorf("another one: %d %s", w.Code, w.Body)
	}
	if w := f.askedBy("192.0.2.99", "GET", entries, nil); w.Code != 200 {
		t.Errorf("a client without the proxy, whose address others named: %d %s", w.Code, w.Body)
	}
	submission := testkit.Submission(f.issue(false))
	if w := f.askedBy("2001:db8::1", "POST", "/ct/v1/add-chain", submission); w.Code != 200 {
		t.Errorf("a submission, after its reads were refused: %d %s", w.Code, w.Body)
	}
	w, _, _ = again("POST /ct/v1/add-chain")
	refused(t, "a submission", w, 429, "too-often")
	// Retry-After says one second.
	time.Sleep(time.Second)
	for what, w := range map[string]*httptest.ResponseRecorder{
		"a read":       f.askedBy("2001:db8::3", "GET", entries, nil),
		"a submission": f.askedBy("2001:db8::3", "POST", "/ct/v1/add-chain", submission),
	} {
		if w.Code != 200 {
			t.Errorf("%s after the seconds of Retry-After: %d %s", what, w.Code, w.Body)
		}
	}
	shown := httptest.NewRecorder()
	f.front.Operator().ServeHTTP(shown, httptest.NewRequest("GET", "/metrics", nil))
	for _, line := range []string{`ctserve_refusals_total{call="get-entries",refusal="too-often"} 1`,
		`ctserve_refusals_total{call="get-sth-consistency",refusal="too-often"} 1`,
		`ctserve_refusals_total{call="add-chain",refusal="too-often"} 1`,
		`ctserve_requests_total{call="add-chain",status="429"} 1`} {
		if !strings.Contains(shown.Body.String(), line+"\n") {
			t.Errorf("/metrics lacks %s", line)
		}
	}
}

// TestRatesOnThePages checks that the pages state the right rates.
func TestRatesOnThePages(t *testing.T) {
	testkit.Says(t, testkit.Page(t, "../../../docs/SERVICE.md"), map[string]bool{
		"An address may use ten seconds of its rate at once":   burst == 10*time.Second,
		"`ctserve` remembers how often 65,536 addresses asked": maxBuckets == 65536,
		"A request above the rate gets status 429 `too-often`, with Retry-After: 1": tooOften.status == 429 &&
			tooOften.name == "too-often" && tooOften.after == 1,
	})
	limits := DefaultLimits()
	testkit.Says(t, testkit.Page(t, "../../../docs/OPERATING.md"), map[string]bool{
		"By default, no address has a rate": limits.SubmissionRate == 0 && limits.ReadRate == 0,
	})
}
