// Package httpd answers a log's calls over HTTP/1.1: those of RFC 6962, section 4, and of C2SP static-ct-api. It
// only transports. Its answers come from a log.Log, and a chain.Checker decides which chains are accepted.
// Nothing in it grows without a bound: there are bounds for connections, for the bytes of bodies and waiting
// submissions, each in all and by address, for the bytes of objects in responses, and for the time of each request. The
// submissions and the calls of an address that read tiles may have a rate.
package httpd

import (
	"context"
	"net/http"
	"net/netip"
	"runtime"
	"runtime/debug"
	"strings"
	"sync/atomic"
	"time"

	"wagtenib/internal/blob"
	"wagtenib/internal/command/eventlog"
	"wagtenib/internal/log"
	"wagtenib/internal/log/chain"
	"wagtenib/internal/tiles"
)

// The bounds that no option changes.
const (
	// MaxHeader is the maximum number of bytes of the headers of a request.
	MaxHeader = 16 << 10
	// MaxBody is the maximum number of bytes of a submission. Its chain, in base64, has at most chain.MaxBytes.
	MaxBody = 1 << 20
	// MaxEntries is the maximum number of entries in an answer to get-entries.
	MaxEntries = 256
	// MaxEntryBytes is the maximum size of entries in one response in bytes, before base64. The first entry may be
	// larger.
	MaxEntryBytes = 1000000
)

// Limits are the bounds that an operator may change.
type Limits struct {
	// Headers is the maximum time to receive the headers of a request, and Request that for the whole request with its
	// body.
	Headers, Request time.Duration
	// Submission is the maximum time for a submission to be checked and covered by a published head.
	Submission time.Duration
	// Reading is the maximum time for which a call waits for the log.
	Reading time.Duration
	// Answer is the maximum time to send an answer.
	Answer time.Duration
	// Idle is the maximum time for which a connection is kept between two requests.
	Idle time.Duration
	// Connections is the maximum number of connections at once, and ConnectionsByAddress that of one address (for IPv6,
	// of one /64). For clients behind a proxy, ConnectionsByAddress bounds the requests at once.
	Connections, ConnectionsByAddress int
	// Submitters have bounds of their own instead of ConnectionsByAddress.
	Submitters []Submitter
	// ProofsByAddress is the maximum number of proofs that are made at once for one address.
	ProofsByAddress int
	// SubmissionRate is the maximum number of submissions of one address in a second, and ReadRate that of its proofs
	// and get-entries, which are made of tiles. 0 means that there is no bound. Submitters have no rate.
	SubmissionRate, ReadRate int
	// Checks is the maximum number of chains that are checked at once.
	Checks int
	// WaitingBytes is the maximum number of bytes of all submissions that are being read or checked, or are waiting.
	// One address may have an eighth of it, and at least one body of the maximum size.
	WaitingBytes int64
	// AnswerBytes is the maximum number of bytes of objects that are being read for answers or sent. One address may
	// have an eighth of it, and at least one object of the maximum size and one data tile of unknown size.
	AnswerBytes int64
}

// byAddress returns the bound of one address: an eighth of the bound of all, and at least minimum.
func byAddress(all, minimum int64) int {
	if all/8 > minimum {
		return int(all / 8)
	}
	return int(minimum)
}

// DefaultLimits returns the limits of a log on one machine.
func DefaultLimits() Limits {
	return Limits{
		Headers: 10 * time.Second, Request: 20 * time.Second, Submission: 30 * time.Second, Reading: 10 * time.Second,
		Answer: 60 * time.Second, Idle: 60 * time.Second,
		Connections: 4096, ConnectionsByAddress: 64, ProofsByAddress: 16,
		Checks: 2 * runtime.GOMAXPROCS(0), WaitingBytes: 64 << 20, AnswerBytes: 512 << 20,
	}
}

// Options are the options of a front.
type Options struct {
	Limits Limits
	// Proxies are the addresses of trusted proxies. A front takes the last address in their X-Forwarded-For as the
	// client's.
	Proxies []netip.Prefix
	// Lines receives log lines. A nil Lines writes nothing.
	Lines *eventlog.Lines
	// LogRequests logs every request, and not only those that fail because of the log.
	LogRequests bool
	// ReadOnly refuses submissions to a log that accepts no more. Its entries can be read as before.
	ReadOnly bool
	// About has what the log publishes about itself.
	About About
	// Stores counts the calls of the log's stores. It may be nil.
	Stores *blob.Calls
	// Forward forwards submissions to another node. It is nil if the log has one node only.
	Forward Forwarder
}

// Front answers the calls of one log. It is the http.Handler for clients. Operator returns the one for operators.
type Front struct {
	log     log.Log
	reader  *tiles.Prover
	checker *chain.Checker
	options Options
	limits  Limits
	metrics *metrics
	ending  atomic.Bool
	uses    uses
	roots   atomic.Pointer[encodedRoots]
	issuers issuers
}

// New makes a front of a log. The prover makes proofs from the log's tiles.
func New(log log.Log, proofs *tiles.Prover, checker *chain.Checker, options Options) *Front {
	limits := options.Limits
	limits.Checks = max(limits.Checks, 1)
	f := &Front{log: log, reader: proofs, checker: checker, options: options, limits: limits, uses: usesOf(limits)}
	f.metrics = newMetrics(f)
	return f
}

// Refuse makes the front refuse all further submissions. From then on, /readyz answers that the log ends.
func (f *Front) Refuse() { f.ending.Store(true) }

// call answers the requests for one path, or for all paths below one.
type call struct {
	name   string
	method string
	serve  func(*Front, http.ResponseWriter, *http.Request) error
	costs  cost
}

// cost says in which rate of an address a call counts: in none, in that of submissions, or in that of calls that read
// tiles.
type cost int

const (
	_ cost = iota
	aSubmission
	aRead
)

var (
	calls = map[string]call{
		"/":                          {"page", http.MethodGet, (*Front).page, 0},
		"/checkpoint":                {"checkpoint", http.MethodGet, (*Front).checkpoint, 0},
		"/key":                       {"key", http.MethodGet, (*Front).key, 0},
		"/log.v3.json":               {"entry", http.MethodGet, (*Front).entry, 0},
		"/healthz":                   {"healthz", http.MethodGet, (*Front).healthz, 0},
		"/readyz":                    {"readyz", http.MethodGet, (*Front).readyz, 0},
		"/ct/v1/add-chain":           {"add-chain", http.MethodPost, (*Front).addChain, aSubmission},
		"/ct/v1/add-pre-chain":       {"add-pre-chain", http.MethodPost, (*Front).addPreChain, aSubmission},
		"/ct/v1/get-roots":           {"get-roots", http.MethodGet, (*Front).getRoots, 0},
		"/ct/v1/get-sth":             {"get-sth", http.MethodGet, (*Front).getSTH, 0},
		"/ct/v1/get-entries":         {"get-entries", http.MethodGet, (*Front).getEntries, aRead},
		"/ct/v1/get-sth-consistency": {"get-sth-consistency", http.MethodGet, (*Front).getSTHConsistency, aRead},
		"/ct/v1/get-proof-by-hash":   {"get-proof-by-hash", http.MethodGet, (*Front).getProofByHash, aRead},
		"/ct/v1/get-entry-and-proof": {"get-entry-and-proof", http.MethodGet, (*Front).getEntryAndProof, aRead},
	}
	tileCall   = call{"tile", http.MethodGet, (*Front).tile, 0}
	issuerCall = call{"issuer", http.MethodGet, (*Front).issuer, 0}
	noCall     = call{"none", "", nil, 0}
)

// callOf returns the call of a request. It uses the path as it is: it does not clean it, and no name has encoded
// characters.
func callOf(r *http.Request) call {
	if r.URL.RawPath != "" {
		return noCall
	}
	if c, there := calls[r.URL.Path]; there {
		return c
	}
	switch {
	case strings.HasPrefix(r.URL.Path, "/tile/"):
		return tileCall
	case strings.HasPrefix(r.URL.Path, "/issuer/"):
		return issuerCall
	}
	return noCall
}

// ServeHTTP answers a client.
func (f *Front) ServeHTTP(w http.ResponseWriter, r *http.Request) {
	began := time.Now()
	c := callOf(r)
	a := &answer{ResponseWriter: w}
	defer func() {
		if fault := recover(); fault != nil {
			if fault == http.ErrAbortHandler {
				panic(fault)
			}
			f.options.Lines.Error("panic", "call", c.name, "fault", fault, "stack", string(debug.Stack()))
			f.refuse(a, refusal{status: http.StatusInternalServerError, name: "internal"})
		}
		f.count(c, a, r, time.Since(began))
		a.end()
	}()
	a.Header().Set("X-Content-Type-Options", "nosniff")
	if len(r.TransferEncoding) > 0 {
		// If two programs on the way disagree about the end of a body, one reads its rest as a request (RFC 9112,
		// section 6.1).
		f.refuse(a, refusal{status: http.StatusLengthRequired, name: "length-required", closes: true})
		return
	}
	if c.method == http.MethodGet {
		a.Header().Set("Access-Control-Allow-Origin", anyOrigin)
		a.Header().Set("Access-Control-Expose-Headers", "ETag, Retry-After, Content-Range")
	}
	client := f.clientOf(r)
	if !isUncounted(r.Context()) {
		if !f.uses.requests.take(client) {
			f.refuse(a, tooMany)
			return
		}
		defer f.uses.requests.give(client)
	}
	own := &held{all: &f.uses.answers, byClient: &f.uses.answersByClient, client: client}
	defer own.giveAll()
	if err := f.serve(c, a, r.WithContext(context.WithValue(r.Context(), heldKey{}, own))); err != nil {
		refused := refusalOf(err)
		if refused.status >= http.StatusInternalServerError && r.Context().Err() == context.Canceled {
			refused = gone
		}
		f.refuse(a, refused)
	}
}

// tooMany refuses a request because the client has too many requests at once.
var tooMany = refusal{status: http.StatusTooManyRequests, name: "too-many-requests", after: 1}

// operatorKey is in the context of an operator's request, which counts for no client.
type operatorKey struct{}

func (f *Front) serve(c call, w http.ResponseWriter, r *http.Request) error {
	if c.serve == nil {
		return refusal{status: http.StatusNotFound, name: "no-such-path"}
	}
	if r.Method == http.MethodOptions && c.method == http.MethodGet && r.ContentLength == 0 {
		// A browser sends this request before it lets a page of another origin send one (the Fetch standard, section
		// 3.2).
		w.Header().Set("Allow", allowed(c))
		w.Header().Set("Access-Control-Allow-Methods", allowed(c))
		w.Header().Set("Access-Control-Allow-Headers", "If-None-Match, Range")
		w.Header().Set("Access-Control-Max-Age", "86400")
		w.WriteHeader(http.StatusNoContent)
		return nil
	}
	if r.Method != c.method && !(r.Method == http.MethodHead && c.method == http.MethodGet) {
		w.Header().Set("Allow", allowed(c))
		return refusal{status: http.StatusMethodNotAllowed, name: "method"}
	}
	if c.method == http.MethodGet && r.ContentLength != 0 {
		return refusal{status: http.StatusBadRequest, name: "body", detail: "a GET request must have no body", closes: true}
	}
	if r.Context().Value(nodeKey{}) == nil && !f.isInRate(c, f.clientOf(r)) {
		return tooOften
	}
	return c.serve(f, w, r)
}

func allowed(c call) string {
	if c.method == http.MethodGet {
		return "GET, HEAD, OPTIONS"
	}
	return c.method
}

// answer records a response. It holds back the last byte until the request's resources are freed and it is counted. So
// a client that has the whole response and asks again at once is not refused because of its previous request.
type answer struct {
	http.ResponseWriter
	status  int
	bytes   int64
	refusal string
	detail  string
	held    []byte
}

func (a *answer) WriteHeader(status int) {
	if a.status == 0 {
		a.status = status
	}
	a.ResponseWriter.WriteHeader(status)
}

func (a *answer) Write(bytes []byte) (int, error) {
	if a.status == 0 {
		a.status = http.StatusOK
	}
	a.end()
	n, err := len(bytes), error(nil)
	if n > 1 {
		n, err = a.ResponseWriter.Write(bytes[:n-1])
	}
	if err == nil && len(bytes) > 0 {
		a.held, n = []byte{bytes[len(bytes)-1]}, len(bytes)
	}
	a.bytes += int64(n)
	return n, err
}

// end sends the byte that was held back. A write that fails concerns only the client.
func (a *answer) end() {
	if len(a.held) > 0 {
		a.ResponseWriter.Write(a.held)
		a.held = nil
	}
}

// count counts and logs a request.
func (f *Front) count(c call, a *answer, r *http.Request, took time.Duration) {
	f.metrics.request(c.name, a.status, a.refusal, took)
	fault := a.status >= 500 && c.name != "readyz"
	if !fault && !f.options.LogRequests {
		return
	}
	log := f.options.Lines.Info
	if fault {
		log = f.options.Lines.Warn
	}
	log("request", "call", c.name, "method", r.Method, "status", a.status, "refusal", a.refusal, "detail", a.detail,
		"bytes", a.bytes, "ms", float64(took.Microseconds())/1000, "address", f.clientOf(r).String())
}

// clientOf returns the address of the client of a request. It is the peer's, or if the peer is a proxy or another node,
// the one that the peer names.
func (f *Front) clientOf(r *http.Request) netip.Addr {
	peer := addressOf(r.RemoteAddr)
	if r.Context().Value(nodeKey{}) == nil && !f.isProxy(peer) {
		return peer
	}
	named := r.Header.Values("X-Forwarded-For")
	if len(named) == 0 {
		return peer
	}
	last := named[len(named)-1]
	last = strings.TrimSpace(last[strings.LastIndexByte(last, ',')+1:])
	if address, err := netip.ParseAddr(last); err == nil {
		return address.Unmap().WithZone("")
	}
	return peer
}

func (f *Front) isProxy(address netip.Addr) bool {
	for _, proxy := range f.options.Proxies {
		if proxy.Contains(address) {
			return true
		}
	}
	return false
}
