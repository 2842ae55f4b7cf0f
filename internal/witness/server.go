package witness

import (
	"context"
	"crypto/ed25519"
	"errors"
	"fmt"
	"io"
	"net/http"
	"strconv"
	"sync"
	"time"

	"golang.org/x/mod/sumdb/note"

	"wagtenib/internal/blob"
	"wagtenib/internal/ct"
)

const (
	// maxTries is the maximum number of decisions for one request while other requests change the state, and the
	// maximum number of tries of a swap of unknown outcome.
	maxTries = 5
	// maxConcurrent is the maximum number of requests that are answered at once, and requestTimeout the time that one
	// may take.
	maxConcurrent  = 64
	requestTimeout = 20 * time.Second
	// maxLag is the maximum number of seconds by which the clock may be behind the last cosignature's timestamp. The
	// next cosignature then has that timestamp.
	maxLag = 60
)

// The kinds of errors of a witness. Use errors.Is.
var (
	// ErrState means that a log's state is missing, or is not a state of this log.
	ErrState = errors.New("witness: no state of the log")
	// ErrDecision means that a decision does not match its request.
	ErrDecision = errors.New("witness: not a decision of the request")
	// ErrClock means that the clock is earlier than the last cosignature.
	ErrClock = errors.New("witness: the clock went back")
)

// Log is a log to cosign, with the keys that sign its notes and the lock that has its state. If Accepted is not nil, it
// returns the tree that a monitor accepted last, and the witness cosigns only that tree.
type Log struct {
	Origin   string
	Keys     []note.Verifier
	State    blob.Lock
	Accepted func() (size uint64, root [32]byte, err error)
}

// Create stores the first state of a log that this witness never saw. It returns blob.ErrExists if there is a state.
func (l Log) Create(ctx context.Context) error {
	text, err := emptyState(l.Origin).text()
	if err != nil {
		return err
	}
	if err := l.State.Create(ctx, text); err != nil {
		return fmt.Errorf("witness: the state of %s: %w", l.Origin, err)
	}
	return nil
}

// Options has the settings of a witness.
type Options struct {
	Name string
	Key  ed25519.PrivateKey
	// Log logs an event that an operator must look at. A nil Log logs nothing.
	Log func(event string, arguments ...any)
}

// Server is a witness. Proved code makes its decisions and keeps no state: it receives the last message with each
// request, and returns the next one. The next message is stored, by a swap that replaces the state that was read,
// before it is signed.
type Server struct {
	options  Options
	public   ed25519.PublicKey
	decision decision      // the proved one, except in tests
	slots    chan struct{} // each request that is being answered has one
	metrics  *metrics
	// now returns the time in seconds since 1970.
	now func() uint64

	mu   sync.Mutex
	logs map[string]*Log
	// seen has the newest state of each origin that this process read or stored. While the process runs, the lock must
	// not return an older one.
	seen map[string]state
}

// New returns a witness of no logs.
func New(options Options) (*Server, error) {
	if !isName(options.Name) {
		return nil, fmt.Errorf("%w: a witness's name has neither spaces nor a plus sign", ErrKey)
	}
	if options.Log == nil {
		options.Log = func(string, ...any) {}
	}
	s := &Server{
		options: options, decision: provedDecision, public: options.Key.Public().(ed25519.PublicKey),
		slots: make(chan struct{}, maxConcurrent), logs: map[string]*Log{}, seen: map[string]state{},
		now: func() uint64 { return uint64(time.Now().Unix()) },
	}
	s.metrics = newMetrics()
	return s, nil
}

// VerifierKey returns the key by which clients verify the witness's cosignatures.
func (s *Server) VerifierKey() string { return VerifierKey(s.options.Name, s.public) }

// Check returns an error if a log's state is missing, or is not a state of this log.
func (s *Server) Check(ctx context.Context, log Log) error {
	text, err := log.State.Read(ctx)
	if errors.Is(err, blob.ErrAbsent) {
		return fmt.Errorf("%w %s: there is none", ErrState, log.Origin)
	}
	if err != nil {
		return fmt.Errorf("witness: the state of %s: %w", log.Origin, err)
	}
	last, err := readState(text, log.Origin)
	if err == nil {
		s.metrics.stored(last)
	}
	return err
}

// SetLogs sets the logs that are witnessed, in place of those before.
func (s *Server) SetLogs(logs []Log) {
	s.mu.Lock()
	defer s.mu.Unlock()
	before := s.logs
	s.logs = map[string]*Log{}
	for i := range logs {
		s.logs[logs[i].Origin] = &logs[i]
	}
	for origin := range before {
		if s.logs[origin] == nil {
			s.metrics.forget(origin)
		}
	}
}

func (s *Server) log(origin string) *Log {
	s.mu.Lock()
	defer s.mu.Unlock()
	return s.logs[origin]
}

// answer is an HTTP response: its status, its media type and its text.
type answer struct {
	status int
	kind   string
	text   string
}

// textPlain is the media type of all answers except 409.
const textPlain = "text/plain; charset=utf-8"

func plain(status int, text string) answer { return answer{status, textPlain, text} }

// failed answers an error that is not the client's fault, and logs it.
func (s *Server) failed(event, origin string, err error) answer {
	s.options.Log(event, "origin", origin, "fault", err)
	return plain(http.StatusServiceUnavailable, event+"\n")
}

// add answers an add-checkpoint request.
func (s *Server) add(ctx context.Context, body []byte) answer {
	r, err := ParseRequest(body)
	if err != nil {
		return plain(http.StatusBadRequest, err.Error()+"\n")
	}
	log := s.log(r.Origin())
	if log == nil {
		return plain(http.StatusNotFound, "no such log\n")
	}
	if _, err := note.Open(r.Note, note.VerifierList(log.Keys...)); err != nil {
		return plain(http.StatusForbidden, "no signature of a key of the log\n")
	}
	for try := 0; try < maxTries; try++ {
		// Other requests may change the state, but what is read here must not be older than what was seen before.
		before := s.newestSeen(log.Origin)
		text, err := log.State.Read(ctx)
		if err != nil {
			return s.failed("state", log.Origin, err)
		}
		reply, again := s.decide(ctx, log, text, before, r)
		if !again {
			return reply
		}
		s.metrics.lostSwaps.Inc()
	}
	return plain(http.StatusServiceUnavailable, "busy\n")
}

// decide decides a request over a state that was read after `before` had been seen, and stores the next state. It
// returns again if the lock has another state meanwhile.
func (s *Server) decide(ctx context.Context, log *Log, text string, before state,
	r Request) (reply answer, again bool) {
	last, err := readState(text, log.Origin)
	if err == nil {
		err = checkNotOlder(last, before)
	}
	if err != nil {
		return s.failed("state", log.Origin, err), false
	}
	s.remember(last)
	now := s.now()
	if now < last.tree.Time {
		if now+maxLag < last.tree.Time {
			return s.failed("clock", log.Origin, fmt.Errorf("%w: it is at %d, and the last cosignature was at %d",
				ErrClock, now, last.tree.Time)), false
		}
		now = last.tree.Time
	}
	next, err := s.next(last, r, now)
	if err != nil {
		return s.refused(last, err), false
	}
	if reply, isUnread := s.unread(log, next.tree); isUnread {
		return reply, false
	}
	switch err := swap(ctx, log.State, text, next); {
	case errors.Is(err, blob.ErrLost):
		return answer{}, true
	case err != nil:
		return s.failed("state", log.Origin, err), false
	}
	s.remember(next)
	s.metrics.stored(next)
	s.metrics.cosigned(log.Origin)
	return plain(http.StatusOK, ct.SignatureLine(OfCosigner(s.options.Name, s.public), now,
		ed25519.Sign(s.options.Key, next.message))), false
}

// swap stores the next state. If the outcome is unknown it repeats the swap, which determines the outcome.
func swap(ctx context.Context, lock blob.Lock, old string, next state) error {
	text, err := next.text()
	if err != nil {
		return err
	}
	for try := 0; try < maxTries; try++ {
		if err = lock.Swap(ctx, old, text); !errors.Is(err, blob.ErrUnknown) {
			break
		}
	}
	return err
}

// ServeHTTP answers POST /add-checkpoint.
func (s *Server) ServeHTTP(w http.ResponseWriter, q *http.Request) {
	reply := s.respond(w, q)
	s.metrics.requests.WithLabelValues(strconv.Itoa(reply.status)).Inc()
	w.Header().Set("Content-Type", reply.kind)
	w.Header().Set("Cache-Control", "no-store")
	w.Header().Set("X-Content-Type-Options", "nosniff")
	if reply.status == http.StatusServiceUnavailable {
		w.Header().Set("Retry-After", "1")
	}
	w.WriteHeader(reply.status)
	// A client that disconnected before its response asks again.
	_, _ = io.WriteString(w, reply.text)
}

func (s *Server) respond(w http.ResponseWriter, q *http.Request) answer {
	switch {
	case q.URL.Path != "/add-checkpoint":
		return plain(http.StatusNotFound, "no such call\n")
	case q.Method != http.MethodPost:
		w.Header().Set("Allow", http.MethodPost)
		return plain(http.StatusMethodNotAllowed, "only POST is allowed\n")
	}
	select {
	case s.slots <- struct{}{}:
		defer func() { <-s.slots }()
	default:
		return plain(http.StatusServiceUnavailable, "busy\n")
	}
	body, err := io.ReadAll(http.MaxBytesReader(w, q.Body, MaxBody))
	var long *http.MaxBytesError
	if errors.As(err, &long) {
		return plain(http.StatusRequestEntityTooLarge, "too long\n")
	}
	if err != nil {
		return plain(http.StatusBadRequest, "the body is incomplete\n")
	}
	ctx, cancel := context.WithTimeout(q.Context(), requestTimeout)
	defer cancel()
	return s.add(ctx, body)
}
