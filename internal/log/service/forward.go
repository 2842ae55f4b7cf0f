package service

import (
	"bytes"
	"context"
	"crypto/tls"
	"errors"
	"fmt"
	"io"
	"net"
	"net/http"
	"net/netip"
	"net/url"
	"strconv"
	"sync"
	"time"

	"wagtenib/internal/log/node"
)

const (
	// dialWithin and handshakeWithin are the maximum times to connect to another node and for the TLS handshake, and
	// forwardWithin is that for its answer.
	dialWithin, handshakeWithin, forwardWithin = time.Second, 2 * time.Second, 10 * time.Second
	// awayFor is the time for which a node forwards nothing after the other one did not answer.
	awayFor = 2 * time.Second
	// maxOpen is the maximum number of connections to another node. Further requests wait for one. All are kept open
	// for a while, because clients are answered together and then submit together again.
	maxOpen = 1024
	// maxAnswer is the maximum number of bytes of an answer.
	maxAnswer = 64 << 10
	// dateHeader is the header with the time of a node's clock at its answer (RFC 9110, section 6.6.1).
	dateHeader = "Date"
)

// Forwarder forwards submissions to the node that makes the steps, over mutual TLS (RFC 8446, section 4.4.2). A
// submission that another node forwarded is never forwarded again: the listener for nodes marks it.
type Forwarder struct {
	log       *Log
	transport *http.Transport

	mu sync.Mutex
	// awayUntil has, for the address of a node that did not answer, the time by Elapsed until which nothing is
	// forwarded to it.
	awayUntil map[string]time.Duration
}

var (
	errAway  = errors.New("serve: the node that makes the steps did not answer a moment ago")
	errPlain = errors.New("serve: the node that makes the steps has no https address (give it one by --nodes-address)")
)

// Forward returns a forwarder for a log's submissions. The TLS configuration is that of a client, and must have a
// certificate and the CA of the nodes.
func (l *Log) Forward(over *tls.Config) *Forwarder {
	f := &Forwarder{log: l, awayUntil: map[string]time.Duration{}}
	f.transport = &http.Transport{
		TLSClientConfig: over, TLSHandshakeTimeout: handshakeWithin, ResponseHeaderTimeout: forwardWithin,
		DialContext:     (&net.Dialer{Timeout: dialWithin}).DialContext,
		IdleConnTimeout: time.Minute, MaxIdleConnsPerHost: maxOpen, MaxConnsPerHost: maxOpen, DisableCompression: true,
	}
	ask := f.askTime
	l.running.askNode.Store(&ask)
	return f
}

// leader returns the URL of the node that makes the steps. It returns nil if no other node makes them.
func (f *Forwarder) leader() (*url.URL, error) {
	address := f.log.node.Leader()
	if address == "" {
		return nil, nil
	}
	to, err := url.Parse(address)
	if err != nil || to.Scheme != "https" || to.Host == "" {
		return nil, fmt.Errorf("%w: %.100q", errPlain, address)
	}
	f.mu.Lock()
	defer f.mu.Unlock()
	if f.log.config.Machine.Clock.Elapsed() < f.awayUntil[to.String()] {
		return nil, errAway
	}
	return to, nil
}

// Forward forwards a client's request with a body, and reports whether it was answered. If not, nothing was written. An
// error says that the node that makes the steps does not answer, so this one must take the submission itself.
func (f *Forwarder) Forward(w http.ResponseWriter, r *http.Request, client netip.Addr, body []byte) (bool, error) {
	to, err := f.leader()
	if err != nil || to == nil {
		return false, err
	}
	answer, content, err := f.submit(r.Context(), to, r.URL.Path, client, body)
	if err != nil {
		if r.Context().Err() == nil {
			f.mu.Lock()
			f.awayUntil = map[string]time.Duration{to.String(): f.log.config.Machine.Clock.Elapsed() + awayFor}
			f.mu.Unlock()
		}
		return false, err
	}
	f.log.counts.forwarded.Add(1)
	for _, name := range []string{"Content-Type", "Cache-Control", "Retry-After"} {
		if values := answer.Header[name]; len(values) > 0 {
			w.Header()[name] = values
		}
	}
	w.Header().Set("Content-Length", strconv.Itoa(len(content)))
	w.WriteHeader(answer.StatusCode)
	// A failed write concerns only the client.
	_, _ = w.Write(content)
	return true, nil
}

// submit submits a body to another node, and returns its answer with the content. The client's address is the only
// X-Forwarded-For. An answer that is not whole, or is of 500 or more, is an error: this node takes the submission
// itself.
func (f *Forwarder) submit(ctx context.Context, to *url.URL, path string, client netip.Addr,
	body []byte) (answer *http.Response, content []byte, err error) {
	ctx, cancel := context.WithTimeout(ctx, forwardWithin)
	defer cancel()
	request, err := http.NewRequestWithContext(ctx, http.MethodPost, "https://"+to.Host+path, bytes.NewReader(body))
	if err != nil {
		return nil, nil, fmt.Errorf("serve: forward: %w", err)
	}
	request.Header = http.Header{"Content-Type": {"application/json"}, "X-Forwarded-For": {client.String()}}
	asked := f.log.config.Machine.Clock.Elapsed()
	if answer, err = f.transport.RoundTrip(request); err != nil {
		return nil, nil, fmt.Errorf("serve: forward: %w", err)
	}
	defer answer.Body.Close()
	f.recordTime(answer, to, asked)
	if answer.StatusCode >= http.StatusInternalServerError {
		return nil, nil, fmt.Errorf("serve: the node that makes the steps answers %s", answer.Status)
	}
	content, err = io.ReadAll(io.LimitReader(answer.Body, maxAnswer+1))
	if err == nil && len(content) > maxAnswer {
		err = fmt.Errorf("the answer has more than %d bytes", maxAnswer)
	}
	if err != nil {
		return nil, nil, fmt.Errorf("serve: forward: %w", err)
	}
	return answer, content, nil
}

// recordTime records the time in another node's answer. asked is the time by Elapsed at which it was asked.
func (f *Forwarder) recordTime(answer *http.Response, of *url.URL, asked time.Duration) {
	if at, err := http.ParseTime(answer.Header.Get(dateHeader)); err == nil {
		f.log.sources.recordNode(of.Host, at, asked)
	}
}

// askTime asks the node that makes the steps for its time, if it is another one. A node that does not answer is asked
// again later.
func (f *Forwarder) askTime(ctx context.Context) {
	to, err := f.leader()
	if err != nil || to == nil {
		return
	}
	ctx, cancel := context.WithTimeout(ctx, askWithin)
	defer cancel()
	request, err := http.NewRequestWithContext(ctx, http.MethodHead, to.String(), nil)
	if err != nil {
		return
	}
	asked := f.log.config.Machine.Clock.Elapsed()
	answer, err := f.transport.RoundTrip(request)
	if err != nil {
		return
	}
	// The answer to HEAD has no body, so closing it cannot fail in a way that matters.
	_ = answer.Body.Close()
	f.recordTime(answer, to, asked)
}

// Close closes the idle connections.
func (f *Forwarder) Close() { f.transport.CloseIdleConnections() }

// OfNodes returns the handler for requests that other nodes forward. It calls the front's handler, and sends no time
// while this node's clock is wrong, so that two nodes with the same wrong time do not confirm each other.
func (l *Log) OfNodes(front http.Handler) http.Handler {
	return http.HandlerFunc(func(w http.ResponseWriter, r *http.Request) {
		if errors.Is(l.node.Fault(), node.ErrClock) {
			// A nil value keeps net/http from adding the header.
			w.Header()[dateHeader] = nil
		}
		front.ServeHTTP(w, r)
	})
}
