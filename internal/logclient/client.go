// Package logclient reads Certificate Transparency logs over HTTP: tiled logs (C2SP static-ct-api) and logs of RFC
// 6962.
//
// It trusts nothing that it reads. It limits the bytes and the time of every answer, and names the reason if it refuses
// one. The caller must verify what it returns.
package logclient

import (
	"errors"
	"fmt"
	"net"
	"net/http"
	"net/url"
	"strings"
	"time"
)

// Limits limit what a log can cost. If a field is zero, its default applies.
type Limits struct {
	Request  time.Duration // for one request and its whole answer; default 2 minutes
	Grace    time.Duration // after which an answer must keep the minimum pace; default 10 seconds
	Pace     int           // minimum number of bytes per second of an answer; default 4,096
	Attempts int           // requests for one answer, if the log is busy or fails; default 10
	Wait     time.Duration // maximum time between two attempts: a log that asks for more is busy; default 5 minutes
	InFlight int           // concurrent requests; default 8
	Page     int64         // bytes of all answers for 256 entries; default 256 MiB
	Buffer   int64         // bytes of entries that are read ahead, in addition to one whole answer; default 32 MiB
}

func (l Limits) withDefaults() Limits {
	set := func(value *time.Duration, otherwise time.Duration) {
		if *value <= 0 {
			*value = otherwise
		}
	}
	set(&l.Request, 2*time.Minute)
	set(&l.Grace, 10*time.Second)
	set(&l.Wait, 5*time.Minute)
	number := func(value *int, otherwise int) {
		if *value <= 0 {
			*value = otherwise
		}
	}
	number(&l.Pace, 4096)
	number(&l.Attempts, 10)
	number(&l.InFlight, 8)
	size := func(value *int64, otherwise int64) {
		if *value <= 0 {
			*value = otherwise
		}
	}
	size(&l.Page, 256<<20)
	size(&l.Buffer, 32<<20)
	return l
}

// Options are the options for reading a log.
type Options struct {
	UserAgent string            // the program and its contact: see UserAgent
	Transport http.RoundTripper // for the requests; nil for a connection pool of this client
	Clock     Clock             // for the waits between attempts; nil for the machine's clock
	Limits    Limits
	// Retrying is called with the address and the reason if the first attempt of a request failed and there will be
	// another one. It may be called concurrently. It may be nil.
	Retrying func(address string, fault error)
}

// Client reads one log. Its methods may be called concurrently.
type Client struct {
	base     *url.URL
	http     *http.Client
	agent    string
	clock    Clock
	onRetry  func(address string, fault error)
	limits   Limits
	slots    *slots
	buffer   *buffer
	refusals refusals
}

// ErrAddress means that an address is not that of a log.
var ErrAddress = errors.New("logclient: not a log's address")

// UserAgent returns a text for Options.UserAgent. It has the program, its version, and the address of the program's
// operator if there is one. The error is not nil if the text has characters that a header cannot have.
func UserAgent(program, version, contact string) (string, error) {
	agent := program + "/" + version
	if contact != "" {
		agent += " (+" + contact + ")"
	}
	for _, c := range agent {
		if c < ' ' || c > '~' {
			return "", fmt.Errorf("logclient: the contact %q must have printable ASCII characters only", contact)
		}
	}
	return agent, nil
}

// New returns a client of the log at an address, which is the monitoring prefix of a tiled log, or the base of
// "ct/v1/". The error wraps ErrAddress.
func New(address string, options Options) (*Client, error) {
	base, err := url.Parse(address)
	if err != nil {
		return nil, fmt.Errorf("%w: %v (write https://HOST/PATH)", ErrAddress, err)
	}
	if base.Scheme != "https" && base.Scheme != "http" || base.Host == "" || base.RawQuery != "" || base.Fragment != "" ||
		base.User != nil {
		return nil, fmt.Errorf("%w: %q (write https://HOST/PATH, without a user, a query or a fragment)", ErrAddress, address)
	}
	base.Path = strings.TrimSuffix(base.Path, "/")
	limits := options.Limits.withDefaults()
	c := &Client{base: base, agent: options.UserAgent, clock: options.Clock, limits: limits,
		onRetry: options.Retrying, slots: &slots{free: limits.InFlight}, buffer: &buffer{free: limits.Buffer}}
	if c.agent == "" {
		c.agent = "wagtenib"
	}
	if c.clock == nil {
		c.clock = MachineClock{}
	}
	transport := options.Transport
	if transport == nil {
		transport = newTransport(limits)
	}
	c.http = &http.Client{Transport: transport, CheckRedirect: c.checkRedirect}
	return c, nil
}

// newTransport returns a connection pool for one log, because a slow log must not occupy the connections of another.
func newTransport(limits Limits) *http.Transport {
	dialer := net.Dialer{Timeout: 10 * time.Second, KeepAlive: 30 * time.Second}
	return &http.Transport{
		Proxy:                  http.ProxyFromEnvironment,
		DialContext:            dialer.DialContext,
		ForceAttemptHTTP2:      true,
		TLSHandshakeTimeout:    10 * time.Second,
		MaxIdleConnsPerHost:    limits.InFlight,
		MaxConnsPerHost:        2 * limits.InFlight,
		IdleConnTimeout:        90 * time.Second,
		MaxResponseHeaderBytes: 64 << 10,
	}
}

// maxRedirects is the maximum number of redirects, within the log's own host, that a request follows.
const maxRedirects = 3

// checkRedirect permits a few redirects within the host of the log, and refuses redirects to other hosts, whose answers
// are not those of the log.
func (c *Client) checkRedirect(next *http.Request, before []*http.Request) error {
	first := before[0].URL
	switch {
	case len(before) > maxRedirects:
		return fmt.Errorf("%w: more than %d redirects", ErrRedirect, maxRedirects)
	case next.URL.Hostname() != first.Hostname() || next.URL.Port() != first.Port() && next.URL.Scheme == first.Scheme:
		return fmt.Errorf("%w: from %s to %s", ErrRedirect, first.Host, next.URL.Host)
	case next.URL.Scheme != first.Scheme && next.URL.Scheme != "https":
		return fmt.Errorf("%w: from https to %s", ErrRedirect, next.URL.Scheme)
	}
	return nil
}
