package logclient

import (
	"bytes"
	"context"
	"errors"
	"fmt"
	"io"
	"net/http"
	"net/url"
	"strconv"
	"strings"
	"time"
)

// These errors are the reasons why there is no answer. Use errors.Is.
var (
	// ErrUnreachable means that the log could not be reached, or the connection broke, in each attempt.
	ErrUnreachable = errors.New("logclient: the log cannot be reached")
	// ErrBusy means that the log answered 429 or 503 in each attempt, or asked for a longer wait than one pass should
	// take. See BusyError.
	ErrBusy = errors.New("logclient: the log is busy")
	// ErrStatus means that the log answered with another HTTP status than 200.
	ErrStatus = errors.New("logclient: the log refuses the request")
	// ErrBadRequest is an ErrStatus: the log answered 400. Many logs do so if they do not have what the request names.
	ErrBadRequest = fmt.Errorf("%w: status 400", ErrStatus)
	// ErrNotFound means that the log answered 404 or 410.
	ErrNotFound = errors.New("logclient: the log does not have this")
	// ErrRedirect means that the log sent the request to another host.
	ErrRedirect = errors.New("logclient: the log redirects to another place")
	// ErrTooLarge means that an answer has more bytes than it may have.
	ErrTooLarge = errors.New("logclient: the answer has too many bytes")
	// ErrTooSlow means that an answer did not arrive within its time, or arrived with too few bytes per second.
	ErrTooSlow = errors.New("logclient: the answer is too slow")
	// ErrNonsense means that an answer is not of the requested kind.
	ErrNonsense = errors.New("logclient: the answer is not what was asked for")
)

// BusyError is an ErrBusy. The client must not ask the log again before Until.
type BusyError struct {
	Status int       // of HTTP: 429 or 503
	Until  time.Time // when the log may be asked again
}

// Error names the status and the time.
func (e *BusyError) Error() string {
	return fmt.Sprintf("%v: status %d (ask again at %s)", ErrBusy, e.Status, e.Until.UTC().Format(time.RFC3339))
}

// Is reports whether the target is ErrBusy.
func (e *BusyError) Is(target error) bool { return target == ErrBusy }

// errNoRoom means that an answer that is read ahead does not fit into the buffer. It is requested again as soon as it
// is the next one.
var errNoRoom = errors.New("logclient: no room to read ahead")

// The waits before the second attempt, if the log does not name a time. The first one is for a log that cannot be
// reached or fails, and the second one for a log that refuses the request because there are too many. They double with
// each attempt.
const (
	firstBackoff        = 500 * time.Millisecond
	firstRefusedBackoff = 100 * time.Millisecond
)

// address returns the URL of a path of the log. The query may be nil.
func (c *Client) address(path string, query url.Values) string {
	address := *c.base
	address.Path += "/" + path
	address.RawQuery = query.Encode()
	return address.String()
}

// get returns the body of the answer at a path, which may have at most maxBytes bytes. If ahead is not nil, each byte
// is reserved in it, and the caller must release it.
func (c *Client) get(ctx context.Context, path string, query url.Values, maxBytes int64,
	ahead *reservation) ([]byte, error) {
	address := c.address(path, query)
	for attempt := 1; ; attempt++ {
		if err := c.waitPause(ctx); err != nil {
			return nil, err
		}
		content, err := c.attempt(ctx, address, maxBytes, ahead)
		if err == nil {
			c.refusals.answered()
			return content, nil
		}
		if ahead != nil {
			ahead.release()
		}
		wait, retry := c.waitAfter(err, attempt)
		if !retry || ctx.Err() != nil {
			return nil, fmt.Errorf("%s: %w", path, err)
		}
		if attempt == 1 && c.onRetry != nil {
			c.onRetry(address, err)
		}
		if err := c.clock.Wait(ctx, wait); err != nil {
			return nil, err
		}
	}
}

// waitPause waits while the log refuses all requests.
func (c *Client) waitPause(ctx context.Context) error {
	for {
		wait := c.refusals.wait(c.clock.Now())
		if wait <= 0 {
			return ctx.Err()
		}
		if err := c.clock.Wait(ctx, wait); err != nil {
			return err
		}
	}
}

// waitAfter returns the time to wait after a failed attempt, and whether another attempt must follow.
func (c *Client) waitAfter(err error, attempt int) (wait time.Duration, retry bool) {
	wait = jittered(firstBackoff << min(attempt-1, 10))
	var busy *BusyError
	switch {
	case errors.As(err, &busy):
		wait = jittered(firstRefusedBackoff << min(attempt-1, 10))
		if named := busy.Until.Sub(c.clock.Now()); named > 0 {
			wait = named + jittered(firstRefusedBackoff)
		}
		if wait > c.limits.Wait {
			return 0, false
		}
		c.refusals.add(c.clock.Now().Add(wait))
	case errors.Is(err, errFailed), errors.Is(err, ErrUnreachable):
	default:
		return 0, false
	}
	return min(wait, c.limits.Wait), attempt < c.limits.Attempts
}

// errFailed means that the server failed (a status of 500 to 599 other than 503), which may be temporary.
var errFailed = fmt.Errorf("%w: the server fails", ErrStatus)

// attempt sends one request, in one of the client's slots.
func (c *Client) attempt(ctx context.Context, address string, maxBytes int64, ahead *reservation) ([]byte, error) {
	order := uint64(0)
	if ahead != nil {
		order = ahead.order
	}
	if err := c.slots.acquire(ctx, order); err != nil {
		return nil, err
	}
	defer c.slots.release()
	limitedCtx, cancel := context.WithCancelCause(ctx)
	defer cancel(nil)
	whole := time.AfterFunc(c.limits.Request, func() {
		cancel(fmt.Errorf("%w: %v have passed", ErrTooSlow, c.limits.Request))
	})
	defer whole.Stop()
	request, err := http.NewRequestWithContext(limitedCtx, http.MethodGet, address, nil)
	if err != nil {
		return nil, fmt.Errorf("%w: %v", ErrAddress, err)
	}
	request.Header.Set("User-Agent", c.agent)
	slow := time.AfterFunc(c.limits.Grace+c.limits.Request/4, func() {
		cancel(fmt.Errorf("%w: no header arrived", ErrTooSlow))
	})
	response, err := c.http.Do(request)
	slow.Stop()
	if err != nil {
		return nil, reasonOf(limitedCtx, err)
	}
	defer response.Body.Close()
	if err := c.checkStatus(response); err != nil {
		return nil, err
	}
	content, err := c.readBody(response, maxBytes, ahead, cancel)
	if err != nil {
		return nil, reasonOf(limitedCtx, err)
	}
	return content, nil
}

// reasonOf returns the reason why a request failed: the one for which this package ended it, or ErrUnreachable.
func reasonOf(limitedCtx context.Context, err error) error {
	if cause := context.Cause(limitedCtx); cause != nil {
		return cause
	}
	for _, reason := range []error{ErrRedirect, ErrTooLarge, ErrTooSlow, errNoRoom} {
		if errors.Is(err, reason) {
			return err
		}
	}
	return fmt.Errorf("%w: %v", ErrUnreachable, err)
}

// checkStatus returns an error if the status of an answer is not 200.
func (c *Client) checkStatus(response *http.Response) error {
	switch status := response.StatusCode; {
	case status == http.StatusOK:
		return nil
	case status == http.StatusNotFound || status == http.StatusGone:
		return ErrNotFound
	case status == http.StatusBadRequest:
		return ErrBadRequest
	case status == http.StatusTooManyRequests || status == http.StatusServiceUnavailable:
		return &BusyError{status, retryTime(response.Header.Get("Retry-After"), c.clock.Now())}
	case status >= 500:
		return fmt.Errorf("%w (status %d)", errFailed, status)
	default:
		return fmt.Errorf("%w: status %d", ErrStatus, status)
	}
}

// retryTime returns the time in a Retry-After header, which is a number of seconds or an HTTP date (RFC 9110, section
// 10.2.3). It returns now if there is none.
func retryTime(text string, now time.Time) time.Time {
	text = strings.TrimSpace(text)
	if seconds, err := strconv.ParseUint(text, 10, 31); err == nil {
		return now.Add(time.Duration(seconds) * time.Second)
	}
	if when, err := http.ParseTime(text); err == nil && when.After(now) {
		return when
	}
	return now
}

// readBody reads an answer's body, which may have at most maxBytes bytes, and must not be slower than the minimum pace
// after the grace time.
func (c *Client) readBody(response *http.Response, maxBytes int64, ahead *reservation,
	cancel context.CancelCauseFunc) ([]byte, error) {
	if response.ContentLength > maxBytes {
		return nil, fmt.Errorf("%w: it has %d, and the maximum is %d", ErrTooLarge, response.ContentLength, maxBytes)
	}
	start := time.Now()
	slow := time.AfterFunc(c.limits.Grace, func() {
		cancel(fmt.Errorf("%w: fewer than %d bytes a second", ErrTooSlow, c.limits.Pace))
	})
	defer slow.Stop()
	var content bytes.Buffer
	content.Grow(int(max(min(response.ContentLength, 1<<20), 512)))
	piece := make([]byte, 32<<10)
	for {
		n, err := response.Body.Read(piece)
		if int64(content.Len()+n) > maxBytes {
			return nil, fmt.Errorf("%w: it has more than %d", ErrTooLarge, maxBytes)
		}
		if ahead != nil && !ahead.reserve(n) {
			return nil, errNoRoom
		}
		content.Write(piece[:n])
		if errors.Is(err, io.EOF) {
			return content.Bytes(), nil
		}
		if err != nil {
			return nil, err
		}
		allowed := c.limits.Grace + time.Duration(content.Len())*time.Second/time.Duration(c.limits.Pace)
		slow.Reset(allowed - time.Since(start))
	}
}

// Get returns the content at an address, of at most maxBytes bytes, with the limits and attempts of a client. The error
// wraps ErrAddress if the address is malformed or has a query.
func Get(ctx context.Context, address string, maxBytes int64, options Options) ([]byte, error) {
	folder, name := address, ""
	if slash := strings.LastIndex(address, "/"); slash > len("https://") {
		folder, name = address[:slash], address[slash+1:]
	}
	c, err := New(folder, options)
	if err != nil {
		return nil, err
	}
	return c.get(ctx, name, nil, maxBytes, nil)
}
