package logclient_test

import (
	"context"
	"fmt"
	"io"
	"net/http"
	"net/http/httptest"
	"strings"
	"sync"
	"testing"
	"time"

	"wagtenib/internal/ct"
	"wagtenib/internal/logclient"
)

// model is a log behind a server, and a clock, with a simulated time. Nothing in it takes real time. The time advances
// as soon as the client can do nothing more before the next answer or the end of the next wait.
type model struct {
	log          http.Handler
	latency      time.Duration // of each answer
	withRefusals bool          // one request in five, after the first ones
	inFlight     int           // requests that the client makes at a time

	mutex      sync.Mutex
	now        time.Time
	unread     int // the number of pieces that have no answer yet
	observed   observed
	requesting []event // requests in flight
	waiting    []event // waits of the client
}

// observed is what the server observed.
type observed struct {
	requests int
	refusals int
	refused  map[string]time.Time // by the address, when a request was refused
	early    int                  // requests that were made again before their second was over
}

// event is an event at a time of the model.
type event struct {
	at   time.Time
	done chan struct{}
}

// Now returns the time of the model.
func (m *model) Now() time.Time {
	m.mutex.Lock()
	defer m.mutex.Unlock()
	return m.now
}

// Wait returns after a simulated duration.
func (m *model) Wait(_ context.Context, d time.Duration) error {
	m.mutex.Lock()
	one := event{m.now.Add(d), make(chan struct{})}
	m.waiting = append(m.waiting, one)
	m.advance()
	m.mutex.Unlock()
	<-one.done
	return nil
}

// RoundTrip answers a request after the latency.
func (m *model) RoundTrip(r *http.Request) (*http.Response, error) {
	m.mutex.Lock()
	m.observed.requests++
	if at, found := m.observed.refused[r.URL.String()]; found && m.now.Before(at.Add(time.Second)) {
		m.observed.early++
	}
	refused := m.withRefusals && m.observed.requests > m.inFlight && m.observed.requests%5 == 0
	one := event{m.now.Add(m.latency), make(chan struct{})}
	m.requesting = append(m.requesting, one)
	m.advance()
	m.mutex.Unlock()
	<-one.done
	if refused {
		m.mutex.Lock()
		m.observed.refusals++
		m.observed.refused[r.URL.String()] = m.now
		m.mutex.Unlock()
		return &http.Response{StatusCode: http.StatusTooManyRequests, Header: http.Header{"Retry-After": {"1"}},
			Body: io.NopCloser(strings.NewReader("")), Request: r}, nil
	}
	recorded := httptest.NewRecorder()
	m.log.ServeHTTP(recorded, r)
	m.mutex.Lock()
	m.unread--
	m.advance()
	m.mutex.Unlock()
	return recorded.Result(), nil
}

// advance advances the time to the next event if the client can do nothing before. Then the client has the maximum
// number of requests in flight, or one for each piece that is not read and does not wait.
func (m *model) advance() {
	for len(m.requesting) == min(m.inFlight, m.unread-len(m.waiting)) && len(m.requesting)+len(m.waiting) > 0 {
		next := time.Time{}
		for _, one := range append(m.requesting[:len(m.requesting):len(m.requesting)], m.waiting...) {
			if next.IsZero() || one.at.Before(next) {
				next = one.at
			}
		}
		m.now = next
		m.requesting, m.waiting = m.release(m.requesting), m.release(m.waiting)
	}
}

// release ends the events of the current time, and returns the later ones.
func (m *model) release(events []event) (later []event) {
	for _, one := range events {
		if one.at.After(m.now) {
			later = append(later, one)
		} else {
			close(one.done)
		}
	}
	return later
}

// TestRefusalsDoNotDoubleTheTime reads 30,000 entries from a log whose answers take half a second each. If one request
// in five is refused for a second, the reading must take at most twice the time.
//
// This holds in every order of the requests. There are 118 pieces, so without refusals it takes the time of 15 answers,
// 7.5 s. With refusals there are at most 148 requests, which take the time of 19 answers. After them, the last pieces
// wait: at most five, then one, and this one once more. Each time takes the wait and an answer, so all of it takes at
// most 14.3 s.
func TestRefusalsDoNotDoubleTheTime(t *testing.T) {
	const size, inFlight = 30_000, 8
	start, log := newClock().now, newLog(t, size)
	for kind, read := range map[string]func(c *logclient.Client, use func(first uint64, count int) error) error{
		"RFC 6962": func(c *logclient.Client, use func(uint64, int) error) error {
			return c.Entries(context.Background(), 0, size, func(page logclient.Page, _ bool) error {
				return use(page.Start, len(page.Entries))
			})
		},
		"tiled": func(c *logclient.Client, use func(uint64, int) error) error {
			return c.DataTiles(context.Background(), 0, size, func(tile logclient.DataTile, _ bool) error {
				return use(tile.Index*ct.TileWidth, tile.Width)
			})
		},
	} {
		durations := map[bool]time.Duration{}
		for _, withRefusals := range []bool{false, true} {
			m := &model{log: log, latency: time.Second / 2, withRefusals: withRefusals, inFlight: inFlight, now: start,
				observed: observed{refused: map[string]time.Time{}},
				unread:   (size + ct.TileWidth - 1) / ct.TileWidth}
			c, err := logclient.New("https://log.example", logclient.Options{Transport: m, Clock: m,
				Limits: logclient.Limits{InFlight: inFlight}})
			if err != nil {
				t.Fatal(err)
			}
			next := uint64(0)
			err = read(c, func(first uint64, count int) error {
				if first != next {
					return fmt.Errorf("entry %d comes after %d", first, next)
				}
				next += uint64(count)
				return nil
			})
			if err != nil || next != size || (m.observed.refusals < 20) == withRefusals {
				t.Fatalf("%s: %d entries after %d refusals: %v", kind, next, m.observed.refusals, err)
			}
			if m.observed.early > 0 {
				t.Errorf("%s: %d requests were made again in less than the second that the log named", kind,
					m.observed.early)
			}
			durations[withRefusals] = m.now.Sub(start)
			t.Logf("%s: %d requests, %d of them refused: %v", kind, m.observed.requests, m.observed.refusals,
				durations[withRefusals])
		}
		if durations[false] != 15*time.Second/2 {
			t.Errorf("%s: without refusals it takes %v, expected 15 times half a second", kind, durations[false])
		}
		if durations[true] > 2*durations[false] {
			t.Errorf("%s: with refusals it takes %v, and without %v", kind, durations[true], durations[false])
		}
	}
}
