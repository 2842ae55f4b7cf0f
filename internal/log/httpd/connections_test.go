package httpd

import (
	"bufio"
	"bytes"
	"crypto/tls"
	"errors"
	"fmt"
	"io"
	"net"
	"net/http"
	"net/netip"
	"os"
	"testing"
	"time"

	"wagtenib/internal/testkit"
)

func TestConnectionsAreBounded(t *testing.T) {
	for _, test := range []struct {
		what                         string
		all, byAddress, maxAtOneTime int
		proxy                        bool
	}{
		{"by address", 100, 3, 3, false},
		{"altogether", 4, 100, 4, false},
		{"of a proxy", 5, 1, 5, true},
	} {
		f := newFixture(t, 0, func(o *Options) {
			o.Limits.Connections, o.Limits.ConnectionsByAddress, o.Limits.Reading = test.all, test.byAddress, time.Hour
			if test.proxy {
				o.Proxies = []netip.Prefix{netip.MustParsePrefix("127.0.0.1/32")}
			}
		})
		f.log.Slow = time.Hour
		address, _ := f.listening(nil)
		var open []net.Conn
		for i := 0; i < test.maxAtOneTime; i++ {
			connection := dial(t, address)
			fmt.Fprintf(connection, "GET /checkpoint HTTP/1.1\r\nHost: log\r\nX-Forwarded-For: 192.0.2.%d\r\n\r\n", i)
			open = append(open, connection)
		}
		waitUntilAllAsk(f, int64(test.maxAtOneTime))
		above := dial(t, address)
		closed(t, test.what+", one above the bound", above)
		open[0].Close()
		eventually(t, test.what+": after one was closed, another is accepted", func() bool {
			again := dial(t, address)
			fmt.Fprintf(again, "GET /healthz HTTP/1.1\r\nHost: log\r\nConnection: close\r\n\r\n")
			answer, err := http.ReadResponse(bufio.NewReader(again), nil)
			return err == nil && answer.StatusCode == 200
		})
	}
}

// TestRefusedConnectionsDoNotCount checks that a connection that is refused because there are too many does not count
// for its address.
func TestRefusedConnectionsDoNotCount(t *testing.T) {
	f := newFixture(t, 0, func(o *Options) {
		o.Limits.Connections, o.Limits.ConnectionsByAddress, o.Limits.Reading = 2, 100, time.Hour
	})
	f.log.Slow = time.Hour
	address, _ := f.listening(nil)
	for range 2 {
		fmt.Fprint(dial(t, address), "GET /checkpoint HTTP/1.1\r\nHost: log\r\n\r\n")
	}
	waitUntilAllAsk(f, 2)
	for range 3 {
		closed(t, "one above the bound", dial(t, address))
	}
	by := &f.front.uses.connections.byAddress
	by.mutex.Lock()
	defer by.mutex.Unlock()
	if own := by.byGroup[groupOf(addressOf(address))]; own != 2 || len(by.byGroup) != 1 {
		t.Errorf("of two connections, %d count for the address, and %d addresses have some", own, len(by.byGroup))
	}
}

// observedConn is a connection that calls a function when it is closed.
type observedConn struct {
	net.Conn
	onClose func()
}

func (o observedConn) Close() error {
	o.onClose()
	return o.Conn.Close()
}

// oneConnListener is a listener that returns only one connection.
type oneConnListener struct {
	net.Listener
	connection net.Conn
}

func (o oneConnListener) Accept() (net.Conn, error) { return o.connection, nil }

// TestClosedConnectionsHoldNoPlace checks that the place of a connection is free before the connection is closed. So
// the client may connect again at once.
func TestClosedConnectionsHoldNoPlace(t *testing.T) {
	f, slots := newFixture(t, 0, nil), make(chan struct{}, 1)
	for what, test := range map[string]struct {
		bounds func(net.Listener) net.Listener
		held   func() int
	}{
		"a client's": {func(l net.Listener) net.Listener { return bounded{l, f.front} }, func() int {
			return int(f.front.uses.connections.open.Load()) + len(f.front.uses.connections.byAddress.byGroup) +
				f.front.uses.connections.waiting()
		}},
		"an operator's": {func(l net.Listener) net.Listener { return limitedListener{l, slots} },
			func() int { return len(slots) }},
	} {
		here, there := net.Pipe()
		closed := 0
		taken, err := test.bounds(oneConnListener{nil, observedConn{here, func() {
			if closed++; test.held() != 0 {
				t.Errorf("%s: %d are held", what, test.held())
			}
		}}}).Accept()
		if err != nil || test.held() == 0 {
			t.Fatalf("%s: %d are held, %v", what, test.held(), err)
		}
		for i := 0; i < 2; i++ {
			taken.Close()
		}
		if closed != 2 || test.held() != 0 {
			t.Errorf("%s: closed %d times, %d are held", what, closed, test.held())
		}
		there.Close()
	}
}

// TestOperatorCountsApart checks that an operator is answered at an address that has all the connections and requests
// that it may have as a client. Operators who hold all of their connections do not keep clients out.
func TestOperatorCountsApart(t *testing.T) {
	f := newFixture(t, 0, func(o *Options) {
		o.Limits.ConnectionsByAddress, o.Limits.Request, o.Limits.Headers, o.Limits.Idle = 3, time.Hour,
			time.Hour, time.Hour
	})
	clients, _ := f.listening(nil)
	operator := f.listeningBy(f.front.ServeOperators(f.front.Operator()), nil)
	status := func(address, path string) int {
		t.Helper()
		for until := time.Now().Add(testkit.Patience); ; {
			connection := dial(t, address)
			fmt.Fprintf(connection, "GET %s HTTP/1.1\r\nHost: log\r\nConnection: close\r\n\r\n", path)
			reader := bufio.NewReader(connection)
			answer, err := http.ReadResponse(reader, nil)
			// The server closes the connection after its place is free.
			text, _ := io.ReadAll(reader)
			connection.Close()
			if err != nil {
				return 0
			}
			// /readyz has a limit of two seconds.
			if answer.StatusCode != 503 || !bytes.Contains(text, []byte(`"late"`)) || time.Now().After(until) {
				return answer.StatusCode
			}
		}
	}
	var open []net.Conn
	for i := 0; i < 3; i++ {
		connection := dial(t, clients)
		fmt.Fprint(connection, "POST /ct/v1/add-chain HTTP/1.1\r\nHost: log\r\nContent-Length: 100\r\n\r\n{")
		open = append(open, connection)
	}
	waitUntilAllAsk(f, 3)
	if got := status(clients, "/healthz"); got == 200 {
		t.Errorf("a fourth connection of the address is answered")
	}
	for _, path := range []string{"/healthz", "/readyz", "/metrics"} {
		if got := status(operator, path); got != 200 {
			t.Errorf("the operator's %s: %d", path, got)
		}
	}
	for _, connection := range open {
		connection.Close()
	}
	waitUntilAllAsk(f, 0)
	for i := 0; i < maxOperatorConnections; i++ {
		fmt.Fprint(dial(t, operator), "GET /healthz HTTP/1.1\r\nHost: log\r\n")
	}
	closed(t, "the operator's connections, one above the bound", dial(t, operator))
	if got := status(clients, "/healthz"); got != 200 {
		t.Errorf("a client beside an operator's connections: %d", got)
	}
}

// waitUntilAllAsk waits until there are so many connections, each with a request.
func waitUntilAllAsk(f *fixture, many int64) {
	for f.front.uses.connections.open.Load() != many || f.front.uses.connections.waiting() != 0 {
		time.Sleep(time.Millisecond)
	}
}

// TestClosesLongestIdleConnection checks that, if there are too many connections, the one that was idle for the longest
// time is closed, also over TLS. No connection with a request is closed.
func TestClosesLongestIdleConnection(t *testing.T) {
	for _, over := range []bool{false, true} {
		f := newFixture(t, 0, func(o *Options) { o.Limits.Connections, o.Limits.Reading = 3, time.Hour })
		var config *tls.Config
		if over {
			folder := t.TempDir()
			writeKeyPair(t, folder, f.authority)
			kept, err := LoadCertificate(folder+"/cert.pem", folder+"/key.pem")
			if err != nil {
				t.Fatal(err)
			}
			config = kept.Config()
		}
		address, _ := f.listening(config)
		dialed := func() net.Conn {
			if !over {
				return dial(t, address)
			}
			connection, err := tls.Dial("tcp", address, &tls.Config{InsecureSkipVerify: true})
			if err != nil {
				t.Fatal(err)
			}
			t.Cleanup(func() { connection.Close() })
			return connection
		}
		answered := func(connection net.Conn) error {
			fmt.Fprintf(connection, "GET /healthz HTTP/1.1\r\nHost: log\r\n\r\n")
			answer, err := http.ReadResponse(bufio.NewReader(connection), nil)
			if err == nil {
				io.Copy(io.Discard, answer.Body)
			}
			return err
		}
		var idle []net.Conn
		for f.front.uses.connections.waiting() < 2 {
			connection := dialed()
			if err := answered(connection); err != nil {
				t.Fatal(err)
			}
			// The connection may count as one with a request for a moment after the answer.
			for idle = append(idle, connection); f.front.uses.connections.waiting() != len(idle); {
				time.Sleep(time.Millisecond)
			}
		}
		first, second := idle[0], idle[1]
		f.log.Slow = time.Hour
		busy := dialed()
		fmt.Fprintf(busy, "GET /checkpoint HTTP/1.1\r\nHost: log\r\n\r\n")
		for f.front.uses.connections.waiting() != 2 {
			time.Sleep(time.Millisecond)
		}
		// The first one gets a request again, so the second one is idle for longer.
		if err := answered(first); err != nil {
			t.Fatal(err)
		}
		for f.front.uses.connections.waiting() != 2 {
			time.Sleep(time.Millisecond)
		}
		if err := answered(dialed()); err != nil {
			t.Errorf("over TLS %v: none is accepted, though two are idle: %v", over, err)
		}
		closed(t, "the one that was idle for the longest", second)
		if err := answered(first); err != nil {
			t.Errorf("over TLS %v: another one was closed: %v", over, err)
		}
		busy.SetReadDeadline(time.Now().Add(50 * time.Millisecond))
		if _, err := busy.Read(make([]byte, 1)); !errors.Is(err, os.ErrDeadlineExceeded) {
			t.Errorf("over TLS %v: the one with a request was closed: %v", over, err)
		}
	}
}

// TestClosesLongestHalfBody checks that, if there are too many connections and all of them have a request, the one
// whose body is being read for the longest is closed. One whose request was read whole is not.
func TestClosesLongestHalfBody(t *testing.T) {
	f := newFixture(t, 0, func(o *Options) { o.Limits.Connections, o.Limits.Reading = 3, time.Hour })
	address, _ := f.listening(nil)
	f.log.Slow = time.Hour
	asked := dial(t, address)
	fmt.Fprintf(asked, "GET /checkpoint HTTP/1.1\r\nHost: log\r\n\r\n")
	waitUntilAllAsk(f, 1)
	var halves []net.Conn
	for n := range 2 {
		half := dial(t, address)
		fmt.Fprintf(half, "POST /ct/v1/add-chain HTTP/1.1\r\nHost: log\r\nContent-Length: 1000\r\n\r\n{")
		for f.front.uses.connections.reading() != n+1 {
			time.Sleep(time.Millisecond)
		}
		halves = append(halves, half)
	}
	more := dial(t, address)
	fmt.Fprintf(more, "GET /healthz HTTP/1.1\r\nHost: log\r\n\r\n")
	if answer, err := http.ReadResponse(bufio.NewReader(more), nil); err != nil || answer.StatusCode != 200 {
		t.Fatalf("none is accepted, though two have half bodies: %v", err)
	}
	closed(t, "the one whose body is read for the longest", halves[0])
	if f.front.uses.connections.reading() != 1 {
		t.Errorf("%d bodies are read", f.front.uses.connections.reading())
	}
}

// waiting returns the number of connections without a request.
func (c *connections) waiting() int {
	c.mutex.Lock()
	defer c.mutex.Unlock()
	return c.idle.list.Len()
}

// reading returns the number of connections from which a body is being read.
func (c *connections) reading() int {
	c.mutex.Lock()
	defer c.mutex.Unlock()
	return c.halves.list.Len()
}

// watchedClose records at each Close whether the mutex of the connections is held.
type watchedClose struct {
	net.Conn
	connections *connections
	held        []bool
}

func (w *watchedClose) Close() error {
	isFree := w.connections.mutex.TryLock()
	if isFree {
		w.connections.mutex.Unlock()
	}
	w.held = append(w.held, !isFree)
	return nil
}

// TestClosesIdleUnderTheMutex checks that an idle connection is closed while the mutex is held. So no request on it can
// be noted in between.
func TestClosesIdleUnderTheMutex(t *testing.T) {
	c := &connections{}
	w := &watchedClose{connections: c}
	connection := &open{Conn: w}
	connection.closed = func() { c.leave(connection) }
	c.setIdle(connection, true)
	if !c.closeOne() || len(w.held) == 0 || !w.held[0] {
		t.Errorf("it is closed without the mutex: %v", w.held)
	}
	if c.setIdle(connection, true); c.waiting() != 0 || c.closeOne() {
		t.Error("a closed connection counts as an idle one")
	}
}
