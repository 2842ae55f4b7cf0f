package main

import (
	"bufio"
	"context"
	"errors"
	"io"
	"net"
	"net/http"
	"net/http/httptest"
	"net/netip"
	"os"
	"runtime"
	"strings"
	"sync/atomic"
	"syscall"
	"testing"
	"time"

	"wagtenib/internal/blob"
	"wagtenib/internal/command/eventlog"
	"wagtenib/internal/testkit"
)

// fakeListener returns a connection, or an error if it has one, each time that it is asked.
type fakeListener struct {
	net.Listener
	calls, closed atomic.Int32
	err           error
}

func (l *fakeListener) Accept() (net.Conn, error) {
	if l.calls.Add(1); l.err != nil {
		return nil, l.err
	}
	return &fakeConnection{of: l, closedBefore: l.closed.Load()}, nil
}

// fakeConnection is a connection of a fakeListener. It knows how many connections had been closed before.
type fakeConnection struct {
	net.Conn
	of           *fakeListener
	closedBefore int32
}

func (c *fakeConnection) Close() error {
	c.of.closed.Add(1)
	return nil
}

func (c *fakeConnection) RemoteAddr() net.Addr {
	return &net.TCPAddr{IP: net.IPv4(192, 0, 2, 1), Port: 1}
}

// TestLimitedListener checks that a connection above the limit waits until another one is closed, and that closing
// twice counts once. If Accept fails, the slot is free again.
func TestLimitedListener(t *testing.T) {
	ctx := testkit.Limited(t, testkit.Longest)
	of := &fakeListener{}
	b := limitedListener{of, make(chan struct{}, 2), &addresses{connections: map[netip.Prefix]int{}}}
	var first []net.Conn
	for i := 0; i < 2; i++ {
		one, err := b.Accept()
		must(t, err)
		first = append(first, one)
	}
	closedBefore := make(chan int32, 1)
	go func() {
		one, _ := b.Accept()
		closedBefore <- one.(*countedConnection).Conn.(*fakeConnection).closedBefore
	}()
	// Give a connection that does not wait the time to arrive.
	for i := 0; i < 1000 && of.calls.Load() < 3; i++ {
		runtime.Gosched()
	}
	must(t, first[0].Close())
	select {
	case closed := <-closedBefore:
		if closed == 0 {
			t.Error("a third connection is accepted while two are connected")
		}
	case <-ctx.Done():
		t.Fatal("after one is closed, no further one is accepted")
	}
	must(t, first[0].Close())
	if len(b.slots) != 2 {
		t.Errorf("closing one twice frees %d slots", 2-len(b.slots))
	}
	must(t, first[1].Close())
	if len(b.slots) != 1 || of.calls.Load() != 3 {
		t.Errorf("%d are connected after %d calls", len(b.slots), of.calls.Load())
	}
	broken := errors.New("too many open files")
	b = limitedListener{&fakeListener{err: broken}, make(chan struct{}, 2),
		&addresses{connections: map[netip.Prefix]int{}}}
	for i := 0; i < 5; i++ {
		if _, err := b.Accept(); !errors.Is(err, broken) {
			t.Fatal(err)
		}
	}
	if len(b.slots) != 0 {
		t.Errorf("%d slots are in use, and none is connected", len(b.slots))
	}
}

// TestOneHost opens as many connections as one host may have, and sends nothing on them. Other hosts are answered. The
// first host gets no further connection until it closes one.
func TestOneHost(t *testing.T) {
	clients, err := clientsAt("127.0.0.1:0")
	must(t, err)
	server := serverOf(http.HandlerFunc(func(w http.ResponseWriter, r *http.Request) { io.WriteString(w, "answered") }),
		eventlog.NewLines(io.Discard))
	go server.Serve(clients)
	defer server.Close()
	from := func(host byte) net.Conn {
		t.Helper()
		connection, err := (&net.Dialer{LocalAddr: &net.TCPAddr{IP: net.IPv4(127, 0, 0, host)}}).Dial("tcp",
			clients.Addr().String())
		must(t, err)
		t.Cleanup(func() { connection.Close() })
		return connection
	}
	answers := func(connection net.Conn) bool {
		_, err := io.WriteString(connection, "GET / HTTP/1.1\r\nHost: x\r\n\r\n")
		line, unread := bufio.NewReader(connection).ReadString('\n')
		return err == nil && unread == nil && strings.Contains(line, "200")
	}
	var idle []net.Conn
	for i := 0; i < maxPerAddress; i++ {
		idle = append(idle, from(2))
	}
	for i := 0; i < 3; i++ {
		if answers(from(2)) {
			t.Error("one host has more connections than its bound")
		}
		if !answers(from(3)) || !answers(from(1)) {
			t.Error("another host is not answered")
		}
	}
	idle[0].Close()
	testkit.Eventually(t, "a free slot", func() bool { return answers(from(2)) })
}

// TestGroups checks that an IPv6 address counts with its /64 network, and that a proxy on this machine has no limit.
func TestGroups(t *testing.T) {
	of := func(text string) netip.Prefix { return groupOf(net.TCPAddrFromAddrPort(netip.MustParseAddrPort(text))) }
	if of("[2001:db8::1]:1") != of("[2001:db8::2:3]:4") || of("[2001:db8::1]:1") == of("[2001:db8:0:1::1]:1") ||
		of("192.0.2.1:1") == of("192.0.2.2:1") || of("192.0.2.1:1") != of("[::ffff:192.0.2.1]:9") {
		t.Error("addresses are counted with others, or are not counted with their own network")
	}
	a := &addresses{connections: map[netip.Prefix]int{}}
	for _, proxy := range []string{"127.0.0.1:1", "[::1]:1"} {
		for i := 0; i < 2*maxPerAddress; i++ {
			if !a.add(of(proxy)) {
				t.Fatalf("%s has a bound", proxy)
			}
		}
	}
}

// TestClientsAt checks that the listener for logs has a limit, and that an address is in use only once.
func TestClientsAt(t *testing.T) {
	listener, err := clientsAt("127.0.0.1:0")
	must(t, err)
	defer listener.Close()
	if of, is := listener.(limitedListener); !is || cap(of.slots) != maxConnections {
		t.Errorf("%T", listener)
	}
	if _, err := clientsAt(listener.Addr().String()); err == nil {
		t.Error("an address can be used twice")
	}
}

// TestListenerThatFails checks that the error of a listener ends the witness.
func TestListenerThatFails(t *testing.T) {
	broken, failed := errors.New("the listener is broken"), make(chan error, 1)
	failed <- broken
	if err := (&running{}).wait(&settings{}, eventlog.NewLines(io.Discard), nil, failed); !errors.Is(err, broken) {
		t.Error(err)
	}
}

// closing is a lock that counts how often it is closed.
type closing struct {
	blob.Lock
	closed int
}

func (c *closing) Close() error {
	c.closed++
	return c.Lock.Close()
}

// TestOpenedOnce checks that a log's state is opened once, however often the logs are reloaded, and closed at the end.
func TestOpenedOnce(t *testing.T) {
	ctx := testkit.Limited(t, testkit.Longest)
	p, _ := ofOneLog(t)
	s, err := parse(p.arguments(), io.Discard)
	must(t, err)
	w, err := open(s, eventlog.NewLines(io.Discard))
	must(t, err)
	must(t, w.useLogs(s))
	of, found := s.log("a.example")
	if w.locks["a.example"] == nil || !found {
		t.Fatal("it is not open")
	}
	only := &closing{Lock: w.locks["a.example"]}
	w.locks["a.example"] = only
	must(t, w.useLogs(s))
	log, err := w.log(ctx, s, of)
	must(t, err)
	if log.State != only || w.locks["a.example"] != only {
		t.Errorf("%T is opened, too", log.State)
	}
	if w.close(); only.closed != 1 {
		t.Errorf("closed %d times", only.closed)
	}
}

// TestRemovedLogIsClosed removes a log from the settings, as at SIGHUP, and checks that its state is closed and not
// closed again at the end.
func TestRemovedLogIsClosed(t *testing.T) {
	p, _ := ofOneLog(t)
	s, err := parse(p.arguments(), io.Discard)
	must(t, err)
	w, err := open(s, eventlog.NewLines(io.Discard))
	must(t, err)
	must(t, w.useLogs(s))
	removed := &closing{Lock: w.locks["a.example"]}
	w.locks["a.example"] = removed
	without := *s
	without.logs = nil
	must(t, w.useLogs(&without))
	if removed.closed != 1 || len(w.locks) != 0 {
		t.Errorf("closed %d times, and %d are open", removed.closed, len(w.locks))
	}
	must(t, w.useLogs(s))
	if w.close(); removed.closed != 1 {
		t.Errorf("closed %d times", removed.closed)
	}
}

// hangingLock is a lock that never answers.
type hangingLock struct{ blob.Lock }

func (hangingLock) Read(ctx context.Context) (string, error) {
	<-ctx.Done()
	return "", ctx.Err()
}

func (hangingLock) Create(ctx context.Context, _ string) error {
	<-ctx.Done()
	return ctx.Err()
}

// TestOpenTimeout checks that a lock that does not answer is waited for only until the timeout, both when states are
// created and when they are opened.
func TestOpenTimeout(t *testing.T) {
	p, _ := ofOneLog(t)
	s, err := parse(p.arguments("--open-timeout", "10ms", "--create", "a.example"), io.Discard)
	must(t, err)
	w, err := open(s, eventlog.NewLines(io.Discard))
	must(t, err)
	w.locks["a.example"] = hangingLock{}
	for what, opens := range map[string]func() error{"opens": func() error { return w.useLogs(s) },
		"creates": func() error { return w.create(s, eventlog.NewLines(io.Discard)) }} {
		if err := opens(); !errors.Is(err, context.DeadlineExceeded) {
			t.Errorf("it %s: %v", what, err)
		}
	}
}

// TestServerOf checks that each part of a request has a timeout, that its headers have a limit, and that what net/http
// logs becomes a log line.
func TestServerOf(t *testing.T) {
	var lines strings.Builder
	s := serverOf(http.NotFoundHandler(), eventlog.NewLines(&lines))
	if s.ErrorLog.Print("a handler that fails"); !strings.Contains(lines.String(), "a handler that fails") {
		t.Errorf("the log has %q", lines.String())
	}
	for what, time := range map[string]time.Duration{"headers": s.ReadHeaderTimeout, "a request": s.ReadTimeout,
		"an answer": s.WriteTimeout, "the next request": s.IdleTimeout} {
		if time <= 0 || time > 60_000_000_000 {
			t.Errorf("%s may take %v", what, time)
		}
	}
	server := httptest.NewUnstartedServer(s.Handler)
	server.Config = s
	server.Start()
	defer server.Close()
	for length, status := range map[int]int{maxHeader / 2: 404, 2 * maxHeader: 431} {
		q, err := http.NewRequest("POST", server.URL+"/add-checkpoint", nil)
		must(t, err)
		q.Header.Set("X-Long", strings.Repeat("x", length))
		response, err := http.DefaultClient.Do(q)
		must(t, err)
		response.Body.Close()
		if response.StatusCode != status {
			t.Errorf("a header of %d bytes: status %d, expected %d", length, response.StatusCode, status)
		}
	}
}

// ofOneLog returns a place with the state of one log, and a function that returns the log's signed checkpoints.
func ofOneLog(t *testing.T) (p place, signed func(size int) []byte) {
	t.Helper()
	p = newPlace(t)
	line, signed := p.log("a.example")
	p.settings(line)
	if status := run(p.arguments("--create", "a.example"), io.Discard, io.Discard, nil); status != 0 {
		t.Fatalf("--create: status %d", status)
	}
	return p, signed
}

// heldLock is a lock whose next Read can be made to wait.
type heldLock struct {
	blob.Lock
	waitsNext     atomic.Bool
	asked, answer chan struct{}
}

func (h *heldLock) Read(ctx context.Context) (string, error) {
	if h.waitsNext.Swap(false) {
		close(h.asked)
		select {
		case <-h.answer:
		case <-ctx.Done():
			return "", ctx.Err()
		}
	}
	return h.Lock.Read(ctx)
}

// startOver runs a witness of one log. The lock of the log's state answers the next Read only after the test permits
// it.
func (p place) startOver(more ...string) (*process, *heldLock) {
	p.t.Helper()
	s, err := parse(p.arguments(more...), io.Discard)
	must(p.t, err)
	of := &heldLock{asked: make(chan struct{}), answer: make(chan struct{})}
	one := p.startBy(func(to io.Writer, signals chan os.Signal) int {
		lines := eventlog.NewLines(to)
		w, err := open(s, lines)
		must(p.t, err)
		defer w.close()
		of.Lock, err = blob.LockOf(testkit.Limited(p.t, testkit.Longest), s.state, "a.example")
		must(p.t, err)
		w.locks["a.example"] = of
		return statusOf(w.serve(s, lines, signals), lines)
	})
	of.waitsNext.Store(true)
	return one, of
}

// TestEndAnswers checks that SIGINT, like SIGTERM, ends the witness only after it answered the waiting request.
func TestEndAnswers(t *testing.T) {
	p, ofA := ofOneLog(t)
	one, state := p.startOver()
	answered := make(chan int, 1)
	go func() {
		status, _ := one.post(ofA(3))
		answered <- status
	}()
	<-state.asked
	one.signals <- syscall.SIGINT
	for {
		if line := one.next(); line["event"] == "ending" {
			break
		}
	}
	close(state.answer)
	if status := <-answered; status != 200 {
		t.Errorf("the waiting request is answered %d", status)
	}
	for range one.lines {
	}
	if status := <-one.status; status != 0 {
		t.Errorf("the end: status %d", status)
	}
}

// TestEndIsLate checks that an end takes at most its timeout, even if a state's lock does not answer. Requests that
// still wait then are not answered, which is logged, and the status is 1.
func TestEndIsLate(t *testing.T) {
	p, ofA := ofOneLog(t)
	one, state := p.startOver("--shutdown-timeout", "20ms")
	unanswered := make(chan struct{})
	go func() {
		defer close(unanswered)
		response, err := http.Post(one.addresses["clients"]+"/add-checkpoint", "text/plain",
			strings.NewReader("old 0\n\n"+string(ofA(3))))
		if err == nil {
			response.Body.Close()
			t.Errorf("the waiting request is answered %s", response.Status)
		}
	}()
	<-state.asked
	start := time.Now()
	one.signals <- syscall.SIGTERM
	var end string
	for text := range one.lines {
		if strings.Contains(text, `"event":"end"`) {
			end = text
		}
	}
	if status := <-one.status; status != 1 || !strings.Contains(end, "waiting requests were not answered") {
		t.Errorf("status %d: %s", status, end)
	}
	if duration := time.Since(start); duration > testkit.Longest/2 {
		t.Errorf("the end took %v", duration)
	}
	<-unanswered
}

// TestKeyWithoutState checks that --verifier-key needs no state, and that serving does.
func TestKeyWithoutState(t *testing.T) {
	p := newPlace(t)
	arguments := []string{"--name", "w.example", "--key", p.path("key.pem")}
	var out strings.Builder
	if status := run(append(arguments, "--verifier-key"), &out, io.Discard, nil); status != 0 ||
		!strings.HasPrefix(out.String(), "w.example+") {
		t.Errorf("status %d, %q", status, out.String())
	}
	var lines strings.Builder
	if status := run(arguments, io.Discard, &lines, nil); status != 2 ||
		!strings.Contains(lines.String(), "--state is missing") {
		t.Errorf("status %d, %q", status, lines.String())
	}
}
