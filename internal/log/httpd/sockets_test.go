package httpd

import (
	"bufio"
	"bytes"
	"context"
	"crypto/tls"
	"encoding/pem"
	"errors"
	"fmt"
	"io"
	"net"
	"net/http"
	"net/http/httptest"
	"strings"
	"syscall"
	"testing"
	"time"

	"wagtenib/internal/ct"
	"wagtenib/internal/testkit"
)

// listening serves a front on loopback. It returns the address, and the server to end it.
func (f *fixture) listening(over *tls.Config) (address string, server *Server) {
	f.t.Helper()
	server = f.front.Serve(f.front)
	return f.listeningBy(server, over), server
}

// listeningBy starts a server on loopback, and returns its address.
func (f *fixture) listeningBy(server *Server, over *tls.Config) (address string) {
	f.t.Helper()
	listener, err := net.Listen("tcp", "127.0.0.1:0")
	if err != nil {
		f.t.Fatal(err)
	}
	done := make(chan error, 1)
	go func() { done <- server.Listen(listener, over) }()
	f.t.Cleanup(func() {
		ctx, cancel := context.WithTimeout(context.Background(), 5*time.Second)
		defer cancel()
		server.End(ctx)
		if err := <-done; err != nil {
			f.t.Errorf("the server ended with an error: %v", err)
		}
	})
	return listener.Addr().String()
}

func dial(t testing.TB, address string) net.Conn {
	t.Helper()
	connection, err := net.Dial("tcp", address)
	if err != nil {
		t.Fatal(err)
	}
	connection.SetDeadline(time.Now().Add(testkit.Patience))
	t.Cleanup(func() { connection.Close() })
	return connection
}

// statusesOf sends bytes on a new connection, and returns the statuses of all answers until the server closes it.
func statusesOf(t testing.TB, address, text string) (statuses []int) {
	t.Helper()
	connection := dial(t, address)
	if _, err := connection.Write([]byte(text)); err != nil {
		t.Fatal(err)
	}
	// A client that announces a close waits for its response. To a server, a client that sends nothing more may have
	// left.
	if !strings.Contains(text, "Connection: close\r\n") {
		connection.(*net.TCPConn).CloseWrite()
	}
	return answersOn(t, connection)
}

func answersOn(t testing.TB, connection net.Conn) (statuses []int) {
	t.Helper()
	reader := bufio.NewReader(connection)
	for {
		if _, err := reader.Peek(1); err != nil {
			var late net.Error
			if errors.As(err, &late) && late.Timeout() {
				t.Errorf("after %v the server waits", statuses)
			}
			return statuses
		}
		answer, err := http.ReadResponse(reader, nil)
		if err != nil {
			t.Errorf("after %v: %v", statuses, err)
			return statuses
		}
		// If the server closes before it has read everything, the end of its response may be lost.
		if _, err := io.Copy(io.Discard, answer.Body); err != nil && !errors.Is(err, syscall.ECONNRESET) {
			t.Errorf("an answer breaks off: %v", err)
		}
		statuses = append(statuses, answer.StatusCode)
	}
}

// closed fails the test unless the server closed a connection without an answer. If the server only sends nothing, that
// is not enough.
func closed(t testing.TB, what string, from io.Reader) {
	t.Helper()
	n, err := from.Read(make([]byte, 1))
	var late net.Error
	if n != 0 || err == nil || errors.As(err, &late) && late.Timeout() {
		t.Errorf("%s: %d bytes, %v, and not closed", what, n, err)
	}
}

// TestUnclearRequests sends texts that could hide a second request from another program on the way. The hidden request
// must never be answered.
func TestUnclearRequests(t *testing.T) {
	f := newFixture(t, 10*time.Millisecond, nil)
	address, _ := f.listening(nil)
	const hidden = "GET /healthz HTTP/1.1\r\nHost: hidden\r\n\r\n"
	get := "GET /healthz HTTP/1.1\r\nHost: log\r\n"
	post := "POST /ct/v1/add-chain HTTP/1.1\r\nHost: log\r\n"
	for _, test := range []struct {
		what, text string
		statuses   []int
	}{
		{"two requests, one after the other", get + "\r\n" + get + "\r\n", []int{200, 200}},
		{"a GET with a body", get + fmt.Sprintf("Content-Length: %d\r\n\r\n", len(hidden)) + hidden, []int{400}},
		{"a GET with a body in chunks", get + "Transfer-Encoding: chunked\r\n\r\n0\r\n\r\n" + hidden, []int{411}},
		{"a length and chunks at an unknown path", fmt.Sprintf(
			"POST /nothing HTTP/1.1\r\nHost: log\r\nContent-Length: %d\r\nTransfer-Encoding: chunked\r\n\r\n0\r\n\r\n",
			5+len(hidden)) + hidden, []int{411}},
		{"a length and chunks at a path for reads", fmt.Sprintf(
			"POST /checkpoint HTTP/1.1\r\nHost: log\r\nContent-Length: %d\r\nTransfer-Encoding: "+
				"chunked\r\n\r\n0\r\n\r\n", 5+len(hidden)) + hidden, []int{411}},
		{"a length and chunks in an OPTIONS request", fmt.Sprintf(
			"OPTIONS /checkpoint HTTP/1.1\r\nHost: log\r\nContent-Length: %d\r\nTransfer-Encoding: "+
				"chunked\r\n\r\n0\r\n\r\n", 5+len(hidden)) + hidden, []int{411}},
		{"a GET with an announced body", get + "Content-Length: 100\r\n\r\n", []int{400}},
		{"two lengths", post + fmt.Sprintf("Content-Length: 2\r\nContent-Length: %d\r\n\r\n{}", len(hidden)+2) +
			hidden, []int{400}},
		{"two lengths in one", post + "Content-Length: 2, 3\r\n\r\n{}" + hidden, []int{400}},
		{"a length twice", post + "Content-Length: 2\r\nContent-Length: 2\r\nConnection: close\r\n\r\n{}", []int{400}},
		{"a length and chunks", post + "Content-Length: 2\r\nTransfer-Encoding: chunked\r\n\r\n0\r\n\r\n" +
			hidden, []int{411}},
		{"chunks and a length", post + "Transfer-Encoding: chunked\r\nContent-Length: 5\r\n\r\n2\r\n{}\r\n0\r\n\r\n" +
			hidden, []int{411}},
		{"chunks", post + "Transfer-Encoding: chunked\r\n\r\n2\r\n{}\r\n0\r\n\r\n" + hidden, []int{411}},
		{"chunks by another name", post + "Transfer-Encoding: xchunked\r\n\r\n2\r\n{}\r\n0\r\n\r\n" +
			hidden, []int{501}},
		{"chunks twice", post + "Transfer-Encoding: chunked\r\nTransfer-Encoding: identity\r\n\r\n" +
			hidden, []int{501}},
		{"a space after Transfer-Encoding", post + "Transfer-Encoding : chunked\r\n\r\n0\r\n\r\n" + hidden, []int{400}},
		{"a length with a sign", post + "Content-Length: +2\r\n\r\n{}" + hidden, []int{400}},
		{"a negative length", post + "Content-Length: -1\r\n\r\n" + hidden, []int{400}},
		{"a length that is a word", post + "Content-Length: two\r\n\r\n" + hidden, []int{400}},
		{"a huge length", post + "Content-Length: 99999999999999999999\r\n\r\n" + hidden, []int{400}},
		{"a length above the bound", post + "Content-Length: 1048577\r\n\r\n" + hidden, []int{413}},
		{"a body that breaks off", post + "Content-Length: 100\r\n\r\n{}", []int{408}},
		{"no length", post + "\r\n" + hidden, []int{400, 200}},
		{"a POST to a path for reads", "POST /checkpoint HTTP/1.1\r\nHost: log\r\nContent-Length: 2\r\n\r\n{}" + get +
			"\r\n", []int{405, 200}},
		{"no host", "GET /healthz HTTP/1.1\r\n\r\n" + hidden, []int{400}},
		{"two hosts", get + "Host: other\r\n\r\n" + hidden, []int{400}},
		{"no version", "GET /healthz\r\n\r\n" + hidden, []int{400}},
		{"another version", "GET /healthz HTTP/3.0\r\nHost: log\r\n\r\n" + hidden, []int{505}},
		{"HTTP/2 without asking", "PRI * HTTP/2.0\r\n\r\nSM\r\n\r\n", []int{404}},
		{"a space before the first header", "GET /healthz HTTP/1.1\r\n Host: log\r\n\r\n" + hidden, []int{400}},
		{"a zero byte", "GET /healthz HTTP/1.1\r\nHost: log\r\nX: \x00\r\n\r\n" + hidden, []int{400}},
		{"headers above the bound", get + "X: " + strings.Repeat("x", 2*MaxHeader) + "\r\n\r\n", []int{431}},
		{"not HTTP", "\x16\x03\x01\x02\x00\x01\x00\x01\xfc\r\n\r\n", []int{400}},
		{"nothing", "", nil},
	} {
		if statuses := statusesOf(t, address, test.text); fmt.Sprint(statuses) != fmt.Sprint(test.statuses) {
			t.Errorf("%s: %v, not %v", test.what, statuses, test.statuses)
		}
	}
	if size := f.log.Metrics().Entries; size != 0 {
		t.Errorf("the log has %d entries", size)
	}
}

// TestSlowClients checks that a client that sends or reads too slowly is disconnected, and that others are answered in
// the meantime.
func TestSlowClients(t *testing.T) {
	f := newFixture(t, 10*time.Millisecond, func(o *Options) {
		o.Limits.Headers, o.Limits.Request, o.Limits.Idle = 200*time.Millisecond, 400*time.Millisecond,
			300*time.Millisecond
		o.Limits.Submission, o.Limits.Answer = 100*time.Millisecond, time.Second
	})
	address, _ := f.listening(nil)
	sizes := make([]int, ct.TileWidth)
	for i := range sizes {
		sizes[i] = 128 << 10
	}
	f.log.Change("tile/data/000", dataTileOf(sizes...))
	slow := map[string]func(net.Conn){
		"nothing at all": func(net.Conn) {},
		"headers, a byte at a time": func(c net.Conn) {
			for _, sign := range []byte("GET /healthz HTTP/1.1\r\nHost: log\r\nX: " + strings.Repeat("x", 1000)) {
				if _, err := c.Write([]byte{sign}); err != nil {
					return
				}
				time.Sleep(20 * time.Millisecond)
			}
		},
		"a body, a byte at a time": func(c net.Conn) {
			fmt.Fprintf(c, "POST /ct/v1/add-chain HTTP/1.1\r\nHost: log\r\nContent-Length: 1000\r\n\r\n")
			for i := 0; i < 1000; i++ {
				if _, err := c.Write([]byte{'{'}); err != nil {
					return
				}
				time.Sleep(20 * time.Millisecond)
			}
		},
		"a body that is never sent": func(c net.Conn) {
			fmt.Fprintf(c, "POST /ct/v1/add-chain HTTP/1.1\r\nHost: log\r\nContent-Length: 1000\r\n\r\n")
		},
		"idle after a request": func(c net.Conn) { fmt.Fprintf(c, "GET /healthz HTTP/1.1\r\nHost: log\r\n\r\n") },
	}
	ended := make(chan string, len(slow))
	for what, send := range slow {
		connection := dial(t, address)
		go func(what string, send func(net.Conn)) {
			go send(connection)
			io.Copy(io.Discard, connection)
			ended <- what
		}(what, send)
	}
	// This client asks for a large object and reads nothing of it. Its handler must end.
	for began := (time.Time{}); f.front.uses.answers.used.Load() < 32<<20; time.Sleep(time.Millisecond) {
		// On a busy machine it may be disconnected before the loop sees its bytes. Then another one asks.
		if time.Since(began) > 5*time.Second {
			greedy := dial(t, address)
			greedy.(*net.TCPConn).SetReadBuffer(4096)
			fmt.Fprintf(greedy, "GET /tile/data/000 HTTP/1.1\r\nHost: log\r\n\r\n")
			began = time.Now()
		}
	}
	// This request has the same short limits, so it may have to be sent again.
	eventually(t, "another one is answered", func() bool {
		connection := dial(t, address)
		defer connection.Close()
		fmt.Fprintf(connection, "GET /healthz HTTP/1.1\r\nHost: log\r\nConnection: close\r\n\r\n")
		answer, err := http.ReadResponse(bufio.NewReader(connection), nil)
		return err == nil && answer.StatusCode == 200
	})
	left := map[string]bool{}
	for what := range slow {
		left[what] = true
	}
	for until := time.After(testkit.Patience); len(left) > 0; {
		select {
		case what := <-ended:
			delete(left, what)
		case <-until:
			t.Fatalf("not disconnected: %v", left)
		}
	}
	// A connection is closed if a write on it fails. The resources of its request are freed after that.
	eventually(t, "all connections are closed, and no bytes are counted", func() bool {
		return f.front.uses.connections.open.Load() == 0 && f.front.uses.waiting.used.Load() == 0 &&
			f.front.uses.answers.used.Load() == 0
	})
}

// TestServerEnds checks that, when the server ends, waiting requests are answered, and idle and silent connections are
// closed, within the bound.
func TestServerEnds(t *testing.T) {
	f := newFixture(t, 0, nil)
	address, server := f.listening(nil)
	idle, silent, half, waits := dial(t, address), dial(t, address), dial(t, address), dial(t, address)
	fmt.Fprintf(idle, "GET /healthz HTTP/1.1\r\nHost: log\r\n\r\n")
	idleReader := bufio.NewReader(idle)
	if answer, err := http.ReadResponse(idleReader, nil); err != nil || answer.StatusCode != 200 {
		t.Fatal(err)
	} else {
		io.Copy(io.Discard, answer.Body)
	}
	fmt.Fprintf(half, "GET /healthz HT")
	body := testkit.Submission(f.issue(false))
	fmt.Fprintf(waits, "POST /ct/v1/add-chain HTTP/1.1\r\nHost: log\r\nContent-Length: %d\r\n\r\n%s", len(body), body)
	for f.log.Metrics().Queue == 0 || f.front.uses.connections.open.Load() < 4 {
		time.Sleep(time.Millisecond)
	}
	f.front.Refuse()
	began := time.Now()
	ctx, cancel := context.WithTimeout(context.Background(), testkit.Longest)
	defer cancel()
	f.log.End(ctx)
	if err := server.End(ctx); err != nil {
		t.Errorf("the server does not end: %v", err)
	}
	if took := time.Since(began); took > testkit.Longest/2 {
		t.Errorf("the end took %v", took)
	}
	if statuses := answersOn(t, waits); fmt.Sprint(statuses) != "[200]" {
		t.Errorf("the waiting client: %v", statuses)
	}
	for what, connection := range map[string]io.Reader{"idle": idleReader, "silent": silent, "half": half} {
		closed(t, what, connection)
	}
	if _, err := net.Dial("tcp", address); err == nil {
		t.Error("connections are still accepted")
	}
}

// TestServerEndsWithinItsBound checks that the connection of a submission that is not answered in time is closed when
// the bound is over.
func TestServerEndsWithinItsBound(t *testing.T) {
	f := newFixture(t, 0, nil)
	address, server := f.listening(nil)
	waits := dial(t, address)
	body := testkit.Submission(f.issue(false))
	fmt.Fprintf(waits, "POST /ct/v1/add-chain HTTP/1.1\r\nHost: log\r\nContent-Length: %d\r\n\r\n%s", len(body), body)
	for f.log.Metrics().Queue == 0 {
		time.Sleep(time.Millisecond)
	}
	ctx, cancel := context.WithTimeout(context.Background(), 50*time.Millisecond)
	defer cancel()
	if err := server.End(ctx); !errors.Is(err, context.DeadlineExceeded) {
		t.Errorf("End: %v", err)
	}
	closed(t, "the waiting client", waits)
}

// TestSubmissionsWaitLongerThanRequests checks that a submission may wait for longer than a request may take to be
// sent.
func TestSubmissionsWaitLongerThanRequests(t *testing.T) {
	// On a busy machine the request itself may take longer than its limit. Then the test tries a longer limit.
	for limit := 150 * time.Millisecond; ; limit *= 4 {
		f := newFixture(t, 0, func(o *Options) {
			o.Limits.Headers, o.Limits.Request, o.Limits.Submission = limit, limit,
				testkit.Longest
		})
		address, _ := f.listening(nil)
		body := testkit.Submission(f.issue(false))
		connection := dial(t, address)
		fmt.Fprintf(connection, "POST /ct/v1/add-chain HTTP/1.1\r\nHost: log\r\nConnection: close\r\nContent-Length: "+
			"%d\r\n\r\n%s", len(body), body)
		answered := make(chan []int, 1)
		go func() { answered <- answersOn(t, connection) }()
		for len(answered) == 0 && f.log.Metrics().Queue == 0 {
			time.Sleep(time.Millisecond)
		}
		if len(answered) == 0 {
			time.Sleep(2 * limit)
			f.log.Publish()
			if statuses := <-answered; fmt.Sprint(statuses) != "[200]" {
				t.Errorf("%v, for a request that may take %v", statuses, limit)
			}
			return
		}
		if limit > testkit.Longest/8 {
			t.Fatalf("a request is not accepted within %v: %v", limit, <-answered)
		}
	}
}

// TestClientsThatGo checks that the server notices a client that goes away while it waits, and ends the context of its
// submission.
func TestClientsThatGo(t *testing.T) {
	f := newFixture(t, 0, nil)
	address, _ := f.listening(nil)
	body := testkit.Submission(f.issue(false))
	connection := dial(t, address)
	fmt.Fprintf(connection, "POST /ct/v1/add-chain HTTP/1.1\r\nHost: log\r\nContent-Length: %d\r\n\r\n%s",
		len(body), body)
	for f.log.Metrics().Queue == 0 {
		time.Sleep(time.Millisecond)
	}
	if f.front.uses.waiting.used.Load() != int64(len(body)) {
		t.Errorf("%d bytes wait", f.front.uses.waiting.used.Load())
	}
	connection.Close()
	eventually(t, "its bytes no longer count", func() bool { return f.front.uses.waiting.used.Load() == 0 })
}

// TestClientsThatGoCauseNoAlert checks that a client that leaves before its response causes no alert. It is counted
// with a status of its own, and not logged.
func TestClientsThatGoCauseNoAlert(t *testing.T) {
	f := newFixture(t, 0, nil)
	f.fill(1)
	f.log.Slow = time.Hour
	address, _ := f.listening(nil)
	counts := func(line string) bool {
		w := httptest.NewRecorder()
		f.front.Operator().ServeHTTP(w, httptest.NewRequest("GET", "/metrics", nil))
		return strings.Contains(w.Body.String(), "\n"+line+"\n")
	}
	for _, path := range []string{"/checkpoint", "/tile/0/000.p/1"} {
		connection := dial(t, address)
		fmt.Fprintf(connection, "GET %s HTTP/1.1\r\nHost: log\r\n\r\n", path)
		for f.front.uses.connections.open.Load() != 1 {
			time.Sleep(time.Millisecond)
		}
		connection.Close()
		for f.front.uses.connections.open.Load() != 0 {
			time.Sleep(time.Millisecond)
		}
	}
	f.log.Slow = 0
	for call, path := range map[string]string{"checkpoint": "/checkpoint", "tile": "/tile/0/000.p/1"} {
		if !counts(`ctserve_requests_total{call="` + call + `",status="499"} 1`) {
			t.Errorf("%s: the client that left is not counted as gone", path)
		}
	}
	if lines := f.lines.String(); strings.Contains(lines, `"event":"request"`) {
		t.Errorf("the request is logged: %s", lines)
	}
}

// writeKeyPair writes a new certificate and its key into a folder, and returns the certificate.
func writeKeyPair(t testing.TB, folder string, authority *testkit.Authority) []byte {
	t.Helper()
	certificate, key := authority.KeyPair()
	writeFile(t, folder+"/cert.pem", certificate)
	writeFile(t, folder+"/key.pem", key)
	block, _ := pem.Decode(certificate)
	return block.Bytes
}

// TestTLS checks that TLS is accepted from version 1.2 on, with HTTP/1.1, that a handshake has a time limit, and that a
// reload uses the new pair.
func TestTLS(t *testing.T) {
	f := newFixture(t, 0, nil)
	folder := t.TempDir()
	certificate := writeKeyPair(t, folder, f.authority)
	kept, err := LoadCertificate(folder+"/cert.pem", folder+"/key.pem")
	if err != nil {
		t.Fatal(err)
	}
	address, _ := f.listening(kept.Config())
	ask := func(config *tls.Config) (*tls.ConnectionState, error) {
		config.InsecureSkipVerify = true
		connection, err := tls.Dial("tcp", address, config)
		if err != nil {
			return nil, err
		}
		defer connection.Close()
		fmt.Fprintf(connection, "GET /healthz HTTP/1.1\r\nHost: log\r\n\r\n")
		answer, err := http.ReadResponse(bufio.NewReader(connection), nil)
		if err == nil && answer.StatusCode != 200 {
			err = errors.New(answer.Status)
		}
		state := connection.ConnectionState()
		return &state, err
	}
	state, err := ask(&tls.Config{NextProtos: []string{"h2", "http/1.1"}})
	if err != nil || state.NegotiatedProtocol != "http/1.1" ||
		!bytes.Equal(state.PeerCertificates[0].Raw, certificate) {
		t.Errorf("%v, %v", state, err)
	}
	if _, err := ask(&tls.Config{MinVersion: tls.VersionTLS10, MaxVersion: tls.VersionTLS11}); err == nil {
		t.Fatal("TLS 1.1 is accepted")
	}
	// This is another front, because the handshakes of the other clients have no such short limit.
	brief := newFixture(t, 0, func(o *Options) { o.Limits.Headers = 200 * time.Millisecond })
	silently, _ := brief.listening(kept.Config())
	closed(t, "a handshake that is never sent", dial(t, silently))
	for _, one := range []*fixture{f, brief} {
		failed := func() string {
			measured := httptest.NewRecorder()
			one.front.Operator().ServeHTTP(measured, httptest.NewRequest("GET", "/metrics", nil))
			_, text, _ := strings.Cut(measured.Body.String(), "\nctserve_tls_handshakes_failed_total ")
			count, _, _ := strings.Cut(text, "\n")
			return count
		}
		// A client receives its TLS alert before the server counts.
		eventually(t, "a handshake that failed is counted", func() bool { return failed() != "0" })
		if count := failed(); count != "1" || strings.Contains(one.lines.String(), "handshake") {
			t.Errorf("failed handshakes must be counted, and not logged: %s, %s", count, one.lines)
		}
	}
	// A reload uses the new pair, or keeps the old one if the new one is wrong.
	certificate = writeKeyPair(t, folder, f.authority)
	if err := kept.Reload(); err != nil {
		t.Fatal(err)
	}
	if state, err := ask(&tls.Config{}); err != nil || !bytes.Equal(state.PeerCertificates[0].Raw, certificate) {
		t.Errorf("after a reload: %v", err)
	}
	writeFile(t, folder+"/key.pem", []byte("none"))
	if err := kept.Reload(); err == nil {
		t.Error("a file that is no key is accepted")
	}
	if state, err := ask(&tls.Config{}); err != nil || !bytes.Equal(state.PeerCertificates[0].Raw, certificate) {
		t.Errorf("after a reload that failed: %v", err)
	}
}
