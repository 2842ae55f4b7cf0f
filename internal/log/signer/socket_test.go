package signer

import (
	"context"
	"encoding/binary"
	"encoding/json"
	"errors"
	"fmt"
	"io"
	"net"
	"os"
	"path/filepath"
	"strings"
	"syscall"
	"testing"
	"time"

	"wagtenib/internal/ct"
	"wagtenib/internal/testkit"
)

// otherGuard is a signer that reports a guard if it has none, and the other way round.
type otherGuard struct{ Signer }

func (o otherGuard) IsGuarded() bool { return !o.Signer.IsGuarded() }

// TestRefusesAnotherKey: if a client's signer is opened again with another key, or with a guard, the client does not
// use it. The client continues after the first signer is opened again.
func TestRefusesAnotherKey(t *testing.T) {
	t.Parallel()
	ctx, key := limited(t), newKey(t)
	for what, other := range map[string]Signer{"another key": newKey(t), "a guard": otherGuard{key}} {
		signers, opened := []Signer{key, other}, 0
		c, err := NewClient(ctx, func(ctx context.Context) (*Peer, error) {
			path, next := filepath.Join(t.TempDir(), "socket"), signers[opened%2]
			go func() { _ = Listen(ctx, next, Socket{Path: path}) }()
			for {
				if end, err := Dial(ctx, path); err == nil {
					opened++
					return end, nil
				}
				time.Sleep(time.Millisecond)
			}
		}, testkit.Longest)
		must(t, err)
		must(t, c.Close())
		if _, err = c.Last(ctx); !errors.Is(err, ErrKey) {
			t.Errorf("%s: %v", what, err)
		}
		_, err = c.Last(ctx)
		must(t, err)
	}
	var eight [8]byte
	binary.BigEndian.PutUint64(eight[:], 5)
	if message := messageOf(ct.TreeHead{Timestamp: 5}); len(message) != 50 || string(message[2:10]) != string(eight[:]) {
		t.Errorf("%x", message)
	}
}

// TestSocketMode: only a signer's user and group can connect to its socket. The socket replaces a socket, but no other
// file.
func TestSocketMode(t *testing.T) {
	t.Parallel()
	folder := t.TempDir()
	path, file := filepath.Join(folder, "socket"), filepath.Join(folder, "file")
	for i := 0; i < 2; i++ {
		listener, err := listenAt(Socket{Path: path})
		must(t, err)
		defer listener.Close()
		if info, err := os.Stat(path); err != nil || info.Mode() != os.ModeSocket|0o660 {
			t.Errorf("%v, %v", info.Mode(), err)
		}
	}
	must(t, os.WriteFile(file, []byte("something"), 0o600))
	if _, err := listenAt(Socket{Path: file}); err == nil {
		t.Error("a file is taken for a socket")
	}
	if content, err := os.ReadFile(file); err != nil || string(content) != "something" {
		t.Errorf("%q, %v", content, err)
	}
	if left, err := os.ReadDir(folder); err != nil || len(left) != 2 {
		t.Errorf("%v, %v", left, err)
	}
}

// TestReportsRefusedCallers: of the callers that are refused within a minute, the first one is reported at once, and the
// others are counted in the next report.
func TestReportsRefusedCallers(t *testing.T) {
	t.Parallel()
	var reports []string
	c := &callers{socket: Socket{Refused: func(caller Caller, count int) {
		reports = append(reports, fmt.Sprint(caller.UID, " ", caller.PID, " ", count))
	}}}
	for pid := range int32(3) {
		c.refuse(Caller{PID: pid, UID: 7})
	}
	c.next = time.Now()
	c.refuse(Caller{PID: 3, UID: 8})
	if got := strings.Join(reports, ", "); got != "7 0 1, 8 3 3" {
		t.Errorf("the reports are %s", got)
	}
}

// timedSigner is a signer that sends how much time is left for an answer.
type timedSigner struct {
	Signer
	left chan time.Duration
}

func (s timedSigner) Last(ctx context.Context) (*ct.TreeHead, error) {
	until, isBounded := ctx.Deadline()
	if !isBounded {
		until = time.Now().Add(24 * time.Hour)
	}
	s.left <- time.Until(until)
	return nil, nil
}

// TestRequestTimeout: each request has a time limit, so a lock that does not answer blocks no connection for ever.
func TestRequestTimeout(t *testing.T) {
	t.Parallel()
	s := timedSigner{newKey(t), make(chan time.Duration, 1)}
	must(t, Serve(context.Background(), s, strings.NewReader(`{"last":true}`+"\n"), io.Discard))
	if left := <-s.left; left > requestTimeout || left < requestTimeout/2 {
		t.Errorf("the request has %v", left)
	}
}

// failingListener is a listener whose first calls of Accept fail.
type failingListener struct {
	net.Listener
	fails int
}

func (m *failingListener) Accept() (net.Conn, error) {
	if m.fails--; m.fails >= 0 {
		return nil, syscall.EMFILE
	}
	return m.Listener.Accept()
}

// serveAtSocket lets a server serve clients at a socket. The listener fails a given number of times before the first
// connection. end stops the server and checks its error.
func serveAtSocket(t *testing.T, all *server, fails int) (path string, end func()) {
	t.Helper()
	path = filepath.Join(t.TempDir(), "socket")
	ctx, cancel := context.WithCancel(limited(t))
	listener, err := net.Listen("unix", path)
	must(t, err)
	done := make(chan error, 1)
	go func() { done <- all.serve(ctx, newKey(t), &failingListener{listener, fails}) }()
	return path, func() {
		t.Helper()
		cancel()
		listener.Close()
		wantError(t, <-done, net.ErrClosed)
	}
}

// clientAt returns a client of the signer at a socket.
func clientAt(t *testing.T, path string) *Client {
	t.Helper()
	c, err := NewClient(limited(t), func(ctx context.Context) (*Peer, error) { return Dial(ctx, path) }, testkit.Longest)
	must(t, err)
	t.Cleanup(func() { c.Close() })
	return c
}

// TestTooManyConnections opens more connections than a server has slots, at a listener that fails now and then. Clients
// are answered, and the connection that was idle for the longest is closed.
func TestTooManyConnections(t *testing.T) {
	t.Parallel()
	ctx, all := limited(t), newServer()
	path, end := serveAtSocket(t, all, 3)
	first := clientAt(t, path)
	var silent []net.Conn
	for len(silent) < maxConnections-1 {
		connection, err := net.Dial("unix", path)
		must(t, err)
		t.Cleanup(func() { connection.Close() })
		silent = append(silent, connection)
	}
	for open := 0; open < maxConnections; time.Sleep(time.Millisecond) {
		all.mu.Lock()
		open = len(all.open)
		all.mu.Unlock()
	}
	// After this request it is not the connection that was idle for the longest.
	_, err := first.Last(ctx)
	must(t, err)
	second := clientAt(t, path)
	for _, c := range []*Client{first, second} {
		if _, err := c.Last(ctx); err != nil || c.Starts() != 1 {
			t.Fatalf("%v, opened %d times", err, c.Starts())
		}
	}
	closed := make(chan int, len(silent))
	for i, connection := range silent {
		go func() {
			// The server sends nothing, so this ends only with the connection.
			_, _ = connection.Read(make([]byte, 1))
			closed <- i
		}()
	}
	select {
	case i := <-closed:
		if i != 0 {
			t.Fatalf("the silent connection %d was closed, and not the one that was idle for the longest", i)
		}
	case <-ctx.Done():
		t.Fatal("no silent connection was closed")
	}
	must(t, silent[len(silent)-1].SetReadDeadline(time.Now().Add(300*time.Millisecond)))
	var late net.Error
	if _, err := silent[len(silent)-1].Read(make([]byte, 1)); !errors.As(err, &late) || !late.Timeout() {
		t.Errorf("the last silent connection: %v", err)
	}
	end()
}

// TestHalfRequests lets requests that never end take all slots. Each of them has its timeout, and a later client is
// answered.
func TestHalfRequests(t *testing.T) {
	t.Parallel()
	all := newServer()
	all.timeout = 50 * time.Millisecond
	path, end := serveAtSocket(t, all, 0)
	for i := 0; i < maxConnections; i++ {
		connection, err := net.Dial("unix", path)
		must(t, err)
		t.Cleanup(func() { connection.Close() })
		_, err = connection.Write([]byte(`{"last":`))
		must(t, err)
	}
	// The client has the same timeout as the others, so on a busy machine it must try again.
	ctx, err := limited(t), errTried
	for err != nil && ctx.Err() == nil {
		var c *Client
		if c, err = NewClient(ctx, func(ctx context.Context) (*Peer, error) { return Dial(ctx, path) },
			testkit.Longest); err == nil {
			_, err = c.Last(ctx)
			c.Close()
		}
	}
	must(t, err)
	end()
}

// TestWrongRequests sends a signer requests that ask for nothing, or are invalid. Each gets a reply, and nothing is
// signed.
func TestWrongRequests(t *testing.T) {
	t.Parallel()
	g, right := guardedIn(t, newKey(t), t.TempDir()), listOf(t, 2, 2)
	head := ct.NewHeadJSON(&ct.TreeHead{TreeSize: 2, Timestamp: 5, Root: right.head(t, 2, 5).Root})
	short := *head
	short.Root = short.Root[1:]
	text := func(req request) string {
		line, err := json.Marshal(req)
		must(t, err)
		return string(line)
	}
	lines := []string{"x", "[]", `{"head":7}`, text(request{Head: &short}),
		text(request{Head: head, Consistency: [][]byte{{1}}}),
		text(request{Receipts: []receiptLine{{Leaf: right.leaves[0], Path: [][]byte{make([]byte, 33)}}}}),
		text(request{Receipts: make([]receiptLine, MaxReceipts+1)}),
		text(request{Receipts: make([]receiptLine, 1)}), "{}", text(request{Head: head})}
	var output strings.Builder
	must(t, Serve(limited(t), g, strings.NewReader(strings.Join(lines, "\n")+"\n"), &output))
	replies := strings.Split(strings.TrimSuffix(output.String(), "\n"), "\n")
	if len(replies) != len(lines) {
		t.Fatalf("%d replies to %d lines", len(replies), len(lines))
	}
	for i, line := range replies {
		var received reply
		must(t, json.Unmarshal([]byte(line), &received))
		if i == 6 && !strings.Contains(received.Failed, "a request for 4097 timestamps") {
			t.Errorf("more than the maximum of one request: %s", line)
		}
		if wanted := i == len(lines)-1; (len(received.Signatures) == 1) != wanted || !wanted && i != len(lines)-2 &&
			received.Failed+received.Refused == "" {
			t.Errorf("%.80s: %s", lines[i], line)
		}
	}
	if err := Serve(limited(t), g, strings.NewReader("half a line"), &output); err != nil {
		t.Error(err)
	}
}

// failingSigner is a signer that signs no head, and returns an error.
type failingSigner struct {
	Signer
	why error
}

func (s failingSigner) SignHead(context.Context, ct.TreeHead, [][32]byte) ([]byte, error) {
	return nil, s.why
}

// TestErrorsThroughASocket: an error of a signer in another process keeps its kind: ErrMoved, ErrState, a refusal with
// its name, and ErrGone for every other one.
func TestErrorsThroughASocket(t *testing.T) {
	t.Parallel()
	ctx, key := limited(t), newKey(t)
	for _, test := range []struct{ why, kind, not error }{
		{fmt.Errorf("x: %w", ErrMoved), ErrMoved, ErrState},
		{fmt.Errorf("x: %w", ErrState), ErrState, ErrMoved},
		{TooFar, TooFar, ErrMoved},
		{errors.New("x"), ErrGone, ErrRefused},
	} {
		c := socketClient(ctx, t, failingSigner{key, test.why})
		if _, err := c.SignHead(ctx, ct.TreeHead{TreeSize: 1, Timestamp: 1}, nil); !errors.Is(err, test.kind) ||
			errors.Is(err, test.not) {
			t.Errorf("%v is received as %v", test.why, err)
		}
	}
}
