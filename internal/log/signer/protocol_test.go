package signer

import (
	"bufio"
	"context"
	"encoding/json"
	"errors"
	"fmt"
	"io"
	"net"
	"os"
	"path/filepath"
	"runtime"
	"strings"
	"syscall"
	"testing"
	"testing/iotest"
	"time"

	"wagtenib/internal/ct"
	"wagtenib/internal/testkit"
)

// replyingPeer returns a function that opens a peer, which answers the lines of each connection with these replies in
// their order. gone receives a value for each connection that its client closed.
func replyingPeer(t *testing.T, replies ...string) (open func(context.Context) (*Peer, error), gone chan error) {
	path := filepath.Join(t.TempDir(), "socket")
	listener, err := net.Listen("unix", path)
	must(t, err)
	t.Cleanup(func() { listener.Close() })
	gone = make(chan error, 16)
	go func() {
		for {
			connection, err := listener.Accept()
			if err != nil {
				return
			}
			lines := bufio.NewReader(connection)
			for _, reply := range replies {
				if _, err := lines.ReadString('\n'); err == nil {
					_, _ = io.WriteString(connection, reply+"\n")
				}
			}
			_, err = lines.ReadString('\n')
			gone <- err
			connection.Close()
		}
	}()
	return func(ctx context.Context) (*Peer, error) { return Dial(ctx, path) }, gone
}

// openReply returns a signer's reply to the first request.
func openReply(t *testing.T, key *Key) string {
	line, err := json.Marshal(reply{Key: key.Key(), Guarded: true})
	must(t, err)
	return string(line)
}

// TestWrongReplies: a reply without a key, a head or JSON is an error of its kind, and the connection is closed.
func TestWrongReplies(t *testing.T) {
	t.Parallel()
	ctx, key := limited(t), newKey(t)
	for what, test := range map[string]struct {
		replies []string
		kind    error
		closes  bool
	}{
		"no key":                    {[]string{"{}"}, ErrReply, true},
		"no JSON in place of a key": {[]string{"no"}, ErrReply, true},
		"no valid state":            {[]string{`{"failed":"there is none","bad_state":true}`}, ErrState, true},
		"a root of 3 bytes": {[]string{openReply(t, key),
			`{"last":{"sha256_root_hash":"AAAA","timestamp":5,"tree_size":2}}`}, ErrReply, true},
		"no JSON in place of a head": {[]string{openReply(t, key), "no"}, ErrReply, true},
		"a failure":                  {[]string{openReply(t, key), `{"failed":"the disk"}`}, ErrGone, true},
		"a head":                     {[]string{openReply(t, key), `{"last":null}`}, nil, false},
	} {
		open, gone := replyingPeer(t, test.replies...)
		c, err := NewClient(ctx, open, testkit.Longest)
		if !errors.Is(err, test.kind) || (c == nil) != (err != nil) {
			t.Errorf("%s: %v", what, err)
		}
		if test.closes {
			select {
			case <-gone:
			case <-ctx.Done():
				t.Errorf("%s: the connection stays open", what)
			}
		}
		if c != nil {
			must(t, c.Close())
		}
	}
}

// TestOtherKeyIsClosed: the connection to a signer that has another key than before is closed.
func TestOtherKeyIsClosed(t *testing.T) {
	t.Parallel()
	ctx, first, other := limited(t), newKey(t), newKey(t)
	right, _ := replyingPeer(t, openReply(t, first), `{"last":null}`)
	wrong, gone := replyingPeer(t, openReply(t, other))
	opens := 0
	c, err := NewClient(ctx, func(ctx context.Context) (*Peer, error) {
		if opens++; opens > 1 {
			return wrong(ctx)
		}
		return right(ctx)
	}, testkit.Longest)
	must(t, err)
	defer c.Close()
	must(t, c.Close())
	_, err = c.Last(ctx)
	wantError(t, err, ErrKey)
	select {
	case <-gone:
	case <-ctx.Done():
		t.Error("the connection stays open")
	}
}

// TestManyReceipts asks for more timestamps than one request may have. Each is signed, in the same order.
func TestManyReceipts(t *testing.T) {
	t.Parallel()
	ctx, key, path := limited(t), newKey(t), filepath.Join(t.TempDir(), "socket")
	listener, err := listenAt(Socket{Path: path})
	must(t, err)
	defer listener.Close()
	go func() { _ = newServer().serve(ctx, key, listener) }()
	c, err := NewClient(ctx, func(ctx context.Context) (*Peer, error) { return Dial(ctx, path) }, testkit.Longest)
	must(t, err)
	defer c.Close()
	receipts := make([]Receipt, MaxReceipts+2)
	for i := range receipts {
		receipts[i].Leaf = leaf(fmt.Sprint(i))
	}
	signatures, err := c.SignTimestamps(ctx, receipts)
	if err != nil || len(signatures) != len(receipts) {
		t.Fatalf("%d signatures, %v", len(signatures), err)
	}
	for _, i := range []int{0, 1, MaxReceipts - 1, MaxReceipts, MaxReceipts + 1} {
		if err := Check(key.Key(), receipts[i].Leaf, signatures[i]); err != nil {
			t.Errorf("timestamp %d: %v", i, err)
		}
	}
	if c.Starts() != 1 {
		t.Errorf("the signer was opened %d times", c.Starts())
	}
}

// TestLongRequest: a request that is longer than MaxLine is not sent, and the connection stays open.
func TestLongRequest(t *testing.T) {
	ctx, key := limited(t), newKey(t)
	open, _ := replyingPeer(t, openReply(t, key), `{"last":null}`, `{"last":null}`)
	c, err := NewClient(ctx, open, testkit.Longest)
	must(t, err)
	defer c.Close()
	// The leaf has MaxLine bytes in base64.
	if _, err := c.SignTimestamps(ctx, []Receipt{{Leaf: make([]byte, MaxLine/4*3)}}); !errors.Is(err, ErrReply) {
		t.Error(err)
	}
	if _, err := c.Last(ctx); err != nil || c.Starts() != 1 {
		t.Errorf("%v, opened %d times", err, c.Starts())
	}
}

// TestRefusalThroughASocket: a refusal keeps its name and the guard's fault.
func TestRefusalThroughASocket(t *testing.T) {
	t.Parallel()
	ctx, key, path := limited(t), newKey(t), filepath.Join(t.TempDir(), "socket")
	listener, err := listenAt(Socket{Path: path})
	must(t, err)
	defer listener.Close()
	why := Refusal{"inconsistent", "too-few"}
	go func() { _ = newServer().serve(ctx, failingSigner{key, fmt.Errorf("x: %w", why)}, listener) }()
	c, err := NewClient(ctx, func(ctx context.Context) (*Peer, error) { return Dial(ctx, path) }, testkit.Longest)
	must(t, err)
	defer c.Close()
	_, err = c.SignHead(ctx, ct.TreeHead{TreeSize: 1, Timestamp: 1}, nil)
	var received Refusal
	if !errors.As(err, &received) || received != why || err.Error() != "signer: refused: inconsistent (too-few)" {
		t.Errorf("%v", err)
	}
	if plain := (Refusal{Name: "fork"}).Error(); plain != "signer: refused: fork" {
		t.Error(plain)
	}
}

// TestServeState: the reason why a signer cannot start is the reply to the first request. Without a request nothing is
// written.
func TestServeState(t *testing.T) {
	t.Parallel()
	var output strings.Builder
	why := fmt.Errorf("%w: there is none", ErrState)
	must(t, ServeState(why, strings.NewReader("{\"open\":true}\n{\"last\":true}\n"), &output))
	var received reply
	must(t, json.Unmarshal([]byte(output.String()), &received))
	if !received.BadState || received.Failed != why.Error() || strings.Count(output.String(), "\n") != 1 ||
		!strings.HasSuffix(output.String(), "\n") {
		t.Errorf("%q", output.String())
	}
	output.Reset()
	if err := ServeState(why, strings.NewReader(""), &output); !errors.Is(err, io.EOF) || output.Len() != 0 {
		t.Errorf("%v, %q", err, output.String())
	}
	broken := errors.New("the pipe is broken")
	if err := ServeState(why, strings.NewReader("{}\n"), failingWriter{broken}); !errors.Is(err, broken) {
		t.Error(err)
	}
}

// failingWriter accepts nothing.
type failingWriter struct{ why error }

func (w failingWriter) Write([]byte) (int, error) { return 0, w.why }

// TestServeFails: Serve returns the error if reading or writing fails.
func TestServeFails(t *testing.T) {
	t.Parallel()
	broken, key := errors.New("the pipe is broken"), newKey(t)
	if err := Serve(limited(t), key, iotest.ErrReader(broken), io.Discard); !errors.Is(err, broken) {
		t.Errorf("reading: %v", err)
	}
	if err := Serve(limited(t), key, strings.NewReader("{\"open\":true}\n"),
		failingWriter{broken}); !errors.Is(err, broken) {
		t.Errorf("writing: %v", err)
	}
}

// deadlines is a connection that records its deadlines.
type deadlines struct {
	net.Conn
	reads, writes []time.Time
}

func (d *deadlines) Read(into []byte) (int, error)  { return copy(into, "{"), nil }
func (d *deadlines) Write(from []byte) (int, error) { return len(from), nil }
func (d *deadlines) SetReadDeadline(at time.Time) error {
	d.reads = append(d.reads, at)
	return nil
}
func (d *deadlines) SetWriteDeadline(at time.Time) error {
	d.writes = append(d.writes, at)
	return nil
}

// TestDeadlines: a request that has begun has a deadline, which more bytes do not move. A reply has a deadline too.
// After it, the next request may begin at any time.
func TestDeadlines(t *testing.T) {
	t.Parallel()
	began, conn := time.Now(), &deadlines{}
	c := &serverConn{Conn: conn, since: began.Add(-time.Hour), timeout: time.Minute}
	bounded := func(at time.Time) bool { return !at.Before(began.Add(time.Minute)) && at.Before(began.Add(time.Hour)) }
	for i := 0; i < 3; i++ {
		_, err := c.Read(make([]byte, 1))
		must(t, err)
	}
	if len(conn.reads) != 1 || !bounded(conn.reads[0]) {
		t.Errorf("a line that began at %v has the deadlines %v", began, conn.reads)
	}
	if _, idle := c.idle(); idle {
		t.Error("a connection with a request that has begun is idle")
	}
	_, err := c.Write([]byte("{}\n"))
	must(t, err)
	if len(conn.writes) != 1 || !bounded(conn.writes[0]) {
		t.Errorf("a reply that began after %v has the deadlines %v", began, conn.writes)
	}
	if len(conn.reads) != 2 || !conn.reads[1].IsZero() {
		t.Errorf("after a reply the next request has the deadlines %v", conn.reads)
	}
	if since, idle := c.idle(); !idle || since.Before(began) {
		t.Errorf("after a reply the connection is idle since %v, %v", since, idle)
	}
}

// TestRemovesClosedConnections: a connection that its client closed is removed, and its slot is free.
func TestRemovesClosedConnections(t *testing.T) {
	t.Parallel()
	ctx, path, all := limited(t), filepath.Join(t.TempDir(), "socket"), newServer()
	listener, err := listenAt(Socket{Path: path})
	must(t, err)
	defer listener.Close()
	go func() { _ = all.serve(ctx, newKey(t), listener) }()
	waitForOpen := func(count int) {
		t.Helper()
		for found := -1; found != count; time.Sleep(time.Millisecond) {
			all.mu.Lock()
			found = len(all.open)
			all.mu.Unlock()
			if ctx.Err() != nil {
				t.Fatalf("%d connections are served, and not %d", found, count)
			}
		}
	}
	var connected []net.Conn
	for len(connected) < 3 {
		connection, err := net.Dial("unix", path)
		must(t, err)
		connected = append(connected, connection)
	}
	waitForOpen(3)
	for _, connection := range connected {
		must(t, connection.Close())
	}
	waitForOpen(0)
	if len(all.slots) != 0 {
		t.Errorf("%d slots are taken", len(all.slots))
	}
}

// TestAdmitsUnderTheLock: a connection is added to the server only by a goroutine that holds its mutex.
func TestAdmitsUnderTheLock(t *testing.T) {
	t.Parallel()
	ctx, all := limited(t), newServer()
	all.mu.Lock()
	admitted := make(chan bool, 1)
	go func() { admitted <- all.admit(ctx, &serverConn{}) }()
	for len(all.slots) == 0 && ctx.Err() == nil {
		runtime.Gosched()
	}
	for i := 0; i < 1000; i++ {
		if len(all.open) != 0 {
			t.Error("a connection was added by a goroutine without the mutex")
			break
		}
		runtime.Gosched()
	}
	all.mu.Unlock()
	if !<-admitted || len(all.open) != 1 {
		t.Errorf("there are %d connections", len(all.open))
	}
}

// TestListenFails: if a socket cannot be created, nothing listens and no file is left.
func TestListenFails(t *testing.T) {
	t.Parallel()
	folder := t.TempDir()
	if _, err := listenAt(Socket{Path: filepath.Join(folder, strings.Repeat("x", 300))}); !errors.Is(err, syscall.ENAMETOOLONG) {
		t.Error(err)
	}
	if left, err := os.ReadDir(folder); err != nil || len(left) != 0 {
		t.Errorf("%v, %v", left, err)
	}
	open, err := os.ReadFile("/proc/self/net/unix")
	if must(t, err); strings.Contains(string(open), folder) {
		t.Error("a socket still listens")
	}
}

// TestListenEnds: Listen returns after its context ended, or if its socket cannot be created.
func TestListenEnds(t *testing.T) {
	t.Parallel()
	folder := t.TempDir()
	path := filepath.Join(folder, "socket")
	ctx, cancel := context.WithCancel(limited(t))
	done := make(chan error, 1)
	go func() { done <- Listen(ctx, newKey(t), Socket{Path: path}) }()
	for {
		if _, err := os.Stat(path); err == nil {
			break
		}
		time.Sleep(time.Millisecond)
	}
	cancel()
	select {
	case err := <-done:
		wantError(t, err, net.ErrClosed)
	case <-limited(t).Done():
		t.Error("it still listens after its context ended")
	}
	if err := Listen(limited(t), newKey(t), Socket{Path: filepath.Join(folder, "nowhere", "socket")}); !errors.Is(err,
		os.ErrNotExist) {
		t.Error(err)
	}
}
