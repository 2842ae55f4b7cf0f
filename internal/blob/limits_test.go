package blob

import (
	"context"
	"errors"
	"io"
	"net"
	"testing"
	"time"

	"wagtenib/internal/testkit"
)

// fakeConn is a connection that keeps its last deadline, or refuses a deadline.
type fakeConn struct {
	net.Conn
	deadline time.Time
	refusal  error
	calls    int
}

func (f *fakeConn) SetDeadline(at time.Time) error {
	f.deadline = at
	return f.refusal
}

func (f *fakeConn) Read(into []byte) (int, error) {
	f.calls++
	return copy(into, "read"), nil
}

func (f *fakeConn) Write(from []byte) (int, error) {
	f.calls++
	return len(from), nil
}

// TestConnectionsSetDeadlines: each read and each write of a connection to PostgreSQL has its own deadline, and none is
// made without a deadline.
func TestConnectionsSetDeadlines(t *testing.T) {
	refused := errors.New("no deadline")
	for name, call := range map[string]func(io.ReadWriter) (int, error){
		"read":  func(c io.ReadWriter) (int, error) { return c.Read(make([]byte, 9)) },
		"write": func(c io.ReadWriter) (int, error) { return c.Write([]byte("text")) },
	} {
		fake := &fakeConn{}
		before := time.Now()
		if n, err := call(deadlineConn{fake}); n != 4 || err != nil || fake.calls != 1 {
			t.Errorf("%s: %d, %v", name, n, err)
		}
		if fake.deadline.Before(before.Add(maxSilence)) || fake.deadline.After(time.Now().Add(maxSilence)) {
			t.Errorf("%s: the deadline is %v, and the call began at %v", name, fake.deadline, before)
		}
		fake = &fakeConn{refusal: refused}
		if n, err := call(deadlineConn{fake}); n != 0 || err != refused || fake.calls != 0 {
			t.Errorf("%s: no deadline can be set: %d, %v", name, n, err)
		}
	}
	listener, err := net.Listen("tcp", "127.0.0.1:0")
	must(t, err)
	defer listener.Close()
	address := listener.Addr().String()
	for name, dial := range map[string]func() (net.Conn, error){
		"Dial":        func() (net.Conn, error) { return deadlineDialer{}.Dial("tcp", address) },
		"DialContext": func() (net.Conn, error) { return deadlineDialer{}.DialContext(limited(t), "tcp", address) },
		"DialTimeout": func() (net.Conn, error) {
			return deadlineDialer{}.DialTimeout("tcp", address, testkit.Longest)
		},
	} {
		connection, err := dial()
		if _, ok := connection.(deadlineConn); err != nil || !ok {
			t.Errorf("%s: %T, %v", name, connection, err)
			continue
		}
		connection.Close()
	}
	if _, err := (deadlineDialer{}).DialTimeout("tcp", address, -time.Second); err == nil {
		t.Error("it is dialled after its timeout")
	}
}

// TestPostgresCallsEndWithTheirContext: a call that does not end by itself ends with its context. The results of a call
// that ends by itself are returned.
func TestPostgresCallsEndWithTheirContext(t *testing.T) {
	broken := errors.New("broken")
	if value, err := withContext(limited(t), func() (int, error) { return 7, broken }); value != 7 || err != broken {
		t.Errorf("%d, %v", value, err)
	}
	ctx, cancel := context.WithCancel(context.Background())
	goOn := make(chan struct{})
	defer close(goOn)
	cancel()
	if value, err := withContext(ctx, func() (int, error) { <-goOn; return 7, nil }); value != 0 ||
		!errors.Is(err, context.Canceled) {
		t.Errorf("%d, %v", value, err)
	}
}
