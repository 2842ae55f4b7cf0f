package blob

import (
	"context"
	"fmt"
	"net"
	"time"
)

// maxSilence is the time for which a read or a write waits for a server that does not answer. So a call that ended with
// its context may hold resources for this long afterwards.
const maxSilence = 30 * time.Second

// outcome holds the results of a call.
type outcome[T any] struct {
	value T
	err   error
}

// withContext makes a call of lib/pq, and returns when the call or the context ends. If the server is silent, the call
// itself does not end with its context. It ends with its connection, after at most maxSilence.
func withContext[T any](ctx context.Context, call func() (T, error)) (T, error) {
	done := make(chan outcome[T], 1)
	go func() {
		value, err := call()
		done <- outcome[T]{value, err}
	}()
	select {
	case result := <-done:
		return result.value, result.err
	case <-ctx.Done():
		var none T
		return none, fmt.Errorf("stores: PostgreSQL: %w", ctx.Err())
	}
}

// deadlineDialer dials connections that fail if the other side is silent for maxSilence.
type deadlineDialer struct{ net.Dialer }

func (d deadlineDialer) DialTimeout(network, address string, timeout time.Duration) (net.Conn, error) {
	ctx, cancel := context.WithTimeout(context.Background(), timeout)
	defer cancel()
	return d.DialContext(ctx, network, address)
}

func (d deadlineDialer) DialContext(ctx context.Context, network, address string) (net.Conn, error) {
	connection, err := d.Dialer.DialContext(ctx, network, address)
	if err != nil {
		return nil, err
	}
	return deadlineConn{connection}, nil
}

func (d deadlineDialer) Dial(network, address string) (net.Conn, error) {
	return d.DialContext(context.Background(), network, address)
}

// deadlineConn is a connection that sets a deadline for each read and each write.
type deadlineConn struct{ net.Conn }

func (c deadlineConn) Read(into []byte) (int, error) {
	if err := c.Conn.SetDeadline(time.Now().Add(maxSilence)); err != nil {
		return 0, err
	}
	return c.Conn.Read(into)
}

func (c deadlineConn) Write(from []byte) (int, error) {
	if err := c.Conn.SetDeadline(time.Now().Add(maxSilence)); err != nil {
		return 0, err
	}
	return c.Conn.Write(from)
}
