package signer

import (
	"context"
	"errors"
	"fmt"
	"net"
	"os"
	"path/filepath"
	"sync"
	"time"
)

const (
	// maxConnections is the maximum number of connections that are served at once.
	maxConnections = 32
	// retryDelay is the time between two attempts to accept a connection, or to find a free slot.
	retryDelay = 20 * time.Millisecond
)

// listenAt listens at a Unix socket that only this user and its group can connect to, and that only the socket's users
// may use. It replaces a socket that exists at the path. It binds the socket in a folder of its own first, so that
// nobody can connect before the socket's mode is set.
func listenAt(socket Socket) (net.Listener, error) {
	path := socket.Path
	if info, err := os.Stat(path); err == nil && info.Mode()&os.ModeSocket == 0 {
		return nil, fmt.Errorf("signer: %s exists and is not a socket", path)
	}
	folder, err := os.MkdirTemp(filepath.Dir(path), ".signer-")
	if err != nil {
		return nil, fmt.Errorf("signer: %w", err)
	}
	defer os.RemoveAll(folder)
	bound := filepath.Join(folder, "s")
	listener, err := net.ListenUnix("unix", &net.UnixAddr{Name: bound, Net: "unix"})
	if err != nil {
		return nil, fmt.Errorf("signer: %w", err)
	}
	listener.SetUnlinkOnClose(false)
	if err = os.Chmod(bound, 0o660); err == nil {
		err = os.Rename(bound, path)
	}
	if err != nil {
		listener.Close()
		return nil, fmt.Errorf("signer: %w", err)
	}
	return &callers{UnixListener: listener, socket: socket}, nil
}

// Listen serves the users of a Unix socket. It returns if it cannot listen, or after the context ended.
func Listen(ctx context.Context, s Signer, socket Socket) error {
	listener, err := listenAt(socket)
	if err != nil {
		return err
	}
	defer listener.Close()
	go func() {
		<-ctx.Done()
		listener.Close()
	}()
	return newServer().serve(ctx, s, listener)
}

// server holds the open connections, at most as many as it has slots.
type server struct {
	slots chan struct{}
	mu    sync.Mutex
	open  map[*serverConn]bool
	// timeout is the time that a request has to arrive, and that a reply has to be sent.
	timeout time.Duration
}

func newServer() *server {
	return &server{slots: make(chan struct{}, maxConnections), open: map[*serverConn]bool{}, timeout: requestTimeout}
}

// serve serves the connections of a listener until the listener is closed. It retries after any other error, for
// example if there is no free file descriptor.
func (s *server) serve(ctx context.Context, signer Signer, listener net.Listener) error {
	for {
		connection, err := listener.Accept()
		if errors.Is(err, net.ErrClosed) {
			return fmt.Errorf("signer: %w", err)
		}
		if err != nil {
			time.Sleep(retryDelay)
			continue
		}
		conn := &serverConn{Conn: connection, since: time.Now(), timeout: s.timeout}
		if !s.admit(ctx, conn) {
			connection.Close()
			continue
		}
		go func() {
			defer s.remove(conn)
			// A client whose connection fails connects again.
			_ = Serve(ctx, signer, conn, conn)
		}()
	}
}

// admit waits for a free slot until the context ends. If there is none, it closes the connection that has been idle for
// the longest time. That client can connect again.
func (s *server) admit(ctx context.Context, conn *serverConn) bool {
	for full := false; ; full = true {
		if full {
			s.closeIdle()
		}
		retry := time.NewTimer(retryDelay)
		select {
		case s.slots <- struct{}{}:
			retry.Stop()
			s.mu.Lock()
			defer s.mu.Unlock()
			s.open[conn] = true
			return true
		case <-retry.C:
		case <-ctx.Done():
			retry.Stop()
			return false
		}
	}
}

// remove closes a connection and frees its slot.
func (s *server) remove(conn *serverConn) {
	conn.Conn.Close()
	s.mu.Lock()
	defer s.mu.Unlock()
	delete(s.open, conn)
	<-s.slots
}

// closeIdle closes the connection that has been idle for the longest time.
func (s *server) closeIdle() {
	s.mu.Lock()
	defer s.mu.Unlock()
	var longest *serverConn
	for conn := range s.open {
		if since, idle := conn.idle(); idle {
			if other, _ := longest.idle(); longest == nil || since.Before(other) {
				longest = conn
			}
		}
	}
	if longest != nil {
		longest.Conn.Close()
	}
}

// serverConn is the connection of a client that sends a request and waits for its reply. Its timeout applies to a
// request that has begun and to a reply.
type serverConn struct {
	net.Conn
	mu sync.Mutex
	// busy is whether a request has begun and has no reply yet. since is the time of the last reply.
	busy  bool
	since time.Time
	// timeout is the timeout of the server.
	timeout time.Duration
}

// idle returns the time of the last reply, and whether no request has begun after it.
func (c *serverConn) idle() (since time.Time, idle bool) {
	if c == nil {
		return time.Time{}, false
	}
	c.mu.Lock()
	defer c.mu.Unlock()
	return c.since, !c.busy
}

// Read reads a part of a request.
func (c *serverConn) Read(into []byte) (int, error) {
	n, err := c.Conn.Read(into)
	c.mu.Lock()
	defer c.mu.Unlock()
	if n > 0 && !c.busy {
		c.busy = true
		if deadlineErr := c.Conn.SetReadDeadline(time.Now().Add(c.timeout)); err == nil {
			err = deadlineErr
		}
	}
	return n, err
}

// Write sends a whole reply.
func (c *serverConn) Write(from []byte) (int, error) {
	if err := c.Conn.SetWriteDeadline(time.Now().Add(c.timeout)); err != nil {
		return 0, err
	}
	n, err := c.Conn.Write(from)
	c.mu.Lock()
	defer c.mu.Unlock()
	c.busy, c.since = false, time.Now()
	if deadlineErr := c.Conn.SetReadDeadline(time.Time{}); err == nil {
		err = deadlineErr
	}
	return n, err
}
