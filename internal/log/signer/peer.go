package signer

import (
	"bufio"
	"bytes"
	"context"
	"fmt"
	"io"
	"net"
	"os/exec"
	"syscall"
	"time"

	"golang.org/x/sys/unix"
)

// Peer is a signer in another process, which Start started or Dial connected to. It replies to a line with a line. It
// must be used for one exchange at a time.
type Peer struct {
	in    io.WriteCloser
	out   *bufio.Reader
	from  syscall.Conn
	close func() string
}

// maxStderr is the number of bytes that a tail keeps.
const maxStderr = 500

// tail keeps the last bytes of a process's standard error.
type tail struct{ bytes []byte }

// Write keeps the last bytes.
func (l *tail) Write(b []byte) (int, error) {
	l.bytes = append(l.bytes, b...)
	if excess := len(l.bytes) - maxStderr; excess > 0 {
		l.bytes = append([]byte{}, l.bytes[excess:]...)
	}
	return len(b), nil
}

// Start starts a signer. Its environment is that of this process and the given variables.
func Start(arguments []string, environment ...string) (*Peer, error) {
	if len(arguments) == 0 {
		return nil, fmt.Errorf("%w: there is no command", ErrGone)
	}
	command := exec.Command(arguments[0], arguments[1:]...)
	if len(environment) > 0 {
		command.Env = append(command.Environ(), environment...)
	}
	// The process has a group of its own. A signal that a terminal sends to this process does not end it, and Close
	// ends its children too.
	command.SysProcAttr = &syscall.SysProcAttr{Setpgid: true}
	stderr := &tail{}
	command.Stderr = stderr
	in, err := command.StdinPipe()
	if err != nil {
		return nil, fmt.Errorf("%w: %v", ErrGone, err)
	}
	out, err := command.StdoutPipe()
	if err != nil {
		return nil, fmt.Errorf("%w: %v", ErrGone, err)
	}
	from, ok := out.(syscall.Conn)
	if !ok {
		return nil, fmt.Errorf("%w: the kernel does not say how much of its output is unread", ErrGone)
	}
	growPipe(in)
	growPipe(out)
	if err := command.Start(); err != nil {
		return nil, fmt.Errorf("%w: %v", ErrGone, err)
	}
	end := func() string {
		in.Close()
		// These fail only if the process has ended already.
		_ = syscall.Kill(-command.Process.Pid, syscall.SIGKILL)
		_ = command.Wait()
		return string(bytes.TrimSpace(stderr.bytes))
	}
	return &Peer{in: in, out: bufio.NewReaderSize(out, 1<<16), from: from, close: end}, nil
}

// pipeSize is the size of a pipe in bytes. With it, a line of a megabyte needs one write, instead of one for each 64
// KiB.
const pipeSize = 1 << 20

// growPipe sets a pipe's size. If the system refuses, the pipe works as before.
func growPipe(end any) {
	pipe, ok := end.(syscall.Conn)
	if !ok {
		return
	}
	if raw, err := pipe.SyscallConn(); err == nil {
		_ = raw.Control(func(fd uintptr) { _, _ = unix.FcntlInt(fd, unix.F_SETPIPE_SZ, pipeSize) })
	}
}

// Dial connects to a signer at a Unix socket.
func Dial(ctx context.Context, path string) (*Peer, error) {
	connection, err := (&net.Dialer{}).DialContext(ctx, "unix", path)
	if err != nil {
		return nil, fmt.Errorf("%w: %v", ErrGone, err)
	}
	from, ok := connection.(syscall.Conn)
	if !ok {
		connection.Close()
		return nil, fmt.Errorf("%w: the kernel does not say how much of the connection is unread", ErrGone)
	}
	end := func() string {
		connection.Close()
		return ""
	}
	return &Peer{in: connection, out: bufio.NewReaderSize(connection, 1<<16), from: from, close: end}, nil
}

// hasUnread reports whether there are bytes that belong to no request. They must not be read as the reply to the next
// one.
func (peer *Peer) hasUnread() bool {
	if peer.out.Buffered() > 0 {
		return true
	}
	raw, err := peer.from.SyscallConn()
	if err != nil {
		return false
	}
	unread, ioctlErr := 0, error(nil)
	err = raw.Control(func(fd uintptr) { unread, ioctlErr = unix.IoctlGetInt(int(fd), unix.TIOCINQ) })
	return err == nil && ioctlErr == nil && unread > 0
}

// Close kills the process, or closes the connection. It returns the end of the process's standard error.
func (peer *Peer) Close() string { return peer.close() }

// outcome is the result of an exchange.
type outcome struct {
	reply []byte
	err   error
}

// exchange sends a line with its line end, and returns the reply without one. After an error the peer is closed. Bytes
// that arrive before the line is sent are an error.
func (peer *Peer) exchange(ctx context.Context, limit time.Duration, line []byte) ([]byte, error) {
	if peer.hasUnread() {
		return nil, fmt.Errorf("%w: it wrote before a request %.500s", ErrGone, peer.Close())
	}
	done := make(chan outcome, 1)
	go func() {
		reply, err := peer.send(line)
		done <- outcome{reply, err}
	}()
	timer := time.NewTimer(limit)
	defer timer.Stop()
	var why error
	select {
	case o := <-done:
		if o.err == nil {
			return o.reply, nil
		}
		why = o.err
	case <-timer.C:
		why = fmt.Errorf("none in %v", limit)
	case <-ctx.Done():
		why = ctx.Err()
	}
	return nil, fmt.Errorf("%w: %v %.500s", ErrGone, why, peer.Close())
}

func (peer *Peer) send(line []byte) ([]byte, error) {
	// The peer may begin its reply before it has read the whole line, so one goroutine writes while this one reads.
	written := make(chan error, 1)
	go func() {
		_, err := peer.in.Write(line)
		written <- err
	}()
	reply, err := readLine(peer.out)
	if err != nil {
		// The caller closes the peer, which ends the goroutine that writes.
		return nil, err
	}
	return reply, <-written
}
