package signer

import (
	"fmt"
	"net"
	"os"
	"slices"
	"time"

	"golang.org/x/sys/unix"
)

// Socket is the Unix socket of a signer. Whoever may ask a signer can have a head with entries of its own signed, after
// which the guard refuses the log's own heads. So only these users may ask, whoever may open the socket.
type Socket struct {
	Path string
	// Users are the ids of the users that may ask, besides the user of this process. Root may only ask if it is one of
	// them.
	Users []uint32
	// Refused, if it is set, is called for a caller that is refused, at most once in each refusedInterval. count is the
	// number of callers that were refused since the last call.
	Refused func(caller Caller, count int)
}

// Caller is the process that connected to a socket, as the kernel names it (SO_PEERCRED in unix(7)).
type Caller struct {
	PID int32
	UID uint32
}

// refusedInterval is the time between two reports of refused callers.
const refusedInterval = time.Minute

// callers is a listener that accepts only the connections of some users. It closes every other connection before it
// reads from it.
type callers struct {
	*net.UnixListener
	socket Socket
	// count is the number of callers that were refused since the last report, and next is the time of the next report.
	count int
	next  time.Time
}

// Accept returns the next connection of a user that may ask.
func (c *callers) Accept() (net.Conn, error) {
	for {
		connection, err := c.AcceptUnix()
		if err != nil {
			return nil, err
		}
		caller, err := callerOf(connection)
		if err == nil && c.socket.admits(caller.UID) {
			return connection, nil
		}
		connection.Close()
		if err != nil {
			// The kernel names the caller of each connection, so this is a lack of memory or a fault of the kernel.
			return nil, err
		}
		c.refuse(caller)
	}
}

// admits reports whether a user may ask.
func (s Socket) admits(uid uint32) bool {
	return uid == uint32(os.Geteuid()) || slices.Contains(s.Users, uid)
}

// refuse counts a caller that was refused, and reports it if a report is due.
func (c *callers) refuse(caller Caller) {
	c.count++
	if c.socket.Refused == nil || time.Now().Before(c.next) {
		return
	}
	c.socket.Refused(caller, c.count)
	c.count, c.next = 0, time.Now().Add(refusedInterval)
}

// callerOf returns the process that connected.
func callerOf(connection *net.UnixConn) (Caller, error) {
	raw, err := connection.SyscallConn()
	if err != nil {
		return Caller{}, fmt.Errorf("signer: %w", err)
	}
	var credentials *unix.Ucred
	var optionErr error
	err = raw.Control(func(fd uintptr) {
		credentials, optionErr = unix.GetsockoptUcred(int(fd), unix.SOL_SOCKET, unix.SO_PEERCRED)
	})
	if err == nil {
		err = optionErr
	}
	if err != nil {
		return Caller{}, fmt.Errorf("signer: the caller of a connection: %w", err)
	}
	return Caller{credentials.Pid, credentials.Uid}, nil
}
