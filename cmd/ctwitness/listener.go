package main

import (
	stdlog "log"
	"net"
	"net/netip"
	"sync"

	"wagtenib/internal/command/eventlog"
)

// maxPerAddress is the maximum number of connections from one address, an eighth of all, so that one host cannot keep
// the others from the witness. All addresses of an IPv6 /64 network count as one.
const maxPerAddress = maxConnections / 8

// limitedListener is a listener with a maximum number of connections. Further ones wait. A connection above the limit
// of its address is closed.
type limitedListener struct {
	net.Listener
	slots     chan struct{}
	byAddress *addresses
}

// addresses counts connections by their network.
type addresses struct {
	mu          sync.Mutex
	connections map[netip.Prefix]int
}

// groupOf returns the network with which an address is counted. It returns the zero value for the addresses of this
// machine, which have no limit, because a proxy on it makes all connections.
func groupOf(address net.Addr) netip.Prefix {
	pair, err := netip.ParseAddrPort(address.String())
	if err != nil {
		return netip.Prefix{}
	}
	one := pair.Addr().Unmap().WithZone("")
	switch bits := one.BitLen(); {
	case one == netip.AddrFrom16([16]byte{15: 1}) || one == netip.AddrFrom4([4]byte{127, 0, 0, 1}):
		return netip.Prefix{}
	case one.Is6():
		return netip.PrefixFrom(one, 64).Masked()
	default:
		return netip.PrefixFrom(one, bits)
	}
}

// add counts one more connection of a group. It returns false if the group already has the maximum number.
func (a *addresses) add(group netip.Prefix) bool {
	a.mu.Lock()
	defer a.mu.Unlock()
	if group.IsValid() && a.connections[group] >= maxPerAddress {
		return false
	}
	a.connections[group]++
	return true
}

func (a *addresses) remove(group netip.Prefix) {
	a.mu.Lock()
	defer a.mu.Unlock()
	if a.connections[group]--; a.connections[group] == 0 {
		delete(a.connections, group)
	}
}

// clientsAt returns a listener for logs with at most maxConnections connections.
func clientsAt(address string) (net.Listener, error) {
	clients, err := net.Listen("tcp", address)
	if err != nil {
		return nil, err
	}
	return limitedListener{clients, make(chan struct{}, maxConnections),
		&addresses{connections: map[netip.Prefix]int{}}}, nil
}

func (b limitedListener) Accept() (net.Conn, error) {
	for {
		b.slots <- struct{}{}
		connection, err := b.Listener.Accept()
		if err != nil {
			<-b.slots
			return nil, err
		}
		group := groupOf(connection.RemoteAddr())
		if b.byAddress.add(group) {
			release := func() {
				b.byAddress.remove(group)
				<-b.slots
			}
			return &countedConnection{Conn: connection, release: release}, nil
		}
		connection.Close()
		<-b.slots
	}
}

type countedConnection struct {
	net.Conn
	once    sync.Once
	release func()
}

func (c *countedConnection) Close() error {
	err := c.Conn.Close()
	c.once.Do(c.release)
	return err
}

// logOf returns a logger for net/http that writes log lines.
func logOf(lines *eventlog.Lines) *stdlog.Logger { return stdlog.New(lines, "", 0) }
