package blob

import (
	"errors"
	"net"
	"net/netip"
)

// ErrSameMachine: a store is on this machine, so the time that it reports is that of this machine's own clock.
var ErrSameMachine = errors.New("stores: the clock is this machine's")

// isElsewhere reports whether a store is on another machine. It takes the addresses of both ends of a connection to the
// store: the store's, and the one from which this process connects. A store without an address ("") is connected by a
// Unix socket, so it is on this machine.
func isElsewhere(store, here string) bool {
	address, err := netip.ParseAddr(store)
	if err != nil || store == here {
		return false
	}
	address = address.Unmap().WithZone("")
	if address.IsLoopback() || address.IsUnspecified() {
		return false
	}
	own, err := net.InterfaceAddrs()
	if err != nil {
		return false
	}
	for _, each := range own {
		if prefix, err := netip.ParsePrefix(each.String()); err == nil && prefix.Addr().Unmap() == address {
			return false
		}
	}
	return true
}

// IsElsewhere reports whether the other end of a connection is on another machine.
func IsElsewhere(connection net.Conn) bool {
	return isElsewhere(hostOf(connection.RemoteAddr()), hostOf(connection.LocalAddr()))
}

// hostOf returns the IP address of an end of a connection, without its port. It returns "" if the end has no IP
// address.
func hostOf(end net.Addr) string {
	if at, ok := end.(*net.TCPAddr); ok {
		return at.IP.String()
	}
	return ""
}
