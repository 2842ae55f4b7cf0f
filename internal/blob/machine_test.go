package blob

import (
	"net"
	"testing"
)

// TestIsElsewhere: a store is on another machine if its address is none of this machine's, and differs from the address
// from which it is asked.
func TestIsElsewhere(t *testing.T) {
	for store, here := range map[string]string{
		"": "", "203.0.113.1": "203.0.113.1", "127.0.0.1": "127.0.0.1", "127.0.0.9": "192.0.2.1", "::1": "::1",
		"::ffff:127.0.0.1": "192.0.2.1", "0.0.0.0": "192.0.2.1", "no address": "192.0.2.1",
	} {
		if isElsewhere(store, here) {
			t.Errorf("%q, asked from %q, is on another machine", store, here)
		}
	}
	own, err := net.InterfaceAddrs()
	if err != nil || len(own) == 0 {
		t.Fatalf("this machine has the addresses %v: %v", own, err)
	}
	for _, each := range own {
		if address := each.(*net.IPNet).IP.String(); isElsewhere(address, "192.0.2.1") {
			t.Errorf("%s is this machine's", address)
		}
	}
	for store, here := range map[string]string{"203.0.113.1": "203.0.113.2", "2001:db8::1": "2001:db8::2",
		"::ffff:203.0.113.1": "203.0.113.2", "203.0.113.9": ""} {
		if !isElsewhere(store, here) {
			t.Errorf("%q, asked from %q, is on this machine", store, here)
		}
	}
	for end, host := range map[net.Addr]string{&net.TCPAddr{IP: net.IPv4(203, 0, 113, 1), Port: 1}: "203.0.113.1",
		&net.UnixAddr{Name: "socket"}: ""} {
		if got := hostOf(end); got != host {
			t.Errorf("%v is at %q", end, got)
		}
	}
}
