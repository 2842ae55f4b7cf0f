package blob

import (
	"errors"
	"fmt"
	"net"
	"net/netip"
	"net/url"
	"os"
	"strings"
)

// ErrPlaintext: a store on another machine would be called without TLS.
var ErrPlaintext = errors.New("stores: no TLS to another machine")

// CheckTLS returns ErrPlaintext if a store at an address is called without TLS, and not by loopback. Then everyone on
// the way can read and change the password and what is stored. It returns no error for an address that is invalid.
func CheckTLS(address string) error {
	kind, _, _ := strings.Cut(address, ":")
	u, query, err := parseURL(address, kind)
	if err != nil {
		return nil
	}
	hosts, remedy := []string{u.Host}, ""
	switch kind {
	case "s3":
		if query.Get("tls") != "no" {
			return nil
		}
		remedy = "remove tls=no"
	case "etcd":
		hosts, remedy = strings.Split(u.Host, ","), "etcd is always called without TLS, so only loopback is safe"
	case "postgres", "postgresql":
		if usesTLS(query) {
			return nil
		}
		hosts, remedy = postgresHosts(u, query), "write sslmode=verify-full"
	default:
		return nil
	}
	for _, host := range hosts {
		if !isLoopback(host) {
			return fmt.Errorf("%w: %s at %s (%s, or set allow-plaintext if nobody else is on that network)", ErrPlaintext,
				kind, host, remedy)
		}
	}
	return nil
}

// usesTLS reports whether the sslmode of an address of PostgreSQL has no connection without TLS. As in libpq, the
// environment has the one that is not in the address.
func usesTLS(query url.Values) bool {
	mode := query.Get("sslmode")
	if mode == "" {
		mode = os.Getenv("PGSSLMODE")
	}
	switch mode {
	case "", "require", "verify-ca", "verify-full":
		return true
	}
	return false
}

// postgresHosts returns the hosts of an address of PostgreSQL: that of the URL and those of the parameter, of which the
// client takes one. A path is that of a Unix socket.
func postgresHosts(u *url.URL, query url.Values) (hosts []string) {
	for _, host := range append([]string{u.Host}, query["host"]...) {
		if !strings.HasPrefix(host, "/") {
			hosts = append(hosts, host)
		}
	}
	return hosts
}

// isLoopback reports whether a host, which may have a port, is this machine by its loopback interface.
func isLoopback(host string) bool {
	if name, _, err := net.SplitHostPort(host); err == nil {
		host = name
	}
	host = strings.Trim(host, "[]")
	address, err := netip.ParseAddr(host)
	return host == "localhost" || err == nil && address.Unmap().IsLoopback()
}
