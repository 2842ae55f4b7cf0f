package main

import (
	"context"
	"crypto/tls"
	"fmt"
	"net"
	"net/http"

	"wagtenib/internal/command/eventlog"
	"wagtenib/internal/log"
	"wagtenib/internal/log/httpd"
)

// served is one listener with its server.
type served struct {
	// users names the users of the server: clients, nodes or operator.
	users    string
	address  string
	over     *tls.Config
	handler  http.Handler
	make     func(http.Handler) *httpd.Server
	listener net.Listener
	server   *httpd.Server
}

// loadCertificate reads the certificate for clients. Without one, the log serves plain HTTP.
func (s *settings) loadCertificate() (*httpd.Certificate, *tls.Config, error) {
	if s.certificate == "" {
		return nil, nil, nil
	}
	certificate, err := httpd.LoadCertificate(s.certificate, s.key)
	if err != nil {
		return nil, nil, err
	}
	return certificate, certificate.Config(), nil
}

// serversOf returns the servers of a log: for clients, for other nodes and for operators.
func serversOf(s *settings, of *opened, front *httpd.Front, over *tls.Config) []*served {
	servers := []*served{{users: "clients", address: s.listen, over: over, handler: front, make: front.Serve}}
	if of.secured != nil {
		servers = append(servers, &served{users: "nodes", address: s.node.peers.listen, over: of.secured.listens,
			handler: of.nodes(front.Nodes()), make: front.ServeNodes})
	}
	if s.operator != "" {
		servers = append(servers, &served{users: "operator", address: s.operator, handler: front.Operator(),
			make: front.ServeOperators})
	}
	return servers
}

// listen opens the listeners of servers. After an error none is open.
func listen(servers []*served, lines *eventlog.Lines) (err error) {
	for at, each := range servers {
		if each.listener, err = net.Listen("tcp", each.address); err != nil {
			for _, open := range servers[:at] {
				open.listener.Close()
			}
			return err
		}
		lines.Info("listening", "for", each.users, "address", each.listener.Addr(), "tls", each.over != nil)
	}
	return nil
}

// start starts servers at their listeners. The channel receives the error of each one that ends.
func start(servers []*served) <-chan error {
	failed := make(chan error, len(servers))
	for _, each := range servers {
		each.server = each.make(each.handler)
		go func() { failed <- each.server.Listen(each.listener, each.over) }()
	}
	return failed
}

// ended ends the log, which publishes and answers the waiting submissions, and then ends the servers, within the
// shutdown timeout. Reads are answered until the log has ended. It returns the reason of the end, or the first error.
func ended(s *settings, of log.Log, servers []*served, why error) error {
	ctx, cancel := context.WithTimeout(context.Background(), s.endWithin)
	defer cancel()
	if err := of.End(ctx); why == nil {
		why = err
	}
	for _, each := range servers {
		if each.server == nil {
			continue
		}
		if err := each.server.End(ctx); why == nil && err != nil {
			why = fmt.Errorf("the requests at the listener for %s were not answered in time: %w", each.users, err)
		}
	}
	return why
}
