package httpd

import (
	"bytes"
	"context"
	"crypto/tls"
	stdlog "log"
	"net"
	"net/http"
	"sync"
)

// maxOperatorConnections is the maximum number of connections of operators, and maxNodeConnections that of the other
// nodes. They do not count as clients. Each of up to three other nodes opens at most 1,024 (internal/log/service).
const maxOperatorConnections, maxNodeConnections = 64, 4096

// Server answers requests on listeners until it is ended.
type Server struct {
	front  *Front
	http   *http.Server
	bounds func(net.Listener) net.Listener
	mutex  sync.Mutex
	// fresh has the connections on which no request was read yet.
	fresh  map[net.Conn]bool
	ending bool
}

// ServeOperators makes a server for operators. It has the front's time limits, and a bound for connections of its own.
func (f *Front) ServeOperators(handler http.Handler) *Server {
	return f.serveLimited(handler, maxOperatorConnections)
}

// ServeNodes makes a server for the other nodes of the log. It has the front's time limits, and a bound for connections
// of its own.
func (f *Front) ServeNodes(handler http.Handler) *Server {
	return f.serveLimited(handler, maxNodeConnections)
}

func (f *Front) serveLimited(handler http.Handler, maxConnections int) *Server {
	s := f.Serve(handler)
	slots := make(chan struct{}, maxConnections)
	s.bounds = func(l net.Listener) net.Listener { return limitedListener{l, slots} }
	return s
}

// Serve makes a server for clients, within the front's limits.
func (f *Front) Serve(handler http.Handler) *Server {
	s := &Server{front: f, fresh: map[net.Conn]bool{}}
	s.bounds = func(l net.Listener) net.Listener { return bounded{l, f} }
	limits := f.limits
	s.http = &http.Server{
		Handler:           handler,
		ReadHeaderTimeout: limits.Headers,
		ReadTimeout:       limits.Request,
		// This time starts after the headers were read.
		WriteTimeout:   limits.Request + limits.Submission + limits.Answer,
		IdleTimeout:    limits.Idle,
		MaxHeaderBytes: MaxHeader,
		// HTTP/2 is off, because it has many requests on one connection, which counts as one.
		TLSNextProto: map[string]func(*http.Server, *tls.Conn, http.Handler){},
		ErrorLog:     stdlog.New(httpLines{f}, "", 0),
		ConnState:    s.noteState,
		ConnContext: func(ctx context.Context, connection net.Conn) context.Context {
			counted, ok := openIn(connection)
			if !ok {
				return ctx
			}
			return context.WithValue(ctx, openKey{}, counted)
		},
	}
	return s
}

// openKey is the key of the connection in the context of a request. Only a client's connection is there.
type openKey struct{}

// httpLines receives the errors of net/http. A failed handshake concerns only the client, and is counted.
type httpLines struct{ front *Front }

func (h httpLines) Write(text []byte) (int, error) {
	if bytes.HasPrefix(text, []byte("http: TLS handshake error")) {
		h.front.metrics.handshakes.Inc()
		return len(text), nil
	}
	return h.front.options.Lines.Write(text)
}

func (s *Server) noteState(connection net.Conn, state http.ConnState) {
	if state == http.StateActive || state == http.StateIdle {
		if counted, ok := openIn(connection); ok {
			s.front.uses.connections.setIdle(counted, state == http.StateIdle)
		}
	}
	s.mutex.Lock()
	defer s.mutex.Unlock()
	if state != http.StateNew {
		delete(s.fresh, connection)
		return
	}
	if s.ending {
		connection.Close()
		return
	}
	s.fresh[connection] = true
}

// openIn returns the counted connection of a client, below TLS if there is TLS.
func openIn(connection net.Conn) (*open, bool) {
	if over, ok := connection.(*tls.Conn); ok {
		connection = over.NetConn()
	}
	counted, ok := connection.(*open)
	return counted, ok && counted.isClient
}

// Listen answers the requests that a listener receives, over TLS if over is not nil. It returns nil after the server
// was ended.
func (s *Server) Listen(listener net.Listener, over *tls.Config) error {
	listener = s.bounds(listener)
	if over != nil {
		over = over.Clone()
		over.NextProtos = []string{"http/1.1"}
		listener = tls.NewListener(listener, over)
	}
	err := s.http.Serve(listener)
	if err == http.ErrServerClosed {
		return nil
	}
	return err
}

// End accepts no more connections, closes those without a request, and waits within the context for the answers that
// are being sent. Then it closes all connections.
func (s *Server) End(ctx context.Context) error {
	s.mutex.Lock()
	s.ending = true
	for connection := range s.fresh {
		connection.Close()
	}
	s.mutex.Unlock()
	err := s.http.Shutdown(ctx)
	if err != nil {
		s.http.Close()
	}
	return err
}
