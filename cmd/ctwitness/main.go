// Command ctwitness is a witness over HTTP. It cosigns the heads of several logs (C2SP tlog-witness, tlog-cosignature).
// It cosigns a head only if proved code decides that the head follows the one that it cosigned last (docs/WITNESS.md).
//
// At SIGHUP it reads the logs of its settings again. At SIGTERM or SIGINT it stops: it accepts no more requests,
// answers the waiting ones, and exits with status 0.
package main

import (
	"context"
	"errors"
	"fmt"
	"io"
	"net"
	"net/http"
	"os"
	"os/signal"
	"syscall"
	"time"

	"wagtenib/internal/blob"
	"wagtenib/internal/command/eventlog"
	"wagtenib/internal/command/settingsfile"
	"wagtenib/internal/command/version"
	"wagtenib/internal/witness"
)

// statusNoState is the exit status if a log's state is missing or belongs to another log. Each start fails until an
// operator has corrected that.
const statusNoState = 3

// maxConnections is the maximum number of connections at once, and maxHeader the maximum number of bytes of a request's
// headers.
const (
	maxConnections = 512
	maxHeader      = 16 << 10
)

func main() {
	signals := make(chan os.Signal, 4)
	signal.Notify(signals, syscall.SIGHUP, syscall.SIGTERM, syscall.SIGINT)
	// If standard error is closed, a write to it must fail and not end the witness. The signal is caught and not
	// ignored, because child processes would inherit an ignored signal.
	signal.Notify(make(chan os.Signal, 1), syscall.SIGPIPE)
	os.Exit(run(os.Args[1:], os.Stdout, os.Stderr, signals))
}

// run serves until a signal ends it, and returns the exit status: 0 after a regular end, 1 after an error, 2 if the
// arguments or the settings are wrong, and statusNoState if a log has no state.
func run(arguments []string, out, to io.Writer, signals <-chan os.Signal) int {
	if version.Asked(arguments) {
		fmt.Fprint(out, version.Line("ctwitness"))
		return 0
	}
	s, err := parse(arguments, to)
	if status, ends := settingsfile.Ends(err, to); ends {
		return status
	}
	lines := eventlog.NewLines(to)
	w, err := open(s, lines)
	if err == nil {
		defer w.close()
		switch {
		case s.verifierKey:
			fmt.Fprintln(out, w.server.VerifierKey())
			return 0
		case len(s.create) > 0:
			err = w.create(s, lines)
		default:
			err = w.serve(s, lines, signals)
		}
	}
	return statusOf(err, lines)
}

// statusOf logs the end, and returns the exit status.
func statusOf(err error, lines *eventlog.Lines) int {
	if err != nil {
		lines.Error("end", "fault", err)
		if errors.Is(err, witness.ErrState) {
			return statusNoState
		}
		return 1
	}
	lines.Info("end")
	return 0
}

// running is a witness, with the locks that it opened.
type running struct {
	server *witness.Server
	locks  map[string]blob.Lock
}

func open(s *settings, lines *eventlog.Lines) (*running, error) {
	key, err := readKey(s.key)
	if err != nil {
		return nil, err
	}
	server, err := witness.New(witness.Options{Name: s.name, Key: key, Log: lines.Error})
	if err != nil {
		return nil, err
	}
	return &running{server, map[string]blob.Lock{}}, nil
}

// close closes the locks.
func (w *running) close() {
	for _, lock := range w.locks {
		_ = lock.Close()
	}
}

// log returns a log with its lock. It opens the lock only if it is not open yet.
func (w *running) log(ctx context.Context, s *settings, of logSetting) (witness.Log, error) {
	log := witness.Log{Origin: of.origin, Keys: of.keys, State: w.locks[of.origin]}
	if path := s.accepted[of.origin]; path != "" {
		log.Accepted = func() (uint64, [32]byte, error) { return witness.AcceptedBy(path, of.origin, of.keys) }
	}
	if log.State != nil {
		return log, nil
	}
	lock, err := blob.LockOf(ctx, s.state, of.origin)
	if err != nil {
		return log, err
	}
	w.locks[of.origin], log.State = lock, lock
	return log, nil
}

// create stores the first states of the logs that --create names, of which this witness never cosigned anything.
func (w *running) create(s *settings, lines *eventlog.Lines) error {
	ctx, cancel := context.WithTimeout(context.Background(), s.openWithin)
	defer cancel()
	for _, origin := range s.create {
		of, found := s.log(origin)
		if !found {
			return fmt.Errorf("ctwitness: --create %s: the settings have no such log", origin)
		}
		log, err := w.log(ctx, s, of)
		if err == nil {
			err = log.Create(ctx)
		}
		if err != nil {
			return err
		}
		lines.Info("created", "origin", origin)
	}
	return nil
}

// useLogs opens the logs of the settings, checks that each has its state, and witnesses these logs and no others.
func (w *running) useLogs(s *settings) error {
	ctx, cancel := context.WithTimeout(context.Background(), s.openWithin)
	defer cancel()
	var logs []witness.Log
	for _, of := range s.logs {
		log, err := w.log(ctx, s, of)
		if err == nil {
			err = w.server.Check(ctx, log)
		}
		if err != nil {
			return err
		}
		logs = append(logs, log)
	}
	w.server.SetLogs(logs)
	w.closeOthers(s)
	return nil
}

// closeOthers closes the locks of logs that the settings no longer contain. A request of such a log that is in progress
// may fail.
func (w *running) closeOthers(s *settings) {
	for origin, lock := range w.locks {
		if _, stays := s.log(origin); !stays {
			_ = lock.Close()
			delete(w.locks, origin)
		}
	}
}

func (w *running) serve(s *settings, lines *eventlog.Lines, signals <-chan os.Signal) error {
	if err := w.useLogs(s); err != nil {
		return err
	}
	clients, err := clientsAt(s.listen)
	if err != nil {
		return err
	}
	defer clients.Close()
	servers, listeners := []*http.Server{serverOf(w.server, lines)}, []net.Listener{clients}
	lines.Info("listening", "for", "clients", "address", clients.Addr())
	if s.operator != "" {
		operator, err := net.Listen("tcp", s.operator)
		if err != nil {
			return err
		}
		defer operator.Close()
		servers, listeners = append(servers, serverOf(w.server.Operator(), lines)), append(listeners, operator)
		lines.Info("listening", "for", "operator", "address", operator.Addr())
	}
	failed := make(chan error, len(servers))
	for i := range servers {
		go func(i int) { failed <- servers[i].Serve(listeners[i]) }(i)
	}
	lines.Info("serving", "name", s.name, "logs", len(s.logs), "verifier-key", w.server.VerifierKey())
	err = w.wait(s, lines, signals, failed)
	ctx, cancel := context.WithTimeout(context.Background(), s.endWithin)
	defer cancel()
	for _, server := range servers {
		late := server.Shutdown(ctx)
		if late == nil {
			continue
		}
		// This ends the requests that still wait, so that the locks can be closed.
		_ = server.Close()
		if err == nil {
			err = fmt.Errorf("ctwitness: waiting requests were not answered in time: %w", late)
		}
	}
	return err
}

// wait waits for a signal that ends the witness, and reloads the logs at SIGHUP.
func (w *running) wait(s *settings, lines *eventlog.Lines, signals <-chan os.Signal, failed <-chan error) error {
	for {
		select {
		case err := <-failed:
			return err
		case received := <-signals:
			if received != syscall.SIGHUP {
				lines.Info("ending", "signal", received)
				return nil
			}
			reloaded, err := parse(s.arguments, io.Discard)
			if err == nil {
				err = w.useLogs(reloaded)
			}
			w.server.Reloaded(err)
			if err != nil {
				lines.Error("reload", "fault", err)
				continue
			}
			lines.Info("reload", "logs", len(reloaded.logs))
		}
	}
}

func serverOf(handler http.Handler, lines *eventlog.Lines) *http.Server {
	return &http.Server{
		Handler: handler, ReadHeaderTimeout: 10 * time.Second, ReadTimeout: 20 * time.Second, WriteTimeout: time.Minute,
		IdleTimeout: time.Minute, MaxHeaderBytes: maxHeader, ErrorLog: logOf(lines),
	}
}
