// Command ctserve serves a Certificate Transparency log over HTTP, with the calls of RFC 6962 and C2SP static-ct-api.
//
// At SIGHUP it reads the roots and the TLS certificate again. At SIGTERM or SIGINT it ends: it accepts no more
// submissions, publishes, answers the waiting requests, and exits with status 0, or with 1 if this takes too long. A
// second signal ends it at once. A process of its own has the key: `ctserve signer`, which ctserve starts, or finds at
// a socket. `ctserve key`, `check` and `list-entry` create a key, check settings, and write the entry of a log list.
// `index` builds a log's deduplication index again from its tiles, `clock` confirms the day, `roots` writes the roots of
// CCADB's tables, and `archive` makes an archive of another log.
package main

import (
	"context"
	"encoding/hex"
	"errors"
	"fmt"
	"io"
	"net/http"
	"os"
	"os/signal"
	"syscall"
	"time"

	"wagtenib/internal/blob"
	"wagtenib/internal/command/eventlog"
	"wagtenib/internal/command/settingsfile"
	"wagtenib/internal/command/subcommand"
	"wagtenib/internal/command/version"
	"wagtenib/internal/log"
	"wagtenib/internal/log/chain"
	"wagtenib/internal/log/httpd"
	"wagtenib/internal/log/service"
	"wagtenib/internal/tiles"
)

// opened is an open log, with all that a front needs of it.
type opened struct {
	log log.Log
	// proofs makes proofs from its tiles, and cutter cuts the poison out of precertificates.
	proofs *tiles.Prover
	cutter chain.Cutter
	// nodes returns the handler for submissions that other nodes forward, forward forwards to them, and secured has the
	// certificates for both. All are nil if the log has one node.
	nodes   func(front http.Handler) http.Handler
	forward httpd.Forwarder
	secured *secured
	key     []byte
	// putEntry puts the log's entry for a log list into the store. It is nil unless the log is read from there.
	putEntry func(ctx context.Context, entry []byte) error
	// calls counts the calls of the stores.
	calls *blob.Calls
	// close closes the stores, the signer and the connections to other nodes.
	close func()
}

type opener func(context.Context, node) (*opened, error)

// faultLogInterval is the time between two checks of the log for faults.
const faultLogInterval = time.Second

func main() {
	setCollectorLimits()
	os.Exit(run(os.Args[1:], os.Stderr, openNode))
}

// statusRolledBack is the exit status of a start that is refused until an operator repairs the log's stores.
const statusRolledBack = 3

// run serves until a signal ends it, and returns the exit status. It is 0 after an orderly end, 1 after a fault, and 2
// if the arguments are wrong. It is statusRolledBack if the lock, the index or the guard's state is missing, damaged or
// older than the log.
func run(arguments []string, to io.Writer, open opener) int {
	switch {
	case version.Asked(arguments):
		return runVersion(os.Stdout)
	case len(arguments) > 0 && arguments[0] == "signer":
		return runSigner(arguments[1:], os.Stdin, os.Stdout, to)
	case len(arguments) > 0 && subcommand.Moved("ctserve", arguments[0]) != "":
		fmt.Fprintln(to, subcommand.Moved("ctserve", arguments[0]))
		return subcommand.StatusUsage
	case len(arguments) > 0 && commands[arguments[0]] != nil:
		return runCommand(arguments[0], arguments[1:], os.Stdout, to)
	}
	s, err := parse(arguments, to)
	if status, ends := settingsfile.Ends(err, to); ends {
		return status
	}
	if s.node.archive != "" {
		open = openArchive
	}
	surviveReader()
	signals := make(chan os.Signal, 4)
	signal.Notify(signals, syscall.SIGHUP, syscall.SIGTERM, syscall.SIGINT)
	lines := eventlog.NewLines(to)
	if err := serveLog(s, lines, signals, open); err != nil {
		lines.Error("end", "fault", err)
		if service.NeedsOperator(err) {
			return statusRolledBack
		}
		return 1
	}
	lines.Info("end")
	return 0
}

// surviveReader keeps SIGPIPE from ending this process if nothing reads its standard error any more. Then a write to it
// fails, and the log goes on without its lines. The signal is caught and not ignored, because the programs that this
// process starts would ignore it, too.
func surviveReader() { signal.Notify(make(chan os.Signal, 1), syscall.SIGPIPE) }

// serveLog opens the log of the settings, and serves it until a signal ends it or a server fails.
func serveLog(s *settings, lines *eventlog.Lines, signals <-chan os.Signal, open opener) (err error) {
	roots, err := s.loadRoots()
	if err != nil {
		return err
	}
	logLeftOut(roots, lines)
	certificate, over, err := s.loadCertificate()
	if err != nil {
		return err
	}
	opening, cancel := context.WithTimeout(context.Background(), s.node.openWithin)
	of, err := open(opening, s.node)
	cancel()
	if err != nil {
		return err
	}
	defer of.close()
	checker := chain.NewChecker(roots, s.rules, of.cutter)
	awaitHead(s, of.log)
	about, err := aboutOf(s, of.key)
	if err != nil {
		return err
	}
	if err := putEntry(s, of, about.Entry); err != nil {
		return err
	}
	front := httpd.New(of.log, of.proofs, checker, httpd.Options{
		Limits: s.limits, Proxies: s.proxies, Lines: lines, LogRequests: s.logRequests, ReadOnly: s.readOnly, About: about,
		Stores: of.calls, Forward: of.forward,
	})
	servers, ending := serversOf(s, of, front, over), os.Signal(nil)
	if err = listen(servers, lines); err == nil {
		failed := start(servers)
		logHead(s, of.log, lines)
		ctx, stop := context.WithCancel(context.Background())
		defer stop()
		go front.LogFaults(ctx, faultLogInterval)
		ending, err = wait(func() {
			reload(s, front, checker, []*httpd.Certificate{certificate, of.secured.nodeCertificate()}, lines)
		},
			signals, failed)
	}
	// From now on another signal ends the process. The end is logged after that.
	signal.Reset(syscall.SIGTERM, syscall.SIGINT)
	front.Refuse()
	if ending != nil {
		lines.Info("ending", "signal", ending)
	}
	return ended(s, of.log, servers, err)
}

// putEntry puts the log's entry for a log list into the store, if the log is read from there.
func putEntry(s *settings, of *opened, entry []byte) error {
	if of.putEntry == nil || entry == nil {
		return nil
	}
	ctx, cancel := context.WithTimeout(context.Background(), s.node.openWithin)
	defer cancel()
	return of.putEntry(ctx, entry)
}

// headInterval is the interval at which awaitHead looks for a head. Each look is a request to the store. A node makes
// its first round at most a second after its start.
const headInterval = 100 * time.Millisecond

// awaitHead waits for the first head of a log, but not longer than a read may take.
func awaitHead(s *settings, of log.Log) {
	ctx, cancel := context.WithTimeout(context.Background(), s.limits.Reading)
	defer cancel()
	for {
		if _, err := of.Checkpoint(ctx); !errors.Is(err, blob.ErrAbsent) {
			return
		}
		select {
		case <-time.After(headInterval):
		case <-ctx.Done():
			return
		}
	}
}

// logLeftOut logs the certificates in the files of roots that are not roots of the log.
func logLeftOut(roots *chain.Roots, lines *eventlog.Lines) {
	for _, each := range roots.LeftOut() {
		lines.Warn("root-left-out", "root", each)
	}
}

// logHead logs the newest published head at the start.
func logHead(s *settings, of log.Log, lines *eventlog.Lines) {
	ctx, cancel := context.WithTimeout(context.Background(), s.limits.Reading)
	defer cancel()
	head, err := of.Checkpoint(ctx)
	if err != nil {
		lines.Warn("serving", "origin", s.node.origin, "fault", err)
		return
	}
	lines.Info("serving", "origin", s.node.origin, "entries", head.TreeSize,
		"root_hash", hex.EncodeToString(head.Root[:]),
		"head_of", time.UnixMilli(int64(head.Timestamp)).UTC().Format(time.RFC3339))
}

// wait calls reload at SIGHUP. It returns the first other signal, or the error of a server that fails. A reload may
// hang for long, for example on a network disk, and must not keep the program from ending, so it runs in a goroutine.
func wait(reload func(), signals <-chan os.Signal, failed <-chan error) (os.Signal, error) {
	reloaded, isReloading, isRequested := make(chan struct{}, 1), false, false
	for {
		if isRequested && !isReloading {
			isReloading, isRequested = true, false
			go func() {
				reload()
				reloaded <- struct{}{}
			}()
		}
		select {
		case err := <-failed:
			return nil, err
		case <-reloaded:
			isReloading = false
		case received := <-signals:
			if received != syscall.SIGHUP {
				return received, nil
			}
			isRequested = true
		}
	}
}

// reload reads the roots and the certificates again, and logs the results.
func reload(s *settings, front *httpd.Front, checker *chain.Checker, certificates []*httpd.Certificate,
	lines *eventlog.Lines) {
	reloaded := func(of string, err error, more ...any) {
		front.Reloaded(of, err)
		if err != nil {
			lines.Error("reload", "of", of, "fault", err)
			return
		}
		lines.Info("reload", append([]any{"of", of}, more...)...)
	}
	if s.node.archive == "" {
		added, removed, err := checker.Reload(s.roots)
		reloaded("roots", err, "roots", len(checker.Roots().Certificates()), "added", added, "removed", removed)
		if err == nil {
			logLeftOut(checker.Roots(), lines)
		}
	}
	for at, name := range []string{"certificate", "nodes-certificate"} {
		if certificates[at] != nil {
			reloaded(name, certificates[at].Reload())
		}
	}
}
