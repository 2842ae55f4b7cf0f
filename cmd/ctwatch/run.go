package main

import (
	"context"
	"errors"
	"fmt"
	"io"
	"os"
	"os/signal"
	"slices"
	"strings"
	"sync"
	"syscall"
	"time"

	"github.com/coreos/go-systemd/v22/daemon"

	"wagtenib/internal/command/eventlog"
	"wagtenib/internal/watch"
	"wagtenib/internal/watch/alert"
	"wagtenib/internal/watch/namesearch"
	"wagtenib/internal/watch/watchstore"
)

var _ = addCommand("run", "follows logs, and sends alerts about certificates for the watched names", runWatch)

// checkInterval is the time between two checks for silent logs and for renewals.
const checkInterval = time.Minute

// watching holds the state of one run with the same settings.
type watching struct {
	settings *settings
	store    *watchstore.Store
	outputs  []alert.Output
	follower *follower
	lines    *eventlog.Lines
	wakes    []chan struct{}
}

// errReload is the cause with which a run is canceled if a run with new settings follows.
var errReload = errors.New("ctwatch: the settings are reloaded")

// runWatch follows logs until the context ends, or with --once up to their newest heads. After a SIGHUP it continues
// with the new settings of the config file.
func runWatch(ctx context.Context, arguments []string, out io.Writer) error {
	s, err := parse(arguments, out)
	if err != nil {
		return err
	}
	lines := eventlog.NewLines(os.Stderr)
	if s.logs.once || s.serve.config == "" {
		return s.watch(ctx, out, lines)
	}
	hangups := make(chan os.Signal, 1)
	signal.Notify(hangups, syscall.SIGHUP)
	defer signal.Stop(hangups)
	for err == nil && s != nil {
		running, stop := context.WithCancelCause(ctx)
		next := make(chan *settings, 1)
		go func() {
			next <- reload(running, arguments, hangups, lines)
			stop(errReload)
		}()
		err = s.watch(running, out, lines)
		stop(nil)
		s = <-next
	}
	return err
}

// reload reads the settings again at each SIGHUP, and returns the first correct ones. It returns nil after the context
// has ended.
func reload(ctx context.Context, arguments []string, hangups <-chan os.Signal, lines *eventlog.Lines) *settings {
	for {
		select {
		case <-ctx.Done():
			return nil
		case <-hangups:
		}
		s, err := parse(arguments, io.Discard)
		if err == nil {
			err = s.check(lines)
		}
		if err == nil {
			return s
		}
		lines.Error("settings", "fault", err, "remedy",
			"correct the config file and send SIGHUP; until then, the old settings apply")
	}
}

// check opens the outputs and the log list that the settings name, as a new run would. It does not open the store,
// which the current run has open.
func (s *settings) check(lines *eventlog.Lines) error {
	_, closeOutputs, err := s.outputs.open(io.Discard, s.logs.Contact)
	if err == nil {
		_, err = newFollower(s.logs, nil, lines)
	}
	return errors.Join(err, closeOutputs())
}

// watch opens the store and the outputs, and follows logs until the context ends, or with --once up to their newest
// heads.
func (s *settings) watch(ctx context.Context, out io.Writer, lines *eventlog.Lines) (err error) {
	outputs, closeOutputs, err := s.outputs.open(out, s.logs.Contact)
	defer func() { err = errors.Join(err, closeOutputs()) }()
	if err != nil {
		return err
	}
	w := &watching{settings: s, outputs: outputs, lines: lines}
	for range outputs {
		w.wakes = append(w.wakes, make(chan struct{}, 1))
	}
	if w.store, err = watchstore.Open(s.folder, s.storeOptions(w.wake)); err != nil {
		return err
	}
	defer func() { err = errors.Join(err, w.store.Close()) }()
	if err := errors.Join(w.useOutputs(), w.store.UseList(s.logs.List, s.logs.ListKey)); err != nil {
		return err
	}
	var keeper watch.Keeper = w.store
	if s.logs.accepted != "" {
		if keeper, err = newAcceptedFolder(keeper, s.logs.accepted, lines); err != nil {
			return err
		}
	}
	if w.follower, err = newFollower(s.logs, keeper, lines); err != nil {
		return err
	}
	w.follower.lists = w.store
	if s.logs.once {
		return w.once(ctx)
	}
	return w.serve(ctx)
}

func (s *settings) storeOptions(wake func()) watchstore.Options {
	return watchstore.Options{Searcher: namesearch.NewSearcher(s.names), Expected: s.expected,
		Unread: watchstore.Unread(s.unread), Wake: wake}
}

// wake wakes each output, so that it looks for new alerts.
func (w *watching) wake() {
	for _, wake := range w.wakes {
		select {
		case wake <- struct{}{}:
		default:
		}
	}
}

// useOutputs stores the names of the outputs. It returns an error if two outputs have the same name.
func (w *watching) useOutputs() error {
	var names []string
	for _, output := range w.outputs {
		if slices.Contains(names, output.Name()) {
			return fmt.Errorf("%w: %s is given twice (write it once)", errUsage, output.Name())
		}
		names = append(names, output.Name())
	}
	return w.store.UseOutputs(names)
}

// serve follows logs, sends alerts and serves the page until the context ends.
func (w *watching) serve(ctx context.Context) error {
	page, err := listen(w.settings.serve, w.store, &w.follower.listed, w.lines)
	if err != nil {
		return err
	}
	// The outputs run until the followers of the logs have ended, so that the last findings are sent too.
	sending, stop := context.WithCancel(context.WithoutCancel(ctx))
	var running sync.WaitGroup
	for i, output := range w.outputs {
		running.Add(1)
		go func() {
			defer running.Done()
			alert.Run(sending, w.store, output, w.wakes[i], w.report(output))
		}()
	}
	running.Add(1)
	go func() {
		defer running.Done()
		w.check(sending)
	}()
	w.lines.Info("watching", "names", len(w.settings.names), "logs", len(w.settings.logs.Only), "list",
		w.settings.logs.List, "folder", w.settings.folder, "page", page.address())
	// Without systemd there is no socket, and SdNotify does nothing.
	_, _ = daemon.SdNotify(false, daemon.SdNotifyReady)
	w.follower.run(ctx)
	if errors.Is(context.Cause(ctx), errReload) {
		w.lines.Info("reloading")
	} else {
		w.lines.Info("ending")
	}
	stop()
	running.Wait()
	w.deliverLast()
	return page.close()
}

// lastDeliveryTimeout is the maximum time for sending alerts after the followers of the logs have ended.
const lastDeliveryTimeout = 10 * time.Second

// deliverLast sends the last alerts. An alert that cannot be sent in time stays in the queue for the next run.
func (w *watching) deliverLast() {
	ctx, cancel := context.WithTimeout(context.Background(), lastDeliveryTimeout)
	defer cancel()
	for _, output := range w.outputs {
		if err := alert.Deliver(ctx, w.store, output); err != nil {
			w.lines.Error("output", "name", output.Name(), "fault", err)
		}
	}
}

// report returns a function that logs the errors of an output.
func (w *watching) report(output alert.Output) func(error) {
	return func(err error) {
		if err != nil {
			w.lines.Error("output", "name", output.Name(), "fault", err)
		}
	}
}

// checkRenewals looks for certificates that were not renewed in time, if the settings name a time.
func (w *watching) checkRenewals() error {
	if w.settings.times.renewals == 0 {
		return nil
	}
	return w.store.CheckRenewals(w.settings.times.renewals)
}

// check checks at intervals, until the context ends, whether a log or the log list cannot be read, and whether
// certificates were renewed. It also reports the health to systemd.
func (w *watching) check(ctx context.Context) {
	ticker := time.NewTicker(checkInterval)
	defer ticker.Stop()
	for {
		select {
		case <-ctx.Done():
			return
		case <-ticker.C:
		}
		if err := w.store.CheckSilent(w.settings.times.silent); err != nil {
			w.lines.Error("store", "fault", err)
		}
		if err := w.checkRenewals(); err != nil {
			w.lines.Error("store", "fault", err)
		}
		if reason := w.follower.listed.silence(time.Now(), w.settings.times.silent); reason != "" {
			if err := w.store.AlertList(reason); err != nil {
				w.lines.Error("store", "fault", err)
			}
		}
		if health, err := w.store.Health(w.settings.times.silent); err == nil {
			health.Unread = w.follower.listed.unread()
			// Without systemd there is no socket, and SdNotify does nothing.
			_, _ = daemon.SdNotify(false, "STATUS="+health.String())
		}
	}
}

// sendWhile sends alerts while `read` reads logs, so that a slow log does not delay the alerts about other logs. After
// a failure, an output sends nothing more: the caller delivers the rest.
func (w *watching) sendWhile(ctx context.Context, read func()) {
	done := make(chan struct{})
	var sending sync.WaitGroup
	for i, output := range w.outputs {
		sending.Add(1)
		go func() {
			defer sending.Done()
			for {
				select {
				case <-done:
					return
				case <-w.wakes[i]:
				}
				if alert.Deliver(ctx, w.store, output) != nil {
					return
				}
			}
		}()
	}
	read()
	close(done)
	sending.Wait()
}

// once reads each log up to its newest head, and sends the alerts. Its error has the gravest exit status.
func (w *watching) once(ctx context.Context) error {
	before, err := w.store.Counts()
	if err != nil {
		return err
	}
	var faults map[string]error
	var listFault error
	w.sendWhile(ctx, func() { faults, listFault = w.follower.once(ctx) })
	if err := errors.Join(w.store.CheckSilent(w.settings.times.silent), w.checkRenewals()); err != nil {
		return err
	}
	var failed []string
	for _, output := range w.outputs {
		if err := alert.Deliver(ctx, w.store, output); err != nil {
			failed = append(failed, err.Error())
		}
	}
	after, err := w.store.Counts()
	if err != nil {
		return err
	}
	isAccused := after.Evidence > before.Evidence
	for name, fault := range faults {
		w.lines.Error("log", "name", name, "fault", fault)
		isAccused = isAccused || errors.As(fault, new(*watch.AccusedError))
	}
	switch {
	case isAccused:
		return &statusError{statusAccused, "ctwatch: a log did something wrong (ctwatch health lists the evidence)"}
	case len(failed) > 0:
		return &statusError{statusFault, "ctwatch: " + strings.Join(failed, "; ")}
	case listFault != nil:
		return &statusError{statusUnread, "ctwatch: " + listFault.Error()}
	case len(faults) > 0:
		count := alert.Count(int64(len(faults)), "log")
		return &statusError{statusUnread, fmt.Sprintf("ctwatch: %s could not be read", count)}
	case after.Alerts > before.Alerts:
		return &statusError{statusFoundByOnce, "ctwatch: " + alert.Count(after.Alerts-before.Alerts, "new alert")}
	}
	return nil
}
