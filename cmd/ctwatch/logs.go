package main

import (
	"context"
	"fmt"
	"strings"
	"sync"
	"time"

	"wagtenib/internal/command/eventlog"
	"wagtenib/internal/watch"
	"wagtenib/internal/watch/alert"
	"wagtenib/internal/watch/logflags"
	"wagtenib/internal/watch/loglist"
	"wagtenib/internal/watch/watchstore"
)

// listPause is the time between two readings of the log list.
const listPause = time.Hour

// follower follows the logs of the settings.
type follower struct {
	settings logSettings
	list     *loglist.Source // nil if no list is followed
	group    *watch.Group
	lines    *eventlog.Lines
	lists    *watchstore.Store // stores the list that was last read; must be set before logs are read
	listed   listStatus
}

// listStatus holds the outcome of the readings of the log list.
type listStatus struct {
	mutex   sync.Mutex
	since   time.Time // when the list was last read, or when ctwatch started
	alerted time.Time // when an alert was last stored
	fault   error     // why the list cannot be read; nil if it can
	needed  bool      // a list is followed, and it was never read
}

// report records the outcome of a reading of the list.
func (l *listStatus) report(now time.Time, fault error) {
	l.mutex.Lock()
	defer l.mutex.Unlock()
	l.fault = fault
	if fault == nil {
		l.since, l.alerted, l.needed = now, time.Time{}, false
	}
}

// unread returns a text that says why there is no log. It is only meant for the time before the first log was read.
func (l *listStatus) unread() string {
	l.mutex.Lock()
	defer l.mutex.Unlock()
	switch {
	case !l.needed:
		return "no log was read yet"
	case l.fault == nil:
		return "the log list was not read yet"
	}
	return "the log list was not read yet: " + alert.Safe(l.fault.Error())
}

// silence returns the reason for an alert if the list could not be read for the time `after`, and there was no alert
// within the same time. Otherwise it returns "".
func (l *listStatus) silence(now time.Time, after time.Duration) string {
	l.mutex.Lock()
	defer l.mutex.Unlock()
	if l.fault == nil || now.Sub(l.since) < after || now.Sub(l.alerted) < after {
		return ""
	}
	l.alerted = now
	return fmt.Sprintf("it could not be read for %v: %v", now.Sub(l.since).Round(time.Minute), l.fault)
}

func newFollower(settings logSettings, keeper watch.Keeper, lines *eventlog.Lines) (*follower, error) {
	client, err := settings.Client("ctwatch")
	if err != nil {
		return nil, fmt.Errorf("%w: %w", errUsage, err)
	}
	policy, err := settings.policy.policy()
	if err != nil {
		return nil, err
	}
	heads, err := newOthersHeads(settings, client, lines)
	if err != nil {
		return nil, err
	}
	if settings.once {
		client.Retrying = logflags.FirstOfEach(func(address string, fault error) {
			lines.Warn("retry", "address", address, "fault", fault, "next", triedAgain)
		})
	}
	f := &follower{settings: settings, lines: lines, listed: listStatus{since: time.Now()}}
	// A mirror has the log from its first entry on.
	fromStart := settings.fromStart || settings.mirror != ""
	f.group = watch.NewGroup(keeper, watch.Options{FromStart: fromStart, Pause: settings.pause, Client: client,
		Policy: policy, Mirror: mirrors(settings.mirror, client), Heads: heads})
	if settings.List == "" {
		return f, nil
	}
	f.listed.needed = true
	if !settings.once {
		client.Retrying = f.retryList
	}
	f.list = &loglist.Source{Place: settings.List, Key: settings.ListKey, Client: client}
	return f, nil
}

// triedAgain is the text of a line of log about a failed request.
const triedAgain = "it is tried again"

// retryList stores and logs that an attempt to read the log list failed, and that there will be another one.
func (f *follower) retryList(address string, fault error) {
	f.reportList(fault)
	f.lines.Error("log-list", "address", address, "fault", fault, "next", triedAgain)
}

// reportList records and stores why the log list cannot be read.
func (f *follower) reportList(fault error) {
	f.listed.report(time.Now(), fault)
	if err := f.lists.ReportList(fault); err != nil {
		f.lines.Error("store", "fault", err)
	}
}

// keepList records that the list was read, and stores it for a later start at which it cannot be read.
func (f *follower) keepList(list loglist.List) {
	f.listed.report(time.Now(), nil)
	if err := f.lists.KeepList(list.Content); err != nil {
		f.lines.Error("store", "fault", err)
	}
}

// keptLogs returns the logs that are watched while the log list cannot be read: those of the settings, and those of the
// list that was last read.
func (f *follower) keptLogs() []watch.Log {
	kept, err := f.lists.List()
	if err != nil {
		f.lines.Error("store", "fault", err)
	}
	if err != nil || kept.Content == nil {
		return f.settings.Only
	}
	list, err := loglist.Parse(kept.Content)
	logs := f.settings.Only
	if err == nil {
		logs, err = f.logsOf(list)
	}
	if err != nil {
		f.lines.Error("log-list-kept", "fault", err)
		return f.settings.Only
	}
	f.lines.Warn("log-list-kept", "logs", len(logs), "list", f.settings.List, "read", kept.Read.Format(time.RFC3339))
	return logs
}

// run follows the logs until the context ends.
func (f *follower) run(ctx context.Context) {
	// The logs that the settings name must not wait for the list.
	f.group.Follow(ctx, f.settings.Only)
	if f.list == nil {
		<-ctx.Done()
	} else {
		f.followList(ctx)
	}
	f.group.Wait()
}

// followList follows the logs of the list until the context ends. If the first reading fails, it follows the logs of
// the stored list until a reading succeeds.
func (f *follower) followList(ctx context.Context) {
	isFirst := true
	failed := func(err error) {
		f.reportList(err)
		if isFirst {
			isFirst = false
			f.group.Follow(ctx, f.keptLogs())
		}
	}
	// Follow returns only after the context has ended, and its error only says this.
	_ = f.list.Follow(ctx, listPause, func(list loglist.List) {
		for _, passed := range list.Passed {
			f.lines.Warn("log-passed-over", "reason", passed)
		}
		logs, err := f.logsOf(list)
		if err != nil {
			failed(err)
			f.lines.Error("log-list", "fault", err)
			return
		}
		isFirst = false
		f.lines.Info("log-list", "logs", len(logs), "list", f.settings.List, "of", list.Time.Format(time.RFC3339))
		f.group.Follow(ctx, logs)
		f.keepList(list)
	}, func(err error, next time.Duration) {
		failed(err)
		f.lines.Error("log-list", "address", f.settings.List, "fault", err, "next", fmt.Sprintf("%s in %v", triedAgain, next))
	})
}

// errNoLogs means that no log of a log list is in a watched state.
var errNoLogs = fmt.Errorf("the log list has no log in a state that is watched (%s)",
	strings.Join(loglist.WatchedStates, ", "))

// logsOf returns the logs of the settings, and the logs of a list that are in a watched state. If there are none, it
// returns errNoLogs.
func (f *follower) logsOf(list loglist.List) ([]watch.Log, error) {
	logs := append([]watch.Log{}, f.settings.Only...)
	known := map[watch.LogID]bool{}
	for _, log := range logs {
		known[log.ID] = true
	}
	for _, log := range list.InStates(loglist.WatchedStates...) {
		if !known[log.ID] {
			logs = append(logs, log)
		}
	}
	if len(logs) == 0 {
		return nil, errNoLogs
	}
	return logs, nil
}

// readOnce reads the log list, and returns the watched logs. If the list cannot be read, it returns the error and the
// logs of keptLogs.
func (f *follower) readOnce(ctx context.Context) ([]watch.Log, error) {
	list, err := f.list.Read(ctx)
	switch {
	case ctx.Err() != nil:
		return f.settings.Only, ctx.Err()
	case err != nil:
		f.reportList(err)
		return f.keptLogs(), fmt.Errorf("the log list cannot be read: %w", err)
	}
	logs, err := f.logsOf(list)
	if err != nil {
		f.reportList(err)
		return f.keptLogs(), err
	}
	f.keepList(list)
	return logs, nil
}

// once reads each log up to its newest head. It returns the errors of logs, by their names, and the error of the log
// list.
func (f *follower) once(ctx context.Context) (map[string]error, error) {
	logs := f.settings.Only
	var listFault error
	if f.list != nil {
		logs, listFault = f.readOnce(ctx)
	}
	faults := map[string]error{}
	results := f.group.Once(ctx, logs)
	for _, log := range logs {
		if err := results[log.ID]; err != nil {
			faults[log.Name] = err
		}
	}
	return faults, listFault
}
