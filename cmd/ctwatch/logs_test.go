package main

import (
	"errors"
	"testing"
	"time"

	"wagtenib/internal/watch"
	"wagtenib/internal/watch/logflags"
	"wagtenib/internal/watch/loglist"
)

// TestAlertsAboutASilentList: a list that cannot be read for a day causes an alert, and another one a day later. After
// the list was read, the time begins again.
func TestAlertsAboutASilentList(t *testing.T) {
	began := time.UnixMilli(1_770_000_000_000)
	list := &listStatus{since: began}
	fault := errors.New("it answers 503")
	for _, step := range []struct {
		hours int
		fault error
		want  string
	}{
		{0, fault, ""}, {23, fault, ""}, {24, fault, "it could not be read for 24h0m0s: it answers 503"}, {47, fault, ""},
		{48, fault, "it could not be read for 48h0m0s: it answers 503"}, {49, nil, ""}, {72, fault, ""},
		{73, fault, "it could not be read for 24h0m0s: it answers 503"},
	} {
		now := began.Add(time.Duration(step.hours) * time.Hour)
		list.report(now, step.fault)
		if got := list.silence(now, 24*time.Hour); got != step.want {
			t.Errorf("after %d hours: %q, and not %q", step.hours, got, step.want)
		}
	}
}

// TestSettingsOverrideTheList: a log that is in the settings and in the list is watched once, with the values of the
// settings.
func TestSettingsOverrideTheList(t *testing.T) {
	named := watch.Log{ID: watch.LogID{1}, URL: "https://mine.example"}
	listed := func(id byte, state string) loglist.Log {
		return loglist.Log{Log: watch.Log{ID: watch.LogID{id}, URL: "https://listed.example", State: state}}
	}
	f := &follower{settings: logSettings{Logs: logflags.Logs{Only: []watch.Log{named}}}}
	logs, err := f.logsOf(loglist.List{Logs: []loglist.Log{
		listed(1, "usable"), listed(2, "usable"), listed(3, "rejected")}})
	if err != nil || len(logs) != 2 || logs[0].URL != named.URL || logs[1].ID != (watch.LogID{2}) {
		t.Errorf("%+v, %v", logs, err)
	}
}

// TestRefusesAListWithoutWatchedLogs: a list without a log in a watched state is an error, unless the settings have a
// log.
func TestRefusesAListWithoutWatchedLogs(t *testing.T) {
	retired := loglist.List{Logs: []loglist.Log{{Log: watch.Log{ID: watch.LogID{1}, State: "retired"}}, {}}}
	f := &follower{}
	if logs, err := f.logsOf(retired); !errors.Is(err, errNoLogs) || len(logs) != 0 {
		t.Errorf("%+v, %v", logs, err)
	}
	f.settings.Only = []watch.Log{{ID: watch.LogID{2}}}
	if logs, err := f.logsOf(retired); err != nil || len(logs) != 1 {
		t.Errorf("with a log of the settings: %+v, %v", logs, err)
	}
}
