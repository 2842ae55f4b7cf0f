package watchstore_test

import (
	"errors"
	"slices"
	"strings"
	"testing"
	"time"

	"wagtenib/internal/testkit"
	"wagtenib/internal/watch"
	"wagtenib/internal/watch/alert"
	"wagtenib/internal/watch/watchstore"
)

const day = 24 * time.Hour

// renewing is a store with a clock of its own, whose owner expects every certificate, so that each alert is about a
// renewal.
type renewing struct {
	*watchstore.Store
	t       *testing.T
	ca      *testkit.Authority
	options watchstore.Options
	folder  string
	now     time.Time
	index   uint64
	seen    int64 // the number of the last alert that was looked at
}

func newRenewing(t *testing.T, names ...string) *renewing {
	r := &renewing{t: t, ca: testkit.NewAuthority("Test CA 1"), folder: t.TempDir(),
		now: time.Date(2026, 12, 1, 0, 0, 0, 0, time.UTC)}
	r.options = watchstore.Options{Searcher: searcher(names...), Now: func() time.Time { return r.now },
		Expected: watchstore.Expected{Issuers: []string{"An authority"}}}
	r.open()
	r.report(0, watch.Status{Answered: r.now})
	t.Cleanup(func() { must(t, r.Close()) })
	return r
}

func (r *renewing) open() {
	r.t.Helper()
	store, err := watchstore.Open(r.folder, r.options)
	must(r.t, err)
	must(r.t, store.UseOutputs([]string{"test"}))
	r.Store = store
}

func (r *renewing) report(log byte, status watch.Status) {
	status.Log = logOf(log)
	r.Report(status)
}

// keep stores a precertificate and its certificate from two logs. They end after a time.
func (r *renewing) keep(after time.Duration, hosts ...string) testkit.Issued {
	r.t.Helper()
	one := r.ca.IssueUntil(r.now.Add(after), hosts...)
	for log := range byte(2) {
		must(r.t, r.Keep(logOf(log), watch.State{}, entriesOf(one, r.index)))
	}
	r.index += 2
	return one
}

// check expects these alerts after a check: of each, the beginning of its line.
func (r *renewing) check(want ...string) []alert.Alert {
	r.t.Helper()
	must(r.t, r.CheckRenewals(7*day))
	var found []alert.Alert
	for _, one := range next(r.t, r.Store) {
		if one.ID > r.seen {
			found, r.seen = append(found, one), one.ID
		}
	}
	if !slices.EqualFunc(found, want, func(one alert.Alert, start string) bool {
		return strings.HasPrefix(alert.Line(one), start)
	}) {
		var lines []string
		for _, one := range found {
			lines = append(lines, alert.Line(one))
		}
		r.t.Errorf("at %v the alerts are %q, and not %q", r.now, lines, want)
	}
	return found
}

// TestReportsAMissingRenewal: the newest certificate has one alert from 7 days before its end on, also after a restart
// and after its end. A newer certificate takes it back, once, by an alert about the same certificate.
func TestReportsAMissingRenewal(t *testing.T) {
	r := newRenewing(t, "=www.example.org", "=none.example.org")
	old := r.keep(90*day, "www.example.org")
	r.keep(80*day, "www.example.org")
	r.now = r.now.Add(83*day - time.Second)
	r.check()
	r.now = r.now.Add(time.Second)
	first := r.check("UNRENEWED www.example.org: the certificate ends at 2027-03-01 00:00:00 UTC, and no newer one was " +
		"logged: www.example.org (1 name); issued by ")
	if !first[0].Certificate.Fields.NotAfter.Equal(old.Certificate.NotAfter) || first[0].Kind != "unrenewed" {
		t.Errorf("%+v", first[0])
	}
	r.check()
	must(t, r.Close())
	r.open()
	r.report(0, watch.Status{Answered: r.now})
	r.now = r.now.Add(30 * day)
	r.check()
	r.keep(90*day, "www.example.org")
	last := r.check("RENEWED www.example.org: a newer certificate was logged, which ends at 2027-06-22 00:00:00 UTC: ")
	if last[0].Certificate.SHA256 != first[0].Certificate.SHA256 {
		t.Errorf("%s is taken back, and not %s", last[0].Certificate.SHA256, first[0].Certificate.SHA256)
	}
	r.keep(100*day, "www.example.org")
	r.check()
}

// TestReportsEachCertificateOnce: a certificate for several names has one alert, which has the names that no newer
// certificate has. It is taken back when each of its names has a newer one. A name that is only covered has no alert.
func TestReportsEachCertificateOnce(t *testing.T) {
	r := newRenewing(t, "=a.example.org", "=b.example.org", "=c.example.org", "example.org")
	r.keep(7*day, "a.example.org", "b.example.org", "c.example.org", "d.example.org")
	r.keep(90*day, "c.example.org")
	r.keep(day, "d.example.org")
	r.check("UNRENEWED a.example.org, b.example.org: ")
	r.keep(90*day, "a.example.org")
	r.check()
	r.keep(60*day, "b.example.org")
	r.check("RENEWED a.example.org, b.example.org, c.example.org: a newer certificate was logged, which ends at 2027-01-30 ")
}

// TestRenewsByACertificateThatEndsSoon: a newer certificate takes the alert back, and has its own if it ends soon too. One
// with the same end is no newer one.
func TestRenewsByACertificateThatEndsSoon(t *testing.T) {
	r := newRenewing(t, "=www.example.org")
	r.keep(2*day, "www.example.org")
	r.check("UNRENEWED www.example.org: the certificate ends at 2026-12-03 ")
	r.keep(2*day, "www.example.org")
	r.check()
	r.keep(3*day, "*.example.org")
	r.check("RENEWED www.example.org: ", "UNRENEWED www.example.org: the certificate ends at 2026-12-04 ")
}

// TestSaysThatACertificateEnded: a certificate that ended before the first check has an alert that says so.
func TestSaysThatACertificateEnded(t *testing.T) {
	r := newRenewing(t, "=www.example.org")
	r.keep(day, "www.example.org")
	r.now = r.now.Add(2 * day)
	r.check("UNRENEWED www.example.org: the certificate ended at 2026-12-02 00:00:00 UTC, and no newer one was logged: ")
}

// TestOnlyDecidedPlacesRenew: a certificate that only may match a name, or that mentions it, is no newer one for it.
func TestOnlyDecidedPlacesRenew(t *testing.T) {
	r := newRenewing(t, "=www.example.org")
	r.keep(day, "www.example.org")
	r.keep(90*day, "www.example.org:443")
	if found, err := r.Find(watchstore.Query{Limit: 9}); err != nil || len(found) != 2 ||
		found[0].Matches[0].Place != "like-san" {
		t.Fatalf("%+v %v", found, err)
	}
	r.check("UNRENEWED www.example.org: ")
}

// TestForgetsNamesThatAreNoLongerWatched: an alert waits only for the names that are watched now, and is not taken back
// if there is none. A name that is watched again later causes no second alert about the same certificate.
func TestForgetsNamesThatAreNoLongerWatched(t *testing.T) {
	r := newRenewing(t, "=a.example.org", "=b.example.org", "=c.example.org")
	r.keep(day, "a.example.org", "b.example.org")
	r.check("UNRENEWED a.example.org, b.example.org: ")
	r.keep(90*day, "a.example.org")
	watchAndCheck := func(names []string, want ...string) {
		t.Helper()
		must(t, r.Close())
		r.options.Searcher = searcher(names...)
		r.open()
		r.report(0, watch.Status{Answered: r.now})
		r.check(want...)
	}
	watchAndCheck([]string{"=c.example.org"})
	watchAndCheck([]string{"=a.example.org"}, "RENEWED a.example.org: ")
	watchAndCheck([]string{"=a.example.org", "=b.example.org"})
}

// TestWaitsForLogsThatAreRead: nothing is reported until a log was read to its end and no other log is read. A log that
// has not answered for an hour, or that is accused, does not count.
func TestWaitsForLogsThatAreRead(t *testing.T) {
	r := newRenewing(t, "=www.example.org")
	r.keep(day, "www.example.org")
	must(t, r.Close())
	r.open()
	r.check()
	r.report(0, watch.Status{Fault: errors.New("it does not answer")})
	r.check()
	behind := watch.Status{Answered: r.now, Read: 8}
	behind.Head.TreeSize = 9
	r.report(1, behind)
	r.report(2, watch.Status{Answered: r.now})
	r.check()
	behind.Fault = &watch.AccusedError{}
	r.report(1, behind)
	r.check("UNRENEWED www.example.org: ")
	r.keep(2*day, "www.example.org")
	behind.Fault = errors.New("the time is over")
	r.report(1, behind)
	r.check()
	r.now = r.now.Add(time.Hour - time.Second)
	r.check()
	r.now = r.now.Add(time.Second)
	r.check("RENEWED www.example.org: ", "UNRENEWED www.example.org: ")
	r.keep(3*day, "www.example.org")
	behind.Answered = r.now
	r.report(1, behind)
	r.check()
	behind.Read = 9
	r.report(1, behind)
	behind.Head.TreeSize = 10
	r.report(1, behind)
	r.check("RENEWED www.example.org: ", "UNRENEWED www.example.org: ")
}
