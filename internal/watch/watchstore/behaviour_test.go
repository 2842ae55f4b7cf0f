package watchstore_test

import (
	"bytes"
	"crypto/sha256"
	"crypto/x509/pkix"
	"encoding/hex"
	"errors"
	"fmt"
	"reflect"
	"slices"
	"strings"
	"testing"
	"time"

	"wagtenib/bindings/go/wagtenib"
	"wagtenib/internal/testkit"
	"wagtenib/internal/watch"
	"wagtenib/internal/watch/alert"
	"wagtenib/internal/watch/namesearch"
	"wagtenib/internal/watch/watchstore"
)

// next returns the next alerts for the output "test".
func next(t *testing.T, store *watchstore.Store) []alert.Alert {
	t.Helper()
	alerts, err := store.Next("test", 1000)
	must(t, err)
	return alerts
}

// TestFindsNamesThatAreAddedLater: a name that is added to the watched ones is found in the stored certificates. There
// is one alert, which says that the certificate is from the store.
func TestFindsNamesThatAreAddedLater(t *testing.T) {
	authority, folder := testkit.NewAuthority("Test CA 1"), t.TempDir()
	both, only, neither := authority.Issue("a.example.org", "b.example.net"), authority.Issue("c.example.net"),
		authority.Issue("d.example.com")
	earlier, err := watchstore.Open(folder, watchstore.Options{Searcher: everything()})
	must(t, err)
	must(t, earlier.Keep(logOf(0), watch.State{}, entriesOf(only, 0)))
	must(t, earlier.Keep(logOf(0), watch.State{}, entriesOf(neither, 2)))
	must(t, earlier.Close())
	forgetWatched(t, folder)
	for run, test := range []struct {
		names  []string
		alerts []string
	}{
		{[]string{"example.org"}, []string{"a.example.org"}},
		{[]string{"example.org", "example.net"}, []string{"a.example.org", "c.example.net"}},
		{[]string{"example.net"}, []string{"a.example.org", "c.example.net"}},
		{[]string{"example.net", "example.com"}, []string{"a.example.org", "c.example.net", "d.example.com"}},
	} {
		store, err := watchstore.Open(folder, watchstore.Options{Searcher: searcher(test.names...)})
		must(t, err)
		must(t, store.UseOutputs([]string{"test"}))
		if run == 0 {
			must(t, store.Keep(logOf(0), watch.State{}, entriesOf(both, 4)))
		}
		var names []string
		for _, one := range next(t, store) {
			names = append(names, one.Certificate.Names[0])
			if one.Certificate.IsFromStore != (len(names) > 1 || run > 0) {
				t.Errorf("run %d: %s is from the store: %v", run, one.Certificate.Names[0], one.Certificate.IsFromStore)
			}
		}
		if !slices.Equal(names, test.alerts) {
			t.Errorf("run %d: alerts to %q, and not %q", run, names, test.alerts)
		}
		must(t, store.Close())
	}
}

// TestFindsAddedNamesInEveryCertificate: a name that is added later is found in each stored certificate, although there
// are more of them than one transaction searches.
func TestFindsAddedNamesInEveryCertificate(t *testing.T) {
	const many = 1100
	folder, der := t.TempDir(), testkit.NewAuthority("Test CA 1").Issue("h0000.example.org").Certificate.Raw
	var entries []watch.Entry
	for i := range many {
		host := fmt.Sprintf("h%04d.example.org", i)
		entries = append(entries, watch.Entry{Index: uint64(i), Type: wagtenib.X509Entry,
			Certificate: bytes.ReplaceAll(der, []byte("h0000.example.org"), []byte(host))})
	}
	store, err := watchstore.Open(folder, watchstore.Options{Searcher: everything()})
	must(t, err)
	must(t, store.UseOutputs([]string{"test"}))
	must(t, store.Keep(logOf(0), watch.State{}, entries))
	must(t, store.Close())
	forgetWatched(t, folder)
	store = open(t, folder, watchstore.Options{Searcher: searcher("example.org")})
	alerts, err := store.Next("test", 2*many)
	must(t, err)
	for i, one := range alerts {
		if host := fmt.Sprintf("h%04d.example.org", i); one.Certificate.Names[0] != host {
			t.Fatalf("alert %d is to %s, and not to %s", i, one.Certificate.Names[0], host)
		}
	}
	if len(alerts) != many {
		t.Errorf("%d alerts", len(alerts))
	}
}

// TestExpectedCauseNoAlert: a certificate with an expected key or of an expected issuer is stored without an alert.
func TestExpectedCauseNoAlert(t *testing.T) {
	one := testkit.NewAuthority("Test CA 1").Issue("a.example.org")
	key := sha256.Sum256(one.Certificate.RawSubjectPublicKeyInfo)
	for what, test := range map[string]struct {
		expected watchstore.Expected
		alerts   int
	}{
		"nothing":          {watchstore.Expected{}, 1},
		"its key":          {watchstore.Expected{Keys: []string{hex.EncodeToString(key[:])}}, 0},
		"another key":      {watchstore.Expected{Keys: []string{strings.Repeat("0", 64)}}, 1},
		"its organization": {watchstore.Expected{Issuers: []string{"An authority"}}, 0},
		"its common name":  {watchstore.Expected{Issuers: []string{"Test CA 1"}}, 0},
		"its whole name": {watchstore.Expected{Issuers: []string{one.Certificate.Issuer.ToRDNSequence().String()}},
			0},
		"a part of it": {watchstore.Expected{Issuers: []string{"Test", "CA 1", ""}}, 1},
	} {
		store := open(t, t.TempDir(), watchstore.Options{Searcher: searcher("example.org"), Expected: test.expected})
		must(t, store.UseOutputs([]string{"test"}))
		must(t, store.Keep(logOf(0), watch.State{}, entriesOf(one, 0)))
		if alerts := next(t, store); len(alerts) != test.alerts {
			t.Errorf("%s: %d alerts, and not %d", what, len(alerts), test.alerts)
		}
		if counts, err := store.Counts(); err != nil || counts.Issuances != 1 {
			t.Errorf("%s: %+v %v", what, counts, err)
		}
	}
}

// TestExpectsNoUnreadCertificate: a certificate whose names cannot be read causes an alert even if its issuer is
// expected, because nobody knows its purpose.
func TestExpectsNoUnreadCertificate(t *testing.T) {
	one := testkit.NewAuthority("Test CA 1").Issue("a.example.org").Certificate.Raw
	// The length of a dNSName is larger than the list of names. All fields before it can be read.
	damaged := bytes.Replace(one, []byte("\x82\x0da.example.org"), []byte("\x82\x7fa.example.org"), 1)
	store := open(t, t.TempDir(), watchstore.Options{Searcher: searcher("example.org"),
		Expected: watchstore.Expected{Issuers: []string{"An authority"}}})
	must(t, store.UseOutputs([]string{"test"}))
	must(t, store.Keep(logOf(0), watch.State{}, []watch.Entry{{Type: wagtenib.X509Entry, Certificate: damaged}}))
	alerts := next(t, store)
	if len(alerts) != 1 || alerts[0].Kind != alert.Unread ||
		!strings.Contains(alerts[0].Certificate.Fields.Issuer, "An authority") {
		t.Errorf("%+v", alerts)
	}
}

// TestReportsUnread: the setting decides whether there is an alert about a certificate whose names cannot be read, and
// about bytes that are not a leaf.
func TestReportsUnread(t *testing.T) {
	authority := testkit.NewAuthority("Test CA 1")
	mentions, other := authority.Issue("a.example.org").Certificate.Raw, authority.Issue("other.net").Certificate.Raw
	entries := []watch.Entry{
		{Index: 0, Type: wagtenib.X509Entry, Certificate: mentions[:len(mentions)-1]},
		{Index: 1, Type: wagtenib.X509Entry, Certificate: other[:len(other)-1]},
		{Index: 2, Leaf: []byte{7, 7}, Fault: errors.New("it is no leaf")},
	}
	for unread, want := range map[watchstore.Unread]int{"": 3, watchstore.UnreadAll: 3,
		watchstore.UnreadMentioned: 1, watchstore.UnreadNone: 0} {
		store := open(t, t.TempDir(), watchstore.Options{Searcher: searcher("example.org"), Unread: unread})
		must(t, store.UseOutputs([]string{"test"}))
		must(t, store.Keep(logOf(0), watch.State{}, entries))
		must(t, store.Keep(logOf(1), watch.State{}, entries))
		alerts := next(t, store)
		if len(alerts) != want {
			t.Fatalf("%q: %d alerts, and not %d", unread, len(alerts), want)
		}
		for _, one := range alerts {
			if one.Kind != alert.Unread || one.Certificate.Fault == "" || !strings.HasPrefix(alert.Line(one),
				"UNREAD") {
				t.Errorf("%q: %s", unread, alert.Line(one))
			}
		}
		if counts, err := store.Counts(); err != nil || counts.Unread != 3 {
			t.Errorf("%q: %+v %v", unread, counts, err)
		}
	}
}

// TestKeepsStatesAndHeads: Load returns the state of the last Keep, and the store has the newest 1,000 accepted heads
// of a log.
func TestKeepsStatesAndHeads(t *testing.T) {
	folder := t.TempDir()
	store, err := watchstore.Open(folder, watchstore.Options{})
	must(t, err)
	if state, err := store.Load(logOf(0).ID); err != nil || state.Monitor != nil || state.Read != 0 {
		t.Errorf("%+v %v", state, err)
	}
	var state watch.State
	for i := range uint64(1005) {
		head := watch.Head{TreeHead: wagtenib.TreeHead{TreeSize: i, Timestamp: 1000 + i, Root: [32]byte{byte(i)}},
			Signed: fmt.Append(nil, "signed ", i)}
		state = watch.State{Monitor: fmt.Append(nil, "monitor ", i), Accepted: watch.Tree{Head: head, Earliest: head},
			Waiting: watch.Tree{Head: head}, Unplaced: []watch.Unplaced{{Head: head, Since: time.Unix(7, 0).UTC()}}, Withheld: time.UnixMilli(int64(i)).UTC(), Read: 1<<63 + i,
			Start: i}
		must(t, store.Keep(logOf(0), state, nil))
	}
	must(t, store.Close())
	store = open(t, folder, watchstore.Options{})
	got, err := store.Load(logOf(0).ID)
	if err != nil || !bytes.Equal(got.Monitor, state.Monitor) || got.Read != state.Read ||
		got.Start != state.Start || got.Accepted.TreeHead != state.Accepted.TreeHead ||
		!reflect.DeepEqual(got.Waiting, state.Waiting) || !reflect.DeepEqual(got.Unplaced, state.Unplaced) ||
		!reflect.DeepEqual(got.Accepted, state.Accepted) || !got.Withheld.Equal(state.Withheld) {
		t.Errorf("%+v, and not %+v: %v", got, state, err)
	}
	heads, err := store.Heads(logOf(0).ID, 2000)
	if err != nil || len(heads) != 1000 || heads[0].TreeHead != state.Accepted.TreeHead ||
		string(heads[999].Signed) != "signed 5" {
		t.Errorf("%d heads: %v", len(heads), err)
	}
}

// TestKeepsEvidence: the store returns each file of the evidence, and has an alert about it.
func TestKeepsEvidence(t *testing.T) {
	folder := t.TempDir()
	store := open(t, folder, watchstore.Options{})
	must(t, store.UseOutputs([]string{"test"}))
	evidence := watch.Evidence{Time: time.UnixMilli(1_770_000_000_000).UTC(), Verdict: "forked",
		Text:  "two roots\nof one size",
		Files: map[string][]byte{"first": []byte("a"), "second": nil}}
	must(t, store.Accuse(logOf(2), watch.State{Read: 5}, evidence))
	alerts := next(t, store)
	line := `LOG log c: forked: two roots\u{a}of one size; ctwatch evidence 1 NEW-FOLDER --folder ` + folder +
		" writes its files"
	if len(alerts) != 1 || alerts[0].Kind != alert.Evidence || alert.Line(alerts[0]) != line {
		t.Fatalf("%+v", alerts)
	}
	got, log, err := store.Evidence(1)
	if err != nil || log != "log c" || !got.Time.Equal(evidence.Time) || got.Text != evidence.Text ||
		len(got.Files) != 2 || string(got.Files["first"]) != "a" {
		t.Errorf("%+v of %s: %v", got, log, err)
	}
	if _, _, err := store.Evidence(2); !errors.Is(err, watchstore.ErrAbsent) {
		t.Error(err)
	}
	if state, err := store.Load(logOf(2).ID); err != nil || state.Read != 5 {
		t.Errorf("%+v %v", state, err)
	}
}

// TestKeepsEvidenceOnce: after a restart, a follower finds the same evidence again, which causes no second alert. A log
// cannot fill the store with evidence that nobody looks at.
func TestKeepsEvidenceOnce(t *testing.T) {
	folder := t.TempDir()
	store := open(t, folder, watchstore.Options{})
	must(t, store.UseOutputs([]string{"test"}))
	evidenceOf := func(minute int64, head string) watch.Evidence {
		evidence, err := watch.NewEvidence(logOf(2), time.Unix(60*minute, 0), watch.VerdictFork, "two roots",
			map[string][]byte{watch.FileHead: []byte(head)})
		must(t, err)
		return evidence
	}
	checkAlerts := func(expected int) {
		t.Helper()
		if alerts := next(t, store); len(alerts) != expected {
			t.Errorf("%d alerts, and %d are expected", len(alerts), expected)
		}
	}
	must(t, store.Accuse(logOf(2), watch.State{Read: 5}, evidenceOf(1, "a")))
	must(t, store.Accuse(logOf(2), watch.State{Read: 6}, evidenceOf(2, "a")))
	checkAlerts(1)
	if state, err := store.Load(logOf(2).ID); err != nil || state.Read != 6 {
		t.Errorf("the state of the second call: %+v %v", state, err)
	}
	must(t, store.Accuse(logOf(2), watch.State{}, evidenceOf(3, "b")))
	must(t, store.Accuse(logOf(1), watch.State{}, evidenceOf(4, "a")))
	checkAlerts(3)
	for i := range int64(40) {
		must(t, store.Accuse(logOf(2), watch.State{}, evidenceOf(5, fmt.Sprint("head ", i))))
	}
	checkAlerts(17)
	must(t, store.MarkSeen(1))
	must(t, store.Accuse(logOf(2), watch.State{}, evidenceOf(6, "after somebody has looked")))
	checkAlerts(18)
}

// TestAlertsAboutASilentLog: a log that cannot be read for a day causes an alert, and another one a day later.
func TestAlertsAboutASilentLog(t *testing.T) {
	now := time.UnixMilli(1_770_000_000_000).UTC()
	store := open(t, t.TempDir(), watchstore.Options{Now: func() time.Time { return now }})
	must(t, store.UseOutputs([]string{"test"}))
	answered := now
	report := func(hours int, fault error) {
		now = answered.Add(time.Duration(hours) * time.Hour)
		store.Report(watch.Status{Log: logOf(0), Answered: answered, Fault: fault})
		must(t, store.CheckSilent(24*time.Hour))
	}
	for _, step := range []struct{ hours, alerts int }{{0, 0}, {23, 0}, {24, 1}, {25, 1}, {47, 1}, {48, 2}, {49, 2}} {
		report(step.hours, errors.New("it answers 503"))
		alerts := next(t, store)
		if len(alerts) != step.alerts {
			t.Fatalf("after %d hours there are %d alerts, and not %d", step.hours, len(alerts), step.alerts)
		}
		if step.alerts > 0 && alert.Line(alerts[0]) != "SILENT log a: nothing of this log could be read for 24h0m0s: "+
			"it answers 503" {
			t.Errorf("%s", alert.Line(alerts[0]))
		}
	}
	health, err := store.Health(24 * time.Hour)
	if err != nil || health.Logs != 1 || !slices.Equal(health.Silent, []string{"log a"}) {
		t.Errorf("%+v %v", health, err)
	}
	answered = now
	report(0, nil)
	if health, err := store.Health(24 * time.Hour); err != nil || len(health.Silent) != 0 ||
		health.String() != "1 log; all are read, and all alerts are sent" {
		t.Errorf("%+v %v", health, err)
	}
}

// TestAlertsAboutTheLogList: the alert about a log list that cannot be read names no log.
func TestAlertsAboutTheLogList(t *testing.T) {
	store := open(t, t.TempDir(), watchstore.Options{})
	must(t, store.UseOutputs([]string{"test"}))
	must(t, store.AlertList("it could not be read for 24h0m0s: 503"))
	alerts := next(t, store)
	if len(alerts) != 1 || alert.Line(alerts[0]) != "SILENT the log list: it could not be read for 24h0m0s: 503" {
		t.Errorf("%+v", alerts)
	}
}

// TestKeepsACertificateWithManyNames: the alert about a certificate with 100,000 names has 20 of them and the number of
// all. A query finds the last one.
func TestKeepsACertificateWithManyNames(t *testing.T) {
	var hosts []string
	for i := range 100_000 {
		hosts = append(hosts, fmt.Sprintf("h%d.other.net", i))
	}
	one := testkit.NewAuthority("Test CA 1").Issue(append(hosts, "shop.example.org")...)
	store := open(t, t.TempDir(), watchstore.Options{Searcher: searcher("example.org")})
	must(t, store.UseOutputs([]string{"test"}))
	must(t, store.Keep(logOf(0), watch.State{}, entriesOf(one, 0)))
	alerts := next(t, store)
	if len(alerts) != 1 || len(alerts[0].Certificate.Names) != 20 || alerts[0].Certificate.NameCount != 100_001 {
		t.Fatalf("%d alerts", len(alerts))
	}
	if line := alert.Line(alerts[0]); len(line) > 1000 ||
		!strings.HasPrefix(line, "FOUND example.org: shop.example.org (100001 names)") {
		t.Errorf("%.2000s", line)
	}
	name, err := namesearch.ParseName("=shop.example.org")
	must(t, err)
	if found, err := store.Find(watchstore.Query{Name: &name, Limit: 9}); err != nil || len(found) != 1 {
		t.Errorf("%d are found: %v", len(found), err)
	}
}

// TestFindsByNameAndTime: a query for a name finds it, the names below it and wildcards over it. A query for an exact
// name finds only itself and wildcards over it. Both find only certificates that are valid at the time of the query.
func TestFindsByNameAndTime(t *testing.T) {
	authority := testkit.NewAuthority("Test CA 1")
	store := open(t, t.TempDir(), watchstore.Options{Searcher: everything()})
	for i, host := range []string{"example.org", "www.example.org", "*.example.org", "*.org", "notexample.org",
		"example.org.evil.net", "a.b.example.org", "exampleXorg", "*.www.example.org"} {
		must(t, store.Keep(logOf(0), watch.State{}, entriesOf(authority.Issue(host), uint64(2*i))))
	}
	address := authority.IssueNames(pkix.Name{}, testkit.Name{Tag: testkit.Address, Bytes: []byte{192, 0, 2, 7}})
	must(t, store.Keep(logOf(0), watch.State{}, entriesOf(address, 100)))
	for word, want := range map[string][]string{
		"example.org": {"*.example.org", "*.org", "*.www.example.org", "a.b.example.org", "example.org",
			"www.example.org"},
		"=example.org":     {"*.org", "example.org"},
		"=www.example.org": {"*.example.org", "www.example.org"},
		"b.example.org":    {"*.example.org", "a.b.example.org"},
		"192.0.2.7":        {"192.0.2.7"},
		"absent.example":   nil,
	} {
		name, err := namesearch.ParseName(word)
		must(t, err)
		for at, want := range map[time.Time][]string{{}: want, time.Date(2027, 1, 1, 0, 0, 0, 0, time.UTC): want,
			time.Date(2025, 1, 1, 0, 0, 0, 0, time.UTC): nil} {
			found, err := store.Find(watchstore.Query{Name: &name, ValidAt: at, Limit: 100})
			must(t, err)
			var names []string
			for _, one := range found {
				names = append(names, one.Names[0])
			}
			slices.Sort(names)
			if !slices.Equal(names, want) {
				t.Errorf("%s at %v: %q, and not %q", word, at, names, want)
			}
		}
	}
	if _, err := store.Certificate(strings.Repeat("0", 64)); !errors.Is(err, watchstore.ErrAbsent) {
		t.Error(err)
	}
	if _, err := store.Certificate("x"); err == nil || !strings.Contains(err.Error(), "64 hexadecimal digits") {
		t.Error(err)
	}
	if days, err := store.Timeline(9); err != nil || len(days) == 0 || days[0].Count == 0 {
		t.Errorf("%v %v", days, err)
	}
}
