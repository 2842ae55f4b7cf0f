package loglist_test

import (
	"context"
	"crypto"
	"crypto/ecdsa"
	"crypto/elliptic"
	"crypto/rand"
	"crypto/rsa"
	"crypto/sha256"
	"crypto/x509"
	"encoding/json"
	"encoding/pem"
	"errors"
	"net/http"
	"net/http/httptest"
	"os"
	"path/filepath"
	"slices"
	"strings"
	"testing"
	"time"

	"wagtenib/internal/logclient"
	"wagtenib/internal/watch/loglist"
)

// entry is a log in a list, as a JSON object.
type entry map[string]any

// newEntry returns an entry with a made-up key, of a tiled log or of one of RFC 6962.
func newEntry(name string, tiled bool, state string) entry {
	key := []byte("the key of " + name)
	id := sha256.Sum256(key)
	e := entry{"description": name, "key": key, "log_id": id[:], "mmd": 86400,
		"temporal_interval": entry{"start_inclusive": "2027-01-01T00:00:00Z", "end_exclusive": "2027-07-01T00:00:00Z"}}
	if state != "" {
		e["state"] = entry{state: entry{"timestamp": "2026-01-01T00:00:00Z"}}
	}
	if tiled {
		e["submission_url"], e["monitoring_url"] = "https://submit.example/"+name+"/", "https://read.example/"+name+"/"
	} else {
		e["url"] = "https://log.example/" + name + "/"
	}
	return e
}

// with returns a copy of the entry with another value of one field.
func (e entry) with(name string, value any) entry {
	other := entry{}
	for key, value := range e {
		other[key] = value
	}
	other[name] = value
	return other
}

// listOf returns a list with this timestamp and these logs.
func listOf(t testing.TB, timestamp string, logs, tiled []entry) []byte {
	t.Helper()
	content, err := json.Marshal(entry{"version": "42.1", "log_list_timestamp": timestamp,
		"operators": []entry{{"name": "Operator", "email": []string{"a@b.example"}, "logs": logs, "tiled_logs": tiled}}})
	if err != nil {
		t.Fatal(err)
	}
	return content
}

const listTime = "2026-11-01T12:00:00Z"

// Parse reads all fields of both kinds of logs.
func TestParses(t *testing.T) {
	content := listOf(t, listTime, []entry{newEntry("b", false, "usable")}, []entry{newEntry("a", true, "qualified")})
	list, err := loglist.Parse(content)
	if err != nil || len(list.Logs) != 2 || len(list.Passed) != 0 || list.Version != "42.1" {
		t.Fatalf("%+v, %v", list, err)
	}
	if expected := time.Date(2026, 11, 1, 12, 0, 0, 0, time.UTC); !list.Time.Equal(expected) {
		t.Errorf("the list is of %v", list.Time)
	}
	checkBothKinds(t, list.Logs[0], list.Logs[1])
}

// checkBothKinds compares a tiled log and one of RFC 6962 with their entries.
func checkBothKinds(t *testing.T, a, b loglist.Log) {
	t.Helper()
	if a.Name != "a" || a.Origin != "submit.example/a" || a.URL != "https://read.example/a" || !a.IsTiled() ||
		a.State != "qualified" || a.MaxMergeDelay != 24*time.Hour || a.Operator != "Operator" {
		t.Errorf("%+v", a)
	}
	if b.Name != "b" || b.IsTiled() || b.URL != "https://log.example/b" || b.State != "usable" ||
		b.ID != sha256.Sum256(b.PublicKey) || string(b.PublicKey) != "the key of b" {
		t.Errorf("%+v", b)
	}
	if a.Start.Year() != 2027 || a.End.Month() != time.July {
		t.Errorf("the interval is from %v to %v", a.Start, a.End)
	}
}

// InStates returns only the logs in the given states.
func TestReturnsLogsInStates(t *testing.T) {
	var logs []entry
	for _, state := range []string{"pending", "qualified", "usable", "readonly", "retired", "rejected", ""} {
		logs = append(logs, newEntry("log "+state, false, state))
	}
	list, err := loglist.Parse(listOf(t, listTime, logs, nil))
	if err != nil {
		t.Fatal(err)
	}
	var names []string
	for _, log := range list.InStates(loglist.WatchedStates...) {
		names = append(names, log.Name)
	}
	if found := strings.Join(names, ", "); found != "log qualified, log readonly, log usable" {
		t.Errorf("%s", found)
	}
}

// Parse passes over a log whose entry is faulty, says why, and returns the others.
func TestPassesOverFaultyLogs(t *testing.T) {
	good := newEntry("good", false, "usable")
	for what, test := range map[string]struct {
		entry    entry
		tiled    bool
		expected string // a part of the error
	}{
		"another ID":       {newEntry("bad", false, "usable").with("log_id", make([]byte, 32)), false, "log_id"},
		"no key":           {newEntry("bad", false, "usable").with("key", nil), false, "log_id"},
		"no address":       {newEntry("bad", false, "usable").with("url", ""), false, "address"},
		"a file":           {newEntry("bad", false, "usable").with("url", "file:///etc/passwd"), false, "address"},
		"a user":           {newEntry("bad", false, "usable").with("url", "https://a:b@log.example/"), false, "address"},
		"no origin":        {newEntry("bad", true, "usable").with("submission_url", ""), true, "submission_url"},
		"no delay":         {newEntry("bad", true, "usable").with("mmd", 0), true, "mmd"},
		"a delay of years": {newEntry("bad", true, "usable").with("mmd", 1<<40), true, "mmd"},
		"a text for key":   {newEntry("bad", false, "usable").with("key", "no base64!"), false, "passed over"},
		"the same again":   {good, false, "twice"},
	} {
		logs, tiled := []entry{good}, []entry{test.entry}
		if !test.tiled {
			logs, tiled = append(logs, test.entry), nil
		}
		list, err := loglist.Parse(listOf(t, listTime, logs, tiled))
		if err != nil || len(list.Logs) != 1 || list.Logs[0].Name != "good" || len(list.Passed) != 1 ||
			!strings.Contains(list.Passed[0].Error(), test.expected) {
			t.Errorf("%s: %d logs, %v, %v", what, len(list.Logs), list.Passed, err)
		}
	}
	for _, nonsense := range []string{"", "<html>", "[]", "{}", `{"operators":[]}`, `{"operators":[{"logs":[{}]}]}`,
		`{"operators":7}`} {
		if _, err := loglist.Parse([]byte(nonsense)); !errors.Is(err, loglist.ErrForm) {
			t.Errorf("%s: %v", nonsense, err)
		}
	}
}

// newKeys returns an RSA key and an ECDSA key.
func newKeys(t *testing.T) []crypto.Signer {
	t.Helper()
	first, err := rsa.GenerateKey(rand.Reader, 2048)
	if err != nil {
		t.Fatal(err)
	}
	second, err := ecdsa.GenerateKey(elliptic.P256(), rand.Reader)
	if err != nil {
		t.Fatal(err)
	}
	return []crypto.Signer{first, second}
}

func pemOf(t *testing.T, key crypto.Signer) []byte {
	t.Helper()
	der, err := x509.MarshalPKIXPublicKey(key.Public())
	if err != nil {
		t.Fatal(err)
	}
	return pem.EncodeToMemory(&pem.Block{Type: "PUBLIC KEY", Bytes: der})
}

// Read reads a list from a file and over HTTP. If there is a key, it refuses a list that the key did not sign.
func TestReadsSignedLists(t *testing.T) {
	content := listOf(t, listTime, []entry{newEntry("a", false, "usable")}, nil)
	for _, key := range newKeys(t) {
		digest := sha256.Sum256(content)
		signed, err := key.Sign(rand.Reader, digest[:], crypto.SHA256)
		if err != nil {
			t.Fatal(err)
		}
		folder := t.TempDir()
		for name, bytes := range map[string][]byte{"good.json": content, "good.sig": signed, "bad.json": append(content, ' '),
			"bad.sig": signed, "none.json": content} {
			if err := os.WriteFile(filepath.Join(folder, name), bytes, 0o600); err != nil {
				t.Fatal(err)
			}
		}
		server := httptest.NewServer(http.FileServer(http.Dir(folder)))
		defer server.Close()
		for place, missing := range map[string]error{folder + "/": os.ErrNotExist, server.URL + "/": logclient.ErrNotFound} {
			for name, expected := range map[string]error{"good.json": nil, "bad.json": loglist.ErrSignature,
				"none.json": missing} {
				source := loglist.Source{Place: place + name, Key: pemOf(t, key)}
				if list, err := source.Read(context.Background()); !errors.Is(err, expected) ||
					err == nil && len(list.Logs) != 1 {
					t.Errorf("%s: %v, and %v is expected", source.Place, err, expected)
				}
			}
		}
		if _, err := (loglist.Source{Place: folder + "/bad.json"}).Read(context.Background()); err != nil {
			t.Errorf("without a key: %v", err)
		}
		if err := loglist.CheckSignature(content, signed, []byte("no key")); !errors.Is(err, loglist.ErrKey) {
			t.Errorf("no key: %v", err)
		}
	}
}

// pauses is a clock that records its waits, and ends the context at the wait with the number maxWaits.
type pauses struct {
	waits    []time.Duration
	maxWaits int
	cancel   context.CancelFunc
}

func (p *pauses) Now() time.Time { return time.Date(2027, 1, 1, 0, 0, 0, 0, time.UTC) }

func (p *pauses) Wait(ctx context.Context, d time.Duration) error {
	if p.waits = append(p.waits, d); len(p.waits) == p.maxWaits {
		p.cancel()
	}
	return ctx.Err()
}

// Follow reports a list that cannot be read, is nonsense or is older than the last one, and continues with the next
// newer list.
func TestFollowsAList(t *testing.T) {
	first := listOf(t, listTime, []entry{newEntry("a", false, "usable")}, nil)
	older := listOf(t, "2026-10-01T12:00:00Z", []entry{newEntry("b", false, "usable")}, nil)
	newer := listOf(t, "2026-12-01T12:00:00Z", []entry{newEntry("c", false, "usable")}, nil)
	answers := [][]byte{first, []byte("<html>"), older, nil, newer}
	asked := 0
	server := httptest.NewServer(http.HandlerFunc(func(w http.ResponseWriter, r *http.Request) {
		answer := answers[asked]
		asked++
		if answer == nil {
			http.NotFound(w, r)
			return
		}
		if _, err := w.Write(answer); err != nil {
			t.Error(err)
		}
	}))
	defer server.Close()
	ctx, cancel := context.WithCancel(context.Background())
	defer cancel()
	source := loglist.Source{Place: server.URL + "/log_list.json",
		Client: logclient.Options{Clock: &pauses{maxWaits: len(answers), cancel: cancel}}}
	var seen []string
	var faults []error
	err := source.Follow(ctx, time.Hour, func(list loglist.List) { seen = append(seen, list.Logs[0].Name) },
		func(err error, _ time.Duration) { faults = append(faults, err) })
	if !errors.Is(err, context.Canceled) || strings.Join(seen, " ") != "a c" || len(faults) != 3 {
		t.Fatalf("%v: %v, %v", err, seen, faults)
	}
	for i, expected := range []error{loglist.ErrForm, loglist.ErrOlder, logclient.ErrNotFound} {
		if !errors.Is(faults[i], expected) {
			t.Errorf("%v, and %v is expected", faults[i], expected)
		}
	}
}

// Follow tries again after pauses that double up to three minutes, and after each failure it reports the pause. A
// server may ask for a longer pause, up to the one between two lists. After a list was read, the pause is the one that
// the caller gave, and the pauses after later failures begin with the shortest one.
func TestTriesAgainSoonAfterFailures(t *testing.T) {
	list := listOf(t, listTime, []entry{newEntry("a", false, "usable")}, nil)
	refusals := []string{"", "", "", "", "", "", "", "", "", "", "", "400", "172800"}
	asked := 0
	server := httptest.NewServer(http.HandlerFunc(func(w http.ResponseWriter, r *http.Request) {
		asked++
		switch {
		case asked <= len(refusals):
			if after := refusals[asked-1]; after != "" {
				w.Header().Set("Retry-After", after)
			}
			w.WriteHeader(http.StatusServiceUnavailable)
		case asked == len(refusals)+1:
			if _, err := w.Write(list); err != nil {
				t.Error(err)
			}
		default:
			http.NotFound(w, r)
		}
	}))
	defer server.Close()
	ctx, cancel := context.WithCancel(context.Background())
	defer cancel()
	var want []time.Duration
	for _, seconds := range []int{1, 2, 4, 8, 16, 32, 64, 128, 180, 180, 180, 400, 3600, 3600, 1, 2, 4} {
		want = append(want, time.Duration(seconds)*time.Second)
	}
	clock := &pauses{maxWaits: len(want), cancel: cancel}
	source := loglist.Source{Place: server.URL + "/log_list.json", Client: logclient.Options{Clock: clock}}
	var failures []time.Duration
	lists := 0
	err := source.Follow(ctx, time.Hour, func(loglist.List) { lists++ },
		func(_ error, next time.Duration) { failures = append(failures, next) })
	if !errors.Is(err, context.Canceled) || lists != 1 || !slices.Equal(clock.waits, want) {
		t.Errorf("%v: %d lists, with the pauses %v, and %v are expected", err, lists, clock.waits, want)
	}
	expected := slices.Delete(slices.Clone(want), len(refusals), len(refusals)+1)
	if !slices.Equal(failures, expected) {
		t.Errorf("Follow reports the pauses %v, and %v are expected", failures, expected)
	}
}
