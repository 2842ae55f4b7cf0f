package main

import (
	"bytes"
	"context"
	"encoding/base64"
	"encoding/json"
	"io"
	"net/http"
	"net/http/httptest"
	"os"
	"path/filepath"
	"strings"
	"sync/atomic"
	"testing"
	"time"

	"golang.org/x/net/html"

	"wagtenib/bindings/go/wagtenib"
	"wagtenib/internal/testkit"
	"wagtenib/internal/watch"
	"wagtenib/internal/watch/alert"
	"wagtenib/internal/watch/logflags"
	"wagtenib/internal/watch/namesearch"
	"wagtenib/internal/watch/watchstore"
)

// TestMain runs the tests, or is the program itself.
func TestMain(m *testing.M) { testkit.Main(m, main) }

// TestRefusesSettings: a wrong setting is refused with status 2 before a file is created. The message names the remedy.
func TestRefusesSettings(t *testing.T) {
	folder := filepath.Join(t.TempDir(), "store")
	issued := testkit.NewAuthority("Test CA 1").Issue("a.example").Certificate
	key := base64.StdEncoding.EncodeToString(issued.RawSubjectPublicKeyInfo)
	for arguments, remedy := range map[string]string{
		"":                               "write --name example.org",
		"--name *.example.org":           "write example.org",
		"--name https://a.example":       "write its host: a.example",
		"--name a.example --pause 1ms":   "at least 1s",
		"--name a.example --unread some": "none of all, mentioned and none",
		"--name a.example --log-list-key /absent":          "no such file",
		"--name a.example --mail owner":                    "write NAME@HOST",
		"--name a.example --webhook a.b":                   "write https://HOST/PATH",
		"--name a.example --command /absent":               "write the path of a program",
		"--name a.example --expect-key abc":                "64 hexadecimal digits",
		"--name a.example --names /absent":                 "no such file",
		"--name a.example --config /absent":                "no such file",
		"--name a.example --json /absent/a":                "no such file",
		"--name a.example other":                           `"other" is not expected`,
		"--name a.example --silent-after 1s":               "at least 1m",
		"--name a.example --renewals 7d":                   "write --name =www.example.org",
		"--name =a.example --renewals 59m":                 "no time from 1h to 365d",
		"--name =a.example --renewals 999999999999d":       "no time from 1h to 365d",
		"--name =a.example --renewals 1h2d":                "no time from 1h to 365d",
		"--name a.example --log=https://a.b":               "write [tiled+]https://HOST/PATH KEY-FILE",
		"--name a.example --contact a\x01b":                "printable ASCII",
		"--name a.example --no-such-setting":               "there is no flag --no-such-setting (see --help)",
		"--name a.example --expect-issuer= ":               "it is empty",
		"--name a.example --certspotter-watchlist /absent": "no such file",
	} {
		status, out, faults := ctwatch(t, append([]string{"run", "--folder", folder}, strings.Fields(arguments)...)...)
		if status != statusUsage || out != "" || !strings.Contains(faults, remedy) {
			t.Errorf("%q: status %d, %q, and not %q", arguments, status, faults, remedy)
		}
	}
	for log, remedy := range map[string]string{
		"ftp://a.example " + key:               "not a log's address",
		"https://a.example /absent":            "write a PEM file",
		"https://a.example " + key + " origin": "write tiled+",
	} {
		status, _, faults := ctwatch(t, "run", "--folder", folder, "--name", "a.example", "--log", log)
		if status != statusUsage || !strings.Contains(faults, remedy) {
			t.Errorf("%q: status %d, %q, and not %q", log, status, faults, remedy)
		}
	}
	if status, _, faults := ctwatch(t, "run", "--folder", folder, "--keep", filepath.Join(folder, "mirror"), "--log",
		"https://a.example "+key); status != statusUsage || !strings.Contains(faults, "--keep mirrors tiled logs") ||
		!strings.Contains(faults, "write tiled+https://") {
		t.Errorf("a mirror of a log without tiles: status %d, %q", status, faults)
	}
	if _, err := os.Stat(folder); !os.IsNotExist(err) {
		t.Errorf("a run that is refused has created its folder: %v", err)
	}
}

// TestReadsAConfigFile: one line is enough, and an error names the number of a wrong line.
func TestReadsAConfigFile(t *testing.T) {
	path := filepath.Join(t.TempDir(), "settings")
	must(t, os.WriteFile(path, []byte("name example.org # mine\n"), 0o600))
	s, err := parse([]string{"--config", path}, nil)
	if err != nil || len(s.names) != 1 || s.logs.List != logflags.DefaultList || s.serve.listen != "127.0.0.1:8650" {
		t.Errorf("%+v %v", s, err)
	}
	must(t, os.WriteFile(path, []byte("name example.org\nname *.example.net\n"), 0o600))
	status, _, faults := ctwatch(t, "run", "--config", path)
	if status != statusUsage || !strings.Contains(faults, "line 2") || !strings.Contains(faults, "write example.net") {
		t.Errorf("status %d: %s", status, faults)
	}
}

// TestSaysWhatToWriteInTheFile: a setting without its value, and a duration in words, are refused. The message says
// what to write.
func TestSaysWhatToWriteInTheFile(t *testing.T) {
	path := filepath.Join(t.TempDir(), "settings")
	for line, remedy := range map[string]string{"from-start": "write from-start true",
		"from-start yes": "write from-start true", "pause 2 seconds": "a duration such as 2s",
		"silent-after": "a duration such as 2s"} {
		must(t, os.WriteFile(path, []byte("name example.org\n"+line+"\n"), 0o600))
		status, _, faults := ctwatch(t, "run", "--config", path)
		if status != statusUsage || !strings.Contains(faults, "line 2") || !strings.Contains(faults, remedy) {
			t.Errorf("%s: status %d: %s", line, status, faults)
		}
	}
}

// TestSaysWhatToWriteInTheCommandLine: all commands refuse a duration in words. The message has the flag, the value and
// what to write.
func TestSaysWhatToWriteInTheCommandLine(t *testing.T) {
	for _, arguments := range [][]string{{"run", "--name", "example.org", "--pause", "2 seconds"},
		{"health", "--silent-after", "2 seconds"}} {
		status, _, faults := ctwatch(t, arguments...)
		expected := arguments[len(arguments)-2] + `: "2 seconds" is not a duration (write a duration such as 2s, 5m or 24h)`
		if status != statusUsage || !strings.Contains(faults, expected) {
			t.Errorf("%s: status %d: %s, and %s is expected", arguments[0], status, faults, expected)
		}
	}
}

// TestChecksWatchLists: the command names prints what each name covers. In a list of certspotter, a name without a dot
// in front is exact.
func TestChecksWatchLists(t *testing.T) {
	path := filepath.Join(t.TempDir(), "watchlist")
	must(t, os.WriteFile(path, []byte("example.org\n.example.net\n"), 0o600))
	below, exact := "this name, all names below it, and wildcards for them", "this name, and wildcards for it"
	for arguments, want := range map[string]string{
		path:                    "example.org\t" + below + "\nexample.net\t" + below + "\n",
		path + " --certspotter": "=example.org\t" + exact + "\nexample.net\t" + below + "\n",
		"--certspotter " + path: "=example.org\t" + exact + "\nexample.net\t" + below + "\n",
	} {
		if status, out, faults := ctwatch(t, append([]string{"names"}, strings.Fields(arguments)...)...); status != 0 ||
			out != want {
			t.Errorf("%s: status %d: %q %s", arguments, status, out, faults)
		}
	}
	must(t, os.WriteFile(path, []byte("example.org\n*.example.net\n"), 0o600))
	if status, _, faults := ctwatch(t, "names", path); status != statusUsage || !strings.Contains(faults, "line 2") {
		t.Errorf("status %d: %s", status, faults)
	}
}

// TestSaysHowToGetAStore: each command that reads the store says how to get one if there is none.
func TestSaysHowToGetAStore(t *testing.T) {
	folder := t.TempDir()
	for _, arguments := range []string{"query example.org", "certificate " + strings.Repeat("0", 64), "evidence 1 " +
		folder + "/x", "health"} {
		status, _, faults := ctwatch(t, append(strings.Fields(arguments), "--folder", folder)...)
		if status != statusFault || !strings.Contains(faults, "start ctwatch run first") {
			t.Errorf("%s: status %d: %s", arguments, status, faults)
		}
	}
	for _, arguments := range []string{"query", "query a.example b.example", "query *.example.org", "health more",
		"no-such-command", "audit chain.pem", "compare PLACE", "cosign URL,KEY"} {
		if status, _, faults := ctwatch(t, strings.Fields(arguments)...); status != statusUsage || faults == "" {
			t.Errorf("%s: status %d: %s", arguments, status, faults)
		}
	}
	for _, arguments := range []string{"help", "run --help", "query --help", "--version"} {
		if status, out, faults := ctwatch(t, strings.Fields(arguments)...); status != 0 || out == "" || faults != "" {
			t.Errorf("%s: status %d: %q %s", arguments, status, out, faults)
		}
	}
}

// stored returns a store with a certificate that has these hosts and hostile texts.
func stored(t *testing.T, hosts ...string) *watchstore.Store {
	t.Helper()
	name, err := namesearch.ParseName("example.org")
	must(t, err)
	store, err := watchstore.Open(t.TempDir(), watchstore.Options{Searcher: namesearch.NewSearcher([]namesearch.Name{name})})
	must(t, err)
	t.Cleanup(func() { must(t, store.Close()) })
	must(t, store.UseOutputs([]string{"<b>output</b>"}))
	one := testkit.NewAuthority("Test CA 1").Issue(append(hosts, "shop.example.org")...)
	log := watch.Log{ID: watch.LogID{1}, Name: "<i>log</i>\xff", URL: "javascript:alert(1)"}
	must(t, store.Keep(log, watch.State{}, []watch.Entry{{Index: 3, Timestamp: 1_770_000_000_000,
		Type: wagtenib.X509Entry, Certificate: one.Certificate.Raw}}))
	store.Report(watch.Status{Log: log, Answered: time.Now()})
	return store
}

// ask requests a path of the page.
func ask(store *watchstore.Store, path string) *httptest.ResponseRecorder {
	answer := httptest.NewRecorder()
	pageHandler(store, &listStatus{}, nil).ServeHTTP(answer, httptest.NewRequest(http.MethodGet, path, nil))
	return answer
}

// TestPageIsSafe: whatever the names of a certificate and a log are, the page has no script, no event handler, no
// address of another host, and no element that the template does not have.
func TestPageIsSafe(t *testing.T) {
	store := stored(t, "<script>alert(1)</script>.example", `"><img src=x onerror=alert(1)>`,
		"<svg/onload=alert(1)>", "{{.}}", "\x00\x1b[2J")
	for _, path := range []string{"/", "/?name=example.org&valid=1", "/?name=%3Cscript%3E", "/?name=%22%3E%3Cb%3E",
		"/logs", "/alerts"} {
		answer := ask(store, path)
		if policy := answer.Header().Get("Content-Security-Policy"); !strings.Contains(policy, "default-src 'none'") {
			t.Errorf("%s: policy %q", path, policy)
		}
		tokens := html.NewTokenizer(answer.Body)
		for tokens.Next() != html.ErrorToken {
			checkToken(t, path, tokens.Token())
		}
	}
	if body := ask(store, "/?name=example.org").Body.String(); !strings.Contains(body, "shop.example.org") ||
		!strings.Contains(body, "&lt;script&gt;") {
		t.Errorf("the search finds nothing: %s", body)
	}
	if body := ask(store, "/?name=absent.example").Body.String(); strings.Contains(body, "shop.example.org") ||
		!strings.Contains(body, "No certificate was found") {
		t.Errorf("the search finds another name: %s", body)
	}
	if answer := ask(store, "/?name=*.example.org"); answer.Code != http.StatusBadRequest ||
		!strings.Contains(answer.Body.String(), "write example.org") {
		t.Errorf("%d %s", answer.Code, answer.Body)
	}
	if answer := ask(store, "/certificate/x"); answer.Code != http.StatusNotFound {
		t.Errorf("%d %s", answer.Code, answer.Body)
	}
}

func checkToken(t *testing.T, path string, token html.Token) {
	t.Helper()
	switch token.Data {
	case "script", "img", "svg", "i", "b", "iframe", "object":
		if token.Type != html.TextToken {
			t.Errorf("%s has the element %s", path, token)
		}
	}
	for _, attribute := range token.Attr {
		isAddress := attribute.Key == "href" || attribute.Key == "src" || attribute.Key == "action"
		if strings.HasPrefix(attribute.Key, "on") || isAddress && !strings.HasPrefix(attribute.Val, "/") {
			t.Errorf("%s has the attribute %s=%q", path, attribute.Key, attribute.Val)
		}
	}
}

// TestServesMetricsAndHealth: /metrics has the numbers of the store, and /healthz one line.
func TestServesMetricsAndHealth(t *testing.T) {
	store := stored(t)
	metrics := ask(store, "/metrics")
	for _, line := range []string{"ctwatch_certificates 1", "ctwatch_alerts 1", "ctwatch_unread_certificates 0",
		`ctwatch_alerts_waiting{output="<b>output</b>"} 1`, `ctwatch_log_failing{id="01000000`} {
		if metrics.Code != http.StatusOK || !strings.Contains(metrics.Body.String(), line) {
			t.Errorf("%d: there is no %s in %s", metrics.Code, line, metrics.Body)
		}
	}
	if health := ask(store, "/healthz"); health.Code != http.StatusOK ||
		health.Body.String() != "1 log; all are read, and all alerts are sent\n" {
		t.Errorf("%d %s", health.Code, health.Body)
	}
	must(t, store.Failed("<b>output</b>", 1, context.DeadlineExceeded))
	if health := ask(store, "/healthz"); health.Code != http.StatusServiceUnavailable ||
		!strings.Contains(health.Body.String(), "1 alert NOT SENT") {
		t.Errorf("%d %s", health.Code, health.Body)
	}
}

// TestWritesEvidence: the files of evidence are written to a new folder, and never outside it.
func TestWritesEvidence(t *testing.T) {
	folder := t.TempDir()
	store, err := watchstore.Open(folder, watchstore.Options{})
	must(t, err)
	log := watch.Log{ID: watch.LogID{1}, Name: "a log"}
	must(t, store.Accuse(log, watch.State{}, watch.Evidence{Verdict: "forked", Text: "two roots",
		Files: map[string][]byte{"first": []byte("1"), "proofs/second": []byte("2")}}))
	must(t, store.Accuse(log, watch.State{}, watch.Evidence{Verdict: "forked", Text: "out",
		Files: map[string][]byte{"../out": []byte("3")}}))
	must(t, store.Close())
	to := filepath.Join(t.TempDir(), "evidence")
	status, out, faults := ctwatch(t, "evidence", "1", to, "--folder", folder)
	for name, want := range map[string]string{"first": "1", "proofs/second": "2"} {
		if content, err := os.ReadFile(filepath.Join(to, name)); err != nil || string(content) != want {
			t.Errorf("%s: %q %v (%d %s%s)", name, content, err, status, out, faults)
		}
	}
	if status, _, faults := ctwatch(t, "evidence", "1", to, "--folder", folder); status != statusUsage ||
		!strings.Contains(faults, "name a new folder") {
		t.Errorf("a second time: %d %s", status, faults)
	}
	if status, _, _ := ctwatch(t, "evidence", "2", to+"2", "--folder", folder); status == 0 {
		t.Error("a file was written outside the folder")
	}
	if _, err := os.Stat(filepath.Join(filepath.Dir(to), "out")); err == nil {
		t.Error("a file is outside the folder")
	}
	status, out, _ = ctwatch(t, "health", "--folder", folder)
	if status != statusAccused || !strings.Contains(out, "1 EVIDENCE against logs") || !strings.Contains(out,
		"LOG a log: forked: out;") || strings.Contains(out, "two roots") {
		t.Errorf("%d %s", status, out)
	}
}

// TestRunsUntilASignal: run follows a log, sends an alert as JSON soon after the log has a new certificate, and ends
// with status 0.
func TestRunsUntilASignal(t *testing.T) {
	authority := testkit.NewAuthority("Test CA 1")
	log := serveLog(t, "a.example")
	log.add(authority, authority.Issue("other.net"))
	folder := t.TempDir()
	ctx, stop := context.WithCancel(context.Background())
	var faults bytes.Buffer
	ended := make(chan int, 1)
	alerts := filepath.Join(folder, "alerts")
	arguments := []string{"run", "--name", "example.org", "--folder", folder, "--log", log.setting(true), "--pause",
		"1s", "--listen", "127.0.0.1:0", "--json", alerts}
	go func() { ended <- program().Run(ctx, arguments, &faults, &faults) }()
	testkit.Eventually(t, "the log is read to its end", func() bool {
		status, out, _ := ctwatch(t, "health", "--folder", folder)
		return status == 0 && strings.HasPrefix(out, "1 log;")
	})
	log.add(authority, authority.Issue("shop.example.org"))
	var one alert.Alert
	testkit.Eventually(t, "the alert is sent", func() bool {
		content, err := os.ReadFile(alerts)
		return err == nil && json.Unmarshal(content, &one) == nil
	})
	if one.Certificate.Matches[0].Hosts[0] != "shop.example.org" || one.Certificate.Matches[0].Name != "example.org" {
		t.Errorf("%+v", one.Certificate)
	}
	stop()
	if status := <-ended; status != 0 {
		t.Errorf("status %d: %s", status, faults.String())
	}
}

// TestSendsAtTheEnd: a run ends while a webhook has not answered. The alert is then sent again, with Again set.
func TestSendsAtTheEnd(t *testing.T) {
	authority, posted := testkit.NewAuthority("Test CA 1"), make(chan alert.Alert, 10)
	var hung atomic.Bool
	hook := httptest.NewServer(http.HandlerFunc(func(_ http.ResponseWriter, r *http.Request) {
		var one alert.Alert
		if err := json.NewDecoder(r.Body).Decode(&one); err != nil {
			t.Error(err)
		}
		posted <- one
		if hung.CompareAndSwap(false, true) {
			<-r.Context().Done()
		}
	}))
	defer hook.Close()
	log := serveLog(t, "a.example")
	log.add(authority, authority.Issue("shop.example.org"))
	ctx, stop := context.WithCancel(context.Background())
	ended := make(chan int, 1)
	arguments := []string{"run", "--from-start", "--name", "example.org", "--folder", t.TempDir(), "--log",
		log.setting(true), "--listen=", "--webhook", hook.URL}
	go func() { ended <- program().Run(ctx, arguments, io.Discard, io.Discard) }()
	if first := <-posted; first.Again {
		t.Errorf("Again is set in the first alert: %+v", first)
	}
	stop()
	if status := <-ended; status != 0 {
		t.Errorf("status %d", status)
	}
	if len(posted) != 1 {
		t.Fatalf("%d alerts were sent at the end", len(posted))
	}
	if second := <-posted; !second.Again || second.ID != 1 {
		t.Errorf("the alert at the end is %+v", second)
	}
}

// TestHealthReportsAFailedOutput: the status of ctwatch health is 1 if alerts could not be sent, and 0 after they were.
func TestHealthReportsAFailedOutput(t *testing.T) {
	folder := t.TempDir()
	store, err := watchstore.Open(folder, watchstore.Options{})
	must(t, err)
	must(t, store.UseOutputs([]string{"mail a@b.c", "json x"}))
	must(t, store.AlertList("it answers 503"))
	store.Report(watch.Status{Log: watch.Log{ID: watch.LogID{1}, Name: "a log"}, Answered: time.Now()})
	must(t, store.Failed("mail a@b.c", 1, context.DeadlineExceeded))
	status, out, _ := ctwatch(t, "health", "--folder", folder)
	if status != statusFault || out != "1 log; 1 alert NOT SENT: mail a@b.c\n" {
		t.Errorf("status %d: %s", status, out)
	}
	must(t, store.Done("mail a@b.c", 1))
	if status, out, _ = ctwatch(t, "health", "--folder", folder); status != 0 {
		t.Errorf("status %d: %s", status, out)
	}
	must(t, store.Close())
}
