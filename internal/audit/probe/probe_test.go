package probe_test

import (
	"context"
	"encoding/base64"
	"encoding/json"
	"encoding/pem"
	"net/http"
	"net/http/httptest"
	"os"
	"path/filepath"
	"slices"
	"strings"
	"testing"
	"time"

	"wagtenib/internal/audit/probe"
	"wagtenib/internal/logclient"
	"wagtenib/internal/testkit"
)

// probed holds a server, and the options of a probe of it.
type probed struct {
	*server
	options probe.Options
}

// newProbed returns a correct server, and the options of a probe that lasts ten minutes and submits a chain every two
// minutes.
func newProbed(t *testing.T) probed {
	t.Helper()
	ca := testkit.NewAuthority("Test Root")
	root, other := ca.Root.Raw, testkit.NewAuthority("Another Root").Root.Raw
	s := newServer(t, root, other)
	authority, err := probe.NewAuthority(ca.PEM(), ca.KeyPEM())
	if err != nil {
		t.Fatal(err)
	}
	expected, err := probe.ReadExpected(s.list())
	if err != nil {
		t.Fatal(err)
	}
	return probed{s, probe.Options{SubmissionURL: "https://log.example/2027h1/", Expected: &expected,
		Source: "a test", Submitter: authority,
		Roots: [][]byte{root, other}, Bounds: probe.Bounds{Availability: 0.99, Latency: time.Second},
		Schedule: probe.Schedule{For: 10 * time.Minute, Poll: 10 * time.Second, Submit: 2 * time.Minute,
			Slow: time.Minute},
		Client: logclient.Options{Transport: s, Clock: s.clock, UserAgent: "probe/test"}}}
}

func (p probed) run() probe.Report {
	p.t.Helper()
	report, err := probe.Run(context.Background(), p.options)
	if err != nil {
		p.t.Fatal(err)
	}
	return report
}

// TestPassesCorrectLog: a correct log passes each check, and each check is tried.
func TestPassesCorrectLog(t *testing.T) {
	t.Parallel()
	p := newProbed(t)
	report := p.run()
	for _, check := range report.Checks {
		if check.Verdict != probe.Passed || check.Tried < 1 || check.Failed != 0 || check.First.Before(p.began) ||
			check.Last.Before(check.First) {
			t.Errorf("%s: %s, tried %d times: %v", check.Name, check.Verdict, check.Tried, check.Faults)
		}
	}
	if !report.Passed || p.log.Size() != 5 || report.To.Sub(report.From) < 10*time.Minute {
		t.Errorf("passed %v with %d entries in %v", report.Passed, p.log.Size(), report.To.Sub(report.From))
	}
	calls := map[string]int{}
	for _, call := range report.Calls {
		calls[call.Name] = call.Requests
		if call.Failed != 0 || call.Median != 5 || call.P99 != 5 || call.Longest != 5 {
			t.Errorf("%s: %+v, and each answer takes 5 ms", call.Name, call)
		}
	}
	// Three certificates and two precertificates are submitted, each of them twice.
	for name, want := range map[string]int{"add-chain": 6, "add-pre-chain": 4, "get-roots": p.count["/ct/v1/get-roots"],
		"checkpoint": p.count["/checkpoint"], "get-sth": p.count["/ct/v1/get-sth"], "get-proof-by-hash": 5,
		"get-entries": 5} {
		if calls[name] != want || want == 0 {
			t.Errorf("%s: %d requests, and %d are expected", name, calls[name], want)
		}
	}
}

// TestSkipsChecksWithoutOptions: without a submitter, roots and the entry of a list, the checks that need them are not
// asked for, and the log passes.
func TestSkipsChecksWithoutOptions(t *testing.T) {
	t.Parallel()
	p := newProbed(t)
	p.options.Submitter, p.options.Roots, p.options.Expected = nil, nil, nil
	report := p.run()
	var unasked []string
	for _, check := range report.Checks {
		if check.Verdict == probe.NotAsked {
			unasked = append(unasked, check.Name)
		}
	}
	want := []string{probe.CheckSubmission, probe.CheckSCTSignature, probe.CheckSCTTimestamp, probe.CheckSCTIndex,
		probe.CheckSCTRepeat,
		probe.CheckMergeDelay, probe.CheckInclusionByTiles, probe.CheckInclusionByHash, probe.CheckDataTile,
		probe.CheckGetEntries,
		probe.CheckIssuers, probe.CheckRoots, probe.CheckListedMergeDelay, probe.CheckListedInterval,
		probe.CheckListedURL}
	if !report.Passed || !sameNames(unasked, want) || !strings.Contains(report.Text(),
		"the log itself (/log.v3.json)") {
		t.Errorf("passed %v; %v are not asked for, and %v are expected: %s", report.Passed, unasked, want,
			report.Text())
	}
}

// TestFailsSilentLog: a log that answers nothing fails, because its checks are missing.
func TestFailsSilentLog(t *testing.T) {
	t.Parallel()
	p := newProbed(t)
	p.planted.before = func(_ *server, w http.ResponseWriter, _ *http.Request) bool {
		w.WriteHeader(http.StatusInternalServerError)
		return true
	}
	report := p.run()
	for _, check := range report.Checks {
		want := probe.Missing
		switch check.Name {
		case probe.CheckWholeTime:
			want = probe.Passed
		case probe.CheckAvailability:
			want = probe.Failed
		}
		if check.Verdict != want {
			t.Errorf("%s: %s, and %s is expected", check.Name, check.Verdict, want)
		}
	}
	if report.Passed {
		t.Error("it passed")
	}
}

// TestFailsIfEndedEarly: a probe that is ended before its time does not pass.
func TestFailsIfEndedEarly(t *testing.T) {
	t.Parallel()
	p := newProbed(t)
	ctx, cancel := context.WithCancel(context.Background())
	p.planted.after = func(s *server, _ *http.Request, _ *httptest.ResponseRecorder) {
		if s.clock.Now().Sub(s.began) > 9*time.Minute {
			cancel()
		}
	}
	report, err := probe.Run(ctx, p.options)
	if failed := report.FailedChecks(); err != nil || report.Passed || !slices.Equal(failed,
		[]string{probe.CheckWholeTime}) {
		t.Errorf("%v: %v failed: %s", err, failed, report.Text())
	}
}

// TestReportInJSON: the JSON of a report has the verdicts and the numbers, with the evidence in base64.
func TestReportInJSON(t *testing.T) {
	t.Parallel()
	p := newProbed(t)
	p.roots = p.roots[:1]
	content, err := p.run().JSON()
	if err != nil {
		t.Fatal(err)
	}
	var read struct {
		Passed bool `json:"passed"`
		Log    struct {
			ID     string  `json:"log_id"`
			Origin string  `json:"origin"`
			Delay  float64 `json:"mmd"`
		} `json:"log"`
		Checks []struct {
			Name    string `json:"name"`
			Asked   string `json:"asked"`
			Verdict string `json:"verdict"`
			First   string `json:"first"`
			Faults  []struct {
				Time     string            `json:"time"`
				Text     string            `json:"text"`
				Evidence map[string]string `json:"evidence"`
			} `json:"faults"`
		} `json:"checks"`
		Calls []struct {
			Name     string `json:"name"`
			Requests int    `json:"requests"`
		} `json:"calls"`
	}
	if err := json.Unmarshal(content, &read); err != nil {
		t.Fatal(err)
	}
	if read.Passed || read.Log.Origin != "log.example/2027h1" || read.Log.Delay != 60 ||
		read.Log.ID != base64.StdEncoding.EncodeToString(p.id()) ||
		len(read.Checks) < 30 || len(read.Calls) < 10 {
		t.Errorf("%.2000s", content)
	}
	for _, check := range read.Checks {
		if check.Name == probe.CheckRoots && (check.Verdict != "FAILED" || check.Asked == "" ||
			len(check.Faults) == 0 || check.Faults[0].Evidence["root"] !=
			base64.StdEncoding.EncodeToString(p.options.Roots[1])) {
			t.Errorf("roots: %+v", check)
		}
	}
}

// TestSubmitsFolderOfChains: the chains of a folder are submitted in turn. A chain that the log already has gets its
// old SCT.
func TestSubmitsFolderOfChains(t *testing.T) {
	t.Parallel()
	p := newProbed(t)
	folder := t.TempDir()
	for i, name := range []string{"certificate.pem", "precertificate.pem"} {
		made, err := p.options.Submitter.Next(p.began, time.Time{}, time.Time{})
		if err != nil || made.Call != []string{"add-chain", "add-pre-chain"}[i] {
			t.Fatalf("%s: %s, %v", name, made.Call, err)
		}
		var text []byte
		for _, der := range made.Chain {
			text = append(text, pem.EncodeToMemory(&pem.Block{Type: "CERTIFICATE", Bytes: der})...)
		}
		if err := os.WriteFile(filepath.Join(folder, name), text, 0o600); err != nil {
			t.Fatal(err)
		}
	}
	chains, err := probe.NewFolder(folder)
	if err != nil {
		t.Fatal(err)
	}
	p.options.Submitter = chains
	if report := p.run(); !report.Passed || p.log.Size() != 2 || p.count["/ct/v1/add-pre-chain"] != 4 {
		t.Errorf("%d entries after %d precertificates: %s", p.log.Size(), p.count["/ct/v1/add-pre-chain"],
			report.Text())
	}
}
