package probe

import (
	"encoding/json"
	"fmt"
	"slices"
	"strings"
	"sync"
	"time"
)

// The names of the checks.
const (
	CheckWholeTime           = "whole-time"
	CheckSubmission          = "submission"
	CheckSCTSignature        = "sct-signature"
	CheckSCTTimestamp        = "sct-timestamp"
	CheckSCTIndex            = "sct-leaf-index"
	CheckSCTRepeat           = "sct-repeat"
	CheckMergeDelay          = "merge-delay"
	CheckInclusionByTiles    = "inclusion-by-tiles"
	CheckInclusionByHash     = "inclusion-by-hash"
	CheckDataTile            = "data-tile"
	CheckGetEntries          = "get-entries"
	CheckIssuers             = "issuers"
	CheckCheckpointSignature = "checkpoint-signature"
	CheckCheckpointFresh     = "checkpoint-fresh"
	CheckCheckpointForward   = "checkpoint-forward"
	CheckSTHSignature        = "sth-signature"
	CheckSTHFresh            = "sth-fresh"
	CheckSTHForward          = "sth-forward"
	CheckConsistencyByTiles  = "consistency-by-tiles"
	CheckConsistencyByCalls  = "consistency-by-calls"
	CheckRoots               = "roots"
	CheckListed              = "listed"
	CheckListedOrigin        = "listed-origin"
	CheckListedLogID         = "listed-log-id"
	CheckListedMergeDelay    = "listed-mmd"
	CheckListedInterval      = "listed-interval"
	CheckListedURL           = "listed-monitoring-url"
	CheckCacheHeaders        = "cache-headers"
	CheckCORS                = "cors"
	CheckContentType         = "content-type"
	CheckAvailability        = "availability"
	CheckLatency             = "latency"
)

// requirements holds the name and the requirement of each check, in the order of a report.
var requirements = []struct{ name, text string }{
	{CheckWholeTime, "the probe looks at the log for the whole time that was asked for"},
	{CheckSubmission, "add-chain and add-pre-chain answer each chain with an SCT (RFC 6962, sections 4.1 and 4.2)"},
	{CheckSCTSignature, "each SCT has the log's ID, and is signed with the log's key over what was submitted (RFC " +
		"6962, section 3.2)"},
	{CheckSCTTimestamp, "each SCT's timestamp is the time at which the chain was submitted"},
	{CheckSCTIndex, "each SCT names the index of its entry in the extension leaf_index (C2SP static-ct-api)"},
	{CheckSCTRepeat, "a chain that is submitted again gets the same timestamp and index"},
	{CheckMergeDelay, "each SCT's entry is in the tree of each head that is later than the SCT by the maximum " +
		"merge delay"},
	{CheckInclusionByTiles, "the hash tiles have the path from each SCT's entry to the root of a signed checkpoint"},
	{CheckInclusionByHash, "get-proof-by-hash has the path from each SCT's entry to the root of a signed STH, at " +
		"the same index"},
	{CheckDataTile, "the data tile has each SCT's entry at its index"},
	{CheckGetEntries, "get-entries has each SCT's entry at its index"},
	{CheckIssuers, "the entry names the issuers that were submitted, and issuer/ has each of them"},
	{CheckCheckpointSignature, "each checkpoint is signed with the log's key, under the log's origin"},
	{CheckCheckpointFresh, "each checkpoint is no older than the maximum merge delay, and not of the future"},
	{CheckCheckpointForward, "no checkpoint has a smaller tree or an earlier timestamp than one before it"},
	{CheckSTHSignature, "each answer to get-sth is signed with the log's key"},
	{CheckSTHFresh, "each answer to get-sth is no older than the maximum merge delay, and not of the future"},
	{CheckSTHForward, "no answer to get-sth has a smaller tree or an earlier timestamp than one before it"},
	{CheckConsistencyByTiles, "the hash tiles prove that all heads of both endpoints are of one history"},
	{CheckConsistencyByCalls, "get-sth-consistency proves that all heads of both endpoints are of one history"},
	{CheckRoots, "get-roots has each expected root"},
	{CheckListed, "/log.v3.json is an entry of a log list of version 3"},
	{CheckListedOrigin, "/log.v3.json has the submission prefix that the checkpoint's origin follows from (C2SP " +
		"static-ct-api)"},
	{CheckListedLogID, "/log.v3.json has the log's key and its hash as the log ID"},
	{CheckListedMergeDelay, "/log.v3.json has the maximum merge delay that is expected"},
	{CheckListedInterval, "/log.v3.json has the temporal interval that is expected"},
	{CheckListedURL, "/log.v3.json has the monitoring prefix that is expected"},
	{CheckCacheHeaders, "full tiles and issuers may be cached for a day or longer, heads no longer than the merge " +
		"delay, and each other answer says how long"},
	{CheckCORS, "web pages of other origins may read each answer (Access-Control-Allow-Origin)"},
	{CheckContentType, "each answer has the media type that its specification names"},
	{CheckAvailability, "the share of answered requests of each call is at least the required one"},
	{CheckLatency, "99 of 100 answers to each call come within the required time"},
}

// Verdict is the outcome of a check.
type Verdict string

// The verdicts. A check is NotAsked, and does not count, if the options do not have what it needs. A check that was
// asked for and never tried is Missing. It counts as failed, because its outcome is unknown.
const (
	Passed   Verdict = "passed"
	Failed   Verdict = "FAILED"
	Missing  Verdict = "MISSING"
	NotAsked Verdict = "not asked"
)

// maxFaults is the maximum number of faults of one check in a report.
const maxFaults = 20

// Fault describes a breach, and the time when it was seen.
type Fault struct {
	Time     time.Time         `json:"time"`
	Text     string            `json:"text"`
	Evidence map[string][]byte `json:"evidence,omitempty"` // signed heads, an SCT, a chain; base64 in JSON
}

// Check holds a requirement of the log, and what was seen.
type Check struct {
	Name    string    `json:"name"`
	Asked   string    `json:"asked"`
	Verdict Verdict   `json:"verdict"`
	Tried   int       `json:"tried"`
	Failed  int       `json:"failed"`
	Seen    string    `json:"seen,omitempty"` // the last time that it passed, as text
	First   time.Time `json:"first"`          // when the check was first and last tried
	Last    time.Time `json:"last"`
	Faults  []Fault   `json:"faults,omitempty"` // the first ones
}

// Call holds the numbers of the answers to one kind of request. The times are in milliseconds.
type Call struct {
	Name     string  `json:"name"`
	Requests int     `json:"requests"`
	Failed   int     `json:"failed"` // no answer, an incomplete one, or status 429, 500 or above
	Median   float64 `json:"median_ms"`
	P95      float64 `json:"p95_ms"`
	P99      float64 `json:"p99_ms"`
	Longest  float64 `json:"longest_ms"`
	// Failures counts the failures by their kind, for example "status 503".
	Failures    map[string]int `json:"failures,omitempty"`
	LastFailure string         `json:"last_failure,omitempty"` // the time and reason of the last failure
}

// Report holds the outcome of a probe of a log.
type Report struct {
	Program       string    `json:"program"`
	SubmissionURL string    `json:"submission_url"`
	MonitoringURL string    `json:"monitoring_url"`
	Log           Identity  `json:"log"`
	From          time.Time `json:"from"`
	To            time.Time `json:"to"`
	Passed        bool      `json:"passed"`
	Checks        []Check   `json:"checks"`
	Calls         []Call    `json:"calls"`
}

// Identity names the probed log, and the source of its key and maximum merge delay.
type Identity struct {
	Origin        string  `json:"origin"`
	LogID         []byte  `json:"log_id"`
	Key           []byte  `json:"key"`
	MaxMergeDelay float64 `json:"mmd"` // seconds
	Source        string  `json:"source"`
}

// FailedChecks returns the names of the checks that failed or are missing, in the order of the report.
func (r Report) FailedChecks() (names []string) {
	for _, check := range r.Checks {
		if check.Verdict == Failed || check.Verdict == Missing {
			names = append(names, check.Name)
		}
	}
	return names
}

// JSON returns the report in JSON.
func (r Report) JSON() ([]byte, error) {
	content, err := json.MarshalIndent(r, "", "  ")
	return append(content, '\n'), err
}

// Text returns the report as text for people.
func (r Report) Text() string {
	var text strings.Builder
	verdict := "passed"
	if !r.Passed {
		verdict = "FAILED: " + strings.Join(r.FailedChecks(), ", ")
	}
	stamp := func(at time.Time) string { return at.UTC().Format("2006-01-02 15:04:05") }
	fmt.Fprintf(&text, "%s: %s\n\n", r.Log.Origin, verdict)
	fmt.Fprintf(&text, "submission prefix    %s\nmonitoring prefix    %s\n", r.SubmissionURL, r.MonitoringURL)
	fmt.Fprintf(&text, "log ID               %x\nmaximum merge delay  %v s\n", r.Log.LogID, r.Log.MaxMergeDelay)
	fmt.Fprintf(&text, "both are from        %s\n", r.Log.Source)
	fmt.Fprintf(&text, "looked at            from %s to %s UTC, by %s\n\n", stamp(r.From), stamp(r.To), r.Program)
	for _, check := range r.Checks {
		fmt.Fprintf(&text, "%-10s %-22s %s\n", check.Verdict, check.Name, check.Asked)
		if check.Tried > 0 {
			fmt.Fprintf(&text, "%33s tried %d times, failed %d, from %s to %s\n", "", check.Tried, check.Failed,
				stamp(check.First),
				stamp(check.Last))
		}
		if check.Seen != "" {
			fmt.Fprintf(&text, "%33s last seen right: %s\n", "", check.Seen)
		}
		for _, fault := range check.Faults {
			fmt.Fprintf(&text, "%33s %s %s\n", "", stamp(fault.Time), fault.Text)
		}
	}
	fmt.Fprintf(&text, "\n%-20s %9s %7s %9s %9s %9s %9s\n", "milliseconds", "requests", "failed", "median", "95 %",
		"99 %", "longest")
	for _, call := range r.Calls {
		fmt.Fprintf(&text, "%-20s %9d %7d %9.1f %9.1f %9.1f %9.1f", call.Name, call.Requests, call.Failed, call.Median,
			call.P95, call.P99,
			call.Longest)
		var reasons []string
		for reason := range call.Failures {
			reasons = append(reasons, reason)
		}
		slices.Sort(reasons)
		for _, reason := range reasons {
			fmt.Fprintf(&text, "  %d times %s", call.Failures[reason], reason)
		}
		if call.LastFailure != "" {
			fmt.Fprintf(&text, "; the last one at %s", call.LastFailure)
		}
		fmt.Fprintln(&text)
	}
	return text.String()
}

// recorder collects the outcomes of each check.
type recorder struct {
	now    func() time.Time
	mutex  sync.Mutex
	checks map[string]*Check
	unused map[string]bool // the checks that are not asked for
	notify func(name string, fault Fault)
}

func newRecorder(now func() time.Time, notify func(string, Fault)) *recorder {
	r := &recorder{now: now, checks: map[string]*Check{}, unused: map[string]bool{}, notify: notify}
	for _, one := range requirements {
		r.checks[one.name] = &Check{Name: one.name, Asked: one.text}
	}
	return r
}

func (r *recorder) tried(name string) *Check {
	check := r.checks[name]
	check.Last = r.now()
	if check.Tried++; check.Tried == 1 {
		check.First = check.Last
	}
	return check
}

// pass records that a check passed once.
func (r *recorder) pass(name, format string, values ...any) {
	r.mutex.Lock()
	defer r.mutex.Unlock()
	r.tried(name).Seen = fmt.Sprintf(format, values...)
}

// fail records that a check failed once.
func (r *recorder) fail(name string, evidence map[string][]byte, format string, values ...any) {
	r.mutex.Lock()
	defer r.mutex.Unlock()
	check := r.tried(name)
	check.Failed++
	fault := Fault{check.Last, fmt.Sprintf(format, values...), evidence}
	if len(check.Faults) < maxFaults {
		check.Faults = append(check.Faults, fault)
	}
	if r.notify != nil {
		r.notify(name, fault)
	}
}

// all returns the checks with their verdicts, and whether the log passed.
func (r *recorder) all() (checks []Check, passed bool) {
	r.mutex.Lock()
	defer r.mutex.Unlock()
	passed = true
	for _, one := range requirements {
		check := *r.checks[one.name]
		switch {
		case check.Failed > 0:
			check.Verdict = Failed
		case check.Tried > 0:
			check.Verdict = Passed
		case r.unused[one.name]:
			check.Verdict = NotAsked
		default:
			check.Verdict = Missing
		}
		passed = passed && check.Verdict != Failed && check.Verdict != Missing
		checks = append(checks, check)
	}
	return checks, passed
}
