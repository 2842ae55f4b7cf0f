// Package probe probes a Certificate Transparency log from outside, as the compliance monitor of a browser vendor
// does.
//
// It submits chains, checks that the log adds the entry of each SCT, and reads the log by its tiles and by the calls of
// RFC 6962. It compares all heads that it sees with each other, and counts and times each answer. The proved library
// gives each verdict on a proof, a head or an entry. Package ct verifies signatures.
package probe

import (
	"cmp"
	"context"
	"fmt"
	"net/http"
	"slices"
	"strings"
	"time"

	"wagtenib/internal/logclient"
	"wagtenib/internal/watch"
	"wagtenib/internal/watch/loglist"
)

// Bounds holds the required availability and latency of a log.
type Bounds struct {
	Availability float64       // the minimum share of the requests of each call that are answered, from 0 to 1
	Latency      time.Duration // the maximum time for 99 of 100 answers to each call
}

// Schedule says for how long a log is probed, and how often.
type Schedule struct {
	For    time.Duration // the time for which chains are submitted; then the last SCT is followed for its merge delay
	Poll   time.Duration // the time between two requests for the heads
	Submit time.Duration // the time between two submissions
	Slow   time.Duration // the time between two requests for the roots and /log.v3.json
}

// Options hold the log to probe, and what is expected of it.
type Options struct {
	SubmissionURL string       // the submission prefix
	MonitoringURL string       // the monitoring prefix; if it is empty, the submission prefix
	Expected      *loglist.Log // the entry of the log in a log list; nil to use the one that the log itself serves
	Source        string       // says where Expected is from, for the report
	Submitter     Submitter    // makes the chains that are submitted; nil to submit none
	Roots         [][]byte     // the expected roots, in DER; nil to compare none
	Bounds        Bounds
	Schedule      Schedule
	Client        logclient.Options // the transport, the clock and the user agent
	Notify        func(check string, fault Fault)
}

// run holds the state of a running probe.
type run struct {
	options   Options
	clock     logclient.Clock
	log       loglist.Log
	recorder  *recorder
	meter     *meter
	heads     *history
	endpoints []*endpoint // the checkpoint and get-sth
	submits   *http.Client
	reads     *logclient.Client // the client for the monitoring prefix
	promises  []*promise
}

// firstAttempts is the maximum number of requests for the log's entry before the probe begins.
const firstAttempts = 10

// Run probes a log for the time of the schedule, and returns a report. It returns an error only if it cannot begin. All
// later faults are in the report.
func Run(ctx context.Context, options Options) (Report, error) {
	r, err := begin(ctx, options)
	if err != nil {
		return Report{}, fmt.Errorf("probe: %w", err)
	}
	from := r.clock.Now()
	until := from.Add(options.Schedule.For)
	var nextChain, nextSlow time.Time
	for now := from; now.Before(until) && ctx.Err() == nil; now = r.clock.Now() {
		if !now.Before(nextSlow) {
			nextSlow = now.Add(options.Schedule.Slow)
			r.lookSlowly(ctx)
		}
		if options.Submitter != nil && !now.Before(nextChain) {
			nextChain = now.Add(options.Schedule.Submit)
			r.submitNext(ctx)
		}
		r.look(ctx)
		_ = r.clock.Wait(ctx, options.Schedule.Poll) // The error is ignored: the loop checks the context.
	}
	if ctx.Err() == nil {
		r.recorder.pass(CheckWholeTime, "%v", r.clock.Now().Sub(from).Round(time.Second))
	} else {
		r.recorder.fail(CheckWholeTime, nil, "it was ended after %v, and %v was asked for (run it again)",
			r.clock.Now().Sub(from).Round(time.Second), options.Schedule.For)
	}
	for r.isWaiting() && ctx.Err() == nil {
		r.look(ctx)
		_ = r.clock.Wait(ctx, options.Schedule.Poll) // The error is ignored: the loop checks the context.
	}
	r.end()
	return r.report(from), nil
}

// look requests both heads, compares them with earlier ones, and checks whether they have the promised entries.
func (r *run) look(ctx context.Context) {
	for _, e := range r.endpoints {
		if head, ok := r.lookAt(ctx, e); ok {
			r.heads.add(head)
		}
	}
	r.prove(ctx)
	r.follow(ctx)
}

// begin returns a new probe. If the options do not say what is expected of the log, it asks the log.
func begin(ctx context.Context, options Options) (*run, error) {
	options.SubmissionURL = strings.TrimRight(options.SubmissionURL, "/")
	options.MonitoringURL = strings.TrimRight(cmp.Or(options.MonitoringURL, options.SubmissionURL), "/")
	if options.Client.Clock == nil {
		options.Client.Clock = logclient.MachineClock{}
	}
	if options.Client.Transport == nil {
		options.Client.Transport = http.DefaultTransport
	}
	r := &run{options: options, clock: options.Client.Clock, heads: &history{}}
	if options.Expected != nil {
		r.log = *options.Expected
	} else {
		first := options.Client
		first.Limits.Attempts = firstAttempts
		content, err := logclient.Get(ctx, options.SubmissionURL+"/log.v3.json", maxListed, first)
		if err != nil {
			return nil, fmt.Errorf("the log's entry cannot be read, so its key is not known: %w (give --list-entry)",
				err)
		}
		if r.log, err = readListed(content); err != nil {
			return nil, fmt.Errorf("%s/log.v3.json: %w (give --list-entry)", options.SubmissionURL, err)
		}
		r.options.Source = "the log itself (/log.v3.json)"
	}
	r.recorder = newRecorder(r.clock.Now, options.Notify)
	if options.Submitter == nil {
		for _, name := range checksOfSCTs {
			r.recorder.unused[name] = true
		}
	}
	r.recorder.unused[CheckRoots] = options.Roots == nil
	r.recorder.unused[CheckListedURL] = options.Expected == nil
	r.recorder.unused[CheckListedInterval] = options.Expected == nil
	r.recorder.unused[CheckListedMergeDelay] = options.Expected == nil
	return r, r.connect(ctx)
}

// checksOfSCTs holds the checks that need submissions.
var checksOfSCTs = []string{CheckSubmission, CheckSCTSignature, CheckSCTTimestamp, CheckSCTIndex, CheckSCTRepeat,
	CheckMergeDelay,
	CheckInclusionByTiles, CheckInclusionByHash, CheckDataTile, CheckGetEntries, CheckIssuers}

// connect makes the clients of both prefixes. They make only one attempt for each request: a failure is counted, and
// the probe asks again later.
func (r *run) connect(ctx context.Context) (err error) {
	r.meter = &meter{ctx: ctx, next: r.options.Client.Transport, clock: r.clock, maxMergeDelay: r.log.MaxMergeDelay,
		calls: map[string]*measurements{}, recorder: r.recorder}
	client := r.options.Client
	client.Transport = r.meter
	client.Limits.Attempts = 1
	client.Limits.Request = cmp.Or(client.Limits.Request, requestTimeout)
	// Redirects are not followed: an answer from another address is not the log's.
	stay := func(*http.Request, []*http.Request) error { return http.ErrUseLastResponse }
	r.submits = &http.Client{Transport: r.meter, Timeout: client.Limits.Request, CheckRedirect: stay}
	if r.reads, err = logclient.New(r.options.MonitoringURL, client); err != nil {
		return err
	}
	tiled, called := r.log.Log, r.log.Log
	tiled.URL, called.URL, called.Origin = r.options.MonitoringURL, r.options.SubmissionURL, ""
	tiles, err := watch.NewReader(tiled, client)
	if err != nil {
		return err
	}
	calls, err := watch.NewReader(called, client)
	if err != nil {
		return err
	}
	r.endpoints = []*endpoint{
		{reader: tiles, name: "the checkpoint", signature: CheckCheckpointSignature, fresh: CheckCheckpointFresh,
			forward: CheckCheckpointForward, consistency: CheckConsistencyByTiles},
		{reader: calls, name: "the STH", signature: CheckSTHSignature, fresh: CheckSTHFresh, forward: CheckSTHForward,
			consistency: CheckConsistencyByCalls}}
	return nil
}

// requestTimeout is the default of the maximum time for a request with its whole answer.
const requestTimeout = 30 * time.Second

// end records the entries and proofs that the log never gave.
func (r *run) end() {
	for _, p := range r.promises {
		r.giveUp(p)
	}
	for _, pair := range r.heads.unproved {
		r.recorder.fail(pair.by.consistency, pair.evidence(), "from %d to %d leaves no proof came until the end: %v",
			pair.first.TreeSize,
			pair.second.TreeSize, pair.why)
	}
}

// report returns the report of the probe that began at the time `from`.
func (r *run) report(from time.Time) Report {
	report := Report{Program: r.options.Client.UserAgent, SubmissionURL: r.options.SubmissionURL,
		MonitoringURL: r.options.MonitoringURL,
		From:          from, To: r.clock.Now(), Calls: r.meter.judge(r.options.Bounds)}
	report.Log = Identity{r.log.Origin, slices.Clone(r.log.ID[:]), r.log.PublicKey, r.log.MaxMergeDelay.Seconds(),
		r.options.Source}
	report.Checks, report.Passed = r.recorder.all()
	return report
}
