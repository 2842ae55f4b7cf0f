package httpd

import (
	"context"
	"net/http"
	"strconv"
	"time"

	"github.com/prometheus/client_golang/prometheus"
	"github.com/prometheus/client_golang/prometheus/collectors"
	"github.com/prometheus/client_golang/prometheus/promhttp"

	"wagtenib/internal/blob"
	"wagtenib/internal/command/version"
	"wagtenib/internal/log"
)

// metrics holds the metrics for Prometheus. Labels are names of calls, statuses and refusals, and never text from a
// client.
type metrics struct {
	registry *prometheus.Registry
	requests *prometheus.CounterVec
	seconds  *prometheus.HistogramVec
	refusals *prometheus.CounterVec
	refused  *prometheus.CounterVec
	reloads  *prometheus.CounterVec
	// closedIdle counts idle connections that were closed to make room, and handshakes counts failed TLS handshakes.
	closedIdle, handshakes prometheus.Counter
}

func newMetrics(f *Front) *metrics {
	counter := func(name, help string, labels ...string) *prometheus.CounterVec {
		return prometheus.NewCounterVec(prometheus.CounterOpts{Name: name, Help: help}, labels)
	}
	m := &metrics{
		registry: prometheus.NewRegistry(),
		requests: counter("ctserve_requests_total", "Requests that were answered.", "call", "status"),
		seconds: prometheus.NewHistogramVec(prometheus.HistogramOpts{
			Name: "ctserve_request_seconds", Help: "Time that requests took.",
			Buckets: []float64{.0005, .001, .0025, .005, .01, .025, .05, .1, .25, .5, 1, 2, 4, 8, 16, 32},
		}, []string{"call"}),
		refusals: counter("ctserve_refusals_total", "Requests that were refused, by the name of the refusal.", "call",
			"refusal"),
		refused: counter("ctserve_connections_refused_total",
			"Connections that were closed at once, because there were too many of them, or too many from one address.", "bound"),
		reloads: counter("ctserve_reloads_total", "Reloads of the roots and of the TLS certificate.", "of", "outcome"),
	}
	m.closedIdle = prometheus.NewCounter(prometheus.CounterOpts{Name: "ctserve_idle_connections_closed_total",
		Help: "Connections that were idle, or sent a body slowly, and were closed to make room for new ones."})
	m.handshakes = prometheus.NewCounter(prometheus.CounterOpts{Name: "ctserve_tls_handshakes_failed_total",
		Help: "TLS handshakes that failed."})
	build := prometheus.NewGaugeVec(prometheus.GaugeOpts{Name: "ctserve_build_info",
		Help: "Always 1, labelled with the version and commit of this build."}, []string{"version", "commit"})
	build.WithLabelValues(version.Number(), version.Commit()).Set(1)
	for _, bound := range []string{"all", "address"} {
		m.refused.WithLabelValues(bound)
	}
	m.registry.MustRegister(m.requests, m.seconds, m.refusals, m.refused, m.reloads, m.closedIdle, m.handshakes, build,
		logCollector{f}, collectors.NewGoCollector(), collectors.NewProcessCollector(collectors.ProcessCollectorOpts{}))
	return m
}

func (m *metrics) request(call string, status int, refusal string, took time.Duration) {
	m.requests.WithLabelValues(call, strconv.Itoa(status)).Inc()
	m.seconds.WithLabelValues(call).Observe(took.Seconds())
	if refusal != "" {
		m.refusals.WithLabelValues(call, refusal).Inc()
	}
}

// Reloaded counts a reload of the roots or of the TLS certificate.
func (f *Front) Reloaded(of string, err error) {
	outcome := "done"
	if err != nil {
		outcome = "failed"
	}
	f.metrics.reloads.WithLabelValues(of, outcome).Inc()
}

// logCollector collects the log's metrics at the time of a scrape.
type logCollector struct{ front *Front }

func described(name, help string) *prometheus.Desc {
	return prometheus.NewDesc(name, help, nil, nil)
}

var (
	descEntries    = described("ctserve_entries", "Entries of the newest published head.")
	descHeadAge    = described("ctserve_head_age_seconds", "Age of the newest published head.")
	descMergeDelay = described("ctserve_max_merge_delay_seconds",
		"Maximum merge delay that the log publishes. The newest published head is never older, unless there is a fault.")
	descUnpublished = described("ctserve_unpublished_entries",
		"Entries that were added to the log and are in no published head that this node knows.")
	descRound = described("ctserve_round_age_seconds",
		"Time since the last round that succeeded. A round is made each second, even without submissions.")
	descStore = prometheus.NewDesc("ctserve_store_seconds",
		"Time that calls of the stores took, including those that failed.", []string{"store", "call"}, nil)
	descFailed = prometheus.NewDesc("ctserve_store_failures_total",
		"Calls of a store that failed. An expected answer, for example that an object does not exist, is no failure.",
		[]string{"store", "call"}, nil)
	descQueue    = described("ctserve_queue", "Submissions that are waiting.")
	descMaxQueue = described("ctserve_queue_capacity",
		"Number of waiting submissions at which further ones are refused.")
	descFault  = described("ctserve_fault", "1 if a fault keeps the log from accepting submissions.")
	descFaults = described("ctserve_faults_total", "Number of times that a fault began.")
	descReady  = described("ctserve_ready",
		"1 if the node can be used now, as /readyz says. A log with read-only true is ready for reads.")
	descSteps        = described("ctserve_steps_total", "Steps of this node that the lock took.")
	descLostSwaps    = described("ctserve_lost_swaps_total", "Swaps of the lock that this node lost to another node.")
	descUnknownSwaps = described("ctserve_unknown_swaps_total",
		"Swaps of the lock whose outcome was only known after reading it.")
	descDuplicates = described("ctserve_duplicates_total", "Submissions that were already in the log.")
	descResumed    = described("ctserve_resumed_steps_total", "Steps of other nodes, or of this node before a restart, that this node completed.")
	descForwarded  = described("ctserve_forwarded_submissions_total",
		"Submissions that were forwarded to another node, which answered them.")
	descSignerStarts = described("ctserve_signer_starts_total",
		"Number of times that the signer was started or connected to.")
	descWrongSignatures = described("ctserve_wrong_signatures_total",
		"Replies of the signer that had a wrong signature, and were refused.")
	descSCTs = prometheus.NewDesc("ctserve_sct_signatures_total",
		"SCT signatures of the signer that were used. Those with verified=\"true\" were verified before.",
		[]string{"verified"}, nil)
	descDeletedTiles = described("ctserve_deleted_tiles_total",
		"Partial tiles that were deleted after their full tile was stored.")
	descDeletedHeads = described("ctserve_deleted_heads_total", "Heads that were deleted after a later one was published.")
	descRereadTiles  = described("ctserve_scrubbed_tiles_total", "Old data tiles that were checked and were right.")
	descDamaged      = described("ctserve_damaged_tiles",
		"Data tiles that are missing, unreadable or wrong, or are below such hash tiles, by the last check.")
	descWritten = described("ctserve_written_bytes_total", "Bytes that steps stored, in staged batches and as objects.")
	descPhase   = prometheus.NewDesc("ctserve_step_seconds",
		"Time that the parts of a step took: take (read the newest state, answer duplicates), "+
			"look (complete another node's step), step (make it), stage (store its batch), swap, put (store its objects), "+
			"place (add to the index), sign (its head and SCTs), answer, delete. put and place run at the same time.",
		[]string{"phase"}, nil)
	descBatches        = described("ctserve_step_submissions", "Number of submissions of a step that the lock took.")
	descDeletedBatches = described("ctserve_deleted_batches_total",
		"Staged batches that were deleted because nothing needs them.")
	descStaged          = described("ctserve_staged_batches", "Staged batches in the store when they were last listed.")
	descJanitorFailures = described("ctserve_janitor_failures_total",
		"Failed deletions of partial tiles, heads and staged batches, and failed writes of the index.")
	descDeletedTo = described("ctserve_partial_tiles_deleted_to",
		"Number of entries up to which all partial tiles were deleted, as far as this node knows.")
	descReadNext = described("ctserve_scrub_next_tile", "Index of the data tile (256 entries) that is checked next.")
	descIssuers  = described("ctserve_damaged_issuers", "Issuers that are missing or wrong, by the last check.")
	descRepaired = described("ctserve_repaired_objects_total", "Objects that were missing or wrong, and were made again.")
	descLag      = prometheus.NewDesc("ctserve_witness_lag",
		"Heads that a witness was asked to cosign since it last cosigned one.", []string{"witness"}, nil)
	descCosigned = prometheus.NewDesc("ctserve_witness_cosignatures_total", "Heads that a witness cosigned.",
		[]string{"witness"}, nil)
	descWitnessAhead = prometheus.NewDesc("ctserve_witness_ahead",
		"1 if a witness says that it cosigned a later head than this log's newest one, or another one of that size.",
		[]string{"witness"}, nil)
	descOpen    = described("ctserve_connections", "Open connections.")
	descWaiting = described("ctserve_queued_bytes",
		"Bytes of the submissions that are being read or checked, or are waiting.")
	descAnswers = described("ctserve_response_bytes", "Bytes of the objects that are being read for responses or sent.")
	descRoots   = described("ctserve_roots", "Roots against which chains are checked.")
)

func (c logCollector) Describe(to chan<- *prometheus.Desc) { prometheus.DescribeByCollect(c, to) }

func (c logCollector) Collect(to chan<- prometheus.Metric) {
	// checkReady reads the newest head, which the metrics describe, so it is called first.
	unready := c.front.checkReady(context.Background())
	f := c.front.log.Metrics()
	sink := metricSink{to}
	sink.state(f, unready == nil)
	if delay := c.front.options.About.MaxMergeDelay; delay > 0 {
		sink.gauge(descMergeDelay, delay.Seconds())
	}
	sink.work(f)
	sink.upkeep(f)
	sink.witnesses(f)
	sink.stores(c.front.options.Stores)
	sink.gauge(descOpen, float64(c.front.uses.connections.open.Load()))
	sink.gauge(descWaiting, float64(c.front.uses.waiting.used.Load()))
	sink.gauge(descAnswers, float64(c.front.uses.answers.used.Load()))
	sink.gauge(descRoots, float64(len(c.front.checker.Roots().Certificates())))
}

// metricSink receives the metrics of a scrape.
type metricSink struct{ to chan<- prometheus.Metric }

func (s metricSink) gauge(of *prometheus.Desc, value float64, labels ...string) {
	s.to <- prometheus.MustNewConstMetric(of, prometheus.GaugeValue, value, labels...)
}

func (s metricSink) count(of *prometheus.Desc, value uint64, labels ...string) {
	s.to <- prometheus.MustNewConstMetric(of, prometheus.CounterValue, float64(value), labels...)
}

// flag collects 1 for true.
func (s metricSink) flag(of *prometheus.Desc, is bool, labels ...string) {
	value := 0.0
	if is {
		value = 1
	}
	s.gauge(of, value, labels...)
}

// state collects what the log is, and whether it accepts submissions.
func (s metricSink) state(f log.Metrics, isReady bool) {
	s.gauge(descEntries, float64(f.Entries))
	s.gauge(descHeadAge, f.HeadAge.Seconds())
	s.gauge(descUnpublished, float64(f.Unpublished))
	s.gauge(descRound, f.SinceRound.Seconds())
	s.gauge(descQueue, float64(f.Queue))
	s.gauge(descMaxQueue, float64(f.MaxQueue))
	s.flag(descFault, f.Fault != "")
	s.count(descFaults, f.Faults)
	s.flag(descReady, isReady)
}

// work collects what steps did.
func (s metricSink) work(f log.Metrics) {
	s.count(descSteps, f.Steps)
	s.count(descLostSwaps, f.LostSwaps)
	s.count(descUnknownSwaps, f.UnknownSwaps)
	s.count(descDuplicates, f.Duplicates)
	s.count(descResumed, f.ResumedSteps)
	s.count(descForwarded, f.Forwarded)
	s.count(descSignerStarts, f.SignerStarts)
	s.count(descWrongSignatures, f.WrongSignatures)
	s.count(descSCTs, f.VerifiedSCTs, "true")
	s.count(descSCTs, f.UnverifiedSCTs, "false")
	s.count(descWritten, f.WrittenBytes)
	for _, phase := range f.Phases {
		s.to <- prometheus.MustNewConstSummary(descPhase, phase.Count, phase.Duration.Seconds(), nil, phase.Name)
	}
	buckets := map[float64]uint64{}
	for bound, steps := range f.Batches.UpTo {
		buckets[float64(bound)] = steps
	}
	s.to <- prometheus.MustNewConstHistogram(descBatches, f.Batches.Steps, float64(f.Batches.Submissions), buckets)
}

// upkeep collects what was deleted, checked and repaired.
func (s metricSink) upkeep(f log.Metrics) {
	s.count(descDeletedTiles, f.DeletedTiles)
	s.count(descDeletedHeads, f.DeletedHeads)
	s.count(descRereadTiles, f.RereadTiles)
	s.gauge(descDamaged, float64(f.Damaged))
	s.count(descDeletedBatches, f.DeletedBatches)
	s.gauge(descStaged, float64(f.StagedBatches))
	s.count(descJanitorFailures, f.JanitorFailures)
	s.gauge(descDeletedTo, float64(f.DeletedTo))
	s.gauge(descReadNext, float64(f.ReadNext))
	s.gauge(descIssuers, float64(f.DamagedIssuers))
	s.count(descRepaired, f.Repaired)
}

// witnesses collects what each witness did.
func (s metricSink) witnesses(f log.Metrics) {
	for _, w := range f.Witnesses {
		s.gauge(descLag, float64(w.Missed), w.Name)
		s.count(descCosigned, w.Cosigned, w.Name)
		s.flag(descWitnessAhead, w.IsAhead, w.Name)
	}
}

// stores collects the calls of each store.
func (s metricSink) stores(calls *blob.Calls) {
	for _, call := range calls.All() {
		s.to <- prometheus.MustNewConstSummary(descStore, call.Count, call.Duration.Seconds(), nil, call.Store, call.Name)
		s.count(descFailed, call.Failed, call.Store, call.Name)
	}
}

// Operator returns the handler for operators: /metrics, and /healthz and /readyz as clients see them.
func (f *Front) Operator() http.Handler {
	mux := http.NewServeMux()
	mux.Handle("/metrics", promhttp.HandlerFor(f.metrics.registry,
		promhttp.HandlerOpts{MaxRequestsInFlight: 4, Timeout: 10 * time.Second}))
	own := http.HandlerFunc(func(w http.ResponseWriter, r *http.Request) {
		f.ServeHTTP(w, r.WithContext(context.WithValue(r.Context(), operatorKey{}, true)))
	})
	mux.Handle("/healthz", own)
	mux.Handle("/readyz", own)
	return mux
}
