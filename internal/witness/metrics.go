package witness

import (
	"net/http"
	"time"

	"github.com/prometheus/client_golang/prometheus"
	"github.com/prometheus/client_golang/prometheus/collectors"
	"github.com/prometheus/client_golang/prometheus/promhttp"
)

// metrics are the Prometheus metrics of a witness. Labels contain origins from the settings, statuses and names of
// refusals, and nothing that a client sends.
type metrics struct {
	registry               *prometheus.Registry
	requests               *prometheus.CounterVec
	cosignatures, refusals *prometheus.CounterVec
	entries, lastTime      *prometheus.GaugeVec
	lostSwaps              prometheus.Counter
	reloads                *prometheus.CounterVec
}

func newMetrics() *metrics {
	counter := func(name, help string, labels ...string) *prometheus.CounterVec {
		return prometheus.NewCounterVec(prometheus.CounterOpts{Name: name, Help: help}, labels)
	}
	gauge := func(name, help string) *prometheus.GaugeVec {
		return prometheus.NewGaugeVec(prometheus.GaugeOpts{Name: name, Help: help}, []string{"origin"})
	}
	m := &metrics{
		registry:     prometheus.NewRegistry(),
		requests:     counter("ctwitness_requests_total", "Requests that were answered.", "status"),
		cosignatures: counter("ctwitness_cosignatures_total", "Cosignatures that were given.", "origin"),
		refusals: counter("ctwitness_refusals_total", "Checkpoints that were refused, by the names of docs/WITNESS.md.",
			"origin", "refused"),
		entries: gauge("ctwitness_entries", "Entries of the tree that was cosigned last."),
		lastTime: gauge("ctwitness_last_cosignature_seconds",
			"When the last cosignature was given, in seconds since 1970."),
		lostSwaps: prometheus.NewCounter(prometheus.CounterOpts{Name: "ctwitness_lost_swaps_total",
			Help: "Requests that were decided again after another one had changed the log's state."}),
		reloads: counter("ctwitness_reloads_total", "Reloads of the settings' logs.", "outcome"),
	}
	m.registry.MustRegister(m.requests, m.cosignatures, m.refusals, m.entries, m.lastTime, m.lostSwaps, m.reloads,
		collectors.NewGoCollector(), collectors.NewProcessCollector(collectors.ProcessCollectorOpts{}))
	return m
}

// stored sets the gauges of a log to its stored state.
func (m *metrics) stored(of state) {
	m.entries.WithLabelValues(of.origin).Set(float64(of.tree.TreeSize))
	m.lastTime.WithLabelValues(of.origin).Set(float64(of.tree.Time))
}

func (m *metrics) cosigned(origin string) { m.cosignatures.WithLabelValues(origin).Inc() }

func (m *metrics) refused(origin, name string) { m.refusals.WithLabelValues(origin, name).Inc() }

// forget deletes the gauges of a log.
func (m *metrics) forget(origin string) {
	m.entries.DeleteLabelValues(origin)
	m.lastTime.DeleteLabelValues(origin)
}

// Reloaded counts a reload of the logs in the settings.
func (s *Server) Reloaded(err error) {
	outcome := "done"
	if err != nil {
		outcome = "failed"
	}
	s.metrics.reloads.WithLabelValues(outcome).Inc()
}

// Operator returns the handler for the operator's calls, /metrics and /healthz.
func (s *Server) Operator() http.Handler {
	mux := http.NewServeMux()
	mux.Handle("/metrics", promhttp.HandlerFor(s.metrics.registry,
		promhttp.HandlerOpts{MaxRequestsInFlight: 4, Timeout: 10 * time.Second}))
	mux.HandleFunc("/healthz", func(w http.ResponseWriter, _ *http.Request) { _, _ = w.Write([]byte("ok\n")) })
	return mux
}
