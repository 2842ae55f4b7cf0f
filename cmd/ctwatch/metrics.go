package main

import (
	"encoding/hex"

	"github.com/prometheus/client_golang/prometheus"

	"wagtenib/internal/command/version"
	"wagtenib/internal/watch/alert"
	"wagtenib/internal/watch/watchstore"
)

// collector is a prometheus.Collector of the numbers in the store.
type collector struct{ store *watchstore.Store }

func newCollector(store *watchstore.Store) prometheus.Collector { return collector{store} }

func desc(name, help string, labels ...string) *prometheus.Desc {
	return prometheus.NewDesc("ctwatch_"+name, help, labels, nil)
}

var (
	descBuild = desc("build_info", "Always 1, labelled with the version and commit of this build.", "version",
		"commit")
	descIssuances = desc("certificates",
		"Number of certificates in the store. A precertificate and its certificate count once.")
	descUnread   = desc("unread_certificates", "Number of certificates in the store whose names cannot be read.")
	descAlerts   = desc("alerts", "Number of alerts that were stored.")
	descEvidence = desc("evidence", "Number of stored pieces of evidence against logs.")
	descUnproved = desc("unproved_heads", "Number of signed heads without a proof that nobody has looked at.")
	descWaiting  = desc("alerts_waiting", "Number of alerts that an output did not send yet.", "output")
	descFailing  = desc("output_failing", "1 if the last sending of an output failed, and 0 if it did not.", "output")
	descSize     = desc("log_size", "Number of entries of a log according to its newest tree head.", "log", "id")
	descRead     = desc("log_read", "Number of entries of a log that were read, including those before the start.",
		"log", "id")
	descAccepted = desc("log_accepted", "Number of entries of a log that an accepted tree head covers.", "log",
		"id")
	descHead = desc("log_head_timestamp_seconds",
		"Timestamp of a log's newest tree head, in seconds since 1970.", "log", "id")
	descAnswered = desc("log_answered_timestamp_seconds",
		"Time of a log's last correct answer, in seconds since 1970.", "log", "id")
	descFault = desc("log_failing", "1 if a log cannot be read now, and 0 if it can.", "log", "id")
)

// Describe sends the descriptions of all metrics.
func (c collector) Describe(descriptions chan<- *prometheus.Desc) {
	for _, one := range []*prometheus.Desc{descBuild, descIssuances, descUnread, descAlerts, descEvidence,
		descUnproved, descWaiting, descFailing, descSize,
		descRead, descAccepted, descHead, descAnswered, descFault} {
		descriptions <- one
	}
}

// Collect sends all metrics. If the store cannot be read, it sends the error instead.
func (c collector) Collect(metrics chan<- prometheus.Metric) {
	gauge := func(desc *prometheus.Desc, value float64, labels ...string) {
		metrics <- prometheus.MustNewConstMetric(desc, prometheus.GaugeValue, value, labels...)
	}
	gauge(descBuild, 1, version.Number(), version.Commit())
	counts, err := c.store.Counts()
	if err != nil {
		metrics <- prometheus.NewInvalidMetric(descIssuances, err)
		return
	}
	gauge(descIssuances, float64(counts.Issuances))
	gauge(descUnread, float64(counts.Unread))
	gauge(descAlerts, float64(counts.Alerts))
	gauge(descEvidence, float64(counts.Evidence))
	gauge(descUnproved, float64(counts.NewUnproved))
	outputs, err := c.store.Outputs()
	if err != nil {
		metrics <- prometheus.NewInvalidMetric(descWaiting, err)
		return
	}
	for _, output := range outputs {
		gauge(descWaiting, float64(output.Waiting), alert.Safe(output.Name))
		gauge(descFailing, oneIf(output.Fault != ""), alert.Safe(output.Name))
	}
	for _, status := range c.store.Statuses() {
		// Two logs may have the same name, but not the same ID. A name may have any bytes, but a label must be UTF-8.
		labels := []string{alert.Safe(status.Log.Name), hex.EncodeToString(status.Log.ID[:])}
		gauge(descSize, float64(status.Head.TreeSize), labels...)
		gauge(descRead, float64(status.Read), labels...)
		gauge(descAccepted, float64(status.Accepted), labels...)
		gauge(descHead, float64(status.Head.Timestamp)/1000, labels...)
		if !status.Answered.IsZero() {
			gauge(descAnswered, float64(status.Answered.UnixMilli())/1000, labels...)
		}
		gauge(descFault, oneIf(status.Fault != nil), labels...)
	}
}

func oneIf(condition bool) float64 {
	if condition {
		return 1
	}
	return 0
}
