package audit_test

import (
	"context"
	"net/http"
	"testing"

	"wagtenib/internal/audit"
	"wagtenib/internal/testkit"
	"wagtenib/internal/watch"
)

const hour = 3_600_000 // milliseconds

// timed describes the audit of one timestamp at a time. Its times are milliseconds after epoch.
type timed struct {
	sct, head, now int64
	others         []int64 // the times of the newest heads of other logs; -1 for a log that does not answer
	isIncluded     bool
	expected       audit.Outcome
	verdict        string // of the evidence; empty if there is none
}

// newTimed serves the logs of a description, and returns the log, all logs and the certificate.
func newTimed(t *testing.T, kind string, test timed, a *authority) (log *testkit.Log, logs []watch.Log,
	certificate []byte) {
	t.Helper()
	entry := a.entry()
	entry.Timestamp = uint64(epoch + test.sct)
	entries := others(300)
	if test.isIncluded {
		entries = append(entries, entry)
	}
	log = newLog(t, entries, uint64(epoch+test.head))
	logs = []watch.Log{serve(t, log, kind)}
	for _, at := range test.others {
		other := newLog(t, others(2), uint64(epoch+max(at, 0)))
		if at < 0 {
			other.Intercept(func(w http.ResponseWriter, _ *http.Request) bool {
				w.WriteHeader(http.StatusForbidden)
				return true
			})
		}
		logs = append(logs, serve(t, other, kind))
	}
	return log, logs, a.issueWith(log.SCT(entry, 300))
}

// A log is accused of an entry that is later than its head, of a timestamp in the future, and of a deadline that is over
// under an old head. The evidence shows it. If the heads of the other logs say that the machine's clock is wrong, the
// clock accuses no log.
func TestAuditsTimes(t *testing.T) {
	a := newAuthority()
	for what, test := range map[string]timed{
		"as late as its head":                  {sct: 5000, head: 5000, now: 6000, isIncluded: true, expected: audit.Included},
		"later than its head":                  {5001, 5000, 6000, nil, true, audit.LaterEntry, watch.VerdictLaterEntry},
		"an hour in the future":                {hour, hour + 1, 0, []int64{0, -1}, true, audit.Future, watch.VerdictFuture},
		"in the future and not there":          {hour, hour + 1, 0, []int64{-5 * day, 1000}, false, audit.Future, watch.VerdictFuture},
		"in the future of the only log's head": {hour, 0, 0, nil, false, audit.Future, watch.VerdictFuture},
		"in the future of a clock that is behind": {sct: hour, head: hour + 1, others: []int64{hour}, isIncluded: true,
			expected: audit.Included},
		"a clock that is behind, and one log": {sct: hour, head: hour + 1, isIncluded: true, expected: audit.Included},
		"four minutes in the future":          {sct: hour / 15, head: hour / 15, isIncluded: true, expected: audit.Included},
		"the deadline is over under an old head": {0, 1000, 3 * day, []int64{-1, 3 * day}, false, audit.Overdue,
			watch.VerdictOverdue},
		"an old head of the only log": {0, 1000, 3 * day, nil, false, audit.Overdue, watch.VerdictOverdue},
		"a clock that is ahead": {sct: 0, head: 1000, now: 3 * day, others: []int64{2000, -1},
			expected: audit.NotYet},
		"a clock that no log confirms": {sct: 0, head: 1000, now: 3 * day, others: []int64{-1}, expected: audit.NotYet},
		"a head that is not old": {sct: 0, head: day - 1000, now: day + hour, others: []int64{day + hour},
			expected: audit.NotYet},
		"at the deadline": {sct: 0, head: 0, now: day, others: []int64{day}, expected: audit.NotYet},
		"after the deadline, under a head of the same time": {0, 0, day + 1000, []int64{day + 1000}, false, audit.Overdue,
			watch.VerdictOverdue},
	} {
		for _, kind := range kinds {
			t.Run(kind+" "+what, func(t *testing.T) {
				log, logs, certificate := newTimed(t, kind, test, a)
				results, err := audit.New(logs, quickAt(epoch+test.now)).Certificate(context.Background(), certificate,
					a.Root.Raw)
				if err != nil || len(results) != 1 {
					t.Fatalf("%d results, %v", len(results), err)
				}
				found := results[0]
				if found.Outcome != test.expected {
					t.Errorf("%v (%s), and %v is expected", found.Outcome, found.Text, test.expected)
				}
				if test.verdict == "" {
					if found.Evidence != nil {
						t.Errorf("there is evidence: %s", found.Evidence.Text)
					}
					return
				}
				if found.Evidence == nil || found.Evidence.Verdict != test.verdict {
					t.Fatalf("%v is not evidence of %q", found.Evidence, test.verdict)
				}
				checkEvidence(t, found.Evidence, log.PublicKey())
			})
		}
	}
}
