package watchstore

import (
	"fmt"
	"strings"
	"time"

	"wagtenib/internal/watch/alert"
)

// Health describes whether a whole ctwatch works, according to its store.
type Health struct {
	Logs     int       // the number of watched logs
	Silent   []string  // the names of the logs of which nothing could be read for too long
	Evidence int64     // the number of pieces of evidence against logs that nobody has looked at
	Unproved int64     // the number of signed heads without a proof that nobody has looked at
	Waiting  int64     // the number of unsent alerts of outputs whose last sending failed
	Outputs  []string  // the names of those outputs
	Reported time.Time // the time of the newest status of a log
	Unread   string    // why there is no log yet; empty if that is not known
	List     string    // why the log list cannot be used, and when it was last read; empty if it can be used
}

// Health returns the health of ctwatch. A log of which nothing could be read for the time silentAfter is silent. A log
// that ctwatch no longer follows stops counting when the newest status of another log is later by silentAfter.
func (s *Store) Health(silentAfter time.Duration) (Health, error) {
	var h Health
	logs, err := s.LogStatuses()
	if err != nil {
		return h, err
	}
	now := s.options.Now()
	for _, log := range logs {
		if log.Reported.After(h.Reported) {
			h.Reported = log.Reported
		}
	}
	for _, log := range logs {
		if h.Reported.Sub(log.Reported) >= silentAfter {
			continue
		}
		h.Logs++
		if log.Silence(now) >= silentAfter {
			h.Silent = append(h.Silent, log.Name)
		}
	}
	outputs, err := s.Outputs()
	if err != nil {
		return h, err
	}
	for _, output := range outputs {
		if output.Fault != "" {
			h.Waiting, h.Outputs = h.Waiting+output.Waiting, append(h.Outputs, output.Name)
		}
	}
	counts, err := s.Counts()
	if err != nil {
		return h, err
	}
	h.Evidence, h.Unproved = counts.NewEvidence, counts.NewUnproved
	list, err := s.List()
	if list.Fault != "" {
		h.setList(list)
	}
	return h, err
}

// setList sets the reasons why the log list cannot be used, and why there is no log.
func (h *Health) setList(list List) {
	h.List = list.Fault
	if !list.Read.IsZero() {
		h.List = fmt.Sprintf("%s (it was read last at %s)", list.Fault, list.Read.Format(time.RFC3339))
	}
	if h.Logs == 0 {
		h.Unread = neverRead + ": " + h.List
	}
}

// neverRead is the text that says why there is no log if a log list is followed.
const neverRead = "the log list was not read yet"

// String returns the health as one line.
func (h Health) String() string {
	parts := []string{alert.Count(int64(h.Logs), "log")}
	if h.Logs == 0 {
		unread := h.Unread
		if unread == "" {
			unread = neverRead
		}
		parts[0] += ": " + unread
	} else if h.List != "" {
		parts = append(parts, "the log list CANNOT BE USED: "+h.List)
	}
	if len(h.Silent) > 0 {
		parts = append(parts, fmt.Sprintf("%d SILENT: %s", len(h.Silent), strings.Join(h.Silent, ", ")))
	}
	if h.Evidence > 0 {
		parts = append(parts, fmt.Sprintf("%d EVIDENCE against logs", h.Evidence))
	}
	if h.Unproved > 0 {
		parts = append(parts, fmt.Sprintf("%s UNPROVED", alert.Count(h.Unproved, "head")))
	}
	if len(h.Outputs) > 0 {
		parts = append(parts, fmt.Sprintf("%s NOT SENT: %s", alert.Count(h.Waiting, "alert"), strings.Join(h.Outputs, ", ")))
	}
	if len(parts) == 1 && h.Logs > 0 {
		parts = append(parts, "all are read, and all alerts are sent")
	}
	return strings.Join(parts, "; ")
}
