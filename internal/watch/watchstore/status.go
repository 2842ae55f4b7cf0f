package watchstore

import (
	"database/sql"
	"fmt"
	"sync"
	"time"

	"wagtenib/bindings/go/wagtenib"
	"wagtenib/internal/watch"
	"wagtenib/internal/watch/alert"
)

// statusInterval is the minimum time between two stored statuses of a log while its fault does not change.
const statusInterval = 10 * time.Second

// statuses holds the newest status of each log.
type statuses struct {
	mutex sync.Mutex
	byLog map[watch.LogID]*reported
}

// reported holds the newest status of a log, and when a status of the log was last stored.
type reported struct {
	watch.Status
	stored      time.Time
	fault       string // the text of Status.Fault
	wasComplete bool   // the log was once read to the end of its newest head
}

func newStatuses() *statuses { return &statuses{byLog: map[watch.LogID]*reported{}} }

// Report receives the newest status of a log. It stores the status if the fault changed, and otherwise at most every
// ten seconds.
func (s *Store) Report(status watch.Status) {
	now := s.options.Now()
	fault := ""
	if status.Fault != nil {
		fault = status.Fault.Error()
	}
	s.statuses.mutex.Lock()
	before := s.statuses.byLog[status.Log.ID]
	newest := &reported{Status: status, stored: now, fault: fault,
		wasComplete: before != nil && before.wasComplete ||
			!status.Answered.IsZero() && status.Read >= status.Head.TreeSize}
	mustStore := before == nil || before.fault != fault || now.Sub(before.stored) >= statusInterval
	if !mustStore {
		newest.stored = before.stored
	}
	s.statuses.byLog[status.Log.ID] = newest
	s.statuses.mutex.Unlock()
	if mustStore {
		// The error is ignored: a status is only for people, and the next one replaces it. Keep reports a full disk.
		_ = s.storeStatus(status, fault)
	}
}

func (s *Store) storeStatus(status watch.Status, fault string) error {
	return s.write(func(w *writer) error {
		if err := s.keepLog(w, status.Log); err != nil {
			return err
		}
		_, err := w.exec(`insert into statuses values (?, ?, ?, ?, ?, ?, ?, ?, 0) on conflict (log) do update set
			size = excluded.size,
			timestamp = excluded.timestamp, read = excluded.read, accepted = excluded.accepted,
			answered = max(answered, excluded.answered), fault = excluded.fault, reported = excluded.reported`,
			status.Log.ID[:], int64(status.Head.TreeSize), int64(status.Head.Timestamp), int64(status.Read),
			int64(status.Accepted),
			milliseconds(status.Answered), fault, s.options.Now().UnixMilli())
		return err
	})
}

// Statuses returns the newest statuses that were reported to this Store, in no order. They are for metrics.
func (s *Store) Statuses() []watch.Status {
	s.statuses.mutex.Lock()
	defer s.statuses.mutex.Unlock()
	var found []watch.Status
	for _, one := range s.statuses.byLog {
		found = append(found, one.Status)
	}
	return found
}

// LogStatus holds the stored status of a log.
type LogStatus struct {
	ID       watch.LogID
	Name     string
	URL      string
	Head     wagtenib.TreeHead
	Read     uint64    // the number of entries up to which the log was read
	Accepted uint64    // the number of entries of the accepted head
	Answered time.Time // when the log last gave a correct answer; zero if it never did
	Fault    string    // why reading cannot continue; empty if it can
	Reported time.Time // when the status was stored
	Added    time.Time // when the log was first watched
}

// Silence returns the time for which nothing of the log could be read.
func (l LogStatus) Silence(now time.Time) time.Duration {
	since := l.Answered
	if since.IsZero() {
		since = l.Added
	}
	return now.Sub(since)
}

// LogStatuses returns the stored statuses of all logs, in the order of their names.
func (s *Store) LogStatuses() ([]LogStatus, error) {
	var found []LogStatus
	err := s.each(`select l.id, l.name, l.url, t.size, t.timestamp, t.read, t.accepted, t.answered, t.fault,
		t.reported, l.added
		from statuses t join logs l on l.id = t.log order by l.name, l.url`, nil, func(rows *sql.Rows) error {
		var one LogStatus
		var id []byte
		var size, timestamp, read, accepted, answered, reported, added int64
		if err := rows.Scan(&id, &one.Name, &one.URL, &size, &timestamp, &read, &accepted, &answered, &one.Fault,
			&reported, &added); err != nil {
			return err
		}
		copy(one.ID[:], id)
		one.Name, one.URL, one.Fault = alert.Safe(one.Name), alert.Safe(one.URL), alert.Safe(one.Fault)
		one.Head.TreeSize, one.Head.Timestamp, one.Read, one.Accepted = uint64(size), uint64(timestamp),
			uint64(read), uint64(accepted)
		one.Answered, one.Reported, one.Added = timeOf(answered), timeOf(reported), timeOf(added)
		found = append(found, one)
		return nil
	})
	return found, err
}

// CheckSilent stores an alert about each log of which nothing could be read for the time `after`, and another alert
// each time that the same time has passed again. Only logs with a report to this Store since it was opened count.
func (s *Store) CheckSilent(after time.Duration) error {
	logs, err := s.LogStatuses()
	if err != nil {
		return err
	}
	now := s.options.Now()
	for _, log := range logs {
		s.statuses.mutex.Lock()
		_, isWatched := s.statuses.byLog[log.ID]
		s.statuses.mutex.Unlock()
		if !isWatched || log.Silence(now) < after {
			continue
		}
		if err := s.alertSilent(log, now, after); err != nil {
			return err
		}
	}
	return nil
}

// AlertList stores an alert to a log list that cannot be read, with the reason.
func (s *Store) AlertList(reason string) error {
	return s.write(func(w *writer) error { return s.addAlert(w, alert.Silent, nil, nil, nil, reason) })
}

func (s *Store) alertSilent(log LogStatus, now time.Time, after time.Duration) error {
	return s.write(func(w *writer) error {
		changed, err := w.exec("update statuses set alerted = ? where log = ? and alerted <= ?", now.UnixMilli(),
			log.ID[:], now.Add(-after).UnixMilli())
		if err != nil || changed == 0 {
			return err
		}
		text := fmt.Sprintf("nothing of this log could be read for %v", log.Silence(now).Round(time.Minute))
		if log.Fault != "" {
			text += ": " + log.Fault
		}
		return s.addAlert(w, alert.Silent, nil, nil, log.ID[:], text)
	})
}
