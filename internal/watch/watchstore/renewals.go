package watchstore

import (
	"database/sql"
	"encoding/json"
	"errors"
	"fmt"
	"strings"
	"time"

	"wagtenib/internal/watch"
	"wagtenib/internal/watch/alert"
	"wagtenib/internal/watch/namesearch"
)

// CheckRenewals stores an alert about each certificate that ends within this time, and that ends last of all stored
// certificates for a name that is watched exactly. After certificates that end later were stored for all such names of
// it, it stores another alert that takes the first one back. A certificate has at most one alert of each kind.
//
// It does nothing until each log that answers was read to its end once since this Store was opened. A newer certificate
// may otherwise be among the entries that were not read yet.
func (s *Store) CheckRenewals(within time.Duration) error {
	names, err := s.exactNames()
	if err != nil || names == "" || !s.statuses.areComplete(s.options.Now()) {
		return err
	}
	return s.write(func(w *writer) error {
		due, err := s.dueRenewals(w, names, within)
		if err != nil {
			return err
		}
		for _, one := range due {
			if err := s.addAlert(w, one.kind(), one.issuance, nil, nil, one.text(s.options.Now())); err != nil {
				return err
			}
		}
		return nil
	})
}

// exactNames returns the names that are watched exactly, as a list in JSON. It is empty if there is none.
func (s *Store) exactNames() (string, error) {
	var names []string
	for _, name := range s.options.Searcher.Names() {
		if name.IsExact() {
			names = append(names, name.String())
		}
	}
	if len(names) == 0 {
		return "", nil
	}
	list, err := json.Marshal(names)
	return string(list), err
}

// renewal is a certificate that ends last for some names, or that had an alert about this which is not taken back.
type renewal struct {
	issuance  int64
	isAlerted bool      // it had the alert, so that it is renewed now or waits
	waits     bool      // it is alerted, and still ends last for a name
	names     []string  // the watched names for which it was found
	ends      time.Time // when it ends or, if it is renewed, when the first of the newer certificates ends
}

// dueRenewals returns the certificates that must have an alert now. Only the places that the library decides count: a
// certificate whose bytes mention a name renews nothing.
func (s *Store) dueRenewals(w *writer, names string, within time.Duration) ([]renewal, error) {
	var found []renewal
	rows, err := w.tx.Query(`with exact as (
			select m.name, m.issuance, i.not_after, row_number() over latest as position,
				first_value(i.not_after) over latest as last_ends
			from matches m join issuances i on i.id = m.issuance
			where m.name in (select value from json_each(?1)) and m.place in (?2, ?3) and i.not_after <> 0
			window latest as (partition by m.name order by i.not_after desc, i.id)),
		alerted as (select issuance, max(kind = ?5) as is_renewed from alerts where kind in (?4, ?5) group by issuance)
		select e.issuance, e.name, a.issuance is not null, e.last_ends > e.not_after, e.last_ends
		from exact e left join alerted a on a.issuance = e.issuance
		where not a.is_renewed or e.position = 1 and e.not_after <= ?6
		order by e.issuance, e.name`, names, string(namesearch.InAltName), string(namesearch.InCommonName),
		string(alert.Unrenewed), string(alert.Renewed), s.options.Now().Add(within).UnixMilli())
	err = eachRow(rows, err, func(rows *sql.Rows) error {
		var one renewal
		var name string
		var isRenewed bool
		var ends int64
		if err := rows.Scan(&one.issuance, &name, &one.isAlerted, &isRenewed, &ends); err != nil {
			return err
		}
		if len(found) == 0 || found[len(found)-1].issuance != one.issuance {
			one.ends = timeOf(ends)
			found = append(found, one)
		}
		last := &found[len(found)-1]
		last.names = append(last.names, strings.TrimPrefix(name, "="))
		last.waits = last.waits || last.isAlerted && !isRenewed
		if at := timeOf(ends); at.Before(last.ends) {
			last.ends = at
		}
		return nil
	})
	var due []renewal
	for _, one := range found {
		if !one.waits {
			due = append(due, one)
		}
	}
	return due, err
}

func (r renewal) kind() alert.Kind {
	if r.isAlerted {
		return alert.Renewed
	}
	return alert.Unrenewed
}

// maxRenewalNames is the maximum number of names in the text of an alert.
const maxRenewalNames = 5

// text returns the text of the alert.
func (r renewal) text(now time.Time) string {
	names := strings.Join(r.names[:min(len(r.names), maxRenewalNames)], ", ")
	if more := len(r.names) - maxRenewalNames; more > 0 {
		names += fmt.Sprintf(" and %s", alert.Count(int64(more), "more name"))
	}
	at := r.ends.Format(time.DateTime) + " UTC"
	switch {
	case r.isAlerted:
		return fmt.Sprintf("%s: a newer certificate was logged, which ends at %s", names, at)
	case r.ends.Before(now):
		return fmt.Sprintf("%s: the certificate ended at %s, and no newer one was logged", names, at)
	}
	return fmt.Sprintf("%s: the certificate ends at %s, and no newer one was logged", names, at)
}

// answersWithin is the maximum time since the last answer of a log that answers.
const answersWithin = time.Hour

// areComplete reports whether a log was read to its end since the Store was opened, and no log that answers was not. A
// log that is accused does not count, because its head may never be reached.
func (s *statuses) areComplete(now time.Time) bool {
	s.mutex.Lock()
	defer s.mutex.Unlock()
	isAny := false
	for _, log := range s.byLog {
		isAny = isAny || log.wasComplete
		if !log.wasComplete && now.Sub(log.Answered) < answersWithin && !errors.As(log.Fault, new(*watch.AccusedError)) {
			return false
		}
	}
	return isAny
}
