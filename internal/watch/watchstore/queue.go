package watchstore

import (
	"database/sql"
	"fmt"

	"wagtenib/internal/watch/alert"
)

// UseOutputs sets the outputs of this run. A new one gets the alerts that are stored from now on. An output that is not
// among them keeps its position: if it is used again, it gets all alerts that it missed.
func (s *Store) UseOutputs(names []string) error {
	return s.write(func(w *writer) error {
		if _, err := w.exec("update outputs set is_used = 0"); err != nil {
			return err
		}
		for _, name := range names {
			if _, err := w.exec(`insert into outputs select ?, coalesce(max(id), 0), coalesce(max(id), 0), '', 0, 1
				from alerts where true
				on conflict (name) do update set is_used = 1`, name); err != nil {
				return err
			}
		}
		return nil
	})
}

// Next returns the next alerts for an output, at most limit.
func (s *Store) Next(output string, limit int) ([]alert.Alert, error) {
	var done, begun int64
	if err := s.db.QueryRow("select done, begun from outputs where name = ?", output).Scan(&done, &begun); err != nil {
		return nil, s.describe(fmt.Errorf("output %s: %w", output, err))
	}
	alerts, err := s.alerts("where a.id > ? order by a.id limit ?", done, limit)
	for i := range alerts {
		alerts[i].Again = alerts[i].ID <= begun
	}
	return alerts, err
}

// Begin stores that the alerts up to this one are about to be sent.
func (s *Store) Begin(output string, last int64) error {
	return s.write(func(w *writer) error {
		_, err := w.exec("update outputs set begun = max(begun, ?) where name = ?", last, output)
		return err
	})
}

// Done stores that the alerts up to this one were sent.
func (s *Store) Done(output string, last int64) error {
	return s.write(func(w *writer) error {
		_, err := w.exec("update outputs set done = ?, fault = '', failed = 0 where name = ?", last, output)
		return err
	})
}

// Failed stores why an output failed, and that no alert after this one was tried.
func (s *Store) Failed(output string, last int64, fault error) error {
	return s.write(func(w *writer) error {
		_, err := w.exec("update outputs set begun = max(done, ?), fault = ?, failed = ? where name = ?",
			last, fault.Error(), s.options.Now().UnixMilli(), output)
		return err
	})
}

// Output holds the state of an output.
type Output struct {
	Name    string
	Waiting int64  // the number of alerts that were not sent yet
	Fault   string // why the last sending failed; empty if it did not
}

// Outputs returns the outputs of the last run, in the order of their names.
func (s *Store) Outputs() ([]Output, error) {
	var found []Output
	err := s.each("select name, (select count(*) from alerts where id > done), fault from outputs where is_used order "+
		"by name", nil, func(rows *sql.Rows) error {
		var one Output
		if err := rows.Scan(&one.Name, &one.Waiting, &one.Fault); err != nil {
			return err
		}
		found = append(found, one)
		return nil
	})
	return found, err
}

// each calls do for each row of a query.
func (s *Store) each(query string, values []any, do func(*sql.Rows) error) error {
	rows, err := s.db.Query(query, values...)
	if err := eachRow(rows, err, do); err != nil {
		return s.describe(err)
	}
	return nil
}

// eachRow calls do for each row of a query's answer, and closes it. If the query failed, it returns that error.
func eachRow(rows *sql.Rows, err error, do func(*sql.Rows) error) error {
	if err != nil {
		return err
	}
	defer rows.Close()
	for rows.Next() {
		if err := do(rows); err != nil {
			return err
		}
	}
	return rows.Err()
}

// alertRow holds a row of the table of alerts, with the name and URL of its log.
type alertRow struct {
	alert              alert.Alert
	issuance, evidence sql.NullInt64
	name, address      sql.NullString
	text               string
}

// alerts returns the alerts that satisfy a condition, with their certificates and logs.
func (s *Store) alerts(condition string, values ...any) ([]alert.Alert, error) {
	var rows []alertRow
	var issuances []int64
	err := s.each(`select a.id, a.kind, a.time, a.issuance, a.evidence, l.name, l.url, a.text from alerts a
		left join logs l on l.id = a.log `+condition, values, func(found *sql.Rows) error {
		var one alertRow
		var at int64
		err := found.Scan(&one.alert.ID, &one.alert.Kind, &at, &one.issuance, &one.evidence, &one.name,
			&one.address, &one.text)
		one.alert.Time = timeOf(at)
		rows = append(rows, one)
		if one.issuance.Valid {
			issuances = append(issuances, one.issuance.Int64)
		}
		return err
	})
	if err != nil {
		return nil, err
	}
	certificates, err := s.certificates(issuances)
	if err != nil {
		return nil, err
	}
	alerts := make([]alert.Alert, len(rows))
	for i, one := range rows {
		alerts[i] = one.alert
		if one.issuance.Valid {
			alerts[i].Certificate, alerts[i].Text = certificates[one.issuance.Int64], alert.Safe(one.text)
		} else if alerts[i].Log, err = s.logOf(one); err != nil {
			return nil, err
		}
	}
	return alerts, nil
}

// logOf returns what an alert says about a log or about the log list.
func (s *Store) logOf(row alertRow) (*alert.Log, error) {
	log := &alert.Log{Name: alert.Safe(row.name.String), URL: alert.Safe(row.address.String), Verdict: "silent",
		Text: alert.Safe(row.text)}
	if !row.name.Valid {
		log.Name = "the log list"
	}
	if !row.evidence.Valid {
		return log, nil
	}
	id := row.evidence.Int64
	if err := s.db.QueryRow("select verdict, text from evidence where id = ?", id).Scan(&log.Verdict,
		&log.Text); err != nil {
		return nil, s.describe(err)
	}
	log.Verdict, log.Text = alert.Safe(log.Verdict), alert.Safe(log.Text)
	log.Kept = fmt.Sprintf("ctwatch evidence %d NEW-FOLDER --folder %s writes its files", id, s.folder())
	return log, nil
}
