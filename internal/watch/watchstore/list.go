package watchstore

import (
	"database/sql"
	"time"

	"wagtenib/internal/watch/alert"
)

// listTable creates the table of the followed log list, which has at most one row. A store of an earlier ctwatch gets
// the table when it is opened.
const listTable = `create table if not exists lists (
	place text not null, key blob not null, content blob, read integer not null, fault text not null,
	primary key (place, key)
) without rowid`

// List holds the stored state of the followed log list.
type List struct {
	Content []byte    // the list that was last read, as received; nil if none was read
	Read    time.Time // when it was last read; zero if it never was
	Fault   string    // why the last reading failed; empty if it did not
}

// UseList sets the log list that is followed from now on, and the key that must have signed it. It removes another
// list, or the list with another key, from the store. An empty place means that no list is followed.
func (s *Store) UseList(place string, key []byte) error {
	if key == nil {
		key = []byte{}
	}
	return s.write(func(w *writer) error {
		if _, err := w.exec("delete from lists where place <> ? or key <> ?", place, key); err != nil || place == "" {
			return err
		}
		_, err := w.exec("insert or ignore into lists values (?, ?, null, 0, '')", place, key)
		return err
	})
}

// KeepList stores the content of the followed list, which was read just now.
func (s *Store) KeepList(content []byte) error {
	return s.write(func(w *writer) error {
		_, err := w.exec("update lists set content = ?, read = ?, fault = ''", content, s.options.Now().UnixMilli())
		return err
	})
}

// ReportList stores why a reading of the followed list failed.
func (s *Store) ReportList(fault error) error {
	return s.write(func(w *writer) error {
		_, err := w.exec("update lists set fault = ?", fault.Error())
		return err
	})
}

// List returns the stored state of the followed list. It is the zero List if no list is followed.
func (s *Store) List() (List, error) {
	var list List
	var tables int
	if err := s.db.QueryRow("select count(*) from sqlite_master where name = 'lists'").Scan(&tables); err != nil {
		return list, s.describe(err)
	}
	if tables == 0 {
		return list, nil
	}
	err := s.each("select content, read, fault from lists", nil, func(rows *sql.Rows) error {
		var read int64
		err := rows.Scan(&list.Content, &read, &list.Fault)
		list.Read, list.Fault = timeOf(read), alert.Safe(list.Fault)
		return err
	})
	return list, err
}
