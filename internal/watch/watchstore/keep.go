package watchstore

import (
	"database/sql"
	"encoding/json"
	"errors"
	"fmt"
	"time"

	"wagtenib/internal/watch"
	"wagtenib/internal/watch/alert"
)

// maxHeads is the maximum number of accepted heads that are stored of a log. The oldest are deleted.
const maxHeads = 1000

// waitingText is the text of the waiting tree in JSON, with what belongs to the state of a log and has no column. The
// text of an earlier ctwatch has only the head.
type waitingText struct {
	watch.Tree
	Withheld time.Time
	Unplaced []watch.Unplaced
}

// Load returns the stored state of a log. It is the zero State if there is none.
func (s *Store) Load(id watch.LogID) (watch.State, error) {
	var state watch.State
	var text waitingText
	var accepted, waiting string
	var read, start int64
	row := s.db.QueryRow("select monitor, accepted, waiting, read, start from states where log = ?", id[:])
	err := row.Scan(&state.Monitor, &accepted, &waiting, &read, &start)
	if errors.Is(err, sql.ErrNoRows) {
		return watch.State{}, nil
	}
	if err != nil {
		return watch.State{}, s.describe(err)
	}
	state.Read, state.Start = uint64(read), uint64(start)
	if err := errors.Join(json.Unmarshal([]byte(accepted), &state.Accepted), json.Unmarshal([]byte(waiting),
		&text)); err != nil {
		return watch.State{}, s.describe(fmt.Errorf("%w: the state of log %x: %w", ErrDamaged, id, err))
	}
	state.Waiting, state.Withheld, state.Unplaced = text.Tree, text.Withheld, text.Unplaced
	return state, nil
}

// Keep searches the entries, and stores what it finds and the next state in one transaction. If it returns an error,
// for example because the disk is full, it has stored nothing.
func (s *Store) Keep(log watch.Log, next watch.State, entries []watch.Entry) error {
	found, err := s.search(entries)
	if err != nil {
		return err
	}
	return s.write(func(w *writer) error {
		if err := s.keepState(w, log, next); err != nil {
			return err
		}
		for i := range found {
			if err := s.keepFound(w, log, &found[i]); err != nil {
				return err
			}
		}
		return nil
	})
}

// maxAccusations is the maximum number of pieces of evidence against one log with one verdict that nobody has looked
// at. A dishonest log must not fill the disk of its monitor.
const maxAccusations = 16

// Accuse stores evidence against a log together with the next state, and an alert. After a restart, a follower finds
// the same evidence again. Accuse then stores only the state.
func (s *Store) Accuse(log watch.Log, next watch.State, evidence watch.Evidence) error {
	return s.write(func(w *writer) error {
		if err := s.keepState(w, log, next); err != nil {
			return err
		}
		if found, err := isKnown(w, log, evidence); err != nil || found {
			return err
		}
		if _, err := w.exec("insert into evidence (log, time, verdict, text) values (?, ?, ?, ?)",
			log.ID[:], evidence.Time.UnixMilli(), evidence.Verdict, evidence.Text); err != nil {
			return err
		}
		id, _, err := w.number("select last_insert_rowid()")
		if err != nil {
			return err
		}
		for name, content := range evidence.Files {
			if content == nil {
				content = []byte{}
			}
			if _, err := w.exec("insert into evidence_files values (?, ?, ?)", id, name, content); err != nil {
				return err
			}
		}
		kind := alert.Evidence
		if evidence.Verdict == watch.VerdictNotProved {
			kind = alert.Unproved
		}
		return s.addAlert(w, kind, nil, id, log.ID[:], "")
	})
}

// isKnown reports whether the store has this evidence, or already has the maximum number with its verdict.
func isKnown(w *writer, log watch.Log, evidence watch.Evidence) (bool, error) {
	unseen, _, err := w.number("select count(*) from evidence where log = ? and verdict = ? and not is_seen", log.ID[:],
		evidence.Verdict)
	if err != nil || unseen >= maxAccusations {
		return err == nil, err
	}
	known := map[int64]*watch.Evidence{}
	rows, err := w.tx.Query(`select e.id, f.name, f.content from evidence e join evidence_files f on f.evidence = e.id
		where e.log = ? and e.verdict = ?`, log.ID[:], evidence.Verdict)
	err = eachRow(rows, err, func(rows *sql.Rows) error {
		var id int64
		var name string
		var content []byte
		if err := rows.Scan(&id, &name, &content); err != nil {
			return err
		}
		if known[id] == nil {
			known[id] = &watch.Evidence{Verdict: evidence.Verdict, Files: map[string][]byte{}}
		}
		known[id].Files[name] = content
		return nil
	})
	for _, one := range known {
		if one.Key() == evidence.Key() {
			return true, err
		}
	}
	return false, err
}

// keepState stores a log, its state and its newest accepted head.
func (s *Store) keepState(w *writer, log watch.Log, next watch.State) error {
	if err := s.keepLog(w, log); err != nil {
		return err
	}
	accepted, err := json.Marshal(next.Accepted)
	if err != nil {
		return err
	}
	waiting, err := json.Marshal(waitingText{next.Waiting, next.Withheld, next.Unplaced})
	if err != nil {
		return err
	}
	if _, err := w.exec(`insert into states values (?, ?, ?, ?, ?, ?) on conflict (log) do update set monitor =
		excluded.monitor,
		accepted = excluded.accepted, waiting = excluded.waiting, read = excluded.read, start = excluded.start`,
		log.ID[:], next.Monitor, string(accepted), string(waiting), int64(next.Read), int64(next.Start)); err != nil {
		return err
	}
	head := next.Accepted
	if head.Signed == nil {
		return nil
	}
	added, err := w.exec("insert or ignore into heads values (?, ?, ?, ?, ?)",
		log.ID[:], int64(head.TreeSize), int64(head.Timestamp), head.Root[:], head.Signed)
	if err != nil || added == 0 {
		return err
	}
	_, err = w.exec(`delete from heads where log = ?1 and timestamp <=
		(select timestamp from heads where log = ?1 order by timestamp desc limit 1 offset ?2)`, log.ID[:], maxHeads)
	return err
}

func (s *Store) keepLog(w *writer, log watch.Log) error {
	key := log.PublicKey
	if key == nil {
		key = []byte{}
	}
	_, err := w.exec(`insert into logs values (?, ?, ?, ?, ?, ?, ?, ?) on conflict (id) do update set name =
		excluded.name,
		origin = excluded.origin, url = excluded.url, public_key = excluded.public_key,
		max_merge_delay = excluded.max_merge_delay, state = excluded.state`,
		log.ID[:], log.Name, log.Origin, log.URL, key, log.MaxMergeDelay.Milliseconds(), log.State,
		s.options.Now().UnixMilli())
	return err
}

// addAlert stores an alert for all outputs.
func (s *Store) addAlert(w *writer, kind alert.Kind, issuance, evidence any, log []byte, text string) error {
	_, err := w.exec("insert into alerts (kind, time, issuance, evidence, log, text) values (?, ?, ?, ?, ?, ?)",
		string(kind), s.options.Now().UnixMilli(), issuance, evidence, log, text)
	w.hasAlert = w.hasAlert || err == nil
	return err
}

// timeOf returns the time of a number of the store. Zero is the zero time.
func timeOf(milliseconds int64) time.Time {
	if milliseconds == 0 {
		return time.Time{}
	}
	return time.UnixMilli(milliseconds).UTC()
}

// milliseconds returns the number that is stored for a time: milliseconds since 1970, and 0 for the zero time.
func milliseconds(at time.Time) int64 {
	if at.IsZero() {
		return 0
	}
	return at.UnixMilli()
}
