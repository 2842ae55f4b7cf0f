package watchstore

import (
	"crypto/sha256"
	"database/sql"
	"encoding/hex"
	"errors"
	"fmt"
	"strings"
	"time"

	"wagtenib/bindings/go/wagtenib"
	"wagtenib/internal/watch"
	"wagtenib/internal/watch/alert"
	"wagtenib/internal/watch/namesearch"
)

// ErrAbsent means that the store does not have a certificate or evidence.
var ErrAbsent = errors.New("the store does not have it")

// Query selects issuances. All conditions must hold.
type Query struct {
	Name    *namesearch.Name // issuances that have this name, or cover it; nil for all
	ValidAt time.Time        // issuances that are valid at this time; zero for all
	Before  int64            // issuances that were stored before the one with this number; 0 for all
	Limit   int              // the maximum number of issuances
}

// Issuance is an issuance that was found. At is the time when it was stored.
type Issuance struct {
	ID int64
	At time.Time
	*alert.Certificate
}

// Find returns the issuances that a query selects, the newest first.
func (s *Store) Find(q Query) ([]Issuance, error) {
	conditions, values := []string{"1"}, []any{}
	if q.Before > 0 {
		conditions, values = append(conditions, "i.id < ?"), append(values, q.Before)
	}
	if !q.ValidAt.IsZero() {
		at := q.ValidAt.UnixMilli()
		conditions, values = append(conditions, "i.not_before <= ? and i.not_after >= ?"), append(values, at, at)
	}
	if q.Name != nil {
		condition, more := nameCondition(*q.Name)
		conditions, values = append(conditions, condition), append(values, more...)
	}
	values = append(values, q.Limit)
	var found []Issuance
	var ids []int64
	err := s.each("select i.id, i.found from issuances i where "+strings.Join(conditions,
		" and ")+" order by i.id desc limit ?", values, func(rows *sql.Rows) error {
		var one Issuance
		var at int64
		err := rows.Scan(&one.ID, &at)
		one.At = timeOf(at)
		found, ids = append(found, one), append(ids, one.ID)
		return err
	})
	if err != nil {
		return nil, err
	}
	certificates, err := s.certificates(ids)
	for i := range found {
		found[i].Certificate = certificates[found[i].ID]
	}
	return found, err
}

// nameCondition returns the SQL condition for issuances with a name, and its values. An issuance has the name itself, a
// wildcard over it, a name below it (unless the name is exact), or a stored match for it.
func nameCondition(name namesearch.Name) (string, []any) {
	text, isExact := strings.CutPrefix(name.String(), "=")
	key := hostKey(text)
	labels := strings.Split(key, ".")
	wildcard := strings.Join(append(labels[:len(labels)-1:len(labels)-1], "*"), ".")
	hosts, values := "n.host in (?, ?)", []any{key, wildcard}
	if !isExact {
		// The key of a name below this one begins with this key and a dot. The slash is the next character after the dot.
		hosts += " or n.host > ? and n.host < ?"
		values = append(values, key+".", key+"/")
	}
	return "(exists (select 1 from names n where n.issuance = i.id and (" + hosts +
			")) or exists (select 1 from matches m where m.issuance = i.id and m.name = ?))",
		append(values, name.String())
}

// Certificate returns the bytes of the certificate or precertificate with this SHA-256 hash, in DER. If the leaf could
// not be decoded, they are the bytes of the leaf.
func (s *Store) Certificate(hash string) ([]byte, error) {
	digest, err := hex.DecodeString(hash)
	if err != nil || len(digest) != sha256.Size {
		return nil, fmt.Errorf("%.100q is no SHA-256 hash (write 64 hexadecimal digits)", hash)
	}
	var der []byte
	err = s.db.QueryRow("select der from certificates where sha256 = ?", digest).Scan(&der)
	if errors.Is(err, sql.ErrNoRows) {
		return nil, fmt.Errorf("certificate %s: %w (ctwatch query lists what it has)", hash, ErrAbsent)
	}
	if err == nil && sha256.Sum256(der) != [sha256.Size]byte(digest) {
		err = fmt.Errorf("%w: the bytes of certificate %s have another hash", ErrDamaged, hash)
	}
	if err != nil {
		return nil, s.describe(err)
	}
	return der, nil
}

// Evidence returns evidence against a log by its number, and the name of the log.
func (s *Store) Evidence(id int64) (watch.Evidence, string, error) {
	evidence := watch.Evidence{Files: map[string][]byte{}}
	var at int64
	var log string
	err := s.db.QueryRow("select e.time, e.verdict, e.text, l.name from evidence e join logs l on l.id = e.log where "+
		"e.id = ?", id).
		Scan(&at, &evidence.Verdict, &evidence.Text, &log)
	if errors.Is(err, sql.ErrNoRows) {
		return evidence, "", fmt.Errorf("evidence %d: %w (ctwatch health lists what it has)", id, ErrAbsent)
	}
	if err != nil {
		return evidence, "", s.describe(err)
	}
	evidence.Time = timeOf(at)
	err = s.each("select name, content from evidence_files where evidence = ?", []any{id}, func(rows *sql.Rows) error {
		var name string
		var content []byte
		err := rows.Scan(&name, &content)
		evidence.Files[name] = content
		return err
	})
	return evidence, log, err
}

// MarkSeen stores that somebody has looked at evidence. It then no longer counts as new evidence.
func (s *Store) MarkSeen(id int64) error {
	return s.write(func(w *writer) error {
		_, err := w.exec("update evidence set is_seen = 1 where id = ?", id)
		return err
	})
}

// Alerts returns the newest alerts, at most limit, the newest first.
func (s *Store) Alerts(limit int) ([]alert.Alert, error) {
	return s.alerts("order by a.id desc limit ?", limit)
}

// Accusations returns the alerts about evidence that nobody has looked at, at most limit, the newest first.
func (s *Store) Accusations(limit int) ([]alert.Alert, error) {
	return s.alerts("where a.evidence in (select id from evidence where not is_seen) order by a.id desc limit ?", limit)
}

// Day holds the number of issuances that were stored on a day.
type Day struct {
	Date  string // as 2026-01-31, in UTC
	Count int64
}

// Timeline returns the number of issuances of each day that has any, at most limit days, the newest first.
func (s *Store) Timeline(limit int) ([]Day, error) {
	var days []Day
	err := s.each("select date(found / 1000, 'unixepoch') as day, count(*) from issuances group by day order by day "+
		"desc limit ?", []any{limit}, func(rows *sql.Rows) error {
		var one Day
		err := rows.Scan(&one.Date, &one.Count)
		days = append(days, one)
		return err
	})
	return days, err
}

// Counts holds the numbers of rows in the store.
type Counts struct {
	Issuances, Unread, Alerts, Evidence int64
	NewEvidence                         int64 // evidence that nobody has looked at
	NewUnproved                         int64 // heads without a proof that nobody has looked at; they are no evidence
}

// Counts returns the numbers of issuances, of issuances with unreadable names, of alerts, of pieces of evidence, and of
// heads without a proof.
func (s *Store) Counts() (Counts, error) {
	var c Counts
	err := s.db.QueryRow(`select (select count(*) from issuances), (select count(*) from issuances where fault != ''),
		(select count(*) from alerts), (select count(*) from evidence where verdict <> ?1),
		(select count(*) from evidence where not is_seen and verdict <> ?1),
		(select count(*) from evidence where not is_seen and verdict = ?1)`, watch.VerdictNotProved).
		Scan(&c.Issuances, &c.Unread, &c.Alerts, &c.Evidence, &c.NewEvidence, &c.NewUnproved)
	if err != nil {
		return c, s.describe(err)
	}
	return c, nil
}

// searchAdded searches the stored certificates for names that were not watched before.
func (s *Store) searchAdded() error {
	names := s.options.Searcher.Names()
	var added []namesearch.Name
	for _, name := range names {
		var known int
		err := s.db.QueryRow("select 1 from watched where name = ?", name.String()).Scan(&known)
		if errors.Is(err, sql.ErrNoRows) {
			added = append(added, name)
		} else if err != nil {
			return err
		}
	}
	if len(added) > 0 {
		if err := s.searchStored(namesearch.NewSearcher(added)); err != nil {
			return err
		}
	}
	return s.write(func(w *writer) error {
		if _, err := w.exec("delete from watched"); err != nil {
			return err
		}
		for _, name := range names {
			if _, err := w.exec("insert or ignore into watched values (?, ?)", name.String(),
				s.options.Now().UnixMilli()); err != nil {
				return err
			}
		}
		return nil
	})
}

// maxSearchBatch is the maximum number of stored certificates that are searched in one transaction.
const maxSearchBatch = 500

// searchStored searches all stored certificates. A kill during the search loses nothing: it begins again at the next
// start.
func (s *Store) searchStored(searcher *namesearch.Searcher) error {
	for last := int64(0); ; {
		type storedCertificate struct {
			id, issuance, entryType int64
			der                     []byte
		}
		var batch []storedCertificate
		err := s.each("select id, issuance, type, coalesce(tbs, der) from certificates where id > ? order by id limit "+
			"?", []any{last, maxSearchBatch}, func(rows *sql.Rows) error {
			var one storedCertificate
			err := rows.Scan(&one.id, &one.issuance, &one.entryType, &one.der)
			batch = append(batch, one)
			return err
		})
		if err != nil || len(batch) == 0 {
			return err
		}
		last = batch[len(batch)-1].id
		if err := s.write(func(w *writer) error {
			for _, one := range batch {
				result, err := searcher.Search(wagtenib.EntryType(one.entryType), one.der)
				if err != nil {
					return err
				}
				if result.Fault != nil {
					continue
				}
				if err := keepMatches(w, one.issuance, result, true); err != nil {
					return err
				}
				if err := s.addIssuanceAlert(w, one.issuance, result); err != nil {
					return err
				}
			}
			return nil
		}); err != nil {
			return err
		}
	}
}

// isProved reports whether the proved library decided that a match has this place.
func isProved(place string) bool { return namesearch.Place(place).IsProved() }

// Heads returns the newest accepted heads of a log, at most limit, the newest first.
func (s *Store) Heads(id watch.LogID, limit int) ([]watch.Head, error) {
	var heads []watch.Head
	err := s.each("select size, timestamp, root, signed from heads where log = ? order by timestamp desc, size desc "+
		"limit ?", []any{id[:], limit}, func(rows *sql.Rows) error {
		var size, timestamp int64
		var root []byte
		var one watch.Head
		err := rows.Scan(&size, &timestamp, &root, &one.Signed)
		one.TreeSize, one.Timestamp = uint64(size), uint64(timestamp)
		copy(one.Root[:], root)
		heads = append(heads, one)
		return err
	})
	return heads, err
}
