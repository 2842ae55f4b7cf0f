package watchstore

import (
	"database/sql"
	"encoding/hex"
	"encoding/json"
	"errors"
	"fmt"
	"os"
	"path/filepath"
	"regexp"

	"wagtenib/bindings/go/wagtenib"
	"wagtenib/internal/watch/alert"
)

// folder returns the folder of the store, as it is written in messages.
func (s *Store) folder() string { return alert.Safe(filepath.Dir(s.path)) }

// simplePath matches a path that needs no quotes in a shell.
var simplePath = regexp.MustCompile(`^[A-Za-z0-9_./-]+$`)

// program returns the path by which this program was called, if it is simple, and otherwise its name.
func program() string {
	if len(os.Args) > 0 && simplePath.MatchString(os.Args[0]) {
		return os.Args[0]
	}
	return "ctwatch"
}

// amongThem is the part of a query that requires a number to be in the query's first value, a list of numbers in JSON.
const amongThem = " in (select value from json_each(?1)) "

// certificates returns issuances by their numbers, as alerts and queries show them. Each text is safe to show. Four
// queries read all of them, because one query for each issuance would take most of the time of many alerts.
func (s *Store) certificates(ids []int64) (map[int64]*alert.Certificate, error) {
	found := make(map[int64]*alert.Certificate, len(ids))
	if len(ids) == 0 {
		return found, nil
	}
	list, err := json.Marshal(ids)
	if err != nil {
		return nil, err
	}
	if err := s.readFields(string(list), found); err != nil {
		return nil, err
	}
	for _, id := range ids {
		if found[id] == nil {
			return nil, s.describe(fmt.Errorf("%w: it has no issuance %d", ErrDamaged, id))
		}
	}
	return found, errors.Join(s.readNames(string(list), found), s.readMatches(string(list), found),
		s.readSightings(string(list), found))
}

// readFields reads the row of each issuance of a list.
func (s *Store) readFields(list string, found map[int64]*alert.Certificate) error {
	return s.each(`select id, tbs_sha256, subject, issuer, serial_number, not_before, not_after, key_sha256,
		name_count, fault, (select sha256 from certificates where issuance = i.id order by id limit 1)
		from issuances i where id`+amongThem, []any{list}, func(rows *sql.Rows) error {
		c := &alert.Certificate{Matches: []alert.Match{}, Names: []string{}, Sightings: []alert.Sighting{}}
		var tbs, digest []byte
		var id, notBefore, notAfter int64
		if err := rows.Scan(&id, &tbs, &c.Fields.Subject, &c.Fields.Issuer, &c.Fields.SerialNumber, &notBefore,
			&notAfter, &c.Fields.KeySHA256, &c.NameCount, &c.Fault, &digest); err != nil {
			return err
		}
		c.Fields.Subject, c.Fields.Issuer = alert.Safe(c.Fields.Subject), alert.Safe(c.Fields.Issuer)
		c.Fields.SerialNumber, c.Fault = alert.Safe(c.Fields.SerialNumber), alert.Safe(c.Fault)
		c.Fields.NotBefore, c.Fields.NotAfter = timeOf(notBefore), timeOf(notAfter)
		c.TBSSHA256, c.SHA256 = hex.EncodeToString(tbs), hex.EncodeToString(digest)
		c.Kept = program() + " certificate " + c.SHA256 + " --folder " + s.folder() + " prints it"
		found[id] = c
		return nil
	})
}

// readNames reads the first names of each issuance of a list. Positions count from 0. The names from position
// name_count on repeat the text of an earlier one, and are left out.
func (s *Store) readNames(list string, found map[int64]*alert.Certificate) error {
	return s.each("select issuance, name from names join issuances on id = issuance where issuance"+amongThem+
		"and position < min(?2, name_count) order by issuance, position", []any{list, alert.MaxNames},
		func(rows *sql.Rows) error {
			var id int64
			var name string
			if err := rows.Scan(&id, &name); err != nil {
				return err
			}
			found[id].Names = append(found[id].Names, alert.Safe(name))
			return nil
		})
}

// readMatches reads the watched names that match each issuance of a list.
func (s *Store) readMatches(list string, found map[int64]*alert.Certificate) error {
	return s.each("select issuance, name, place, hosts, is_from_store from matches where issuance"+amongThem+
		"order by issuance, name", []any{list}, func(rows *sql.Rows) error {
		var id int64
		var one alert.Match
		var hosts string
		var isFromStore bool
		if err := rows.Scan(&id, &one.Name, &one.Place, &hosts, &isFromStore); err != nil {
			return err
		}
		if err := json.Unmarshal([]byte(hosts), &one.Hosts); err != nil {
			return err
		}
		one.Hosts = alert.SafeAll(one.Hosts, alert.MaxNames)
		one.Proved = isProved(one.Place)
		c := found[id]
		c.IsFromStore = c.IsFromStore || isFromStore
		c.Matches = append(c.Matches, one)
		return nil
	})
}

// readSightings reads the earliest log entries of each issuance of a list.
func (s *Store) readSightings(list string, found map[int64]*alert.Certificate) error {
	return s.each(`select issuance, name, url, leaf_index, timestamp, type from (
		select g.issuance, l.name, l.url, g.leaf_index, g.timestamp, g.type, row_number() over (partition by g.issuance
			order by g.timestamp, l.name, g.leaf_index) as position
		from sightings g join logs l on l.id = g.log where g.issuance`+amongThem+`)
		where position <= ?2 order by issuance, position`, []any{list, alert.MaxSightings},
		func(rows *sql.Rows) error {
			var one alert.Sighting
			var id, index, timestamp, entryType int64
			if err := rows.Scan(&id, &one.Log, &one.URL, &index, &timestamp, &entryType); err != nil {
				return err
			}
			one.Log, one.URL = alert.Safe(one.Log), alert.Safe(one.URL)
			one.Index, one.Timestamp, one.Type = uint64(index), timeOf(timestamp), typeText(wagtenib.EntryType(entryType))
			found[id].Sightings = append(found[id].Sightings, one)
			return nil
		})
}

func typeText(entryType wagtenib.EntryType) string {
	if entryType == wagtenib.PrecertEntry {
		return "precertificate"
	}
	return "certificate"
}
