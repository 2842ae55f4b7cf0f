package watchstore

import (
	"crypto/sha256"
	"encoding/json"
	"slices"
	"strings"

	"wagtenib/bindings/go/wagtenib"
	"wagtenib/internal/watch"
	"wagtenib/internal/watch/alert"
	"wagtenib/internal/watch/namesearch"
)

// Expected holds the keys and issuers that an owner expects. A certificate with one of these keys, or of one of these
// issuers, causes no alert. It is still stored.
type Expected struct {
	Keys    []string // SHA-256 hashes of SubjectPublicKeyInfos, in hexadecimal digits
	Issuers []string // organizations, common names, or whole distinguished names of issuers
}

// includes reports whether a certificate has an expected key or issuer.
func (e Expected) includes(details namesearch.Details) bool {
	if details.KeySHA256 != "" && slices.Contains(e.Keys, details.KeySHA256) {
		return true
	}
	for _, issuer := range e.Issuers {
		if issuer == details.Issuer || slices.Contains(details.IssuerNames, issuer) {
			return true
		}
	}
	return false
}

// found is an entry that must be stored.
type found struct {
	entry    *watch.Entry
	issuance [32]byte
	result   namesearch.Result
	details  namesearch.Details
	der      []byte // the certificate or precertificate, or the leaf if it cannot be decoded
	tbs      []byte // the TBSCertificate of a precertificate, from which the names are read; nil for a certificate
}

// search returns the entries that must be stored: those with a watched name, and those that cannot be read.
func (s *Store) search(entries []watch.Entry) ([]found, error) {
	var all []found
	for i := range entries {
		entry := &entries[i]
		if entry.Fault != nil {
			result := namesearch.Result{Fault: entry.Fault}
			all = append(all, found{entry: entry, issuance: sha256.Sum256(entry.Leaf), result: result, der: entry.Leaf})
			continue
		}
		result, err := s.options.Searcher.Search(entry.Type, entry.Certificate)
		if err != nil {
			return nil, err
		}
		if len(result.Matches) > 0 || result.Fault != nil {
			all = append(all, foundIn(entry, result))
		}
	}
	return all, nil
}

func foundIn(entry *watch.Entry, result namesearch.Result) found {
	one := found{entry: entry, result: result, der: entry.Certificate}
	one.issuance = namesearch.Issuance(entry.Type, entry.Certificate)
	one.details = namesearch.ReadDetails(entry.Type, entry.Certificate)
	if entry.Type == wagtenib.PrecertEntry {
		one.tbs = entry.Certificate
		if entry.Precertificate != nil {
			one.der = entry.Precertificate
		}
	}
	return one
}

// keepFound stores an entry, and an alert if its issuance must have one and has none yet.
func (s *Store) keepFound(w *writer, log watch.Log, one *found) error {
	issuance, err := s.keepIssuance(w, one)
	if err != nil {
		return err
	}
	certificate, err := keepCertificate(w, one, issuance)
	if err != nil {
		return err
	}
	if _, err := w.exec("insert or ignore into sightings values (?, ?, ?, ?, ?, ?)",
		log.ID[:], int64(one.entry.Index), issuance, certificate, int64(one.entry.Timestamp),
		int64(one.entry.Type)); err != nil {
		return err
	}
	if err := keepMatches(w, issuance, one.result, false); err != nil {
		return err
	}
	return s.addIssuanceAlert(w, issuance, one.result)
}

// addIssuanceAlert stores the alert about an issuance, if it must have one and has none yet.
func (s *Store) addIssuanceAlert(w *writer, issuance int64, result namesearch.Result) error {
	kind := alert.Found
	switch {
	case result.Fault != nil:
		kind = alert.Unread
		if s.options.Unread == UnreadNone || s.options.Unread == UnreadMentioned && len(result.Matches) == 0 {
			return nil
		}
	case len(result.Matches) == 0:
		return nil
	}
	_, exists, err := w.number(`select 1 from issuances i where i.id = ?1
		and (i.is_expected or exists (select 1 from alerts a where a.issuance = i.id))`, issuance)
	if err != nil || exists {
		return err
	}
	return s.addAlert(w, kind, issuance, nil, nil, "")
}

// keepIssuance stores an issuance if it is new, and returns its number.
func (s *Store) keepIssuance(w *writer, one *found) (int64, error) {
	id, exists, err := w.number("select id from issuances where tbs_sha256 = ?", one.issuance[:])
	if err != nil || exists {
		return id, err
	}
	fault := ""
	if one.result.Fault != nil {
		fault = one.result.Fault.Error()
	}
	details := one.details
	// A certificate whose names cannot be read is never expected: nobody knows its purpose.
	once, repeated := namesearch.Once(one.result.Names)
	isExpected := fault == "" && s.options.Expected.includes(details)
	if _, err := w.exec(`insert into issuances (tbs_sha256, found, subject, issuer, serial_number, not_before,
		not_after, key_sha256,
		name_count, fault, is_expected) values (?, ?, ?, ?, ?, ?, ?, ?, ?, ?, ?)`,
		one.issuance[:], s.options.Now().UnixMilli(), details.Subject, details.Issuer, details.SerialNumber,
		milliseconds(details.NotBefore),
		milliseconds(details.NotAfter), details.KeySHA256, len(once), fault, isExpected); err != nil {
		return 0, err
	}
	if id, _, err = w.number("select last_insert_rowid()"); err != nil {
		return 0, err
	}
	// The names that repeat the text of another one come last. Queries find them, but alerts do not show them.
	for position, name := range append(once, repeated...) {
		text := namesearch.Text(name)
		if _, err := w.exec("insert into names values (?, ?, ?, ?, ?)", id, position, int64(name.Kind), text,
			hostKey(namesearch.Host(name))); err != nil {
			return 0, err
		}
	}
	return id, nil
}

func keepCertificate(w *writer, one *found, issuance int64) (int64, error) {
	digest := sha256.Sum256(one.der)
	if _, err := w.exec("insert or ignore into certificates (sha256, issuance, type, tbs, der) values (?, ?, ?, ?, ?)",
		digest[:], issuance, int64(one.entry.Type), one.tbs, one.der); err != nil {
		return 0, err
	}
	id, _, err := w.number("select id from certificates where sha256 = ? and issuance = ?", digest[:], issuance)
	return id, err
}

func keepMatches(w *writer, issuance int64, result namesearch.Result, isFromStore bool) error {
	for _, match := range result.Matches {
		hosts, err := json.Marshal(match.Name.Hosts(result.Names, alert.MaxNames))
		if err != nil {
			return err
		}
		if _, err := w.exec("insert or ignore into matches values (?, ?, ?, ?, ?)",
			issuance, match.Name.String(), string(match.Place), string(hosts), isFromStore); err != nil {
			return err
		}
	}
	return nil
}

// hostKey returns a host with its labels in reverse order: the key of a host below another one begins with that one's
// key and a dot.
func hostKey(host string) string {
	labels := strings.Split(host, ".")
	slices.Reverse(labels)
	return strings.Join(labels, ".")
}
