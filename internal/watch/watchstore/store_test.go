package watchstore_test

import (
	"crypto/sha256"
	"database/sql"
	"encoding/hex"
	"errors"
	"path/filepath"
	"slices"
	"strings"
	"testing"

	"wagtenib/bindings/go/wagtenib"
	"wagtenib/internal/testkit"
	"wagtenib/internal/watch"
	"wagtenib/internal/watch/alert"
	"wagtenib/internal/watch/namesearch"
	"wagtenib/internal/watch/watchstore"
)

// entriesOf returns the entries of a precertificate and of its certificate, from an index on.
func entriesOf(one testkit.Issued, first uint64) []watch.Entry {
	return []watch.Entry{
		{Index: first, Timestamp: 1_770_000_000_000, Type: wagtenib.PrecertEntry, Certificate: one.TBS,
			Precertificate: one.Precertificate.Raw},
		{Index: first + 1, Timestamp: 1_770_000_001_000, Type: wagtenib.X509Entry, Certificate: one.Certificate.Raw},
	}
}

func must(t testing.TB, err error) {
	t.Helper()
	if err != nil {
		t.Fatal(err)
	}
}

// logOf returns the log with this number.
func logOf(number byte) watch.Log {
	return watch.Log{ID: watch.LogID{number}, Name: "log " + string('a'+rune(number)), URL: "https://log.example"}
}

// searcher returns a searcher for names, and panics if one cannot be parsed.
func searcher(names ...string) *namesearch.Searcher {
	var watched []namesearch.Name
	for _, name := range names {
		one, err := namesearch.ParseName(name)
		if err != nil {
			panic(err)
		}
		watched = append(watched, one)
	}
	return namesearch.NewSearcher(watched)
}

// everything returns a searcher that finds example.org and the names below it, and matches every certificate.
func everything() *namesearch.Searcher {
	watched, err := namesearch.ParseCertspotterList(strings.NewReader(".\n.example.org\n"))
	if err != nil {
		panic(err)
	}
	return namesearch.NewSearcher(watched)
}

// forgetWatched deletes the watched names, their matches and the alerts from a store, which must be closed. It then has
// certificates without a watched name, as the store of an earlier build with the setting keep-all.
func forgetWatched(t testing.TB, folder string) {
	t.Helper()
	db, err := sql.Open("sqlite3", filepath.Join(folder, watchstore.FileName))
	must(t, err)
	_, err = db.Exec("delete from alerts; delete from matches; delete from watched")
	must(t, errors.Join(err, db.Close()))
}

func open(t testing.TB, folder string, options watchstore.Options) *watchstore.Store {
	t.Helper()
	store, err := watchstore.Open(folder, options)
	must(t, err)
	t.Cleanup(func() {
		if err := store.Close(); err != nil {
			t.Error(err)
		}
	})
	return store
}

// TestAlertsOnceForAnIssuance stores a precertificate and its certificate from three logs. There is one alert, which
// has the host name and the same fields as crypto/x509 reads.
func TestAlertsOnceForAnIssuance(t *testing.T) {
	one := testkit.NewAuthority("Test CA 1").Issue("shop.example.org", "www.other.net")
	store := open(t, t.TempDir(), watchstore.Options{Searcher: searcher("example.org")})
	must(t, store.UseOutputs([]string{"test"}))
	for number := byte(0); number < 3; number++ {
		must(t, store.Keep(logOf(number), watch.State{Read: 9}, entriesOf(one, 7)))
	}
	alerts, err := store.Next("test", 10)
	must(t, err)
	if len(alerts) != 1 {
		t.Fatalf("%d alerts, and not 1", len(alerts))
	}
	c := alerts[0].Certificate
	key := sha256.Sum256(one.Certificate.RawSubjectPublicKeyInfo)
	kept := sha256.Sum256(one.Precertificate.Raw)
	if len(c.Matches) != 1 || c.Matches[0].Name != "example.org" || !c.Matches[0].Proved ||
		!slices.Equal(c.Matches[0].Hosts, one.Certificate.DNSNames[:1]) {
		t.Errorf("matches %+v", c.Matches)
	}
	if !slices.Equal(c.Names, one.Certificate.DNSNames) || c.NameCount != len(one.Certificate.DNSNames) {
		t.Errorf("names %q", c.Names)
	}
	if c.Fields.Issuer != one.Certificate.Issuer.ToRDNSequence().String() ||
		c.Fields.SerialNumber != hex.EncodeToString(one.Certificate.SerialNumber.Bytes()) {
		t.Errorf("issuer %q, serial number %q", c.Fields.Issuer, c.Fields.SerialNumber)
	}
	if !c.Fields.NotBefore.Equal(one.Certificate.NotBefore) || !c.Fields.NotAfter.Equal(one.Certificate.NotAfter) {
		t.Errorf("valid %v to %v", c.Fields.NotBefore, c.Fields.NotAfter)
	}
	if c.Fields.KeySHA256 != hex.EncodeToString(key[:]) || c.SHA256 != hex.EncodeToString(kept[:]) {
		t.Errorf("key %s, certificate %s", c.Fields.KeySHA256, c.SHA256)
	}
	if len(c.Sightings) != 6 || c.Sightings[0].Index != 7 || c.Sightings[0].Type != "precertificate" ||
		alerts[0].Kind != alert.Found {
		t.Errorf("sightings %+v", c.Sightings)
	}
	der, err := store.Certificate(c.SHA256)
	if err != nil || !slices.Equal(der, one.Precertificate.Raw) {
		t.Errorf("the certificate is not stored: %v", err)
	}
}

// TestIgnoresOtherNames: a certificate without a watched name causes no alert, and is not stored.
func TestIgnoresOtherNames(t *testing.T) {
	store := open(t, t.TempDir(), watchstore.Options{Searcher: searcher("example.org")})
	must(t, store.UseOutputs([]string{"test"}))
	other := testkit.NewAuthority("Test CA 1").Issue("notexample.org", "example.org.evil.net")
	must(t, store.Keep(logOf(0), watch.State{}, entriesOf(other, 0)))
	counts, err := store.Counts()
	if err != nil || counts.Issuances != 0 || counts.Alerts != 0 {
		t.Errorf("%+v %v", counts, err)
	}
}

// TestKeepsAPrecertificateForEachIssuance: a log gives an entry the precertificate of another entry, because the log
// does not sign it. The store still has the honest entry with this precertificate, and finds a name that is added later
// in it.
func TestKeepsAPrecertificateForEachIssuance(t *testing.T) {
	authority, folder := testkit.NewAuthority("Test CA 1"), t.TempDir()
	first, second := entriesOf(authority.Issue("a.other.net"), 0)[:1], entriesOf(authority.Issue("b.example.org"), 1)[:1]
	first[0].Precertificate = second[0].Precertificate
	store, err := watchstore.Open(folder, watchstore.Options{Searcher: everything()})
	must(t, err)
	must(t, store.UseOutputs([]string{"test"}))
	must(t, store.Keep(logOf(0), watch.State{Read: 1}, first))
	must(t, store.Keep(logOf(1), watch.State{Read: 2}, second))
	found, err := store.Find(watchstore.Query{Limit: 9})
	must(t, err)
	kept := sha256.Sum256(second[0].Precertificate)
	if len(found) != 2 || found[0].SHA256 != hex.EncodeToString(kept[:]) || found[1].SHA256 != found[0].SHA256 {
		t.Errorf("%+v", found)
	}
	must(t, store.Close())
	forgetWatched(t, folder)
	store = open(t, folder, watchstore.Options{Searcher: searcher("example.org")})
	if alerts, err := store.Next("test", 9); err != nil || len(alerts) != 1 ||
		alerts[0].Certificate.Names[0] != "b.example.org" || alerts[0].Certificate.SHA256 != hex.EncodeToString(kept[:]) {
		t.Errorf("%+v %v", alerts, err)
	}
}

// TestReadsManyAlertsAtOnce: each of many alerts that are read together has its own names, matches and entries. Of the
// entries, it has the earliest 20 at most.
func TestReadsManyAlertsAtOnce(t *testing.T) {
	authority := testkit.NewAuthority("Test CA 1")
	store := open(t, t.TempDir(), watchstore.Options{Searcher: searcher("example.org")})
	must(t, store.UseOutputs([]string{"test"}))
	const many = 30
	var hosts []string
	entriesByLog := map[byte][]watch.Entry{} // by the number of a log
	for i := range many {
		host := string('a'+rune(i%26)) + string('a'+rune(i/26)) + ".example.org"
		hosts = append(hosts, host)
		entry := entriesOf(authority.Issue(host, "other.net"), uint64(i))[0]
		for number := range byte(i) {
			entry.Timestamp = 1_000_000 - uint64(number)
			entriesByLog[number] = append(entriesByLog[number], entry)
		}
	}
	for number := range byte(many) {
		must(t, store.Keep(logOf(number), watch.State{}, entriesByLog[number]))
	}
	alerts, err := store.Next("test", many)
	must(t, err)
	if len(alerts) != many-1 {
		t.Fatalf("%d alerts", len(alerts))
	}
	for i, one := range alerts {
		c, host, entries := one.Certificate, hosts[i+1], i+1
		if !slices.Equal(c.Names, []string{host, "other.net"}) || len(c.Matches) != 1 ||
			!slices.Equal(c.Matches[0].Hosts, []string{host}) || len(c.Sightings) != min(entries, alert.MaxSightings) {
			t.Fatalf("alert %d is of %+v", i, c)
		}
		for number, sighting := range c.Sightings {
			if last := byte(entries - 1 - number); sighting.Index != uint64(i+1) || sighting.Log != logOf(last).Name {
				t.Errorf("sighting %d of alert %d is entry %d of %s", number, i, sighting.Index, sighting.Log)
			}
		}
	}
}
