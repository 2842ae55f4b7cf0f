package watchstore_test

import (
	"bytes"
	"encoding/json"
	"errors"
	"slices"
	"strings"
	"testing"
	"unicode"
	"unicode/utf8"

	"wagtenib/bindings/go/wagtenib"
	"wagtenib/internal/testkit"
	"wagtenib/internal/watch"
	"wagtenib/internal/watch/alert"
	"wagtenib/internal/watch/watchstore"
)

// FuzzKeep stores an entry with any bytes. The store does not fail, returns the same certificate byte for byte, and
// every alert is safe: a line and the value of a variable contain only printable characters.
func FuzzKeep(f *testing.F) {
	authority := testkit.NewAuthority("Test CA 1")
	for _, one := range []testkit.Issued{authority.Issue("shop.example.org"), authority.Issue("a\r\n.example.org"),
		authority.IssueNames(testkit.CommonName(30, []byte("\x00a\x00.")),
			testkit.Name{Tag: testkit.DNS, Bytes: []byte("\x1b[2J.example.org")})} {
		f.Add(true, false, "a log", one.TBS, one.Precertificate.Raw)
		f.Add(false, false, "a log\x1b", one.Certificate.Raw, []byte(nil))
		f.Add(false, true, "", one.Certificate.Raw[:100], []byte(nil))
	}
	store := open(f, f.TempDir(), watchstore.Options{Searcher: everything()})
	must(f, store.UseOutputs([]string{"test"}))
	index := uint64(0)
	f.Fuzz(func(t *testing.T, isPrecertificate, isFaulty bool, name string, certificate, precertificate []byte) {
		index++
		entry := watch.Entry{Index: index, Timestamp: index, Type: wagtenib.X509Entry, Certificate: certificate,
			Leaf: certificate}
		kept := certificate
		if isFaulty {
			entry.Fault = errors.New(name)
		} else if isPrecertificate {
			entry.Type, entry.Precertificate = wagtenib.PrecertEntry, precertificate
			if precertificate != nil {
				kept = precertificate
			}
		}
		log := logOf(0)
		log.Name = name
		must(t, store.Keep(log, watch.State{Read: index}, []watch.Entry{entry}))
		found, err := store.Find(watchstore.Query{Limit: 1})
		must(t, err)
		if len(found) == 0 {
			t.Fatal("nothing was stored")
		}
		if der, err := store.Certificate(found[0].SHA256); err != nil || len(found[0].Sightings) == 1 &&
			found[0].Sightings[0].Index == index && !bytes.Equal(der, kept) {
			t.Fatalf("another certificate was stored: %v", err)
		}
		alerts, err := store.Next("test", 10)
		must(t, err)
		for _, one := range alerts {
			checkAlert(t, one)
			must(t, store.Done("test", one.ID))
		}
	})
}

// checkAlert checks that no text of an alert can do harm on a terminal, in a mail or in a variable of a command.
func checkAlert(t *testing.T, one alert.Alert) {
	t.Helper()
	texts := append(alert.Environment(one), alert.Line(one), alert.Subject([]alert.Alert{one}))
	texts = append(texts, strings.Split(alert.Paragraphs(one), "\n")...)
	if slices.ContainsFunc(texts, func(text string) bool {
		return !utf8.ValidString(text) || strings.ContainsFunc(text, func(c rune) bool { return !unicode.IsPrint(c) })
	}) {
		t.Errorf("a text has characters that cannot be printed: %q", texts)
	}
	if _, err := json.Marshal(one); err != nil {
		t.Error(err)
	}
}
