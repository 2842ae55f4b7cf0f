package audit_test

import (
	"bytes"
	"context"
	"crypto/sha256"
	"crypto/x509"
	"crypto/x509/pkix"
	"encoding/asn1"
	"encoding/base64"
	"encoding/binary"
	"encoding/json"
	"encoding/pem"
	"errors"
	"net/http"
	"net/http/httptest"
	"os"
	"path/filepath"
	"testing"
	"time"

	"wagtenib/internal/audit"
	"wagtenib/internal/audit/judge"
	"wagtenib/internal/ct"
	"wagtenib/internal/logclient"
	"wagtenib/internal/testkit"
	"wagtenib/internal/watch"
)

// epoch is the timestamp of the promises, in milliseconds since 1970. day is the maximum merge delay of the logs.
const (
	epoch = 1_800_000_000_000
	day   = 86_400_000
)

// authority is a CA that issues one certificate, with different extensions.
type authority struct {
	*testkit.Authority
	template *x509.Certificate
}

func newAuthority() *authority {
	a := &authority{Authority: testkit.NewAuthority("Test CA")}
	a.template = a.Template(time.UnixMilli(epoch + 90*day))
	return a
}

// issue returns the certificate with these extensions after its others.
func (a *authority) issue(extensions ...pkix.Extension) []byte {
	return a.Sign(a.template, extensions...)
}

// entry returns the log entry of the certificate that issue returns. Its TBSCertificate has no list of timestamps yet.
func (a *authority) entry() testkit.Entry {
	key := a.IssuerKeyHash()
	_, tbs := a.SignPair(a.template)
	return testkit.Entry{Timestamp: epoch, Certificate: tbs, IssuerKeyHash: key[:], Precertificate: []byte("precertificate")}
}

// issueWith returns the certificate with a list of timestamps (RFC 6962, section 3.3).
func (a *authority) issueWith(scts ...[]byte) []byte { return a.issue(testkit.SCTList(scts...)) }

// newLog returns a log with these entries, and a head with this timestamp.
func newLog(t testing.TB, entries []testkit.Entry, timestamp uint64) *testkit.Log {
	t.Helper()
	log := testkit.NewLog("log.example/2027")
	log.Add(entries...)
	log.Publish(log.Size(), timestamp)
	return log
}

// others returns entries with made-up certificates.
func others(count int) (entries []testkit.Entry) {
	for i := range count {
		entries = append(entries, testkit.Entry{Timestamp: epoch, Certificate: []byte{0x30, 2, byte(i >> 8), byte(i)}})
	}
	return entries
}

var kinds = []string{"tiled", "RFC 6962"}

func serve(t testing.TB, log *testkit.Log, kind string) watch.Log {
	t.Helper()
	server := httptest.NewServer(log)
	t.Cleanup(server.Close)
	watched := watch.Log{ID: sha256.Sum256(log.PublicKey()), Name: kind, URL: server.URL, PublicKey: log.PublicKey(),
		MaxMergeDelay: day * time.Millisecond}
	if kind == "tiled" {
		watched.Origin = log.Origin
	}
	return watched
}

// quick holds client options with one attempt, so that a test does not wait for a log that fails. Its clock says epoch.
var quick = quickAt(epoch)

// quickAt returns client options with one attempt and a clock that says this time, in milliseconds.
func quickAt(now int64) logclient.Options {
	return logclient.Options{Limits: logclient.Limits{Attempts: 1}, Clock: clock(now)}
}

// clock is a clock that stands still. Nothing in these tests waits.
type clock int64

func (c clock) Now() time.Time { return time.UnixMilli(int64(c)) }

func (clock) Wait(ctx context.Context, _ time.Duration) error { return ctx.Err() }

// checkEvidence checks that the independent judge confirms evidence, and refuses it without the head.
func checkEvidence(t *testing.T, evidence *watch.Evidence, key []byte) {
	t.Helper()
	if evidence == nil {
		t.Error("there is no evidence")
		return
	}
	folder := t.TempDir()
	for name, content := range evidence.Files {
		if err := os.WriteFile(filepath.Join(folder, name), content, 0o600); err != nil {
			t.Fatal(err)
		}
	}
	if _, err := judge.Evidence(folder, key); err != nil {
		t.Error(err)
	}
	// Without any of its files it shows nothing. Only a broken promise is shown without an audit path too.
	for name, content := range evidence.Files {
		if name == watch.FileAbout || name == watch.FileProof && evidence.Verdict == watch.VerdictPromise {
			continue
		}
		path := filepath.Join(folder, name)
		if err := os.Remove(path); err != nil {
			t.Fatal(err)
		}
		if _, err := judge.Evidence(folder, key); !errors.Is(err, judge.ErrEvidence) {
			t.Errorf("without %s the judge says %v", name, err)
		}
		if err := os.WriteFile(path, content, 0o600); err != nil {
			t.Fatal(err)
		}
	}
}

// The timestamps of a certificate are audited against logs that keep their promise, that may still keep it, and that
// broke it.
func TestAuditsCertificates(t *testing.T) {
	a := newAuthority()
	promised := a.entry()
	before, after := others(300), others(40)
	with := append(append(append([]testkit.Entry{}, before...), promised), after...)
	for _, kind := range kinds {
		for what, test := range map[string]struct {
			entries   []testkit.Entry
			timestamp uint64
			expected  audit.Outcome
			evidence  bool
		}{
			"is there":                  {with, epoch + 1000, audit.Included, false},
			"is there late":             {with, epoch + 3*day, audit.Included, false},
			"may come":                  {before, epoch + day, audit.NotYet, false},
			"has not come":              {before, epoch + day + 1, audit.Never, true},
			"has another in its place":  {append(others(301), after...), epoch + 2*day, audit.Never, true},
			"has another for the while": {append(others(301), after...), epoch + 1, audit.Never, true},
		} {
			if kind == "RFC 6962" && what == "has another for the while" {
				test.expected, test.evidence = audit.NotYet, false // Only a tiled log fixes the leaf's index before it adds it.
			}
			t.Run(kind+" "+what, func(t *testing.T) {
				log := newLog(t, test.entries, test.timestamp)
				certificate := a.issueWith(log.SCT(promised, 300))
				watched := serve(t, log, kind)
				results, err := audit.New([]watch.Log{watched}, quick).Certificate(context.Background(), certificate, a.Root.Raw)
				if err != nil || len(results) != 1 {
					t.Fatalf("%d results, %v", len(results), err)
				}
				if r := results[0]; r.Outcome != test.expected || r.Outcome == audit.Included &&
					(r.Index != 300 || r.TreeSize != log.Size()) {
					t.Errorf("%v (%s) at %d of %d, and %v is expected", r.Outcome, r.Text, r.Index, r.TreeSize, test.expected)
				}
				if test.evidence {
					checkEvidence(t, results[0].Evidence, log.PublicKey())
				} else if results[0].Evidence != nil {
					t.Errorf("there is evidence: %s", results[0].Evidence.Text)
				}
			})
		}
	}
}

// A log has broken its promise if the leaf is at another index than the one that its timestamp names.
func TestAuditsAnotherIndex(t *testing.T) {
	a := newAuthority()
	named := uint64(300)
	promised := a.entry()
	promised.Index = &named
	for index, expected := range map[int]audit.Outcome{299: audit.Never, 300: audit.Included, 301: audit.Never} {
		log := newLog(t, append(others(index), promised), epoch+1000)
		certificate, watched := a.issueWith(log.SCT(promised, named)), serve(t, log, "RFC 6962")
		results, err := audit.New([]watch.Log{watched}, quick).Certificate(context.Background(), certificate, a.Root.Raw)
		if err != nil || len(results) != 1 || results[0].Outcome != expected || results[0].Index != uint64(index) {
			t.Errorf("the leaf is at %d: %+v, %v", index, results, err)
		}
	}
}

// Each timestamp of a certificate is audited independently. One of an unknown log, a damaged one, and a log that does
// not answer do not change the outcomes of the others.
func TestAuditsEachTimestamp(t *testing.T) {
	a := newAuthority()
	promised := a.entry()
	good := newLog(t, append(others(5), promised), epoch+1)
	away, stranger, busy := newLog(t, nil, epoch), newLog(t, nil, epoch), newLog(t, nil, epoch)
	logs := []watch.Log{serve(t, good, "tiled"), serve(t, away, "RFC 6962"), serve(t, busy, "tiled")}
	away.Intercept(func(w http.ResponseWriter, _ *http.Request) bool {
		_, err := w.Write([]byte("<html>"))
		return err == nil
	})
	busy.Intercept(func(w http.ResponseWriter, _ *http.Request) bool {
		w.WriteHeader(http.StatusServiceUnavailable)
		return true
	})
	damaged := bytes.Clone(good.SCT(promised, 5))
	damaged[len(damaged)-1] ^= 1
	other := good.SCT(testkit.Entry{Timestamp: epoch, Certificate: []byte("another certificate")}, 5)
	certificate := a.issueWith(good.SCT(promised, 5), away.SCT(promised, 5), stranger.SCT(promised, 5), damaged, other,
		busy.SCT(promised, 5))
	results, err := audit.New(logs, quick).Certificate(context.Background(), certificate, a.Root.Raw)
	if err != nil {
		t.Fatal(err)
	}
	for i, expected := range []audit.Outcome{audit.Included, audit.NoAnswer, audit.UnknownLog, audit.Never, audit.Never,
		audit.NoAnswer} {
		if results[i].Outcome != expected {
			t.Errorf("timestamp %d: %v (%s), and %v is expected", i, results[i].Outcome, results[i].Text, expected)
		}
	}
	// With another issuer, the leaf differs, so no signature is valid.
	results, err = audit.New(logs, quick).Certificate(context.Background(), certificate, newAuthority().Root.Raw)
	if err != nil || results[0].Outcome != audit.Never {
		t.Errorf("another issuer: %v, %v", results[0].Outcome, err)
	}
	if results, err = audit.New(logs, quick).Certificate(context.Background(), certificate,
		[]byte("no issuer")); err != nil || results[0].Outcome != audit.Unreadable {
		t.Errorf("no issuer: %v, %v", results[0].Outcome, err)
	}
}

// Bytes without timestamps, or without readable ones, are refused with an error that says why.
func TestRefusesCertificates(t *testing.T) {
	a := newAuthority()
	auditor := audit.New(nil, quick)
	for what, test := range map[string]struct {
		certificate []byte
		expected    error
	}{
		"no timestamps": {a.issue(), audit.ErrNoSCTs},
		"no list": {a.issue(pkix.Extension{Id: asn1.ObjectIdentifier{1, 3, 6, 1, 4, 1, 11129, 2, 4, 2},
			Value: []byte{4, 2, 0, 9}}), ct.ErrSCT},
		"a short one": {a.issueWith(make([]byte, 40)), ct.ErrSCT},
		"version 2":   {a.issueWith(append([]byte{1}, make([]byte, 60)...)), ct.ErrSCT},
		"no bytes":    {nil, audit.ErrCertificate},
		"text":        {[]byte("certificate"), audit.ErrCertificate},
		"cut off":     {a.issue()[:100], audit.ErrCertificate},
	} {
		_, err := auditor.Certificate(context.Background(), test.certificate, a.Root.Raw)
		if !errors.Is(err, test.expected) {
			t.Errorf("%s: %v, and %v is expected", what, err, test.expected)
		}
	}
}

// TestForeignHeadAccusesNobody: a checkpoint of another origin is no evidence against the log, which may have been asked
// for by a wrong name.
func TestForeignHeadAccusesNobody(t *testing.T) {
	a := newAuthority()
	log := newLog(t, append(others(3), a.entry()), epoch+1)
	watched := serve(t, log, "tiled")
	watched.Origin = "another.example"
	results, err := audit.New([]watch.Log{watched}, quick).Certificate(context.Background(),
		a.issueWith(log.SCT(a.entry(), 3)), a.Root.Raw)
	if err != nil || results[0].Outcome != audit.NoAnswer || results[0].Evidence != nil {
		t.Errorf("%v, %v", results, err)
	}
}

// A timestamp that a log returned is audited with the submitted certificate, in each form that ReadSCTs reads.
func TestAuditsReturnedTimestamps(t *testing.T) {
	a := newAuthority()
	final := a.issue()
	precertificate := a.issue(testkit.Poison)
	plain := testkit.Entry{Timestamp: epoch, Certificate: final}
	log := newLog(t, append(others(3), plain, a.entry()), epoch+1)
	watched := serve(t, log, "tiled")
	for what, test := range map[string]struct {
		sct         []byte
		certificate []byte
		expected    audit.Outcome
	}{
		"a certificate":    {log.SCT(plain, 3), final, audit.Included},
		"a precertificate": {log.SCT(a.entry(), 4), precertificate, audit.Included},
		"another one":      {log.SCT(plain, 3), a.issue(), audit.Never},
		"at another index": {log.SCT(plain, 2), final, audit.Never},
		"at a later index": {log.SCT(plain, 9), final, audit.NotYet},
	} {
		for form, content := range forms(t, test.sct) {
			scts, err := ct.ReadSCTs(content)
			if err != nil || len(scts) != 1 {
				t.Fatalf("%s %s: %d timestamps, %v", what, form, len(scts), err)
			}
			results, err := audit.New([]watch.Log{watched}, quick).SCTs(context.Background(), scts, test.certificate,
				a.Root.Raw)
			if err != nil {
				t.Fatalf("%s %s: %v", what, form, err)
			}
			if results[0].Outcome != test.expected {
				t.Errorf("%s %s: %v (%s), and %v is expected", what, form, results[0].Outcome, results[0].Text, test.expected)
			}
		}
	}
	if _, err := audit.New(nil, quick).SCTs(context.Background(), nil, precertificate, nil); !errors.Is(err,
		audit.ErrCertificate) {
		t.Errorf("a precertificate without an issuer: %v", err)
	}
	for _, nonsense := range []string{"", "{}", `{"id":"AAAA"}`, "<html>", "AAAA"} {
		if _, err := ct.ReadSCTs([]byte(nonsense)); !errors.Is(err, ct.ErrSCT) {
			t.Errorf("%q: %v", nonsense, err)
		}
	}
}

// forms returns a timestamp in each form that ReadSCTs reads.
func forms(t *testing.T, sct []byte) map[string][]byte {
	t.Helper()
	one := append(binary.BigEndian.AppendUint16(nil, uint16(len(sct))), sct...)
	list := append(binary.BigEndian.AppendUint16(nil, uint16(len(one))), one...)
	answer, err := json.Marshal(map[string]any{"sct_version": 0, "id": sct[1:33],
		"timestamp": binary.BigEndian.Uint64(sct[33:]), "extensions": sct[43:51], "signature": sct[51:]})
	if err != nil {
		t.Fatal(err)
	}
	return map[string][]byte{"TLS": sct, "list": list, "base64": []byte(base64.StdEncoding.EncodeToString(sct)),
		"answer": answer}
}

// Certificates reads a file in PEM or in DER.
func TestReadsCertificates(t *testing.T) {
	a := newAuthority()
	text := append([]byte("a comment\n"), pem.EncodeToMemory(&pem.Block{Type: "CERTIFICATE", Bytes: a.issue()})...)
	text = append(text, pem.EncodeToMemory(&pem.Block{Type: "CERTIFICATE", Bytes: a.Root.Raw})...)
	if found, err := audit.Certificates(text); err != nil || len(found) != 2 || !bytes.Equal(found[1], a.Root.Raw) {
		t.Errorf("%d certificates, %v", len(found), err)
	}
	if found, err := audit.Certificates(a.Root.Raw); err != nil || len(found) != 1 {
		t.Errorf("DER: %d certificates, %v", len(found), err)
	}
	if _, err := audit.Certificates([]byte("nothing")); !errors.Is(err, audit.ErrCertificate) {
		t.Errorf("nothing: %v", err)
	}
}
