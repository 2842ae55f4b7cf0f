package main

import (
	"encoding/base64"
	"encoding/pem"
	"net/http"
	"net/http/httptest"
	"os"
	"path/filepath"
	"strings"
	"testing"
	"time"

	"wagtenib/internal/audit/judge"
	"wagtenib/internal/testkit"
)

// logArguments serves a log, and returns the arguments that name it as a tiled log.
func logArguments(t *testing.T, log *testkit.Log) []string {
	t.Helper()
	server := httptest.NewServer(log)
	t.Cleanup(server.Close)
	return []string{"--log", "tiled+" + server.URL + " " + base64.StdEncoding.EncodeToString(log.PublicKey()) + " " +
		log.Origin}
}

// newTestLog returns a log with this number of made-up entries, and a head with the current time.
func newTestLog(t *testing.T, size int) *testkit.Log {
	t.Helper()
	log := testkit.NewLog("log.example/2027")
	for i := range size {
		log.Add(testkit.Entry{Timestamp: 1000, Certificate: []byte{0x30, 2, byte(i >> 8), byte(i)}})
	}
	log.Publish(uint64(size), uint64(time.Now().UnixMilli()))
	return log
}

// promised makes a certificate with crypto/x509. Its only timestamp promises an entry of a log at an index. promised
// returns the file with the certificate and its issuer, and the promised entry.
func promised(t *testing.T, log *testkit.Log, index uint64) (file string, entry testkit.Entry) {
	t.Helper()
	return promisedAt(t, log, index, 2000)
}

// promisedAt is promised with the timestamp of the promise, in milliseconds.
func promisedAt(t *testing.T, log *testkit.Log, index, timestamp uint64) (file string, entry testkit.Entry) {
	t.Helper()
	authority := testkit.NewAuthority("Test CA")
	template := authority.Template(authority.Root.NotAfter)
	_, tbs := authority.SignPair(template)
	hash := authority.IssuerKeyHash()
	entry = testkit.Entry{Timestamp: timestamp, Certificate: tbs, IssuerKeyHash: hash[:]}
	file = filepath.Join(t.TempDir(), "certificate.pem")
	content := testkit.CertificatePEM(authority.Sign(template, testkit.SCTList(log.SCT(entry, index))))
	must(t, os.WriteFile(file, append(content, authority.PEM()...), 0o600))
	return file, entry
}

// TestAuditsACertificate: the status is that of the gravest outcome, and the evidence of a broken promise can be
// checked.
func TestAuditsACertificate(t *testing.T) {
	log := newTestLog(t, 300)
	file, entry := promised(t, log, 300)
	arguments := append([]string{"sct", file}, logArguments(t, log)...)
	evidence := filepath.Join(t.TempDir(), "evidence")
	status, out, faults := ctaudit(t, append(arguments, "--evidence", evidence)...)
	if status != statusAccused || !strings.Contains(out, ": NEVER: the leaf is not among the 300") {
		t.Errorf("without the entry: status %d: %s%s", status, out, faults)
	}
	if _, err := judge.Evidence(filepath.Join(evidence, "1"), log.PublicKey()); err != nil {
		t.Error(err)
	}
	log.Add(entry)
	log.Publish(301, uint64(time.Now().UnixMilli()))
	if status, out, faults = ctaudit(t, arguments...); status != 0 || !strings.Contains(out,
		": INCLUDED: the leaf is at 300 of 301") {
		t.Errorf("with the entry: status %d: %s%s", status, out, faults)
	}
	if status, out, _ = ctaudit(t, append([]string{"sct", file}, logArguments(t, newTestLog(t,
		1))...)...); status != statusUnknownLog {
		t.Errorf("another log: status %d: %s", status, out)
	}
	log.Intercept(func(w http.ResponseWriter, r *http.Request) bool {
		http.Error(w, "no", http.StatusForbidden)
		return true
	})
	if status, out, _ = ctaudit(t, arguments...); status != statusUnread || !strings.Contains(out, "NO ANSWER") {
		t.Errorf("a log that refuses: status %d: %s", status, out)
	}
}

// TestAuditsByTheTime: the command accuses a log of a timestamp in the future, of an entry that is later than its head,
// and of a deadline that is over under an old head. The command evidence confirms the evidence.
func TestAuditsByTheTime(t *testing.T) {
	now := uint64(time.Now().UnixMilli())
	const hour = 3_600_000
	for expected, times := range map[string]struct {
		promise, head uint64
		isIncluded    bool
	}{
		": FUTURE: the timestamp is ":          {now + hour, now, false},
		": LATER ENTRY: the leaf is at 300 of": {now, now - 1, true},
		": OVERDUE: the deadline was ":         {now - 50*hour, now - 49*hour, false},
	} {
		log := newTestLog(t, 300)
		file, entry := promisedAt(t, log, 300, times.promise)
		if times.isIncluded {
			log.Add(entry)
		}
		log.Publish(log.Size(), times.head)
		evidence := filepath.Join(t.TempDir(), "evidence")
		status, out, faults := ctaudit(t, append([]string{"sct", file, "--evidence", evidence}, logArguments(t, log)...)...)
		if status != statusAccused || !strings.Contains(out, expected) {
			t.Errorf("%q: status %d: %s%s", expected, status, out, faults)
		}
		if _, err := judge.Evidence(filepath.Join(evidence, "1"), log.PublicKey()); err != nil {
			t.Errorf("%q: %v", expected, err)
		}
	}
}

// TestRefusesToAudit: sct refuses files and log lists that it cannot use, and says why.
func TestRefusesToAudit(t *testing.T) {
	log := newTestLog(t, 1)
	file, _ := promised(t, log, 0)
	content, err := os.ReadFile(file)
	must(t, err)
	_, rest := pem.Decode(content)
	// The issuer's certificate has no timestamps.
	plain := filepath.Join(t.TempDir(), "plain.pem")
	must(t, os.WriteFile(plain, rest, 0o600))
	nonsense := filepath.Join(t.TempDir(), "nonsense")
	must(t, os.WriteFile(nonsense, []byte("no certificate"), 0o600))
	for file, expected := range map[string]struct {
		status int
		text   string
	}{
		plain:     {statusUsage, "has no timestamps (SCTs) (give "},
		nonsense:  {statusUsage, "cannot be read (give a file "},
		"/absent": {statusUsage, "no such file"},
	} {
		status, _, faults := ctaudit(t, append([]string{"sct", file}, logArguments(t, log)...)...)
		if status != expected.status || !strings.Contains(faults, expected.text) {
			t.Errorf("%s: status %d: %s", file, status, faults)
		}
	}
	if status, _, faults := ctaudit(t, "sct", plain, "--log-list", nonsense); status != statusUnread ||
		!strings.Contains(faults, "log list") {
		t.Errorf("no log list: status %d: %s", status, faults)
	}
}
