package main

import (
	"bytes"
	"context"
	"encoding/base64"
	"encoding/json"
	"encoding/pem"
	"net/http"
	"net/http/httptest"
	"path/filepath"
	"slices"
	"strings"
	"testing"
	"time"

	"wagtenib/internal/testkit"
	"wagtenib/internal/watch/alert"
)

// served is a log of a test that is served as a tiled log and by the calls of RFC 6962.
type served struct {
	*testkit.Log
	address string
}

func serveLog(t *testing.T, origin string) served {
	t.Helper()
	log := testkit.NewLog(origin)
	server := httptest.NewServer(log)
	t.Cleanup(server.Close)
	return served{log, server.URL}
}

// add adds the precertificate and the certificate, and publishes a head.
func (s served) add(a *testkit.Authority, one testkit.Issued) {
	issuer := a.IssuerKeyHash()
	now := uint64(time.Now().UnixMilli())
	s.Add(testkit.Entry{Timestamp: now, Certificate: one.TBS, IssuerKeyHash: issuer[:],
		Precertificate: one.Precertificate.Raw},
		testkit.Entry{Timestamp: now, Certificate: one.Certificate.Raw})
	s.Publish(s.Size(), now+1)
}

// fill adds this number of made-up entries, and publishes a head with the current time.
func (s served) fill(size int) {
	now := uint64(time.Now().UnixMilli())
	for i := range size {
		s.Add(testkit.Entry{Timestamp: now, Certificate: []byte{0x30, 2, byte(i >> 8), byte(i)}})
	}
	s.Publish(s.Size(), now)
}

// setting returns the value of --log for the log.
func (s served) setting(isTiled bool) string {
	key := base64.StdEncoding.EncodeToString(s.PublicKey())
	if isTiled {
		return "tiled+" + s.address + " " + key + " " + s.Origin
	}
	return s.address + " " + key
}

func must(t testing.TB, err error) {
	t.Helper()
	if err != nil {
		t.Fatal(err)
	}
}

// ctwatch runs a command, and returns its exit status, its output and its standard error.
func ctwatch(t *testing.T, arguments ...string) (status int, out, faults string) {
	t.Helper()
	var stdout, stderr bytes.Buffer
	status = program().Run(context.Background(), arguments, &stdout, &stderr)
	return status, stdout.String(), stderr.String()
}

// TestAlertsOnceOverLogs: a precertificate and its certificate are in a tiled log and in two logs of RFC 6962. There is
// one alert, with the host name, and no second one in a second run. The store then has the certificate, byte for byte.
func TestAlertsOnceOverLogs(t *testing.T) {
	authority := testkit.NewAuthority("Test CA 1")
	one, other := authority.Issue("shop.example.org"), authority.Issue("other.net")
	folder := filepath.Join(t.TempDir(), "store")
	arguments := []string{"run", "--once", "--from-start", "--name", "example.org", "--folder", folder}
	for i, origin := range []string{"a.example", "b.example", "c.example"} {
		log := serveLog(t, origin)
		log.add(authority, other)
		log.add(authority, one)
		arguments = append(arguments, "--log", log.setting(i == 0))
	}
	status, out, faults := ctwatch(t, arguments...)
	if status != statusFoundByOnce || strings.Count(out, "\n") != 1 || !strings.Contains(out,
		"FOUND example.org: shop.example.org") {
		t.Fatalf("status %d: %s%s", status, out, faults)
	}
	if status, out, faults = ctwatch(t, arguments...); status != 0 || out != "" {
		t.Errorf("the second run: status %d: %s%s", status, out, faults)
	}
	status, out, faults = ctwatch(t, "query", "example.org", "--valid", "--json", "--folder", folder)
	var found alert.Certificate
	if err := json.Unmarshal([]byte(out), &found); err != nil || status != 0 || len(found.Sightings) != 6 ||
		!slices.Equal(found.Names, one.Certificate.DNSNames) {
		t.Fatalf("status %d, %v: %s%s", status, err, out, faults)
	}
	status, out, faults = ctwatch(t, "certificate", found.SHA256, "--folder", folder)
	block, _ := pem.Decode([]byte(out))
	if status != 0 || block == nil || !slices.Equal(block.Bytes, one.Precertificate.Raw) &&
		!slices.Equal(block.Bytes, one.Certificate.Raw) {
		t.Errorf("status %d: %s%s", status, out, faults)
	}
	if status, out, faults = ctwatch(t, "health", "--folder", folder); status != 0 || !strings.Contains(out, "3 logs") {
		t.Errorf("status %d: %s%s", status, out, faults)
	}
}

// TestOnceSendsWhileALogIsSlow: a log returns its entries only after the alert about a certificate in another log was
// sent. So that alert does not wait for the slow log. In the end, both certificates have an alert.
func TestOnceSendsWhileALogIsSlow(t *testing.T) {
	authority, received := testkit.NewAuthority("Test CA 1"), make(chan string, 2)
	hook := httptest.NewServer(http.HandlerFunc(func(_ http.ResponseWriter, r *http.Request) {
		var one alert.Alert
		if err := json.NewDecoder(r.Body).Decode(&one); err != nil {
			t.Error(err)
			return
		}
		received <- one.Certificate.Names[0]
	}))
	defer hook.Close()
	quick, slow := serveLog(t, "a.example"), serveLog(t, "b.example")
	quick.add(authority, authority.Issue("quick.example.org"))
	slow.add(authority, authority.Issue("slow.example.org"))
	first := ""
	slow.Intercept(func(_ http.ResponseWriter, r *http.Request) bool {
		if !strings.Contains(r.URL.Path, "get-entries") {
			return false
		}
		select {
		case first = <-received:
		case <-r.Context().Done():
		}
		return false
	})
	status, out, faults := ctwatch(t, "run", "--once", "--from-start", "--name", "example.org", "--webhook",
		hook.URL, "--folder", t.TempDir(), "--log", quick.setting(true), "--log", slow.setting(false))
	if status != statusFoundByOnce || first != "quick.example.org" || <-received != "slow.example.org" {
		t.Errorf("status %d, first %q: %s%s", status, first, out, faults)
	}
}

// TestOnceSendsWaitingAlerts: the next run sends an alert that could not be sent, even if that run finds nothing. Again
// is set in it.
func TestOnceSendsWaitingAlerts(t *testing.T) {
	authority := testkit.NewAuthority("Test CA 1")
	var posted []alert.Alert
	hook := httptest.NewServer(http.HandlerFunc(func(w http.ResponseWriter, r *http.Request) {
		var one alert.Alert
		if err := json.NewDecoder(r.Body).Decode(&one); err != nil {
			t.Error(err)
		}
		if posted = append(posted, one); len(posted) <= 2 {
			w.WriteHeader(http.StatusInternalServerError)
		}
	}))
	defer hook.Close()
	log := serveLog(t, "a.example")
	log.add(authority, authority.Issue("shop.example.org"))
	arguments := []string{"run", "--once", "--from-start", "--name", "example.org", "--webhook", hook.URL,
		"--folder", t.TempDir(), "--log", log.setting(true)}
	for len(posted) < 2 {
		if status, out, faults := ctwatch(t, arguments...); status != statusFault {
			t.Fatalf("while the webhook fails: status %d: %s%s", status, out, faults)
		}
	}
	if status, out, faults := ctwatch(t, arguments...); status != 0 || len(posted) != 3 || !posted[2].Again {
		t.Errorf("status %d, %d were posted: %s%s", status, len(posted), out, faults)
	}
}
