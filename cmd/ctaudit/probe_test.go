package main

import (
	"context"
	"encoding/json"
	"fmt"
	"net"
	"net/url"
	"os"
	"path/filepath"
	"strings"
	"testing"
	"time"

	"github.com/minio/minio-go/v7"
	"github.com/minio/minio-go/v7/pkg/credentials"

	"wagtenib/internal/testkit"
)

// TestProbe has the command look at logs of ctserve.
func TestProbe(t *testing.T) {
	ctserve := buildServer(t)
	for name, test := range map[string]func(*served){
		"passes a log that is killed": (*served).passesWhileKilled, "passes a killed log over engines": (*served).overEngines,
		"finds a missing root": (*served).findsMissingRoot, "needs the log's entry": (*served).needsEntry,
		"submits the chains of a folder": (*served).submitsFolder, "checks the TLS certificate": (*served).checksTLS,
	} {
		t.Run(name, func(t *testing.T) {
			t.Parallel()
			test(newServed(t, ctserve))
		})
	}
}

// probe returns the arguments that probe the log, with limits that a slow machine keeps.
func (s *served) probe(more ...string) []string {
	return append([]string{"probe", s.url, "--list-entry", s.path("entry.json"), "--issuer",
		s.path("ca.pem"), "--issuer-key", s.path("ca.key"), "--wanted-roots", s.path("ca.pem"), "--poll-interval", "100ms",
		"--submit-interval", "300ms", "--min-availability", "0", "--max-latency", testkit.Longest.String(), "--report",
		s.path("report")}, more...)
}

// overEngines checks the same as passesWhileKilled with PostgreSQL, and with S3 if it was started, too
// (tests/engines.sh).
func (s *served) overEngines() {
	postgres, s3 := os.Getenv("STORES_POSTGRES"), os.Getenv("STORES_S3")
	if postgres == "" {
		s.t.Skip("PostgreSQL was not started (tests/engines.sh starts it if it is installed)")
	}
	name := fmt.Sprintf("probed-%d", time.Now().UnixNano())
	fields := map[string]string{}
	for _, field := range strings.Fields(postgres) {
		key, value, _ := strings.Cut(field, "=")
		fields[key] = value
	}
	address := fmt.Sprintf("postgres://%s@%s:%s/%s?sslmode=%s&log=%s", fields["user"], fields["host"], fields["port"],
		fields["dbname"], fields["sslmode"], name)
	s.arguments = append(s.arguments, "--lock", address, "--index", address)
	if s3 != "" {
		s.arguments = append(s.arguments, "--store", bucket(s.t, s3, name))
	}
	s.passesWhileKilled()
}

// bucket makes a bucket, and returns its address in the settings of a log.
func bucket(t *testing.T, engine, name string) string {
	t.Helper()
	at, err := url.Parse(engine)
	must(t, err)
	secret, _ := at.User.Password()
	client, err := minio.New(at.Host, &minio.Options{Creds: credentials.NewStaticV4(at.User.Username(), secret, "")})
	must(t, err)
	must(t, client.MakeBucket(context.Background(), name, minio.MakeBucketOptions{}))
	return fmt.Sprintf("s3://%s@%s/%s?tls=no", at.User, at.Host, name)
}

// passesWhileKilled checks that a log passes while it is killed and started again, and that the report is complete.
func (s *served) passesWhileKilled() {
	t := s.t
	s.start("--create")
	type ended struct {
		status         int
		stdout, stderr string
	}
	done := make(chan ended, 1)
	go func() {
		status, stdout, stderr := ctaudit(t, s.probe("--for", "20s")...)
		done <- ended{status, stdout, stderr}
	}()
	kills, size := 0, s.size()
	var outcome ended
	for over := false; !over; {
		// The log is killed at most five times, each time after entries were added.
		if now := s.size(); kills < 5 && now >= size+4 {
			size = now
			s.kill()
			s.start()
			kills++
		}
		select {
		case outcome = <-done:
			over = true
		case <-time.After(10 * time.Millisecond):
		}
	}
	if outcome.status != 0 || kills == 0 {
		t.Fatalf("status %d after %d kills: %s%s", outcome.status, kills, outcome.stderr, outcome.stdout)
	}
	t.Logf("%d kills, %d entries", kills, s.size())
	s.judgeReport(outcome.stdout)
}

// judgeReport checks that the written report of a log that passed is the printed one, and that each check was tried.
func (s *served) judgeReport(stdout string) {
	t := s.t
	t.Helper()
	text, err := os.ReadFile(s.path("report"))
	must(t, err)
	if string(text) != stdout || !strings.HasPrefix(stdout, "log.example/2027h1: passed\n") {
		t.Errorf("the report %q is not the printed one", text)
	}
	content, err := os.ReadFile(s.path("report.json"))
	must(t, err)
	var report struct {
		Passed bool `json:"passed"`
		Checks []struct {
			Name    string `json:"name"`
			Verdict string `json:"verdict"`
			Tried   int    `json:"tried"`
		} `json:"checks"`
	}
	must(t, json.Unmarshal(content, &report))
	if !report.Passed || len(report.Checks) == 0 {
		t.Errorf("the report in JSON: %s", content)
	}
	for _, check := range report.Checks {
		if check.Verdict != "passed" || check.Tried == 0 {
			t.Errorf("%s: %s, tried %d times", check.Name, check.Verdict, check.Tried)
		}
	}
}

// findsMissingRoot checks that a log that lacks a wanted root does not pass, and that the error names the check.
func (s *served) findsMissingRoot() {
	s.start("--create")
	other := testkit.NewAuthority("A root that is missing")
	s.write("wanted.pem", append(other.PEM(), s.authority.PEM()...))
	status, stdout, stderr := ctaudit(s.t, s.probe("--for", "1s", "--wanted-roots", s.path("wanted.pem"))...)
	if status != statusFault || !strings.HasPrefix(stdout, "log.example/2027h1: FAILED: roots\n") ||
		!strings.Contains(stdout, "A root that is missing") ||
		!strings.HasSuffix(stderr, "ctaudit: the log did not pass: roots\n") {
		s.t.Errorf("status %d: %s%s", status, stderr, stdout)
	}
}

// needsEntry checks that the status is 1 if the log's entry cannot be read.
func (s *served) needsEntry() {
	s.start("--create")
	status, _, stderr := ctaudit(s.t, "probe", s.url+"/absent", "--issuer", s.path("ca.pem"), "--issuer-key",
		s.path("ca.key"), "--for", "1s")
	if status != statusFault || !strings.Contains(stderr, "the log's entry cannot be read, so its key is not known") ||
		!strings.Contains(stderr, "(give --list-entry)") {
		s.t.Errorf("status %d: %s", status, stderr)
	}
}

// submitsFolder checks that the chains of a folder are submitted instead of those of a CA.
func (s *served) submitsFolder() {
	t := s.t
	s.start("--create")
	folder := s.path("chains")
	must(t, os.Mkdir(folder, 0o700))
	template := s.authority.Template(time.Date(2027, 3, 1, 0, 0, 0, 0, time.UTC))
	for name, der := range map[string][]byte{"certificate.pem": s.authority.Sign(template),
		"precertificate.pem": s.authority.Sign(template, testkit.Poison)} {
		text := append(testkit.CertificatePEM(der), s.authority.PEM()...)
		must(t, os.WriteFile(filepath.Join(folder, name), text, 0o600))
	}
	if status, stdout, stderr := ctaudit(t, "probe", s.url, "--chains", folder, "--for", "2s",
		"--poll-interval", "50ms", "--submit-interval", "100ms", "--min-availability", "0", "--max-latency",
		testkit.Longest.String()); status != 0 || s.size() != 2 {
		t.Errorf("status %d, %d entries: %s%s", status, s.size(), stderr, stdout)
	}
}

// checksTLS checks that a log's TLS certificate is accepted only if the given CA issued it.
func (s *served) checksTLS() {
	t := s.t
	host, _, err := net.SplitHostPort(strings.TrimPrefix(s.url, "http://"))
	must(t, err)
	ca := testkit.NewAuthority("A CA for TLS")
	certificate, key := ca.KeyPair(net.ParseIP(host))
	s.write("ca-of-tls.pem", ca.PEM())
	s.write("tls.pem", certificate)
	s.write("tls.key", key)
	s.url = strings.Replace(s.url, "http:", "https:", 1)
	s.start("--create", "--tls-certificate", s.path("tls.pem"), "--tls-key", s.path("tls.key"))
	if status, stdout, stderr := ctaudit(t, s.probe("--for", "1s", "--ca-file", s.path("ca-of-tls.pem"))...); status != 0 {
		t.Errorf("status %d: %s%s", status, stderr, stdout)
	}
	if status, stdout, stderr := ctaudit(t, s.probe("--for", "1s")...); status != statusFault || !strings.Contains(stderr, "checkpoint-signature") ||
		!strings.Contains(stdout, "certificate signed by unknown authority") {
		t.Errorf("without the CA: status %d: %s%s", status, stderr, stdout)
	}
}

// TestProbeArguments checks that the error for wrong arguments names them, and that no log is asked.
func TestProbeArguments(t *testing.T) {
	folder := t.TempDir()
	path := func(name string) string { return filepath.Join(folder, name) }
	write := func(name string, content []byte) { must(t, os.WriteFile(path(name), content, 0o600)) }
	authority := testkit.NewAuthority("A test CA")
	write("ca.pem", authority.PEM())
	write("ca.key", authority.KeyPEM())
	write("settings", []byte("origin log.example/2027h1"))
	other := testkit.NewAuthority("Another CA")
	write("other.pem", other.PEM())
	write("leaf.pem", testkit.CertificatePEM([]byte("no certificate")))
	must(t, os.Mkdir(path("chains"), 0o700))
	ca := []string{"--issuer", path("ca.pem"), "--issuer-key", path("ca.key")}
	for want, arguments := range map[string][]string{
		"wrong number of arguments": {},
		"is not an address":         append([]string{"log.example"}, ca...),
		"--monitoring-url \"ftp://a\" is not an address": append([]string{"https://log.example", "--monitoring-url",
			"ftp://a"}, ca...),
		"there is nothing to submit": {"https://log.example"},
		"only of use together":       {"https://log.example", "--issuer", path("ca.pem")},
		"are two kinds of chains": append([]string{"https://log.example", "--chains",
			path("chains")}, ca...),
		"has no file *.pem": {"https://log.example", "--chains", path("chains")},
		"--issuer: open ": {"https://log.example", "--issuer", path("absent"),
			"--issuer-key", path("ca.key")},
		"--issuer-key: open ": {"https://log.example", "--issuer", path("ca.pem"),
			"--issuer-key", path("absent")},
		"the key is not the one of the certificate": {"https://log.example", "--issuer", path("other.pem"),
			"--issuer-key", path("ca.key")},
		"the key is not in PEM": {"https://log.example", "--issuer", path("ca.pem"),
			"--issuer-key", path("settings")},
		"there is no certificate in PEM": {"https://log.example", "--issuer", path("ca.key"),
			"--issuer-key", path("ca.key")},
		"certificate 1": {"https://log.example", "--issuer", path("leaf.pem"),
			"--issuer-key", path("ca.key")},
		"--list-entry: open ": append([]string{"https://log.example", "--list-entry",
			path("absent")}, ca...),
		"settings: loglist: not a log list": append([]string{"https://log.example", "--list-entry",
			path("settings")}, ca...),
		"--wanted-roots: ": append([]string{"https://log.example", "--wanted-roots",
			path("absent")}, ca...),
		"has no certificate in PEM": append([]string{"https://log.example", "--ca-file",
			path("settings")}, ca...),
		`--for: "2 seconds" is not a duration (write a duration such as 2s`: append([]string{"https://log.example",
			"--for", "2 seconds"}, ca...),
		"--for 0s is not above 0": append([]string{"https://log.example", "--for", "0s"}, ca...),
		"--poll-interval -1s is not above 0": append([]string{"https://log.example", "--poll-interval",
			"-1s"}, ca...),
		"--min-availability NaN is not a percentage": append([]string{"https://log.example", "--min-availability",
			"NaN"}, ca...),
		"--min-availability 101 is not a percentage": append([]string{"https://log.example", "--min-availability",
			"101"}, ca...),
		"the contact \"\\n\" must have printable ASCII": append([]string{"https://log.example", "--contact", "\n"},
			ca...),
	} {
		if status, stdout, stderr := ctaudit(t, append([]string{"probe"}, arguments...)...); status != statusUsage ||
			!strings.Contains(stderr, want) || stdout != "" {
			t.Errorf("%q: status %d, %s%s", arguments, status, stderr, stdout)
		}
	}
}
