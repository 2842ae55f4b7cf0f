package logflags_test

import (
	"context"
	"crypto/ecdsa"
	"crypto/elliptic"
	"crypto/rand"
	"crypto/x509"
	"encoding/base64"
	"errors"
	"flag"
	"io"
	"os"
	"path/filepath"
	"strings"
	"testing"

	"wagtenib/internal/logclient"
	"wagtenib/internal/testkit"
	"wagtenib/internal/watch/logflags"
)

// parse reads flags.
func parse(arguments ...string) (*logflags.Logs, error) {
	logs, flags := &logflags.Logs{}, flag.NewFlagSet("program", flag.ContinueOnError)
	flags.SetOutput(io.Discard)
	logs.Define(flags)
	return logs, flags.Parse(arguments)
}

// TestReadsLogs checks the values of --log, and that a log list that is not there is only read if it is named or if
// there is no --log.
func TestReadsLogs(t *testing.T) {
	private, err := ecdsa.GenerateKey(elliptic.P256(), rand.Reader)
	testkit.Must(t, err)
	public, err := x509.MarshalPKIXPublicKey(&private.PublicKey)
	testkit.Must(t, err)
	key := base64.StdEncoding.EncodeToString(public)
	for value, expected := range map[string]struct{ url, origin string }{
		"https://a.example/b/ " + key:                 {"https://a.example/b", ""},
		"tiled+https://a.example/b " + key:            {"https://a.example/b", "a.example/b"},
		"tiled+https://a.example " + key + " c.other": {"https://a.example", "c.other"},
	} {
		logs, err := parse("--log", value)
		testkit.Must(t, err)
		all, err := logs.All(context.Background(), logclient.Options{})
		if err != nil || len(all) != 1 || all[0].URL != expected.url || all[0].Origin != expected.origin ||
			string(all[0].PublicKey) != string(public) {
			t.Errorf("%s: %+v, %v", value, all, err)
		}
	}
	for arguments, remedy := range map[string]string{
		"https://a.example":                        "write [tiled+]https://HOST/PATH KEY-FILE",
		"ftp://a.example " + key:                   "not a log's address",
		"127.0.0.1:8618 " + key:                    "write https://HOST/PATH",
		"https://a.example /absent":                "write a PEM file",
		"https://a.example " + key + " origin":     "write tiled+",
		"https://a.example " + key + " more words": "write [tiled+]",
	} {
		if _, err := parse("--log", arguments); err == nil || !strings.Contains(err.Error(), remedy) {
			t.Errorf("%s: %v", arguments, err)
		}
	}
	if _, err := parse("--log", "https://a.example "+key, "--log", "https://b.example "+key); err == nil ||
		!strings.Contains(err.Error(), "write each log once") {
		t.Errorf("one key twice: %v", err)
	}
	absent := filepath.Join(t.TempDir(), "absent")
	logs, err := parse("--log", "https://a.example "+key, "--log-list", absent)
	testkit.Must(t, err)
	if _, err := logs.All(context.Background(), logclient.Options{}); !errors.Is(err, os.ErrNotExist) {
		t.Errorf("a list that is absent: %v", err)
	}
}

// TestPrintsOneRetryOfEachHost checks that only the first failed attempt at a host is printed, without characters that a
// terminal obeys.
func TestPrintsOneRetryOfEachHost(t *testing.T) {
	var out strings.Builder
	retry := logflags.PrintRetries("program", &out)
	for _, address := range []string{"https://a.example/1", "https://a.example/2", "https://b.example/1"} {
		retry(address, errors.New("status 503\x1b"))
	}
	lines := strings.Split(out.String(), "\n")
	if len(lines) != 3 || strings.Contains(out.String(), "\x1b") ||
		!strings.HasPrefix(lines[0], "program: https://a.example/1: status 503") ||
		!strings.HasPrefix(lines[1], "program: https://b.example/1: ") || !strings.HasSuffix(lines[1], "(it is tried again)") {
		t.Errorf("%q", lines)
	}
}
