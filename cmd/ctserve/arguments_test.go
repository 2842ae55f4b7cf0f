package main

import (
	"context"
	"errors"
	"fmt"
	"io"
	"strings"
	"testing"
	"time"

	"wagtenib/internal/log/chain"
	"wagtenib/internal/testkit/memorylog"
)

// TestSettings checks the rules for arguments and the config file.
func TestSettings(t *testing.T) {
	at := newPlace(t)
	files := 0
	file := func(text string) []string {
		files++
		name := fmt.Sprintf("conf%d", files)
		at.write(name, []byte(text))
		return []string{"--config", at.path(name)}
	}
	needed := "roots a\norigin b\nsigning-key c\n"
	named := func(origin string) []string {
		return []string{"--roots", "a", "--signing-key", "c", "--origin", origin}
	}
	for _, test := range []struct {
		arguments []string
		why       string
	}{
		{nil, "--roots is missing"},
		{[]string{"--roots", "a", "--origin", "b"}, "--signing-key or --signer-socket is missing"},
		{file(needed + "signer-socket x"), "replaces --signing-key"},
		{[]string{"--roots", "a", "--origin", "b", "--signer-socket", "c", "--guard"}, "replaces --signing-key"},
		{[]string{"--roots", "a", "--origin", "b", "--signer-socket", "c", "--guard=false"}, "replaces --signing-key"},
		{[]string{"--roots", "a", "--origin", "b", "--signing-key", "c", "--guard=none"}, "neither true nor false"},
		{[]string{"--nothing"}, "there is no flag --nothing (see --help)"},
		{[]string{"word"}, `"word" is not expected`},
		{[]string{"--config", at.path("missing")}, "no such file"},
		{file("nothing 7"), `line 1: there is no setting "nothing"`},
		{file("config x"), `line 1: there is no setting "config"`},
		{file("# x\n\norigin a\norigin b"), "line 4: origin is in line 3 already"},
		{file("idle-timeout soon"), `line 1: idle-timeout: "soon" is not a duration (write a duration such as`},
		{[]string{"--idle-timeout", "2 seconds"}, `--idle-timeout: "2 seconds" is not a duration (write a duration`},
		{[]string{"--interval", "2 seconds"}, `--interval: "2 seconds" is not a duration (write a duration such as`},
		{file(needed + "tls-key x"), "need "},
		{file(needed + "idle-timeout 0s"), "--idle-timeout 0s is not above 0 (write for example 30s, or leave"},
		{file(needed + "scrub-period -1s"), "--scrub-period -1s is not above 0"},
		{file(needed + "interval 0s"), "interval: 0s is not above 0 (write for example 50ms or 30s)"},
		{file(needed + "index sqlite:x"), "an index is no longer in SQLite (write leveldb:PATH"},
		{file(needed + "interval 50"), `interval: "50" is not a duration`},
		{file(needed + "max-connections 0"), "--max-connections 0 is too small (write at least 1, or leave"},
		{file(needed + "max-queued-bytes 1000"), "--max-queued-bytes 1000 is too small (write at least 1048576,"},
		{file(needed + "max-response-bytes 1000"), "--max-response-bytes 1000 is too small (write at least 67108864,"},
		{file(needed + "max-proofs 0"), "--max-proofs 0 is too small"},
		{file(needed + "read-rate-per-address -1"), "--read-rate-per-address -1 is too small (write at least 0,"},
		{file(needed + "not-after-start 2027-01-01\nnot-after-limit 2027-01-01"), "must be before"},
		{file(needed + "not-after-start soon"), "not-after-start"},
		{file(needed + "trusted-proxies 1.2.3"), "trusted-proxies"},
		{file(needed + "submitters 203.0.113.0/24"), "no bound above 0"},
		{file(needed + "submitters 203.0.113.0/24=0"), "no bound above 0"},
		{file(needed + "submitters 203.0.113.0/24=many"), "no bound above 0"},
		{file(needed + "submitters 203.0.113/24=9"), "submitters"},
		{file(needed + "submitters 203.0.113.1/24=9,203.0.113.2/24=8"), "203.0.113.0/24 occurs twice"},
		{named("https://log.example/"), "leave https:// out"},
		{named("log.example/"), "ends with a slash"},
		{named("/log.example"), "begins or ends with a slash"},
		{named("lög.example"), "xn-- form"},
		{named("log example"), "a space or a character"},
		{named("log.example+2027"), "leave +, ? and # out"},
		{named("log.example?2027"), "leave +, ? and # out"},
		{file(needed + "listen 8618"), "write HOST:PORT"},
		{file(needed + "listen :99999"), "a port is 0 to 65535"},
		{file(needed + "listen 127.0.0.1:8619"), "two listeners have the address 127.0.0.1:8619"},
	} {
		if _, err := parse(test.arguments, io.Discard); !errors.Is(err, errUsage) ||
			!strings.Contains(err.Error(), test.why) {
			t.Errorf("%q: %v, and not %s", test.arguments, err, test.why)
		}
	}
	s, err := parse(append(file(needed+
		"# a comment\n  idle-timeout   5s # behind\ntrusted-proxies 127.0.0.1, 10.1.2.3/8\nnot-after-start "+
		"2027-01-01\ncreate true\n"+
		"max-clock-skew 3s\nrequire-synchronized-clock true"), "--origin", "z"), io.Discard)
	if err != nil {
		t.Fatal(err)
	}
	if s.node.origin != "z" || s.node.maxSkew != 3*time.Second || !s.node.synchronized ||
		s.limits.Idle != 5*time.Second || fmt.Sprint(s.proxies) != "[127.0.0.1/32 10.0.0.0/8]" || !s.node.create ||
		s.rules.Window.From.Year() != 2027 ||
		s.node.guardState != "file:ct-log.guard" || s.node.latestHead != "ct-log.latest-head" ||
		s.node.namedDay != "ct-log.day" || !s.node.isGuarded() || s.node.store != "folder:ct-log/objects" ||
		s.node.lock != "file:ct-log/register" || s.node.index != "leveldb:ct-log/index" {
		t.Errorf("%+v", s)
	}
	if s, err := parse(file(needed+"submitters 203.0.113.9/24=512, 2001:db8::7=9"), io.Discard); err != nil ||
		fmt.Sprint(s.limits.Submitters) != "[{203.0.113.0/24 512} {2001:db8::7/128 9}]" {
		t.Errorf("submitters: %v, %+v", err, s)
	}
	for _, origin := range []string{"log.example", "log.example/2027h1", "xn--lg-fka.example/a/b", "localhost:8618"} {
		if s, err := parse(named(origin), io.Discard); err != nil || s.node.origin != origin {
			t.Errorf("%s: %v", origin, err)
		}
	}
	for text, want := range map[string]chain.Rules{
		"":                 {ServerAuthentication: true},
		"any-purpose true": {},
		"refuse-expired true\nrefuse-not-yet-valid true": {ServerAuthentication: true, RefuseExpired: true,
			RefuseNotYetValid: true},
	} {
		if s, err := parse(file(needed+text), io.Discard); err != nil || s.rules != want {
			t.Errorf("%s: %v, %+v", text, err, s)
		}
	}
	for text, want := range map[string]time.Duration{"": 0, "interval 50ms": 50 * time.Millisecond} {
		if s, err := parse(file(needed+text), io.Discard); err != nil || s.node.interval != want {
			t.Errorf("%s: %v, %+v", text, err, s)
		}
	}
	for text, isRemote := range map[string]bool{"": false, "store folder:x": false, "store s3://a.example/b": true,
		"lock etcd://127.0.0.1:2379/log": true, "index etcd://127.0.0.1:2379/log": true} {
		if s, err := parse(file(needed+text), io.Discard); err != nil || s.node.hasRemoteStore() != isRemote {
			t.Errorf("%s: %v", text, err)
		}
	}
	for _, test := range []struct {
		arguments []string
		status    int
	}{{[]string{"--help"}, 0}, {[]string{"signer", "--help"}, 0}, {[]string{"signer"}, 2},
		{[]string{"signer", "--signing-key", at.path("log.pem"), "word"}, 2}, {[]string{"--nothing"}, 2},
		{[]string{"audit", "https://log.example"}, 2},
		{at.arguments("--roots", at.path("none")), 1}, {at.arguments("--listen", "127.0.0.1:x"), 2},
		{at.arguments("--tls-certificate", "none", "--tls-key", "none"), 1}} {
		open := func(context.Context, node) (*opened, error) {
			return &opened{log: memorylog.New(0), close: func() {}}, nil
		}
		if status := run(test.arguments, io.Discard, open); status != test.status {
			t.Errorf("%q: status %d, not %d", test.arguments, status, test.status)
		}
	}
}
