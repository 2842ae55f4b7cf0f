package main

import (
	"bufio"
	"bytes"
	"crypto/ed25519"
	"crypto/rand"
	"crypto/sha256"
	"crypto/x509"
	"encoding/base64"
	"encoding/json"
	"encoding/pem"
	"fmt"
	"io"
	"io/fs"
	"net/http"
	"os"
	"path/filepath"
	"strings"
	"syscall"
	"testing"

	"golang.org/x/mod/sumdb/note"

	"wagtenib/internal/testkit"
	"wagtenib/internal/witness"
)

var must = testkit.Must

// place is a folder with a witness's key and its settings file.
type place struct {
	t      testing.TB
	folder string
}

func newPlace(t testing.TB) place {
	p := place{t, t.TempDir()}
	_, key, err := ed25519.GenerateKey(rand.Reader)
	must(t, err)
	der, err := x509.MarshalPKCS8PrivateKey(key)
	must(t, err)
	p.write("key.pem", string(pem.EncodeToMemory(&pem.Block{Type: "PRIVATE KEY", Bytes: der})))
	return p
}

func (p place) path(name string) string { return filepath.Join(p.folder, name) }

func (p place) write(name, text string) { must(p.t, os.WriteFile(p.path(name), []byte(text), 0o600)) }

// settings writes the settings file, with these logs.
func (p place) settings(logs ...string) {
	text := fmt.Sprintf("name w.example # the witness\nkey %s\nstate file:%s\nlisten 127.0.0.1:0\noperator-listen "+
		"127.0.0.1:0\n", p.path("key.pem"), p.path("states"))
	p.write("settings", text+strings.Join(logs, "\n")+"\n")
}

func (p place) arguments(more ...string) []string {
	return append([]string{"--config", p.path("settings")}, more...)
}

// log creates a log's key. It returns the line of settings with it, and a function that returns the signed checkpoint
// of a size.
func (p place) log(origin string) (line string, signed func(size int) []byte) {
	private, public, err := note.GenerateKey(rand.Reader, origin)
	must(p.t, err)
	by, err := note.NewSigner(private)
	must(p.t, err)
	return "log " + origin + " " + public, func(size int) []byte {
		root := sha256.Sum256([]byte(origin))
		text := fmt.Sprintf("%s\n%d\n%s\n", origin, size, base64.StdEncoding.EncodeToString(root[:]))
		signedNote, err := note.Sign(&note.Note{Text: text}, by)
		must(p.t, err)
		return signedNote
	}
}

// process is a running witness, with its log lines and a channel for signals.
type process struct {
	t         testing.TB
	signals   chan os.Signal
	lines     chan string
	status    chan int
	addresses map[string]string
}

// start runs a witness with these arguments, and returns when it serves.
func (p place) start(more ...string) *process {
	var arguments []string
	for _, name := range []string{"open-timeout", "shutdown-timeout"} {
		// If a setting occurs several times, the last value counts.
		arguments = append(arguments, "--"+name, testkit.Longest.String())
	}
	arguments = append(arguments, more...)
	return p.startBy(func(to io.Writer, signals chan os.Signal) int { return run(arguments, io.Discard, to, signals) })
}

// startBy calls a function that runs a witness, and returns when the witness serves.
func (p place) startBy(run func(to io.Writer, signals chan os.Signal) int) *process {
	from, to := io.Pipe()
	one := &process{p.t, make(chan os.Signal, 4), make(chan string), make(chan int, 1), map[string]string{}}
	go func() {
		one.status <- run(to, one.signals)
		to.Close()
	}()
	read := make(chan string)
	go testkit.PassOn(read, one.lines)
	go func() {
		defer close(read)
		for scanner := bufio.NewScanner(from); scanner.Scan(); {
			read <- scanner.Text()
		}
	}()
	for {
		line := one.next()
		if line["event"] == "serving" {
			return one
		}
		if line["event"] == "listening" {
			one.addresses[line["for"].(string)] = "http://" + line["address"].(string)
		}
	}
}

// next returns the next log line.
func (p *process) next() (line map[string]any) {
	p.t.Helper()
	text, more := <-p.lines
	if !more {
		p.t.Fatalf("it ended: status %d", <-p.status)
	}
	must(p.t, json.Unmarshal([]byte(text), &line))
	return line
}

func (p *process) reload() map[string]any {
	p.signals <- syscall.SIGHUP
	for {
		if line := p.next(); line["event"] == "reload" {
			return line
		}
	}
}

func (p *process) end() int {
	p.signals <- syscall.SIGTERM
	for range p.lines {
	}
	return <-p.status
}

func (p *process) post(signed []byte) (int, string) {
	p.t.Helper()
	response, err := http.Post(p.addresses["clients"]+"/add-checkpoint", "text/plain",
		bytes.NewReader(append([]byte("old 0\n\n"), signed...)))
	must(p.t, err)
	defer response.Body.Close()
	text, err := io.ReadAll(response.Body)
	must(p.t, err)
	return response.StatusCode, string(text)
}

func (p *process) expect(expected int, signed []byte) {
	p.t.Helper()
	if status, text := p.post(signed); status != expected {
		p.t.Errorf("status %d, expected %d: %s", status, expected, text)
	}
}

// TestServes checks that a witness creates a state for each log, serves, adds and removes logs at SIGHUP, and ends.
func TestServes(t *testing.T) {
	p := newPlace(t)
	a, ofA := p.log("a.example")
	b, ofB := p.log("b.example/2")
	p.settings(a)
	if status := run(p.arguments(), io.Discard, io.Discard, nil); status != statusNoState {
		t.Errorf("a log without a state: status %d", status)
	}
	for i, expected := range []int{0, 1} {
		if status := run(p.arguments("--create", "a.example"), io.Discard, io.Discard, nil); status != expected {
			t.Errorf("--create, time %d: status %d", i+1, status)
		}
	}
	if status := run(p.arguments("--create", "c.example"), io.Discard, io.Discard, nil); status != 1 {
		t.Errorf("--create of an unknown log: status %d", status)
	}
	one := p.start(p.arguments()...)
	one.expect(200, ofA(3))
	one.expect(404, ofB(3))

	p.settings(a, b)
	if line := one.reload(); line["level"] != "error" {
		t.Errorf("a log without a state is accepted: %v", line)
	}
	one.expect(409, ofA(3))
	one.expect(404, ofB(3))
	if status := run(p.arguments("--create", "b.example/2"), io.Discard, io.Discard, nil); status != 0 {
		t.Errorf("--create: status %d", status)
	}
	if line := one.reload(); line["level"] != "info" || line["logs"] != 2.0 {
		t.Errorf("%v", line)
	}
	one.expect(200, ofB(3))
	p.write("settings", "nothing 7\n")
	if line := one.reload(); line["level"] != "error" {
		t.Errorf("wrong settings are accepted: %v", line)
	}
	one.expect(409, ofB(3))
	p.settings(b)
	if line := one.reload(); line["level"] != "info" || line["logs"] != 1.0 {
		t.Errorf("%v", line)
	}
	one.expect(404, ofA(3))
	response, err := http.Get(one.addresses["operator"] + "/metrics")
	must(t, err)
	text, err := io.ReadAll(response.Body)
	response.Body.Close()
	must(t, err)
	for _, line := range []string{`ctwitness_reloads_total{outcome="done"} 2`,
		`ctwitness_reloads_total{outcome="failed"} 2`, `ctwitness_entries{origin="b.example/2"} 3`} {
		if !strings.Contains(string(text), line+"\n") {
			t.Errorf("the metrics lack %s", line)
		}
	}
	if status := one.end(); status != 0 {
		t.Errorf("the end: status %d", status)
	}
	// The next process must follow what was cosigned.
	p.settings(a, b)
	again := p.start(p.arguments()...)
	again.expect(409, ofA(3))
	again.expect(409, ofB(4))
	if status := again.end(); status != 0 {
		t.Errorf("the end: status %d", status)
	}
}

// TestAcceptedBy checks that the witness cosigns only the head that a monitor accepted if the log has an accepted-by
// setting, and that other logs are not affected.
func TestAcceptedBy(t *testing.T) {
	p := newPlace(t)
	a, ofA := p.log("a.example")
	b, ofB := p.log("b.example")
	p.settings(a, b, "accepted-by a.example   "+p.path("monitor"))
	if status := run(p.arguments("--create", "a.example", "--create", "b.example"), io.Discard, io.Discard,
		nil); status != 0 {
		t.Fatalf("--create: status %d", status)
	}
	accept := func(size int) { p.write("monitor", string(ofA(size))) }
	accept(2)
	one := p.start(p.arguments()...)
	one.expect(503, ofA(3))
	one.expect(200, ofB(3))
	accept(3)
	one.expect(503, ofA(4))
	one.expect(200, ofA(3))
	p.settings(a, b)
	if line := one.reload(); line["level"] != "info" {
		t.Errorf("%v", line)
	}
	one.expect(409, ofA(4))
	if status := one.end(); status != 0 {
		t.Errorf("the end: status %d", status)
	}
}

// TestVerifierKey checks that --verifier-key prints what logs read, and that --version prints the version.
func TestVerifierKey(t *testing.T) {
	p := newPlace(t)
	p.settings()
	var out bytes.Buffer
	if status := run(p.arguments("--verifier-key"), &out, io.Discard, nil); status != 0 {
		t.Errorf("status %d", status)
	}
	if name, _, err := witness.ReadVerifierKey(strings.TrimSpace(out.String())); err != nil || name != "w.example" {
		t.Errorf("%s: %v", &out, err)
	}
	out.Reset()
	if status := run([]string{"--version"}, &out, io.Discard, nil); status != 0 ||
		!strings.HasPrefix(out.String(), "ctwitness ") {
		t.Errorf("%d %s", status, &out)
	}
}

// TestArguments checks that wrong settings end the witness with status 2 and the reason, and that what cannot be opened
// ends it with status 1.
func TestArguments(t *testing.T) {
	p := newPlace(t)
	a, _ := p.log("a.example")
	_, key, _ := strings.Cut(strings.TrimPrefix(a, "log "), " ")
	p.settings()
	base, err := os.ReadFile(p.path("settings"))
	must(t, err)
	p.write("no-key", "x")
	for _, test := range []struct {
		settings  string
		arguments []string
		status    int
		why       string
	}{
		{"", []string{"word"}, 2, `"word" is not expected`},
		{"", []string{"--nothing"}, 2, "there is no flag --nothing (see --help)"},
		{"", []string{"--help"}, 0, "is a witness"},
		{"nothing 7", nil, 2, `there is no setting "nothing"`},
		{"create a", nil, 2, `there is no setting "create"`},
		{"name x", nil, 2, "is in line 1 already"},
		{"shutdown-timeout 0s", nil, 2, "--shutdown-timeout 0s is not above 0"},
		{"program ctwitness", nil, 2, `there is no setting "program"`},
		{"log a.example", nil, 2, "at least one key"},
		{"log a.example " + p.path("none"), nil, 2, "no such file"},
		{"log a.example " + p.path("no-key"), nil, 2, "no such key"},
		{a + "\n" + a, nil, 2, "is given twice"},
		{a + " " + key, nil, 2, "two keys have the same key hash"},
		{a + "\naccepted-by a.example", nil, 2, "a space and a file"},
		{a + "\naccepted-by b.example /state", nil, 2, "there is no such log"},
		{a + "\naccepted-by a.example /state\naccepted-by a.example /other", nil, 2, "is given twice"},
		{"", []string{"--config", p.path("missing")}, 2, "no such file"},
		{"", []string{"--key", p.path("none")}, 1, "no such file"},
		{"", []string{"--key", p.path("no-key")}, 1, "no private key"},
		{"", []string{"--name", "a+b"}, 1, "plus sign"},
		{"", []string{"--listen", "127.0.0.1:x"}, 1, "listen"},
		{"", []string{"--operator-listen", "127.0.0.1:x"}, 1, "listen"},
		{a, []string{"--state", "s3://x/y"}, 1, "a lock is at"},
		{a, []string{"--state", "etcd://192.0.2.1:2379/w"}, 2, "no TLS to another machine: etcd at 192.0.2.1:2379"},
		{a, []string{"--state", "etcd://192.0.2.1:2379", "--allow-plaintext"}, 1, "etcd needs a prefix"},
	} {
		p.write("settings", string(base)+test.settings+"\n")
		arguments := p.arguments(test.arguments...)
		var lines bytes.Buffer
		if status := run(arguments, io.Discard, &lines, nil); status != test.status ||
			!strings.Contains(lines.String(), test.why) {
			t.Errorf("%q, %q: status %d: %s", test.settings, test.arguments, status, &lines)
		}
	}
	for _, arguments := range [][]string{{"--key", "k"}, {"--name", "n"}, {"--name", "n", "--key", "k"}} {
		var lines bytes.Buffer
		if status := run(arguments, io.Discard, &lines, nil); status != 2 ||
			!strings.Contains(lines.String(), "is missing") {
			t.Errorf("%q: status %d: %s", arguments, status, &lines)
		}
	}
	p.write("settings", string(base))
	for _, mode := range []fs.FileMode{0o640, 0o604, 0o620} {
		must(t, os.Chmod(p.path("key.pem"), mode))
		var lines bytes.Buffer
		// With --verifier-key it exits after it read the key.
		if status := run(p.arguments("--verifier-key"), io.Discard, &lines, nil); status != 2 ||
			!strings.Contains(lines.String(), "other users may read or write it (run chmod 600 "+p.path("key.pem")) {
			t.Errorf("a key of the mode %v: status %d: %s", mode, status, &lines)
		}
	}
}
