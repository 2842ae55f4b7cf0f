package main

import (
	"bufio"
	"bytes"
	"context"
	"crypto/tls"
	"crypto/x509"
	"encoding/json"
	"encoding/pem"
	"errors"
	"fmt"
	"io"
	"net"
	"net/http"
	"os"
	"os/exec"
	"path/filepath"
	"strings"
	"syscall"
	"testing"
	"time"

	"wagtenib/internal/testkit"
	"wagtenib/internal/testkit/memorylog"
)

// The tests start this program again as ctserve. These are the environment variables that make it ctserve, and that set
// the interval of a log in memory. Without the second one it serves a real log.
const (
	childKey    = "CTSERVE_TEST"
	intervalKey = "CTSERVE_TEST_EVERY"
)

func TestMain(m *testing.M) {
	// A log that a test opens in its own process starts this program as its signer.
	if os.Getenv(childKey) == "" && (len(os.Args) < 2 || os.Args[1] != "signer") {
		os.Exit(m.Run())
	}
	open := openNode
	if interval := os.Getenv(intervalKey); interval != "" {
		open = func(ctx context.Context, n node) (*opened, error) {
			duration, err := time.ParseDuration(interval)
			if err != nil {
				return nil, err
			}
			return &opened{log: memorylog.New(duration), close: func() {}}, nil
		}
	}
	os.Exit(run(os.Args[1:], os.Stderr, open))
}

// program is a running ctserve.
type program struct {
	// serving is the line of the event serving, and passed has the lines before it for which no test waited.
	serving           map[string]any
	passed            []map[string]any
	t                 *testing.T
	command           *exec.Cmd
	lines             chan map[string]any
	clients, operator string
	done              chan error
}

// started starts a program and waits until it serves. If the interval is empty, it serves a real log, and otherwise one
// in memory with this interval.
func started(t *testing.T, interval string, arguments ...string) *program {
	t.Helper()
	for until := time.Now().Add(testkit.Patience); ; {
		p, line := launched(t, interval, arguments...)
		if line["event"] == "serving" {
			return p
		}
		if !isLate(fmt.Sprint(line["fault"])) || time.Now().After(until) {
			t.Fatalf("ctserve ends: %v", line)
		}
		p.ends()
	}
}

// isLate reports whether the output says that the signer did not reply in time, which may happen on a busy machine.
// Then the test starts the program again.
func isLate(output string) bool {
	return strings.Contains(output, "no reply from the signer: none in ")
}

// launched starts a program. It returns the program and its line when it serves or ends.
func launched(t *testing.T, interval string, arguments ...string) (p *program, line map[string]any) {
	t.Helper()
	p = &program{t: t, command: exec.Command(os.Args[0], arguments...), lines: make(chan map[string]any),
		done: make(chan error, 1)}
	p.command.Env = append(os.Environ(), childKey+"=1", intervalKey+"="+interval)
	errors, err := p.command.StderrPipe()
	if err != nil {
		t.Fatal(err)
	}
	if err := p.command.Start(); err != nil {
		t.Fatal(err)
	}
	read := make(chan map[string]any)
	go testkit.PassOn(read, p.lines)
	go func() {
		defer close(read)
		for scanner := bufio.NewScanner(errors); scanner.Scan(); {
			line := map[string]any{}
			if err := json.Unmarshal(scanner.Bytes(), &line); err != nil {
				line["text"] = scanner.Text()
			}
			read <- line
		}
		p.done <- p.command.Wait()
	}()
	t.Cleanup(func() { p.command.Process.Kill() })
	for {
		line := p.until("listening", "serving", "end")
		switch {
		case line["event"] == "listening" && line["for"] == "clients":
			p.clients = line["address"].(string)
		case line["event"] == "listening" && line["for"] == "operator":
			p.operator = line["address"].(string)
		case line["event"] == "serving":
			p.serving = line
			return p, line
		case line["event"] == "end":
			return p, line
		}
	}
}

// runs starts ctserve in this process if it ends before it serves. It returns the exit status and the output.
func runs(arguments []string) (status int, output string) {
	for until := time.Now().Add(testkit.Patience); ; {
		var lines strings.Builder
		status = run(arguments, &lines, openNode)
		if output = lines.String(); !isLate(output) || time.Now().After(until) {
			return status, output
		}
	}
}

// until returns the next line of one of these events.
func (p *program) until(events ...string) map[string]any {
	p.t.Helper()
	for late := time.After(testkit.Patience); ; {
		select {
		case line, more := <-p.lines:
			if !more {
				p.t.Fatalf("ctserve ended without a line of %v", events)
			}
			for _, event := range events {
				if line["event"] == event {
					return line
				}
			}
			if p.serving == nil {
				p.passed = append(p.passed, line)
			}
		case <-late:
			p.t.Fatalf("no line of %v in time", events)
		}
	}
}

// shows waits until the operator's metrics have a line.
func (p *program) shows(line string) {
	p.t.Helper()
	for late := time.Now().Add(testkit.Patience); ; time.Sleep(10 * time.Millisecond) {
		_, text := get(p.operator, "/metrics")
		if strings.Contains("\n"+text, "\n"+line+"\n") {
			return
		}
		if time.Now().After(late) {
			p.t.Fatalf("the metrics have no line %q:\n%s", line, text)
		}
	}
}

// ends waits until the program ends, and returns its exit status.
func (p *program) ends() int {
	p.t.Helper()
	go func() {
		for range p.lines {
		}
	}()
	select {
	case err := <-p.done:
		var status *exec.ExitError
		if errors.As(err, &status) {
			return status.ExitCode()
		}
		return 0
	case <-time.After(testkit.Patience):
		p.t.Fatal("ctserve does not end")
		return -1
	}
}

func (p *program) signal(which syscall.Signal) {
	p.t.Helper()
	if err := p.command.Process.Signal(which); err != nil {
		p.t.Fatal(err)
	}
}

// place is a folder with the files that a log needs, and the authority that is its root.
type place struct {
	t         *testing.T
	folder    string
	authority *testkit.Authority
	// shared is the address of an index that nodes share, or empty.
	shared string
}

func newPlace(t *testing.T) *place {
	t.Helper()
	authority := testkit.NewAuthority("A root")
	p := &place{t: t, folder: t.TempDir(), authority: authority}
	p.write("roots.pem", authority.PEM())
	_, key := authority.KeyPair()
	p.write("log.pem", key)
	return p
}

func (p *place) path(name string) string { return filepath.Join(p.folder, name) }

func (p *place) write(name string, content []byte) {
	p.t.Helper()
	if err := os.WriteFile(p.path(name), content, 0o600); err != nil {
		p.t.Fatal(err)
	}
}

// patient returns arguments with long time limits, for tests of something other than these limits.
func patient() (arguments []string) {
	for _, name := range []string{"open-timeout", "shutdown-timeout", "submission-timeout", "header-timeout",
		"request-timeout", "response-timeout", "idle-timeout"} {
		arguments = append(arguments, "--"+name, testkit.Longest.String())
	}
	// With this delay, no head without entries is made during a test.
	return append(arguments, "--max-merge-delay", "24h")
}

// arguments returns the arguments that start a log in this folder, at free ports.
func (p *place) arguments(more ...string) []string {
	return append(append(patient(), "--listen", "127.0.0.1:0", "--operator-listen", "127.0.0.1:0", "--origin",
		"log.example/test", "--roots", p.path("roots.pem"),
		"--signing-key", p.path("log.pem"), "--folder", p.path("log")), more...)
}

func (p *place) submission() []byte {
	p.t.Helper()
	der := p.authority.Sign(p.authority.Template(time.Date(2027, 1, 1, 0, 0, 0, 0, time.UTC)))
	return testkit.Submission(der)
}

func post(address string, body []byte) (int, string) {
	return whole(http.Post("http://"+address+"/ct/v1/add-chain", "application/json", bytes.NewReader(body)))
}

func get(address, path string) (int, string) { return whole(http.Get("http://" + address + path)) }

// read calls get, and repeats it if a read is late. A read has a limit of some seconds, which may be too short on a
// busy machine.
func read(address, path string) (int, string) {
	return unlessLate(func() (int, string) { return get(address, path) })
}

// unlessLate repeats a request until the answer does not say that it is late.
func unlessLate(ask func() (int, string)) (status int, text string) {
	for until := time.Now().Add(testkit.Patience); ; {
		if status, text = ask(); status != 503 || !strings.Contains(text, `"late"`) || time.Now().After(until) {
			return status, text
		}
	}
}

// whole returns a response's status and text, or 0 and the error.
func whole(answer *http.Response, err error) (int, string) {
	if err != nil {
		return 0, err.Error()
	}
	defer answer.Body.Close()
	text, err := io.ReadAll(answer.Body)
	if err != nil {
		return 0, err.Error()
	}
	return answer.StatusCode, string(text)
}

// TestLeavesOutUnreadableRoots checks that a root that crypto/x509 cannot parse prevents neither a start nor a reload
// with the others, and that both log which one it is.
func TestLeavesOutUnreadableRoots(t *testing.T) {
	at := newPlace(t)
	strange := pem.EncodeToMemory(&pem.Block{Type: "CERTIFICATE", Bytes: []byte("of a curve that nobody reads")})
	leftOut := func(line map[string]any) bool {
		return line["event"] == "root-left-out" && line["level"] == "warn" &&
			strings.Contains(fmt.Sprint(line["root"]), at.path("roots.pem")+", certificate 2 ")
	}
	at.write("roots.pem", append(at.authority.PEM(), strange...))
	p := started(t, "20ms", at.arguments()...)
	logged := 0
	for _, line := range p.passed {
		if leftOut(line) {
			logged++
		}
	}
	if logged != 1 {
		t.Errorf("at the start the root is logged %d times: %v", logged, p.passed)
	}
	p.signal(syscall.SIGHUP)
	if line := p.until("reload"); line["level"] != "info" || line["roots"] != 1.0 {
		t.Errorf("the line is %v", line)
	}
	if line := p.until("root-left-out"); !leftOut(line) {
		t.Errorf("the line is %v", line)
	}
	if status, text := post(p.clients, at.submission()); status != 200 {
		t.Errorf("a certificate of the other root: %d %s", status, text)
	}
}

func TestServesTLSAndAWindow(t *testing.T) {
	at := newPlace(t)
	certificate, key := at.authority.KeyPair(net.IPv4(127, 0, 0, 1))
	at.write("tls.pem", certificate)
	at.write("tls.key", key)
	p := started(t, "20ms", at.arguments("--tls-certificate", at.path("tls.pem"), "--tls-key", at.path("tls.key"),
		"--not-after-limit", "2027-01-01")...)
	roots := x509.NewCertPool()
	roots.AddCert(at.authority.Root)
	config := &tls.Config{RootCAs: roots}
	client := &http.Client{Transport: &http.Transport{TLSClientConfig: config}}
	answer, err := client.Post("https://"+p.clients+"/ct/v1/add-chain", "application/json",
		bytes.NewReader(at.submission()))
	if err != nil {
		t.Fatal(err)
	}
	text, _ := io.ReadAll(answer.Body)
	if answer.StatusCode != 400 || !strings.Contains(string(text), "outside-window") {
		t.Errorf("a certificate that expires at the window's end: %d %s", answer.StatusCode, text)
	}
	if status, _ := get(p.clients, "/"); status != 400 {
		t.Errorf("plain HTTP: %d", status)
	}
}
