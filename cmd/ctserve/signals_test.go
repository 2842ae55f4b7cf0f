package main

import (
	"bufio"
	"context"
	"fmt"
	"net"
	"os"
	"os/exec"
	"strings"
	"syscall"
	"testing"
	"time"

	"wagtenib/internal/testkit"
)

// TestEndBySIGTERM checks that at SIGTERM, ctserve answers the waiting requests and ends with status 0. Idle
// connections and half requests do not delay the end.
func TestEndBySIGTERM(t *testing.T) {
	at := newPlace(t)
	p := started(t, "1h", at.arguments()...)
	type answer struct {
		status int
		text   string
	}
	answers := make(chan answer, 5)
	for i := 0; i < 5; i++ {
		body := at.submission()
		go func() {
			status, text := post(p.clients, body)
			answers <- answer{status, text}
		}()
	}
	idle, err := net.Dial("tcp", p.clients)
	if err != nil {
		t.Fatal(err)
	}
	defer idle.Close()
	half, err := net.Dial("tcp", p.clients)
	if err != nil {
		t.Fatal(err)
	}
	defer half.Close()
	fmt.Fprint(half, "POST /ct/v1/add-chain HTTP/1.1\r\nHost: log\r\nContent-Le")
	p.shows("ctserve_queue 5")
	began := time.Now()
	p.signal(syscall.SIGTERM)
	for i := 0; i < 5; i++ {
		if answer := <-answers; answer.status != 200 || !strings.Contains(answer.text, `"sct_version":0`) {
			t.Errorf("a waiting client: %d %s", answer.status, answer.text)
		}
	}
	if status := p.ends(); status != 0 || time.Since(began) > testkit.Longest/2 {
		t.Errorf("ctserve ended with status %d after %v", status, time.Since(began))
	}
}

// TestEndWithinItsBound checks that, if waiting requests cannot be answered in time, the program ends anyway, and logs
// it.
func TestEndWithinItsBound(t *testing.T) {
	at := newPlace(t)
	for within := 300 * time.Millisecond; ; within *= 4 {
		p := started(t, "1h", at.arguments("--shutdown-timeout", within.String())...)
		slow, err := net.Dial("tcp", p.clients)
		if err != nil {
			t.Fatal(err)
		}
		defer slow.Close()
		fmt.Fprint(slow, "POST /ct/v1/add-chain HTTP/1.1\r\nHost: log\r\nContent-Length: 100\r\n\r\n{")
		p.shows("ctserve_queued_bytes 1")
		began := time.Now()
		p.signal(syscall.SIGTERM)
		line := p.until("end")
		if status := p.ends(); status != 1 || time.Since(began) > testkit.Longest/2 {
			t.Errorf("ctserve ended with status %d after %v", status, time.Since(began))
		}
		// On a busy machine the log itself may not have ended in time. Then the line does not name the clients.
		if line["fault"] == context.DeadlineExceeded.Error() && within < testkit.Longest/8 {
			continue
		}
		if line["level"] != "error" || !strings.Contains(fmt.Sprint(line["fault"]), "clients") {
			t.Errorf("the line is %v", line)
		}
		return
	}
}

// TestSecondSignal checks that a second signal ends the program at once.
func TestSecondSignal(t *testing.T) {
	at := newPlace(t)
	p := started(t, "1h", at.arguments()...)
	slow, err := net.Dial("tcp", p.clients)
	if err != nil {
		t.Fatal(err)
	}
	defer slow.Close()
	fmt.Fprint(slow, "POST /ct/v1/add-chain HTTP/1.1\r\nHost: log\r\nContent-Length: 100\r\n\r\n{")
	p.shows("ctserve_queued_bytes 1")
	p.signal(syscall.SIGTERM)
	p.until("ending")
	p.signal(syscall.SIGTERM)
	if status := p.ends(); status != -1 {
		t.Errorf("ctserve ended with status %d, and not by the signal", status)
	}
}

func TestReloadBySIGHUP(t *testing.T) {
	at := newPlace(t)
	p := started(t, "20ms", at.arguments()...)
	other := testkit.NewAuthority("Another root")
	der := other.Sign(other.Template(time.Date(2027, 1, 1, 0, 0, 0, 0, time.UTC)))
	if status, text := post(p.clients, testkit.Submission(der)); status != 400 ||
		!strings.Contains(text, "unknown-root") {
		t.Errorf("before: %d %s", status, text)
	}
	at.write("roots.pem", append(at.authority.PEM(), other.PEM()...))
	p.signal(syscall.SIGHUP)
	if line := p.until("reload"); line["level"] != "info" || line["of"] != "roots" {
		t.Errorf("the line is %v", line)
	}
	if status, text := post(p.clients, testkit.Submission(der)); status != 200 {
		t.Errorf("after: %d %s", status, text)
	}
	at.write("roots.pem", []byte("none"))
	p.signal(syscall.SIGHUP)
	if line := p.until("reload"); line["level"] != "error" {
		t.Errorf("the line is %v", line)
	}
	if status, text := post(p.clients, testkit.Submission(der)); status != 200 {
		t.Errorf("with a file of no roots: %d %s", status, text)
	}
	if _, text := get(p.operator, "/metrics"); !strings.Contains(text,
		`ctserve_reloads_total{of="roots",outcome="failed"} 1`+"\n") {
		t.Error("the failed reload is not counted")
	}
	p.signal(syscall.SIGINT)
	if status := p.ends(); status != 0 {
		t.Errorf("ctserve ended with status %d", status)
	}
}

// TestReloadThatHangs reloads a file of roots that never returns data, like a file on an unreachable network disk. The
// node must go on, and a signal must end it.
func TestReloadThatHangs(t *testing.T) {
	at := newPlace(t)
	p := started(t, "20ms", at.arguments()...)
	if err := os.Remove(at.path("roots.pem")); err != nil {
		t.Fatal(err)
	}
	if err := syscall.Mkfifo(at.path("roots.pem"), 0o600); err != nil {
		t.Fatal(err)
	}
	p.signal(syscall.SIGHUP)
	// The file can be opened for writing only after the reload has opened it for reading.
	writer, err := os.OpenFile(at.path("roots.pem"), os.O_WRONLY, 0)
	if err != nil {
		t.Fatal(err)
	}
	defer writer.Close()
	p.signal(syscall.SIGHUP)
	if status, text := post(p.clients, at.submission()); status != 200 {
		t.Errorf("%d %s", status, text)
	}
	p.signal(syscall.SIGTERM)
	if status := p.ends(); status != 0 {
		t.Errorf("ctserve ended with status %d", status)
	}
}

// TestSurvivesReaderOfLines closes the pipe that reads standard error. The log must go on without its lines, and end in
// order.
func TestSurvivesReaderOfLines(t *testing.T) {
	at := newPlace(t)
	read, write, err := os.Pipe()
	if err != nil {
		t.Fatal(err)
	}
	clients := testkit.Free(t)
	command := exec.Command(os.Args[0], append(at.arguments(), "--listen", clients, "--log-requests")...)
	command.Env = append(os.Environ(), childKey+"=1", intervalKey+"=20ms")
	command.Stderr = write
	if err := command.Start(); err != nil {
		t.Fatal(err)
	}
	defer command.Process.Kill()
	write.Close()
	for lines := bufio.NewScanner(read); ; {
		if !lines.Scan() {
			t.Fatal("ctserve ended before it served")
		}
		if strings.Contains(lines.Text(), `"serving"`) {
			break
		}
	}
	read.Close()
	for i := 0; i < 5; i++ {
		// Each request writes a line.
		if status, text := post(clients, at.submission()); status != 200 {
			t.Errorf("%d %s", status, text)
		}
	}
	if err := command.Process.Signal(syscall.SIGTERM); err != nil {
		t.Fatal(err)
	}
	if err := command.Wait(); err != nil {
		t.Errorf("ctserve ended with an error: %v", err)
	}
}
