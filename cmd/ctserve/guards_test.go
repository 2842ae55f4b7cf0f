package main

import (
	"context"
	"encoding/json"
	"fmt"
	"net"
	"os"
	"os/exec"
	"strings"
	"syscall"
	"testing"
	"time"

	"wagtenib/internal/audit/judge"
	"wagtenib/internal/log/signer"
	"wagtenib/internal/testkit"
)

// TestRefusesRestoredFolder restores the simplest backup of a log, which is a copy of its folder while it is stopped.
// The start must be refused with a status of its own, because the guard's state and the latest head are beside the
// folder. Each of these two is enough for that.
func TestRefusesRestoredFolder(t *testing.T) {
	t.Parallel()
	at := newPlace(t)
	arguments := at.realArguments("--signing-key", at.path("log.pem"))
	serves := func(more ...string) {
		t.Helper()
		p := started(t, "", append(arguments, more...)...)
		if status, text := post(p.clients, at.submission()); status != 200 {
			t.Fatalf("%d %s", status, text)
		}
		p.signal(syscall.SIGTERM)
		if status := p.ends(); status != 0 {
			t.Fatalf("ctserve ended with status %d", status)
		}
	}
	refused := func() {
		t.Helper()
		if status, output := runs(arguments); status != statusRolledBack {
			t.Errorf("status %d: %s", status, output)
		}
	}
	move := func(from, to string) {
		t.Helper()
		if err := os.Rename(at.path(from), at.path(to)); err != nil {
			t.Fatal(err)
		}
	}
	serves("--create")
	if output, err := exec.Command("cp", "-a", at.path("log"), at.path("copy")).CombinedOutput(); err != nil {
		t.Fatalf("%v: %s", err, output)
	}
	serves()
	move("log", "newest")
	move("copy", "log")
	refused()
	move("log.latest-head", "latest-head")
	refused()
	move("log", "copy")
	move("newest", "log")
	serves()
	// The file of the latest head has the same result.
	move("log.latest-head", "latest-head")
	if err := os.RemoveAll(at.path("log")); err != nil {
		t.Fatal(err)
	}
	move("latest-head", "log.latest-head")
	if status, output := runs(append(arguments, "--create")); status != statusRolledBack {
		t.Errorf("a new log in place of the old one: status %d: %s", status, output)
	}
}

// TestRebuildsLostIndex checks that a start is refused with a status of its own if the log's index is lost. After the
// index was built again, it has the first place of a duplicate.
func TestRebuildsLostIndex(t *testing.T) {
	t.Parallel()
	at := newPlace(t)
	arguments := at.realArguments("--signing-key", at.path("log.pem"))
	body := at.submission()
	p := started(t, "", append(arguments, "--create")...)
	status, answer := post(p.clients, body)
	if status != 200 {
		t.Fatalf("%d %s", status, answer)
	}
	p.signal(syscall.SIGTERM)
	p.ends()
	if !isThere(at.path("log/index/CURRENT")) {
		t.Fatal("the log has no index in its folder")
	}
	testkit.Must(t, os.RemoveAll(at.path("log/index")))
	if status, output := runs(arguments); status != statusRolledBack {
		t.Errorf("status %d: %s", status, output)
	}
	if status, stdout, stderr := does(append([]string{"index"}, arguments...)...); status != 0 ||
		stdout != "0 entries are left\n" {
		t.Errorf("%d, %q, %q", status, stdout, stderr)
	}
	p = started(t, "", arguments...)
	// While the log runs, the command fails, because only one process can use the folder.
	if status, stdout, stderr := does(append([]string{"index"}, arguments...)...); status != 1 || stdout != "" ||
		!strings.Contains(stderr, "in use") || !strings.Contains(stderr, at.path("log/index")) ||
		!strings.Contains(stderr, "stop the log") {
		t.Errorf("while the log runs: %d, %q, %q", status, stdout, stderr)
	}
	var first, again struct {
		Timestamp  uint64 `json:"timestamp"`
		Extensions []byte `json:"extensions"`
	}
	status, text := post(p.clients, body)
	if status != 200 || json.Unmarshal([]byte(text), &again) != nil || json.Unmarshal([]byte(answer), &first) != nil ||
		fmt.Sprint(first) != fmt.Sprint(again) {
		t.Errorf("%d %s, and first %s", status, text, answer)
	}
}

// TestReportsUnreadableGuardState checks that a start fails if the guard's state cannot be read, and reports its kind.
func TestReportsUnreadableGuardState(t *testing.T) {
	t.Parallel()
	at := newPlace(t)
	// This listener never answers.
	listener, err := net.Listen("tcp", "127.0.0.1:0")
	if err != nil {
		t.Fatal(err)
	}
	defer listener.Close()
	arguments := at.realArguments("--signing-key", at.path("log.pem"), "--guard-state", "etcd://"+listener.Addr().String()+
		"/guard", "--create")
	// On a busy machine the signer may report the error too late. Then it gets more time: of 30 s, it has 24 s for the
	// state, and 6 s are left for its report.
	within := 10 * time.Second
	for until := time.Now().Add(testkit.Patience); ; within = 30 * time.Second {
		var output strings.Builder
		status := run(append(arguments, "--open-timeout", within.String()), &output, openNode)
		if status == 1 && strings.Contains(output.String(), "the guard's state (guard-state, of etcd) cannot be read") {
			return
		}
		late := isLate(output.String()) || strings.Contains(output.String(),
			"no reply from the signer: context deadline exceeded")
		if status != 1 || !late || time.Now().After(until) {
			t.Fatalf("status %d: %s", status, output.String())
		}
	}
}

// TestSignerCreatesStateOnce checks that a signer that is started again does not create the state of its guard if the
// state is missing.
func TestSignerCreatesStateOnce(t *testing.T) {
	t.Parallel()
	at := newPlace(t)
	at.realArguments()
	ctx, cancel := context.WithTimeout(context.Background(), testkit.Longest)
	defer cancel()
	asked, err := askSigner(ctx, node{signingKey: at.path("log.pem"), guardState: "file:" +
		at.path("guard"), create: true})
	for err != nil && isLate(err.Error()) && ctx.Err() == nil {
		asked, err = askSigner(ctx, node{signingKey: at.path("log.pem"), guardState: "file:" +
			at.path("guard"), create: true})
	}
	if err != nil {
		t.Fatal(err)
	}
	defer asked.Close()
	for _, gone := range []bool{false, true} {
		if err := asked.Close(); err != nil {
			t.Fatal(err)
		}
		if gone {
			if err := os.RemoveAll(at.path("guard")); err != nil {
				t.Fatal(err)
			}
		}
		_, err := asked.Last(ctx)
		for err != nil && isLate(err.Error()) && ctx.Err() == nil {
			_, err = asked.Last(ctx)
		}
		if gone != (err != nil) || gone && !strings.Contains(err.Error(), "there is none") {
			t.Errorf("gone %t: %v", gone, err)
		}
	}
	if _, err := os.Stat(at.path("guard/text")); err == nil {
		t.Error("the state is created again")
	}
}

// TestSignerAtASocket kills a signer at a socket and starts it again while a log uses it. A signer with another key
// must not be accepted. Two nodes can share a signer.
func TestSignerAtASocket(t *testing.T) {
	t.Parallel()
	at := newPlace(t)
	socket := at.path("signer")
	arguments := at.realArguments("--signer-socket", socket, "--index", at.sharedIndex())
	listening := func(key string) (kills func()) {
		t.Helper()
		for until := time.Now().Add(testkit.Patience); ; {
			command, output, ended := exec.Command(os.Args[0], "signer", "--signing-key", key, "--guard-state", "file:"+
				at.path("guard"), "--create", "--listen", socket), &strings.Builder{}, make(chan struct{})
			command.Env, command.Stderr = append(os.Environ(), childKey+"=1"), output
			if err := command.Start(); err != nil {
				t.Fatal(err)
			}
			go func() {
				_ = command.Wait()
				close(ended)
			}()
			kills := func() {
				_ = command.Process.Kill()
				<-ended
			}
			t.Cleanup(kills)
			for waits := true; waits; {
				if connection, err := net.Dial("unix", socket); err == nil {
					connection.Close()
					return kills
				}
				select {
				case <-ended:
					if waits = false; !isLate(output.String()) {
						t.Fatalf("the signer ends: %s", output)
					}
				case <-time.After(5 * time.Millisecond):
				}
				if time.Now().After(until) {
					t.Fatal("the signer does not listen")
				}
			}
		}
	}
	first := listening(at.path("log.pem"))
	p := started(t, "", append(arguments, "--create")...)
	if status, text := post(p.clients, at.submission()); status != 200 {
		t.Fatalf("%d %s", status, text)
	}
	first()
	if status, text := post(p.clients, at.submission()); status != 503 || !strings.Contains(text, `"store"`) {
		t.Errorf("without a signer: %d %s", status, text)
	}
	other := testkit.NewAuthority("Another")
	_, otherKey := other.KeyPair()
	at.write("other.pem", otherKey)
	wrong := listening(at.path("other.pem"))
	if status, text := post(p.clients, at.submission()); status != 503 || !strings.Contains(text, `"store"`) {
		t.Errorf("with another key: %d %s", status, text)
	}
	wrong()
	listening(at.path("log.pem"))
	refused := 0
	for until := time.Now().Add(testkit.Patience); ; refused++ {
		status, text := post(p.clients, at.submission())
		if status == 200 {
			break
		}
		if time.Now().After(until) {
			t.Fatalf("with the signer again: %d %s", status, text)
		}
		time.Sleep(50 * time.Millisecond)
	}
	q := started(t, "", arguments...)
	answers := make(chan string, 20)
	for i := 0; i < cap(answers); i++ {
		body, to := at.submission(), []string{p.clients, q.clients}[i%2]
		go func() {
			status, text := post(to, body)
			answers <- fmt.Sprint(status, " ", text)
		}()
	}
	for i := 0; i < cap(answers); i++ {
		if answer := <-answers; !strings.HasPrefix(answer, "200 ") {
			t.Errorf("one of twenty: %s", answer)
		}
	}
	q.signal(syscall.SIGKILL)
	q.ends()
	if status, text := post(p.clients, at.submission()); status != 200 {
		t.Errorf("after the other node was killed: %d %s", status, text)
	}
	p.signal(syscall.SIGTERM)
	if status := p.ends(); status != 0 {
		t.Errorf("ctserve ended with status %d", status)
	}
	opened, err := signer.OpenKey(at.path("log.pem"))
	if err != nil {
		t.Fatal(err)
	}
	// Submissions that were refused without the signer may be in the log anyway.
	if report, err := judge.Folder(at.path("log/objects"), opened.Key(), nil); err != nil || report.Leaves < 23 ||
		report.Leaves > 25+refused || report.Repeats != 0 {
		t.Errorf("%+v, %v", report, err)
	}
}

// TestGuards checks that a start reports what is missing for signing. A log signs without a guard only if the settings
// say so.
func TestGuards(t *testing.T) {
	t.Parallel()
	at := newPlace(t)
	arguments := at.realArguments("--signing-key", at.path("log.pem"), "--create")
	lacks := func(what string, more ...string) {
		t.Helper()
		for until := time.Now().Add(testkit.Patience); ; {
			command := exec.Command(os.Args[0], append(append([]string{}, arguments...), more...)...)
			command.Env = append(os.Environ(), childKey+"=1")
			output, err := command.CombinedOutput()
			if isLate(string(output)) && time.Now().Before(until) {
				continue
			}
			if err == nil || !strings.Contains(string(output), what) {
				t.Errorf("%q: %v: %s", more, err, output)
			}
			return
		}
	}
	lacks(`"no-such-guard" is neither true nor false`, "--guard=no-such-guard")
	lacks("no valid guard state: there is none", "--create=false")
	lacks("no such file", "--signing-key", at.path("nowhere"))
	arguments = at.realArguments("--create")
	lacks("no such file", "--signer-socket", at.path("nowhere"))
	arguments = at.realArguments("--signing-key", at.path("log.pem"))
	p := started(t, "", append(arguments, "--create", "--guard=false")...)
	if status, text := post(p.clients, at.submission()); status != 200 {
		t.Errorf("%d %s", status, text)
	}
	p.signal(syscall.SIGTERM)
	if status := p.ends(); status != 0 {
		t.Errorf("ctserve ended with status %d", status)
	}
	// This log had no guard, so a guard whose state is new refuses to start with it.
	lacks("it is older than the log", "--create")
}

func isThere(path string) bool {
	_, err := os.Stat(path)
	return err == nil
}
