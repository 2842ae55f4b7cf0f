package main

import (
	"bufio"
	"bytes"
	"crypto/sha256"
	"encoding/json"
	"fmt"
	"io"
	"net"
	"os"
	"os/exec"
	"path/filepath"
	"runtime"
	"strings"
	"syscall"
	"testing"
	"time"

	"wagtenib/internal/testkit"
)

// stranger is the id of nobody, who owns nothing of a log. spare is the id of a user and of a group that exist nowhere
// else.
const stranger, spare = 65534, 64321

// as calls do in a thread that is another user's, with only this group and no capability. The kernel names the user of
// the thread as the caller of a connection. The thread ends with do.
func as(t *testing.T, uid, group int, do func() error) error {
	t.Helper()
	if os.Getuid() != 0 {
		t.Skip("only root can become another user")
	}
	done := make(chan error, 1)
	go func() {
		// Without UnlockOSThread the thread ends with this goroutine.
		runtime.LockOSThread()
		done <- func() error {
			if err := becomes(uid, group); err != nil {
				return err
			}
			return do()
		}()
	}()
	return <-done
}

// becomes makes this thread, and no other one, another user's. The functions of package syscall change all threads.
func becomes(uid, group int) error {
	user, own := uintptr(uid), uintptr(group)
	for _, call := range [][4]uintptr{{syscall.SYS_SETGROUPS}, {syscall.SYS_SETRESGID, own, own, own},
		{syscall.SYS_SETRESUID, user, user, user}} {
		if _, _, errno := syscall.RawSyscall(call[0], call[1], call[2], call[3]); errno != 0 {
			return fmt.Errorf("call %d: %w", call[0], errno)
		}
	}
	return nil
}

// enterable returns a folder that only root and its group may enter.
func enterable(t *testing.T, group int) string {
	t.Helper()
	folder, err := os.MkdirTemp("", "ctserve-")
	testkit.Must(t, err)
	t.Cleanup(func() { os.RemoveAll(folder) })
	testkit.Must(t, os.Chown(folder, 0, group))
	testkit.Must(t, os.Chmod(folder, 0o750))
	return folder
}

// signerAt starts a signer at a socket, and returns its lines on standard error and its process.
func signerAt(t *testing.T, at *place, socket string, more ...string) (<-chan string, *os.Process) {
	t.Helper()
	command := exec.Command(os.Args[0], append([]string{"signer", "--signing-key", at.path("log.pem"), "--guard-state",
		"file:" + at.path("guard"), "--create", "--listen", socket}, more...)...)
	command.Env = append(os.Environ(), childKey+"=1")
	output, err := command.StderrPipe()
	testkit.Must(t, err)
	testkit.Must(t, command.Start())
	lines := make(chan string, 100)
	go func() {
		defer close(lines)
		for scanner := bufio.NewScanner(output); scanner.Scan(); {
			lines <- scanner.Text()
		}
	}()
	t.Cleanup(func() {
		_ = command.Process.Kill()
		_ = command.Wait()
	})
	for until := time.Now().Add(testkit.Patience); ; time.Sleep(5 * time.Millisecond) {
		if isThere(socket) {
			return lines, command.Process
		}
		if time.Now().After(until) {
			t.Fatal("the signer does not listen")
		}
	}
}

// answerTo sends a line to a socket, and returns the first line of the answer. It is empty if the connection is closed
// instead.
func answerTo(socket, line string) (string, error) {
	connection, err := net.Dial("unix", socket)
	if err != nil {
		return "", err
	}
	defer connection.Close()
	if err := connection.SetDeadline(time.Now().Add(testkit.Patience)); err != nil {
		return "", err
	}
	// This fails if the connection is closed already.
	_, _ = connection.Write([]byte(line + "\n"))
	answer, err := bufio.NewReader(connection).ReadString('\n')
	if late, isNet := err.(net.Error); isNet && late.Timeout() {
		return "", err
	}
	return answer, nil
}

// headOf returns the size, the timestamp and the root of a log's newest head.
func headOf(t *testing.T, address string) (size, timestamp uint64, root []byte) {
	t.Helper()
	var head struct {
		Size      uint64 `json:"tree_size"`
		Timestamp uint64 `json:"timestamp"`
		Root      []byte `json:"sha256_root_hash"`
	}
	_, text := read(address, "/ct/v1/get-sth")
	testkit.Must(t, json.Unmarshal([]byte(text), &head))
	return head.Size, head.Timestamp, head.Root
}

// longerHead returns a request for the head of a log with four entries and a fifth one. As four is a power of two, the
// root is the hash of the log's root and the leaf's, and the leaf's hash is the consistency proof (RFC 6962, section
// 2.1.2).
func longerHead(t *testing.T, address string) string {
	t.Helper()
	size, timestamp, root := headOf(t, address)
	if size != 4 {
		t.Fatalf("the log has %d entries", size)
	}
	leaf := testkit.LeafHash([]byte("an entry of the stranger"))
	longer := sha256.Sum256(append(append([]byte{1}, root...), leaf[:]...))
	line, err := json.Marshal(map[string]any{"consistency": [][]byte{leaf[:]},
		"head": map[string]any{"sha256_root_hash": longer[:], "timestamp": timestamp + 1, "tree_size": 5}})
	testkit.Must(t, err)
	return string(line)
}

// TestStrangerCannotSign: a process that may open the signer's socket, but is another user's, asks for the signature of
// a head that continues the log with an entry of its own. The guard would approve that head, and would then refuse all
// heads of the log. The signer must close the connection, report the caller, and sign for the log as before.
func TestStrangerCannotSign(t *testing.T) {
	t.Parallel()
	at, socket := newPlace(t), filepath.Join(enterable(t, spare), "signer")
	lines, _ := signerAt(t, at, socket)
	testkit.Must(t, os.Chown(socket, 0, spare))
	p := started(t, "", at.realArguments("--signer-socket", socket, "--create", "--submission-timeout", "1m",
		"--shutdown-timeout", "1m")...)
	for range 4 {
		if status, text := post(p.clients, at.submission()); status != 200 {
			t.Fatalf("%d %s", status, text)
		}
	}
	line, answer := longerHead(t, p.clients), ""
	testkit.Must(t, as(t, stranger, spare, func() (err error) {
		answer, err = answerTo(socket, line)
		return err
	}))
	status, text := post(p.clients, at.submission())
	if answer != "" {
		t.Fatalf("a stranger asks for a head, the signer answers %s, and then the log answers %d %s", answer, status, text)
	}
	if status != 200 {
		t.Errorf("after a stranger asked: %d %s", status, text)
	}
	select {
	case line := <-lines:
		if !strings.Contains(line, `"event":"refused-caller"`) || !strings.Contains(line, `"uid":65534`) {
			t.Errorf("the signer reports %s", line)
		}
	case <-time.After(testkit.Patience):
		t.Error("the signer does not report the stranger")
	}
	p.signal(syscall.SIGTERM)
	if status := p.ends(); status != 0 {
		t.Errorf("ctserve ended with status %d", status)
	}
}

// TestAllowedUsers: a signer answers the users that its setting names, and no others, whoever may open its socket.
func TestAllowedUsers(t *testing.T) {
	t.Parallel()
	at, socket := newPlace(t), filepath.Join(enterable(t, spare), "signer")
	signerAt(t, at, socket, "--allow-users", fmt.Sprint("daemon, ", spare))
	testkit.Must(t, os.Chown(socket, 0, spare))
	for _, user := range []struct {
		uid     int
		answers bool
	}{{0, true}, {spare, true}, {1, true}, {spare + 1, false}, {stranger, false}} {
		answer := ""
		testkit.Must(t, as(t, user.uid, spare, func() (err error) {
			answer, err = answerTo(socket, `{"last":true}`)
			return err
		}))
		if (answer != "") != user.answers {
			t.Errorf("user %d: %q", user.uid, answer)
		}
	}
}

// TestWrongSignerArguments: wrong arguments of the signer end with status 2 and a message that says what to do.
func TestWrongSignerArguments(t *testing.T) {
	t.Parallel()
	at := newPlace(t)
	at.write("open.pem", []byte("a key"))
	testkit.Must(t, os.Chmod(at.path("open.pem"), 0o640))
	key := []string{"--signing-key", at.path("log.pem")}
	for _, test := range []struct {
		arguments []string
		why       string
	}{
		{nil, "--signing-key is missing"},
		{append(key, "--allow-users", "daemon"), "--allow-users needs --listen"},
		{append(key, "--listen", "s", "--allow-users", "no-such-user"), `there is no user "no-such-user"`},
		{append(key, "--listen", "s", "--allow-users", "65534"), "65534 is the user of every process that belongs to nobody"},
		{append(key, "--guard-state", "etcd://192.0.2.1:2379/log"), "no TLS to another machine: etcd at 192.0.2.1:2379"},
		{append(key, "other"), "wrong number of arguments"},
		{[]string{"--signing-key", at.path("open.pem")}, "mode 0640: other users may read or write it (run chmod 600 "},
	} {
		var output bytes.Buffer
		status := runSigner(test.arguments, strings.NewReader(""), &bytes.Buffer{}, &output)
		if status != 2 || !strings.Contains(output.String(), test.why) {
			t.Errorf("%q: status %d: %s", test.arguments, status, &output)
		}
	}
}

// TestSignerUnit: the arguments in the signer's unit are right, and its socket is in a folder that only the user of the
// unit may enter.
func TestSignerUnit(t *testing.T) {
	t.Parallel()
	text, err := os.ReadFile("../../release/systemd/ctserve-signer@.service")
	testkit.Must(t, err)
	value := func(name string) string {
		_, rest, _ := strings.Cut("\n"+string(text), "\n"+name+"=")
		line, _, _ := strings.Cut(rest, "\n")
		return strings.ReplaceAll(line, "%i", "2027h1")
	}
	words, s, flags := strings.Fields(value("ExecStart")), &signerSettings{}, commandFlags("signer", "", io.Discard)
	s.flags(flags)
	if len(words) < 2 || words[1] != "signer" {
		t.Fatalf("the unit starts %q", words)
	}
	testkit.Must(t, parseFlags(flags, words[2:], 0))
	testkit.Must(t, s.validate())
	if folder := "/run/" + value("RuntimeDirectory"); filepath.Dir(s.socket.Path) != folder ||
		value("RuntimeDirectoryMode") != "0700" || s.socket.Users != nil || !s.guard {
		t.Errorf("the socket %s is not in %s with the mode %s", s.socket.Path, folder, value("RuntimeDirectoryMode"))
	}
	testkit.Says(t, testkit.Page(t, "../../docs/OPERATING.md"), map[string]bool{
		"signer-socket " + s.socket.Path: true,
	})
}

// TestHangingSigner: while a signer does not reply, the log reports a fault, and /readyz answers 503, before the first
// submission that waits for it gets its answer. After the signer goes on, the log does so too.
func TestHangingSigner(t *testing.T) {
	t.Parallel()
	at := newPlace(t)
	socket := at.path("signer")
	_, process := signerAt(t, at, socket)
	p := started(t, "", at.realArguments("--signer-socket", socket, "--create", "--submission-timeout", "30s")...)
	if status, text := post(p.clients, at.submission()); status != 200 {
		t.Fatalf("%d %s", status, text)
	}
	testkit.Must(t, process.Signal(syscall.SIGSTOP))
	answers, body := make(chan int, 1), at.submission()
	go func() {
		status, _ := post(p.clients, body)
		answers <- status
	}()
	for {
		if status, text := get(p.clients, "/readyz"); status == 503 && strings.Contains(text, "fault") {
			break
		}
		select {
		case status := <-answers:
			t.Fatalf("a submission is answered by %d, and /readyz reports no fault", status)
		case <-time.After(10 * time.Millisecond):
		}
	}
	p.shows("ctserve_fault 1")
	if line := p.until("fault"); !strings.Contains(fmt.Sprint(line["detail"]), "signer: no reply for more than") {
		t.Errorf("the fault is %v", line)
	}
	testkit.Must(t, process.Signal(syscall.SIGCONT))
	p.shows("ctserve_fault 0")
	if status, text := post(p.clients, at.submission()); status != 200 {
		t.Errorf("after the signer goes on: %d %s", status, text)
	}
}
