package signer

import (
	"bufio"
	"context"
	"errors"
	"fmt"
	"io"
	"net"
	"os"
	"path/filepath"
	"strconv"
	"strings"
	"syscall"
	"testing"
	"time"

	"golang.org/x/sys/unix"

	"wagtenib/internal/testkit"
)

// script starts a shell that runs these lines.
func script(t *testing.T, lines string, environment ...string) *Peer {
	e, err := Start([]string{"sh", "-c", lines}, environment...)
	must(t, err)
	t.Cleanup(func() { e.Close() })
	return e
}

// TestReadLine: a text without a line end is not a line, and a line that is too long is an error.
func TestReadLine(t *testing.T) {
	t.Parallel()
	longest := strings.Repeat("x", MaxLine-1)
	for _, test := range []struct {
		text, line string
		err        error
	}{
		{"one\ntwo\n", "one", nil},
		{"\n", "", nil},
		{longest + "\n", longest, nil},
		{"one", "", io.EOF},
		{"", "", io.EOF},
	} {
		line, err := readLine(bufio.NewReader(strings.NewReader(test.text)))
		if !errors.Is(err, test.err) || string(line) != test.line {
			t.Errorf("of %d bytes: %d, %v", len(test.text), len(line), err)
		}
	}
	for _, text := range []string{longest + "x\n", longest + "xx"} {
		if line, err := readLine(bufio.NewReader(strings.NewReader(text))); err == nil ||
			!strings.Contains(err.Error(), "more than 67108864 bytes") {
			t.Errorf("of %d bytes: %d, %v", len(text), len(line), err)
		}
	}
}

// TestKeepsStandardError: the last bytes of a process's standard error are kept, and the error contains them.
func TestKeepsStandardError(t *testing.T) {
	t.Parallel()
	stderr := &tail{}
	for _, part := range []string{strings.Repeat("a", 300), strings.Repeat("b", 300), "the end"} {
		if n, err := stderr.Write([]byte(part)); n != len(part) || err != nil {
			t.Errorf("%d, %v", n, err)
		}
	}
	if text := string(stderr.bytes); len(text) != maxStderr ||
		!strings.HasSuffix(text, strings.Repeat("b", 300)+"the end") || !strings.HasPrefix(text, "a") {
		t.Errorf("%d bytes: %q", len(text), text)
	}
	e := script(t, "read x; for i in 1 2 3 4 5 6 7 8 9 10; do printf '%0100d' 0 >&2; done; echo why it ends >&2; "+
		"exit 1")
	if _, err := e.exchange(limited(t), testkit.Longest, []byte("x\n")); !errors.Is(err, ErrGone) ||
		!strings.Contains(err.Error(), "why it ends") {
		t.Error(err)
	}
}

// TestEnvironment: a process has this one's environment and the added variables.
func TestEnvironment(t *testing.T) {
	t.Setenv("PIPE_OWN", "own")
	for _, test := range []struct {
		more     []string
		expected string
	}{{nil, "own "}, {[]string{"PIPE_MORE=more"}, "own more"}} {
		e := script(t, `read x; echo "$PIPE_OWN $PIPE_MORE"; read x`, test.more...)
		reply, err := e.exchange(limited(t), testkit.Longest, []byte("x\n"))
		if err != nil || string(reply) != test.expected {
			t.Errorf("%q, %v", reply, err)
		}
	}
}

// TestNoProgram: the error is ErrGone if a program cannot be started, or if a socket is missing.
func TestNoProgram(t *testing.T) {
	t.Parallel()
	for _, arguments := range [][]string{nil, {"/nowhere/is"}, {filepath.Join(t.TempDir(), "nothing")}} {
		_, err := Start(arguments)
		wantError(t, err, ErrGone)
	}
	_, err := Dial(limited(t), filepath.Join(t.TempDir(), "socket"))
	wantError(t, err, ErrGone)
}

// alive reports whether a process runs.
func alive(pid int) bool { return syscall.Kill(pid, 0) == nil }

// TestCloseKills: Close ends a process and its children, even if they ignore signals.
func TestCloseKills(t *testing.T) {
	t.Parallel()
	e, err := Start([]string{"sh", "-c",
		"trap '' TERM HUP INT; read -r x; sleep 600 & echo $$ $!; while :; do wait; done"})
	must(t, err)
	reply, err := e.exchange(limited(t), testkit.Longest, []byte("x\n"))
	must(t, err)
	var pids []int
	for _, text := range strings.Fields(string(reply)) {
		pid, err := strconv.Atoi(text)
		must(t, err)
		pids = append(pids, pid)
	}
	closed := make(chan struct{})
	go func() {
		e.Close()
		close(closed)
	}()
	select {
	case <-closed:
	case <-limited(t).Done():
		t.Error("the process is not killed")
	}
	for until := limited(t); ; time.Sleep(time.Millisecond) {
		// The child may be a zombie until its new parent reaps it.
		state, _ := os.ReadFile("/proc/" + strconv.Itoa(pids[1]) + "/stat")
		if !alive(pids[1]) || strings.Contains(string(state), ") Z ") {
			break
		}
		if until.Err() != nil {
			t.Error("the child of the process still runs")
			break
		}
	}
	if alive(pids[0]) {
		t.Error("the process still runs")
	}
	for _, pid := range pids {
		_ = syscall.Kill(pid, syscall.SIGKILL)
	}
}

// TestUnreadLines: a reply from a process that has not read the whole request is an error.
func TestUnreadLines(t *testing.T) {
	t.Parallel()
	e := script(t, "head -c 1 >/dev/null; exec <&-; echo yes; exec sleep 600")
	if reply, err := e.exchange(limited(t), testkit.Longest, []byte(strings.Repeat("x", 1<<20)+"\n")); !errors.Is(err,
		ErrGone) || reply != nil {
		t.Errorf("%q, %v", reply, err)
	}
}

// TestDialCloses: a peer at a socket is closed after an error, and by Close.
func TestDialCloses(t *testing.T) {
	t.Parallel()
	path := filepath.Join(t.TempDir(), "socket")
	listener, err := net.Listen("unix", path)
	must(t, err)
	defer listener.Close()
	gone := make(chan error, 2)
	go func() {
		for {
			connection, err := listener.Accept()
			if err != nil {
				return
			}
			_, err = io.Copy(io.Discard, connection)
			gone <- err
		}
	}()
	waitForClose := func(what string) {
		t.Helper()
		select {
		case <-gone:
		case <-limited(t).Done():
			t.Fatalf("%s: the connection stays open", what)
		}
	}
	e, err := Dial(limited(t), path)
	must(t, err)
	ended, cancel := context.WithCancel(context.Background())
	cancel()
	if _, err = e.exchange(ended, testkit.Longest, []byte("x\n")); !errors.Is(err, ErrGone) ||
		!strings.Contains(err.Error(), context.Canceled.Error()) {
		t.Errorf("a context that has ended: %v", err)
	}
	waitForClose("after an error")
	e, err = Dial(limited(t), path)
	must(t, err)
	e.Close()
	waitForClose("after Close")
}

// TestWaiting: a caller that waits for another caller's exchange returns if its context ends. If a reply is late, the
// error names the limit. After close, the next exchange opens a peer again. If opening fails, the exchange after that
// opens one.
func TestWaiting(t *testing.T) {
	t.Parallel()
	c := newAsker(cat, 50*time.Millisecond)
	defer c.close()
	e := <-c.turn
	gone, cancel := context.WithCancel(context.Background())
	cancel()
	result := make(chan error, 1)
	go func() {
		_, err := askFor(c, gone, "one\n")
		result <- err
	}()
	select {
	case err := <-result:
		wantError(t, err, ErrGone)
	case <-limited(t).Done():
		t.Error("a caller whose context has ended waits")
	}
	c.turn <- e
	if _, err := askFor(c, limited(t), "half a line"); !errors.Is(err, ErrGone) ||
		!strings.Contains(err.Error(), "none in 50ms") {
		t.Errorf("no reply: %v", err)
	}
	fails, opens := errors.New("it does not exist"), 0
	c = newAsker(func(ctx context.Context) (*Peer, error) {
		if opens++; opens == 1 {
			return nil, fails
		}
		return cat(ctx)
	}, testkit.Longest)
	defer c.close()
	_, err := askFor(c, limited(t), "one\n")
	wantError(t, err, fails)
	for i := 0; i < 2; i++ {
		reply, err := askFor(c, limited(t), "two\n")
		if err != nil || reply != "two" {
			t.Fatalf("%q, %v", reply, err)
		}
		c.close()
	}
	if c.opens.Load() != 2 {
		t.Errorf("opened %d times", c.opens.Load())
	}
}

// TestClientCloses: a process ends with the client that asks it, and the next exchange starts another one.
func TestClientCloses(t *testing.T) {
	t.Parallel()
	c := newAsker(func(context.Context) (*Peer, error) {
		return Start([]string{"sh", "-c", "while read -r x; do echo $$; done"})
	}, testkit.Longest)
	for i := 0; i < 2; i++ {
		reply, err := askFor(c, limited(t), "x\n")
		must(t, err)
		pid, err := strconv.Atoi(reply)
		must(t, err)
		c.close()
		if alive(pid) {
			_ = syscall.Kill(pid, syscall.SIGKILL)
			t.Errorf("process %d still runs", pid)
		}
	}
	c.close()
	if c.opens.Load() != 2 {
		t.Errorf("opened %d times", c.opens.Load())
	}
}

// TestOwnGroup: a process has a group of its own, so a terminal's signals to this process's group do not reach it.
func TestOwnGroup(t *testing.T) {
	t.Parallel()
	e := script(t, "read -r x; echo $$; exec sleep 600")
	reply, err := e.exchange(limited(t), testkit.Longest, []byte("x\n"))
	must(t, err)
	pid, err := strconv.Atoi(string(reply))
	must(t, err)
	if group, err := syscall.Getpgid(pid); err != nil || group != pid {
		t.Errorf("process %d is in the group %d, %v", pid, group, err)
		// Close would not reach it.
		_ = syscall.Kill(pid, syscall.SIGKILL)
	}
}

// TestPipeSize: each pipe of a process can hold pipeSize bytes.
func TestPipeSize(t *testing.T) {
	e, err := cat(limited(t))
	testkit.Must(t, err)
	defer e.Close()
	raw, err := e.in.(syscall.Conn).SyscallConn()
	testkit.Must(t, err)
	testkit.Must(t, raw.Control(func(fd uintptr) {
		if holds, err := unix.FcntlInt(fd, unix.F_GETPIPE_SZ, 0); err != nil || holds != pipeSize {
			t.Errorf("a pipe holds %d bytes, %v", holds, err)
		}
	}))
	// The process itself reports the size of both pipes. 1032 is F_GETPIPE_SZ.
	reporter, err := Start([]string{"python3", "-c",
		"import fcntl; input(); print(*(fcntl.fcntl(of, 1032) for of in (0, 1)), flush=True)"})
	testkit.Must(t, err)
	defer reporter.Close()
	reply, err := reporter.exchange(limited(t), testkit.Longest, []byte("\n"))
	if want := fmt.Sprintf("%d %d", pipeSize, pipeSize); err != nil || string(reply) != want {
		t.Errorf("its pipes hold %q bytes, and not %s: %v", reply, want, err)
	}
	// A value that is not a pipe stays as it is.
	growPipe(nil)
	growPipe(&tail{})
}
