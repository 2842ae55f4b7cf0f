package signer

import (
	"bufio"
	"context"
	"errors"
	"fmt"
	"io"
	"net"
	"os"
	"path/filepath"
	"strconv"
	"strings"
	"syscall"
	"testing"
	"time"

	"wagtenib/internal/testkit"
)

func cat(context.Context) (*Peer, error) { return Start([]string{"cat"}) }

// askFor sends a line, and returns the reply that the asker reads.
func askFor(c *asker, ctx context.Context, line string) (reply string, err error) {
	err = c.ask(ctx, []byte(line), func(read []byte) error {
		reply = string(read)
		return nil
	})
	if err != nil {
		return "", err
	}
	return reply, nil
}

// TestUnaskedReply starts a program that replies twice to its first line, like a program that reads a line in two
// parts. The second reply must not be used as the reply to the next line. The program is started again, and no request
// fails.
func TestUnaskedReply(t *testing.T) {
	t.Parallel()
	folder := t.TempDir()
	second := filepath.Join(folder, "second")
	must(t, syscall.Mkfifo(second, 0o600))
	program := []string{"sh", "-c",
		`read -r x; echo "$x"; echo stale; echo said >"$1"; while read -r x; do echo "$x"; done`, "sh", second}
	c := newAsker(func(context.Context) (*Peer, error) { return Start(program) }, testkit.Longest)
	defer c.close()
	for i := 1; i <= 3; i++ {
		reply, err := askFor(c, limited(t), "asked\n")
		if err != nil || reply != "asked" {
			t.Fatalf("%d: %q, %v", i, reply, err)
		}
		if read, err := os.ReadFile(second); err != nil || string(read) != "said\n" {
			t.Fatalf("%q, %v", read, err)
		}
		if c.opens.Load() != uint64(i) {
			t.Errorf("started %d times", c.opens.Load())
		}
	}
	e := script(t, "echo early; read -r x; echo late")
	testkit.Eventually(t, "the program has written a line", e.hasUnread)
	reply, err := e.exchange(limited(t), testkit.Longest, []byte("x\n"))
	if wantError(t, err, ErrGone); reply != nil {
		t.Errorf("%q", reply)
	}
}

// TestWrongReplyEndsTheProgram: if the function that reads a reply returns ErrReply, the program is ended before
// another caller asks it. Other errors do not end it.
func TestWrongReplyEndsTheProgram(t *testing.T) {
	t.Parallel()
	c := newAsker(func(context.Context) (*Peer, error) {
		return Start([]string{"sh", "-c", "while read -r x; do echo $$; done"})
	}, testkit.Longest)
	defer c.close()
	var pids []string
	failed := errors.New("another fault")
	for _, with := range []error{nil, failed, fmt.Errorf("of a test: %w", ErrReply), nil} {
		err := c.ask(limited(t), []byte("x\n"), func(reply []byte) error {
			pids = append(pids, string(reply))
			return with
		})
		if err != with {
			t.Errorf("%v instead of %v", err, with)
		}
	}
	if len(pids) != 4 || pids[0] != pids[1] || pids[1] != pids[2] || pids[2] == pids[3] || c.opens.Load() != 2 {
		t.Errorf("processes %q, started %d times", pids, c.opens.Load())
	}
	if pid, err := strconv.Atoi(pids[0]); err != nil || alive(pid) {
		t.Errorf("process %s still runs, %v", pids[0], err)
	}
}

// TestRestart kills the process between two exchanges. The next exchange fails, and the one after it is answered.
func TestRestart(t *testing.T) {
	ctx, c := context.Background(), newAsker(cat, testkit.Longest)
	defer c.close()
	if reply, err := askFor(c, ctx, "one\n"); err != nil || reply != "one" {
		t.Fatalf("%q, %v", reply, err)
	}
	e := <-c.turn
	e.Close()
	c.turn <- e
	if _, err := askFor(c, ctx, "three\n"); !errors.Is(err, ErrGone) {
		t.Fatal(err)
	}
	if reply, err := askFor(c, ctx, "four\n"); err != nil || reply != "four" {
		t.Fatalf("%q, %v", reply, err)
	}
	if c.opens.Load() != 2 {
		t.Errorf("it was opened %d times", c.opens.Load())
	}
}

// TestCallerWithAnEndedContext: callers whose context has ended get no reply, and no peer is closed or opened for them.
func TestCallerWithAnEndedContext(t *testing.T) {
	c := newAsker(cat, testkit.Longest)
	defer c.close()
	gone, cancel := context.WithCancel(context.Background())
	cancel()
	// The test repeats this, since select chooses at random between two ready cases.
	for i := 0; i < 100; i++ {
		if reply, err := askFor(c, gone, "one\n"); !errors.Is(err, ErrGone) {
			t.Fatalf("%q, %v", reply, err)
		}
	}
	if reply, err := askFor(c, context.Background(), "two\n"); err != nil || reply != "two" {
		t.Fatalf("%q, %v", reply, err)
	}
	for i := 0; i < 100; i++ {
		if _, err := askFor(c, gone, "three\n"); !errors.Is(err, ErrGone) {
			t.Fatal(err)
		}
	}
	if reply, err := askFor(c, context.Background(), "four\n"); err != nil || reply != "four" || c.opens.Load() != 1 {
		t.Errorf("%q, %v, opened %d times", reply, err, c.opens.Load())
	}
}

// TestCallerLeaves: if a caller's context ends while the program works on its request, the program must not be killed,
// since other callers share it. The late reply must not be returned to the next caller.
func TestCallerLeaves(t *testing.T) {
	t.Parallel()
	folder := t.TempDir()
	reads, goes := filepath.Join(folder, "reads"), filepath.Join(folder, "goes")
	for _, fifo := range []string{reads, goes} {
		must(t, syscall.Mkfifo(fifo, 0o600))
	}
	// The program writes each line that it has read to one FIFO, and replies after it has read a line from the other
	// one.
	program := []string{"sh", "-c", `while read -r x; do echo "$x" >"$1"; read -r y <"$2"; echo "$x"; done`,
		"sh", reads, goes}
	c := newAsker(func(context.Context) (*Peer, error) { return Start(program) }, testkit.Longest)
	defer c.close()
	for i := 0; i < 5; i++ {
		ctx, leave := context.WithCancel(context.Background())
		left := make(chan error, 1)
		go func() {
			_, err := askFor(c, ctx, "of a caller that leaves\n")
			left <- err
		}()
		if read, err := os.ReadFile(reads); err != nil || string(read) != "of a caller that leaves\n" {
			t.Fatalf("%q, %v", read, err)
		}
		leave()
		wantError(t, <-left, ErrGone)
		must(t, os.WriteFile(goes, []byte("\n"), 0))
		stays := make(chan error, 1)
		go func() {
			reply, err := askFor(c, context.Background(), "of a caller that stays\n")
			if err == nil && reply != "of a caller that stays" {
				err = errors.New(reply)
			}
			stays <- err
		}()
		if read, err := os.ReadFile(reads); err != nil || string(read) != "of a caller that stays\n" {
			t.Fatalf("%q, %v", read, err)
		}
		must(t, os.WriteFile(goes, []byte("\n"), 0))
		must(t, <-stays)
	}
	if c.opens.Load() != 1 {
		t.Errorf("the program was started %d times", c.opens.Load())
	}
}

// TestCloseInterrupts closes an asker while its program works on the request of a caller that has left. close must not
// wait for the limit.
func TestCloseInterrupts(t *testing.T) {
	t.Parallel()
	reads := filepath.Join(t.TempDir(), "reads")
	must(t, syscall.Mkfifo(reads, 0o600))
	c := newAsker(func(context.Context) (*Peer, error) {
		return Start([]string{"sh", "-c", `read -r x; echo $$ >"$1"; sleep 100000`, "sh", reads})
	}, 24*time.Hour)
	ctx, leave := context.WithCancel(context.Background())
	left := make(chan error, 1)
	go func() {
		_, err := askFor(c, ctx, "x\n")
		left <- err
	}()
	text, err := os.ReadFile(reads)
	must(t, err)
	leave()
	wantError(t, <-left, ErrGone)
	c.close()
	pid, err := strconv.Atoi(strings.TrimSpace(string(text)))
	must(t, err)
	if alive(pid) {
		t.Error("the process still runs")
	}
}

// TestLongLine sends a line that is longer than a pipe can hold, to a process that replies meanwhile.
func TestLongLine(t *testing.T) {
	c := newAsker(cat, testkit.Longest)
	defer c.close()
	line := strings.Repeat("x", 5_000_000)
	if reply, err := askFor(c, context.Background(), line+"\n"); err != nil || reply != line {
		t.Errorf("%d bytes, %v", len(reply), err)
	}
}

// TestSocket asks a peer at a socket, whose connection is closed and opened again.
func TestSocket(t *testing.T) {
	path, ctx := filepath.Join(t.TempDir(), "socket"), context.Background()
	c := newAsker(func(ctx context.Context) (*Peer, error) { return Dial(ctx, path) }, testkit.Longest)
	defer c.close()
	if _, err := askFor(c, ctx, "one\n"); !errors.Is(err, ErrGone) {
		t.Fatal(err)
	}
	listener, err := net.Listen("unix", path)
	if err != nil {
		t.Fatal(err)
	}
	defer listener.Close()
	go func() {
		// On each connection, one line is answered.
		for {
			connection, err := listener.Accept()
			if err != nil {
				return
			}
			line, _ := bufio.NewReader(connection).ReadString('\n')
			_, _ = io.WriteString(connection, line)
			connection.Close()
		}
	}()
	for i := 0; i < 3; i++ {
		if reply, err := askFor(c, ctx, "two\n"); err != nil || reply != "two" {
			t.Errorf("%q, %v", reply, err)
		}
		if _, err := askFor(c, ctx, "three\n"); !errors.Is(err, ErrGone) {
			t.Error(err)
		}
	}
}

// TestClosesAPeerWithoutAReply: a process that sends no reply in time is killed.
func TestClosesAPeerWithoutAReply(t *testing.T) {
	file := filepath.Join(t.TempDir(), "pid")
	e, err := Start([]string{"sh", "-c", "echo $$ >" + file + "; read -r x; echo; exec sleep 60"})
	if err != nil {
		t.Fatal(err)
	}
	// After its first reply the program has written its process number.
	if _, err := e.exchange(context.Background(), testkit.Longest, []byte("x\n")); err != nil {
		t.Fatal(err)
	}
	if _, err := e.exchange(context.Background(), 10*time.Millisecond, []byte("x\n")); !errors.Is(err, ErrGone) {
		t.Fatal(err)
	}
	text, err := os.ReadFile(file)
	if err != nil {
		t.Fatal(err)
	}
	pid, err := strconv.Atoi(strings.TrimSpace(string(text)))
	if err != nil {
		t.Fatal(err)
	}
	if err := syscall.Kill(pid, 0); !errors.Is(err, syscall.ESRCH) {
		_ = syscall.Kill(pid, syscall.SIGKILL)
		t.Errorf("process %d still runs: %v", pid, err)
	}
}
