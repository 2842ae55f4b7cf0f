package main

import (
	"os"
	"os/exec"
	"path/filepath"
	"strings"
	"syscall"
	"testing"
	"time"

	"wagtenib/internal/audit/judge"
	"wagtenib/internal/testkit"
)

// TestReadsGoOn checks what happens while a log's lock is missing, another process has locked its lock file, or the
// file system is read-only. Submissions are refused with an error of their own. Heads, tiles, entries and proofs are
// answered all the time. Afterwards submissions are accepted again.
func TestReadsGoOn(t *testing.T) {
	t.Parallel()
	for what, breaks := range map[string]func(t *testing.T, disk string) (repair func()){
		"the lock is away": func(t *testing.T, disk string) func() {
			lock := filepath.Join(disk, "register")
			if err := os.Rename(lock, lock+".away"); err != nil {
				t.Fatal(err)
			}
			return func() {
				if err := os.Rename(lock+".away", lock); err != nil {
					t.Fatal(err)
				}
			}
		},
		"another process has the lock file": func(t *testing.T, disk string) func() {
			taken, err := os.Open(filepath.Join(disk, "register", "lock"))
			if err == nil {
				err = syscall.Flock(int(taken.Fd()), syscall.LOCK_EX)
			}
			if err != nil {
				t.Fatal(err)
			}
			return func() { taken.Close() }
		},
		"the disk is read-only": func(t *testing.T, disk string) func() {
			remounts := func(flags uintptr) {
				for until := time.Now().Add(testkit.Patience); ; time.Sleep(10 * time.Millisecond) {
					err := syscall.Mount("tmpfs", disk, "tmpfs", syscall.MS_REMOUNT|flags, "")
					if err == nil {
						return
					}
					// The file system cannot be made read-only while a file is open for writing.
					if time.Now().After(until) {
						t.Skipf("the file system cannot be mounted again: %v", err)
					}
				}
			}
			remounts(syscall.MS_RDONLY)
			return func() { remounts(0) }
		},
	} {
		what, breaks := what, breaks
		t.Run(what, func(t *testing.T) {
			t.Parallel()
			at := newPlace(t)
			disk, more := at.path("log"), []string{"--signing-key", at.path("log.pem"), "--submission-timeout", "3s"}
			if strings.Contains(what, "disk") {
				disk = at.mount(t)
				// LevelDB has files open for writing, so the file system could not be made read-only.
				more = append(more, "--index", "leveldb:"+at.path("index"), "--guard-state", "file:"+
					at.path("log/guard"), "--latest-head", at.path("log/latest-head"))
			}
			arguments := at.realArguments(more...)
			p := started(t, "", append(arguments, "--create")...)
			var answers []judge.Answer
			for until := time.Now().Add(testkit.Patience); len(answers) < 5; {
				status, text, one := at.submitted(t, p)
				if status == 200 {
					answers = append(answers, one)
				} else if status != 503 || time.Now().After(until) {
					// On a busy machine a submission that waits for only some seconds may be late.
					t.Fatalf("%d %s", status, text)
				}
			}
			repair := breaks(t, disk)
			for i := 0; i < 3; i++ {
				if status, text, _ := at.submitted(t, p); status != 503 || !strings.Contains(text, `"store"`) &&
					!strings.Contains(text, `"late"`) {
					t.Errorf("a submission: %d %s", status, text)
				}
				readsAll(t, p, what, answers)
			}
			repair()
			for until := time.Now().Add(testkit.Patience); ; time.Sleep(50 * time.Millisecond) {
				status, text, _ := at.submitted(t, p)
				if status == 200 {
					break
				}
				if status != 503 || time.Now().After(until) {
					t.Fatalf("after it is back: %d %s", status, text)
				}
			}
			p.signal(syscall.SIGTERM)
			if status := p.ends(); status != 0 {
				t.Errorf("ctserve ended with status %d", status)
			}
		})
	}
}

// TestObjectsAway checks what happens while a log's folder of objects is missing, as on a disk that is not mounted. No
// start makes another folder in its place, into which the running node would write. The running node refuses
// submissions, and accepts them again after the folder is back.
func TestObjectsAway(t *testing.T) {
	t.Parallel()
	at := newPlace(t)
	arguments := at.realArguments("--signing-key", at.path("log.pem"))
	p := started(t, "", append(arguments, "--create")...)
	submitted := func(wanted int, what string) {
		t.Helper()
		for until := time.Now().Add(testkit.Patience); ; time.Sleep(50 * time.Millisecond) {
			status, text, _ := at.submitted(t, p)
			if status == wanted {
				return
			}
			if status != 503 || time.Now().After(until) {
				t.Fatalf("%s: %d %s", what, status, text)
			}
		}
	}
	submitted(200, "at first")
	objects := at.path("log/objects")
	if err := os.Rename(objects, objects+".away"); err != nil {
		t.Fatal(err)
	}
	starts := func() (text string, err error) {
		start, output, ended := exec.Command(os.Args[0], arguments...), &strings.Builder{}, make(chan error, 1)
		start.Env, start.Stdout, start.Stderr = append(os.Environ(), childKey+"=1"), output, output
		if err := start.Start(); err != nil {
			t.Fatal(err)
		}
		defer start.Process.Kill()
		go func() { ended <- start.Wait() }()
		for {
			select {
			case err := <-ended:
				return output.String(), err
			case <-time.After(10 * time.Millisecond):
				if isThere(objects) {
					t.Fatal("a start makes another folder of objects")
				}
			}
		}
	}
	text, err := starts()
	for until := time.Now().Add(testkit.Patience); isLate(text) && time.Now().Before(until); {
		text, err = starts()
	}
	if err == nil || !strings.Contains(text, "the folder of the objects") {
		t.Errorf("a start without the objects' folder: %v: %s", err, text)
	}
	if status, stdout, stderr := does(append([]string{"index"}, arguments...)...); status != 1 ||
		!strings.Contains(stderr, "the folder of the objects") {
		t.Errorf("index: %d, %q, %q", status, stdout, stderr)
	}
	if isThere(objects) {
		t.Fatal("index makes another folder of objects")
	}
	submitted(503, "without the objects' folder")
	if err := os.Rename(objects+".away", objects); err != nil {
		t.Fatal(err)
	}
	submitted(200, "after it is back")
	p.signal(syscall.SIGTERM)
	if status := p.ends(); status != 0 {
		t.Errorf("ctserve ended with status %d", status)
	}
}
