package archive

import (
	"os"
	"os/exec"
	"path/filepath"
	"strings"
	"testing"

	"wagtenib/internal/testkit"
)

// failingLocks is a library in C whose fcntl fails to unlock while a file exists. A network file system does so while
// its server is unreachable.
const failingLocks = `
#define _GNU_SOURCE
#include <dlfcn.h>
#include <errno.h>
#include <fcntl.h>
#include <stdarg.h>
#include <stdlib.h>
#include <unistd.h>

static int fails(int command, void *argument) {
	const char *while_there = getenv("LOCKS_FAIL");
	return command == F_SETLK && while_there && access(while_there, F_OK) == 0 && ((struct flock *)argument)->l_type == F_UNLCK;
}

#define WRAPPED(name) \
int name(int file, int command, ...) { \
	static int (*next)(int, int, ...); \
	va_list more; \
	va_start(more, command); \
	void *argument = va_arg(more, void *); \
	va_end(more); \
	if (!next) next = (int (*)(int, int, ...))dlsym(RTLD_NEXT, #name); \
	if (fails(command, argument)) { errno = ENOLCK; return -1; } \
	return next(file, command, argument); \
}
WRAPPED(fcntl)
WRAPPED(fcntl64)
`

// The environment variables of the child process: the database file, and the file while which exists locks fail.
const (
	databaseVariable = "LOCKED_DATABASE"
	failVariable     = "LOCKS_FAIL"
)

// TestLocksThatFailForAWhile makes the file system's locks fail for a while, and then work again. Then the index of an
// archive must also work again, without a new process.
func TestLocksThatFailForAWhile(t *testing.T) {
	if os.Getenv(databaseVariable) != "" {
		useIndex(t)
		return
	}
	compiler, err := exec.LookPath("gcc")
	if err != nil {
		t.Skip("gcc is missing")
	}
	folder := t.TempDir()
	source, library := filepath.Join(folder, "locks.c"), filepath.Join(folder, "locks.so")
	testkit.Must(t, os.WriteFile(source, []byte(failingLocks), 0o600))
	if output, err := exec.Command(compiler, "-shared", "-fPIC", "-o", library, source,
		"-ldl").CombinedOutput(); err != nil {
		t.Fatalf("%v: %s", err, output)
	}
	child := exec.Command(os.Args[0], "-test.run=^TestLocksThatFailForAWhile$", "-test.v", "-test.timeout=10m")
	child.Env = append(os.Environ(), "LD_PRELOAD="+library, databaseVariable+"="+
		filepath.Join(folder, "places.db"), failVariable+"="+filepath.Join(folder, "fails"))
	output, err := child.CombinedOutput()
	if err != nil || !strings.Contains(string(output), "a lock failed") {
		t.Errorf("%v: %s", err, output)
	}
}

// useIndex runs in the child process: it uses the index while locks fail, and afterwards.
func useIndex(t *testing.T) {
	ctx, index := testkit.Limited(t, testkit.Longest), openIndex(t, os.Getenv(databaseVariable))
	testkit.Must(t, index.add(ctx, 1, hashesOf(1, 2)))
	testkit.Must(t, os.WriteFile(os.Getenv(failVariable), nil, 0o600))
	failed := false
	for i := 2; i < 20; i++ {
		err := index.add(ctx, uint64(i), hashesOf(i, i+1))
		_, _, findErr := index.find(ctx, hashOf(1))
		failed = failed || err != nil || findErr != nil
	}
	if failed {
		t.Log("a lock failed")
	}
	testkit.Must(t, os.Remove(os.Getenv(failVariable)))
	for i := 20; i < 40; i++ {
		testkit.Must(t, index.add(ctx, uint64(i), hashesOf(i, i+1)))
		checkFound(t, index, 1, i+1, 1, i)
	}
}
