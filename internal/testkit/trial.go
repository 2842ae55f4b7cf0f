// Package testkit contains what the tests of several packages share: a CA, a log that can lie, a bucket in memory, a
// PKCS#11 token, the tested program in a process of its own, and waiting.
package testkit

import (
	"context"
	"crypto/rand"
	"errors"
	"fmt"
	"net"
	"os"
	"strings"
	"syscall"
	"testing"
	"time"
)

// Patience is the longest time for which a test waits for something. It is long enough for a busy machine.
const Patience = 2 * time.Minute

// Longest is a time limit that nothing in a test reaches.
const Longest = 30 * time.Minute

// Must ends the test if there is an error.
func Must(t testing.TB, err error) {
	t.Helper()
	if err != nil {
		t.Fatal(err)
	}
}

// Eventually waits until a condition holds. It ends the test after Patience, with the description of the condition.
func Eventually(t testing.TB, what string, holds func() bool) {
	t.Helper()
	for until := time.Now().Add(Patience); !holds(); time.Sleep(time.Millisecond) {
		if time.Now().After(until) {
			t.Fatalf("%s: not in %v", what, Patience)
		}
	}
}

// PassOn sends all values of one channel to another one, which it closes after the last value. It buffers any number of
// values, so the sender never waits for the receiver.
func PassOn[T any](from <-chan T, to chan<- T) {
	defer close(to)
	var waiting []T
	for from != nil || len(waiting) > 0 {
		var first T
		var next chan<- T
		if len(waiting) > 0 {
			first, next = waiting[0], to
		}
		select {
		case value, ok := <-from:
			if !ok {
				from = nil
				continue
			}
			waiting = append(waiting, value)
		case next <- first:
			waiting = waiting[1:]
		}
	}
}

// WantError ends the test unless the error is each of these, as errors.Is decides.
func WantError(t testing.TB, err error, kinds ...error) {
	t.Helper()
	for _, kind := range kinds {
		if !errors.Is(err, kind) {
			t.Fatalf("the error is %v, and should be: %v", err, kind)
		}
	}
}

// Limited returns a context that ends with the test, or after the timeout if that is earlier.
func Limited(t testing.TB, timeout time.Duration) context.Context {
	ctx, cancel := context.WithTimeout(context.Background(), timeout)
	t.Cleanup(cancel)
	return ctx
}

// ShortFiles calls a function, and returns its error. During the call no file of this process can grow beyond maxBytes.
// A write beyond that fails, as on a full disk. No other test may run in parallel.
func ShortFiles(t testing.TB, maxBytes uint64, do func() error) error {
	t.Helper()
	var before syscall.Rlimit
	Must(t, syscall.Getrlimit(syscall.RLIMIT_FSIZE, &before))
	Must(t, syscall.Setrlimit(syscall.RLIMIT_FSIZE, &syscall.Rlimit{Cur: maxBytes, Max: before.Max}))
	err := do()
	Must(t, syscall.Setrlimit(syscall.RLIMIT_FSIZE, &before))
	return err
}

// Page returns the text of a page on one line.
func Page(t testing.TB, path string) string {
	t.Helper()
	text, err := os.ReadFile(path)
	Must(t, err)
	return strings.Join(strings.Fields(string(text)), " ")
}

// Says checks that a page contains each sentence, and that each sentence is true of the code, as the map says.
func Says(t testing.TB, page string, sentences map[string]bool) {
	t.Helper()
	for sentence, isTrue := range sentences {
		if !strings.Contains(page, sentence) {
			t.Errorf("the page does not say %q", sentence)
		}
		if !isTrue {
			t.Errorf("the page says %q, which is not true of the code", sentence)
		}
	}
}

// Free returns a loopback address, with a port, at which nothing listens. The host part is random, so no other
// connection takes the port before it is used.
func Free(t testing.TB) string {
	t.Helper()
	var host [3]byte
	_, err := rand.Read(host[:])
	Must(t, err)
	listener, err := net.Listen("tcp", fmt.Sprintf("127.%d.%d.%d:0", host[0], host[1], 1+host[2]%254))
	Must(t, err)
	defer listener.Close()
	return listener.Addr().String()
}
