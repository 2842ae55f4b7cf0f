package main

import (
	"fmt"
	"io"
	"net"
	"os"
	"regexp"
	"strconv"
	"sync"
	"syscall"
	"testing"
	"time"

	"golang.org/x/crypto/cryptobyte"

	"wagtenib/internal/testkit"
)

// largeTile returns a data tile of so many entries, each with a certificate of so many bytes (C2SP static-ct-api).
func largeTile(t *testing.T, entries, bytes int) []byte {
	t.Helper()
	var b cryptobyte.Builder
	for i := 0; i < entries; i++ {
		b.AddUint64(7)
		b.AddUint16(0)
		b.AddUint24LengthPrefixed(func(b *cryptobyte.Builder) { b.AddBytes(make([]byte, bytes)) })
		b.AddUint16LengthPrefixed(func(b *cryptobyte.Builder) { b.AddBytes([]byte{0, 0, 5, 0, 0, 0, 0, byte(i)}) })
		b.AddUint16LengthPrefixed(func(*cryptobyte.Builder) {})
	}
	made, err := b.Bytes()
	testkit.Must(t, err)
	return made
}

// memoryOf returns the maximum number of bytes that a process had in memory.
func memoryOf(t *testing.T, process int) int64 {
	t.Helper()
	text, err := os.ReadFile(fmt.Sprintf("/proc/%d/status", process))
	testkit.Must(t, err)
	found := regexp.MustCompile(`VmHWM:\s+(\d+) kB`).FindSubmatch(text)
	if found == nil {
		t.Fatalf("the process's status has no VmHWM: %s", text)
	}
	peak, err := strconv.ParseInt(string(found[1]), 10, 64)
	testkit.Must(t, err)
	return peak << 10
}

// TestLargeTileByMany checks what happens if many clients request a tile of the largest entries at the same time, again
// and again, and read almost nothing of it. Few are answered, the program stays within the memory of its systemd unit,
// and another address is answered all the time.
func TestLargeTileByMany(t *testing.T) {
	t.Parallel()
	unit, err := os.ReadFile("../../release/systemd/ctserve@.service")
	testkit.Must(t, err)
	bound := regexp.MustCompile(`(?m)^MemoryMax=(\d+)G$`).FindSubmatch(unit)
	if bound == nil {
		t.Fatal("the unit has no MemoryMax")
	}
	gigabytes, err := strconv.ParseInt(string(bound[1]), 10, 64)
	testkit.Must(t, err)
	at := newPlace(t)
	arguments := at.realArguments("--signing-key", at.path("log.pem"), "--scrub-interval", "1h")
	p := started(t, "", append(arguments, "--create")...)
	const entries = 5
	for i := 0; i < entries; i++ {
		if status, text := post(p.clients, at.submission()); status != 200 {
			t.Fatalf("%d %s", status, text)
		}
	}
	tile := largeTile(t, entries, 32<<20/entries)
	path := fmt.Sprintf("tile/data/000.p/%d", entries)
	testkit.Must(t, os.WriteFile(at.path("log/objects/"+path), tile, 0o644))
	const addresses, each, rounds = 8, 12, 2
	if int64(addresses*each*len(tile)) < gigabytes<<30 {
		t.Fatalf("%d tiles of %d bytes are fewer than %d GB", addresses*each, len(tile), gigabytes)
	}
	statuses := map[string]int{}
	for round := 0; round < rounds; round++ {
		var all, open sync.WaitGroup
		var mu sync.Mutex
		closes := make(chan struct{})
		for i := 0; i < addresses*each; i++ {
			all.Add(1)
			open.Add(1)
			go func(i int) {
				defer all.Done()
				status := statusOf(p.clients, fmt.Sprintf("127.0.0.%d", 10+i%addresses), path, closes, open.Done)
				mu.Lock()
				statuses[status]++
				mu.Unlock()
			}(i)
		}
		other := func() (int, string) { return from(t, "127.0.0.9", p.clients, "/checkpoint") }
		if status, text := unlessLate(other); status != 200 {
			t.Errorf("another address: %d %s", status, text)
		}
		open.Wait()
		if status, text := unlessLate(other); status != 200 {
			t.Errorf("another address, while all wait: %d %s", status, text)
		}
		close(closes)
		all.Wait()
	}
	if peak := memoryOf(t, p.command.Process.Pid); peak >= gigabytes<<30 {
		t.Errorf("the process had %d bytes in memory, and the unit allows %d GiB. Answers: %v", peak, gigabytes, statuses)
	}
	if statuses["200"] == 0 || statuses["429"]+statuses["503"] == 0 ||
		statuses["200"]+statuses["429"]+statuses["503"] != addresses*each*rounds {
		t.Errorf("answers: %v", statuses)
	}
	p.signal(syscall.SIGTERM)
	if status := p.ends(); status != 0 {
		t.Errorf("ctserve ended with status %d", status)
	}
}

// statusOf requests a path over a connection with a small buffer, and reads only the status. Then it calls answered,
// and waits until it may close the connection.
func statusOf(address, own, path string, closes <-chan struct{}, answered func()) string {
	status, connection := readStatus(address, own, path)
	if connection != nil {
		defer connection.Close()
	}
	answered()
	<-closes
	return status
}

func readStatus(address, own, path string) (string, net.Conn) {
	setSmallBuffer := func(_, _ string, raw syscall.RawConn) (err error) {
		failed := raw.Control(func(socket uintptr) {
			err = syscall.SetsockoptInt(int(socket), syscall.SOL_SOCKET, syscall.SO_RCVBUF, 4<<10)
		})
		if failed != nil {
			return failed
		}
		return err
	}
	connection, err := (&net.Dialer{LocalAddr: &net.TCPAddr{IP: net.ParseIP(own)}, Control: setSmallBuffer}).Dial(
		"tcp", address)
	if err != nil {
		return err.Error(), nil
	}
	var line [len("HTTP/1.1 200")]byte
	if err = connection.SetDeadline(time.Now().Add(testkit.Patience)); err == nil {
		_, err = fmt.Fprintf(connection, "GET /%s HTTP/1.1\r\nHost: log.example\r\n\r\n", path)
	}
	if err == nil {
		_, err = io.ReadFull(connection, line[:])
	}
	if err != nil {
		return err.Error(), connection
	}
	return string(line[len("HTTP/1.1 "):]), connection
}
