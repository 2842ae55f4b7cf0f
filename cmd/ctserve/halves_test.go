package main

import (
	"fmt"
	"io"
	"net"
	"net/http"
	"os"
	"os/exec"
	"path/filepath"
	"regexp"
	"strings"
	"testing"
	"time"

	"wagtenib/internal/testkit"
)

// asOnPage runs the command of docs/OPERATING.md that changes Debian's nginx.conf so many times on a copy, and returns
// the copy.
func asOnPage(t *testing.T, often int) string {
	t.Helper()
	nginxFound(t)
	const own = "/etc/nginx/nginx.conf"
	text, err := os.ReadFile(own)
	if err != nil {
		t.Skipf("nginx is not that of Debian: %v", err)
	}
	page, err := os.ReadFile("../../docs/OPERATING.md")
	testkit.Must(t, err)
	lines := regexp.MustCompile(`(?m)^    \$ (sed -i .*) ` + own + `$`).FindStringSubmatch(string(page))
	if lines == nil {
		t.Fatalf("the page has no line for %s", own)
	}
	file := filepath.Join(t.TempDir(), "nginx.conf")
	testkit.Must(t, os.WriteFile(file, text, 0o600))
	for i := 0; i < often; i++ {
		if output, err := exec.Command("sh", "-c", lines[1]+" "+file).CombinedOutput(); err != nil {
			t.Fatalf("%s: %s", lines[1], output)
		}
	}
	changed, err := os.ReadFile(file)
	testkit.Must(t, err)
	return string(changed)
}

// TestMoreConnectionsOfNginx checks that the page's command changes only the maximum numbers of a worker's connections
// and open files. It may be run twice.
func TestMoreConnectionsOfNginx(t *testing.T) {
	for _, often := range []int{1, 2} {
		changed := asOnPage(t, often)
		for _, line := range []string{"worker_processes auto;", "worker_connections 8192;",
			"worker_rlimit_nofile 16384;"} {
			if strings.Count(changed, line) != 1 {
				t.Errorf("%d times: the file does not have %q once: %s", often, line, changed)
			}
		}
		own, err := os.ReadFile("/etc/nginx/nginx.conf")
		testkit.Must(t, err)
		if now, before := strings.Count(changed, "\n"), strings.Count(string(own), "\n"); now != before {
			t.Errorf("%d times: the file has %d lines, and had %d", often, now, before)
		}
	}
}

// half opens a connection and sends the beginning of a request.
func half(t *testing.T, address, request string) net.Conn {
	t.Helper()
	connection, err := net.Dial("tcp", address)
	testkit.Must(t, err)
	t.Cleanup(func() { connection.Close() })
	_, err = io.WriteString(connection, request)
	testkit.Must(t, err)
	return connection
}

// from sends a request from another loopback address.
func from(t *testing.T, own, address, path string) (int, string) {
	t.Helper()
	dialer := net.Dialer{LocalAddr: &net.TCPAddr{IP: net.ParseIP(own)}}
	client := http.Client{Transport: &http.Transport{DialContext: dialer.DialContext, DisableKeepAlives: true},
		Timeout: testkit.Longest}
	return whole(client.Get("http://" + address + path))
}

// TestHalfBodiesAtNginx checks that a client with as many requests at nginx as one address may have, none with a whole
// body, is refused by nginx itself. Other clients are answered, and so is this address after its requests have ended.
func TestHalfBodiesAtNginx(t *testing.T) {
	t.Parallel()
	at, maxRequests := newPlace(t), 5
	p := started(t, "20ms", at.arguments("--trusted-proxies", "127.0.0.1")...)
	address := nginxBefore(t, p.clients, maxRequests)
	var halves []net.Conn
	const begun = "POST /ct/v1/add-chain HTTP/1.1\r\nHost: log.example\r\nContent-Length: 1000000\r\n\r\n{"
	for i := 0; i < maxRequests-1; i++ {
		halves = append(halves, half(t, address, begun))
	}
	if status, text := from(t, "127.0.0.1", address, "/checkpoint"); status != 200 {
		t.Errorf("the last that one address may have: %d %s", status, text)
	}
	halves = append(halves, half(t, address, begun))
	until := time.Now().Add(testkit.Patience)
	for refused := false; !refused; {
		for i := range halves {
			// nginx closes a connection on which nothing comes for a while. Then another one is opened.
			if _, err := halves[i].Write([]byte(" ")); err != nil {
				halves[i] = half(t, address, begun)
			}
		}
		status, text := from(t, "127.0.0.1", address, "/checkpoint")
		if refused = status == 429; refused && !strings.Contains(text, "nginx") {
			t.Errorf("the refusal is not nginx's: %s", text)
		}
		if status != 200 && !refused || time.Now().After(until) {
			t.Fatalf("one more than an address may have: %d %s", status, text)
		}
		if status, text := from(t, "127.0.0.2", address, "/checkpoint"); status != 200 {
			t.Errorf("another address: %d %s", status, text)
		}
	}
	for _, one := range halves {
		one.Close()
	}
	for {
		status, text := from(t, "127.0.0.1", address, "/checkpoint")
		if status == 200 {
			break
		}
		if status != 429 || time.Now().After(until) {
			t.Fatalf("after they were closed: %d %s", status, text)
		}
	}
}

// TestHalfHeadersAtNginx checks that, with the number of connections of the page's command, one address with more half
// headers than Debian's limit of 768 connections keeps no other client out. nginx closes them after the site's ten
// seconds, and not after its own sixty.
func TestHalfHeadersAtNginx(t *testing.T) {
	t.Parallel()
	var connections, files int
	changed := asOnPage(t, 1)
	for name, of := range map[string]*int{"worker_connections": &connections, "worker_rlimit_nofile": &files} {
		if found := regexp.MustCompile(name + ` (\d+);`).FindStringSubmatch(changed); found == nil {
			t.Fatalf("the file has no %s", name)
		} else if _, err := fmt.Sscan(found[1], of); err != nil {
			t.Fatal(err)
		}
	}
	if os.Getuid() != 0 {
		t.Skip("nginx may open more files only if root starts it")
	}
	at := newPlace(t)
	p := started(t, "20ms", at.arguments("--trusted-proxies", "127.0.0.1")...)
	address, folder := testkit.Free(t), t.TempDir()
	nginxHaving(t, siteInClear(t, address, p.clients, filepath.Join(folder, "cache"), 64), address,
		fmt.Sprintf("worker_rlimit_nofile %d; events { worker_connections %d; }", files, connections))
	// On a slow machine the first connections may be closed before other clients were answered, or the test may notice
	// late that they are closed. Then it tries again.
	for try := 0; ; try++ {
		halves, opened := []net.Conn{}, time.Now()
		for i := 0; i < 800; i++ {
			halves = append(halves, half(t, address, "GET /checkpoint HTTP/1.1\r\nHost: log.exam"))
		}
		for _, own := range []string{"127.0.0.2", "127.0.0.1"} {
			if status, text := from(t, own, address, "/checkpoint"); status != 200 {
				t.Errorf("%s, with %d half requests: %d %s", own, len(halves), status, text)
			}
		}
		open := 0
		for _, one := range halves {
			if isOpen(one) {
				open++
			}
		}
		for i, one := range halves {
			one.SetReadDeadline(opened.Add(testkit.Longest))
			if _, err := one.Read(make([]byte, 1)); err == nil || os.IsTimeout(err) {
				t.Fatalf("half request %d is not closed: %v", i, err)
			}
		}
		took := time.Since(opened)
		if open == len(halves) && took < 50*time.Second {
			return
		}
		if try == 9 {
			t.Fatalf("after others were answered, %d of %d half requests were open. They were closed within %v", open,
				len(halves), took)
		}
	}
}

// isOpen reports whether the server has not closed a connection on which it sends nothing.
func isOpen(connection net.Conn) bool {
	connection.SetReadDeadline(time.Now().Add(time.Millisecond))
	_, err := connection.Read(make([]byte, 1))
	return os.IsTimeout(err)
}
