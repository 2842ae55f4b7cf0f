package main

import (
	"bytes"
	"context"
	"net"
	"net/http"
	"testing"

	"wagtenib/internal/testkit"
)

// TestPageRefusesOtherHosts: the page answers for addresses, localhost and the names of the settings. A page elsewhere
// whose name resolves to this machine gets nothing, whatever it asks for.
func TestPageRefusesOtherHosts(t *testing.T) {
	reserved, err := net.Listen("tcp", "127.0.0.1:0")
	must(t, err)
	address := reserved.Addr().String()
	must(t, reserved.Close())
	log := serveLog(t, "a.example")
	ctx, stop := context.WithCancel(context.Background())
	var faults bytes.Buffer
	ended := make(chan int, 1)
	arguments := []string{"run", "--name", "example.org", "--folder", t.TempDir(), "--log", log.setting(true),
		"--listen", address, "--page-host", "Watch.Example.org"}
	go func() { ended <- program().Run(ctx, arguments, &faults, &faults) }()
	ask := func(host, path string) int {
		request, err := http.NewRequest(http.MethodGet, "http://"+address+path, nil)
		must(t, err)
		request.Host = host
		answer, err := http.DefaultClient.Do(request)
		if err != nil {
			return 0
		}
		must(t, answer.Body.Close())
		return answer.StatusCode
	}
	testkit.Eventually(t, "the page answers", func() bool { return ask(address, "/") == http.StatusOK })
	for host, expected := range map[string]int{address: 200, "localhost:8650": 200, "LOCALHOST": 200, "[::1]:8650": 200,
		"192.0.2.7": 200, "watch.example.org": 200, "watch.example.org.:80": 200, "evil.example": 421,
		"evil.example:8650": 421, "127.0.0.1.evil.example": 421, "a.watch.example.org": 421, "localhost.evil.example": 421} {
		for _, path := range []string{"/", "/logs", "/alerts", "/metrics", "/style.css", "/certificate/00"} {
			found := ask(host, path)
			if expected == 421 && found != 421 || expected == 200 && (found == 421 || found == 0) {
				t.Errorf("Host %s, %s: %d, and %d is expected", host, path, found, expected)
			}
		}
	}
	stop()
	if status := <-ended; status != 0 {
		t.Errorf("status %d: %s", status, faults.String())
	}
	for _, wrong := range []string{"", "https://watch.example.org", "watch.example.org:80", "*.example.org"} {
		if status, _, _ := ctwatch(t, "run", "--name", "a.example", "--page-host", wrong); status != statusUsage {
			t.Errorf("--page-host %q: status %d", wrong, status)
		}
	}
}
