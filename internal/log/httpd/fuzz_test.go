package httpd

import (
	"bufio"
	"bytes"
	"context"
	"encoding/json"
	"io"
	"net"
	"net/http"
	"net/http/httptest"
	"net/url"
	"os"
	"testing"
	"time"

	"wagtenib/internal/blob"
	"wagtenib/internal/command/eventlog"
	"wagtenib/internal/testkit"
)

var statuses = map[int]bool{200: true, 400: true, 404: true, 405: true, 411: true, 413: true}

// FuzzHandlers checks that each refusal has a name, that none is internal, and that a served object is the stored one.
func FuzzHandlers(f *testing.F) {
	x := newFixture(f, time.Millisecond, nil)
	x.fill(260)
	for path := range calls {
		f.Add("GET", path, "", []byte{})
	}
	f.Add("POST", "/ct/v1/add-chain", "", testkit.Submission(x.issue(false)))
	f.Add("POST", "/ct/v1/add-pre-chain", "", testkit.Submission(x.issue(true), x.authority.Root.Raw))
	f.Add("HEAD", "/tile/0/000", "", []byte{})
	f.Add("GET", "/tile/data/001.p/4", "", []byte{})
	f.Add("GET", "/issuer/"+fingerprintOf(x.authority.Root.Raw), "", []byte{})
	f.Add("GET", "/ct/v1/get-entries", "start=254&end=258", []byte{})
	f.Add("GET", "/ct/v1/get-sth-consistency", "first=1&second=257", []byte{})
	f.Add("GET", "/ct/v1/get-proof-by-hash",
		"tree_size=257&hash=AAAAAAAAAAAAAAAAAAAAAAAAAAAAAAAAAAAAAAAAAAA=", []byte{})
	f.Add("GET", "/ct/v1/get-entry-and-proof", "leaf_index=256&tree_size=257", []byte{})
	f.Fuzz(func(t *testing.T, method, path, query string, body []byte) {
		asks := func() *httptest.ResponseRecorder {
			r := &http.Request{
				Method: method, URL: &url.URL{Path: path, RawQuery: query}, Header: http.Header{}, Host: "log",
				RemoteAddr: "192.0.2.1:1",
				Body:       io.NopCloser(bytes.NewReader(body)), ContentLength: int64(len(body)),
				ProtoMajor: 1, ProtoMinor: 1,
			}
			w := httptest.NewRecorder()
			x.front.ServeHTTP(w, r)
			return w
		}
		w := asks()
		if path == "/readyz" && w.Code == 503 {
			w = unlessLate(asks)
		}
		if !statuses[w.Code] {
			t.Fatalf("%s %q?%q: %d %s", method, path, query, w.Code, w.Body)
		}
		if w.Code != 200 {
			var reply struct {
				Message string `json:"error_message"`
			}
			if err := json.Unmarshal(w.Body.Bytes(), &reply); err != nil || reply.Message == "" ||
				reply.Message == "internal" {
				t.Fatalf("%s %q: %d %s", method, path, w.Code, w.Body)
			}
			return
		}
		if _, isCall := calls[path]; isCall {
			return
		}
		content, err := x.log.Object(context.Background(), path[1:], blob.MaxObject)
		if err != nil || !bytes.Equal(content, w.Body.Bytes()) {
			t.Fatalf("%q is served with another content than the log has: %v", path, err)
		}
	})
}

// FuzzConnections checks that, whatever a connection sends, each answer is HTTP and the server stays alive.
func FuzzConnections(f *testing.F) {
	x := newFixture(f, time.Millisecond, func(o *Options) {
		o.Lines = eventlog.NewLines(
			io.Discard)
		o.Limits.ConnectionsByAddress = 4000
	})
	address, _ := x.listening(nil)
	body := testkit.Submission(x.issue(false))
	for _, text := range []string{
		"GET /checkpoint HTTP/1.1\r\nHost: log\r\n\r\n", "GET /ct/v1/get-entries?start=0&end=0 HTTP/1.0\r\n\r\n",
		"POST /ct/v1/add-chain HTTP/1.1\r\nHost: log\r\nContent-Length: 2\r\n\r\n{}GET / HTTP/1.1\r\nHost: log\r\n\r\n",
		"POST /ct/v1/add-chain HTTP/1.1\r\nHost: log\r\nTransfer-Encoding: chunked\r\n\r\n2\r\n{}\r\n0\r\n\r\n",
		"POST /ct/v1/add-chain HTTP/1.1\r\nHost: log\r\nContent-Length: " + string(rune('0'+len(body)%10)) +
			"\r\n\r\n" + string(body),
		"HEAD / HTTP/1.1\r\nHost: log\r\nConnection: close\r\n\r\n", "OPTIONS * HTTP/1.1\r\nHost: log\r\n\r\n",
		"CONNECT log:1 HTTP/1.1\r\nHost: log\r\n\r\n",
	} {
		f.Add([]byte(text))
	}
	f.Fuzz(func(t *testing.T, text []byte) {
		connection, err := net.Dial("tcp", address)
		if err != nil {
			t.Fatal(err)
		}
		defer connection.Close()
		connection.SetDeadline(time.Now().Add(5 * time.Second))
		connection.Write(text)
		connection.(*net.TCPConn).CloseWrite()
		reader := bufio.NewReader(connection)
		for {
			line, err := reader.Peek(5)
			if err != nil {
				break
			}
			if string(line) != "HTTP/" {
				t.Fatalf("%q is answered by %q", text, line)
			}
			// A response to HEAD has no body, and the test does not know which responses are to HEAD.
			if bytes.Contains(text, []byte("HEAD ")) {
				break
			}
			answer, err := http.ReadResponse(reader, nil)
			if err != nil {
				t.Fatalf("%q is answered by no HTTP: %v", text, err)
			}
			if _, err := io.Copy(io.Discard, answer.Body); err != nil {
				break
			}
		}
		if x.front.uses.waiting.used.Load() < 0 {
			t.Fatal("more is given than was taken")
		}
	})
}

func writeFile(t testing.TB, path string, content []byte) {
	t.Helper()
	if err := os.WriteFile(path, content, 0o600); err != nil {
		t.Fatal(err)
	}
}
