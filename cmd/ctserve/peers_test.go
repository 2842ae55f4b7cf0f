package main

import (
	"crypto/tls"
	"crypto/x509"
	"encoding/json"
	"encoding/pem"
	"io"
	"net"
	"net/http"
	"os"
	"strings"
	"syscall"
	"testing"
	"time"

	"wagtenib/internal/testkit"
)

// nodesAuthority is a CA of the nodes of a log.
type nodesAuthority struct{ *testkit.Authority }

// newNodesAuthority makes a CA, and writes its certificate into a file.
func (p *place) newNodesAuthority(name string) nodesAuthority {
	p.t.Helper()
	a := nodesAuthority{testkit.NewAuthority(name)}
	p.write(name+".pem", a.PEM())
	return a
}

// issue writes a node's certificate and key into files.
func (a nodesAuthority) issue(p *place, name string) {
	p.t.Helper()
	certificate, key := a.KeyPair(net.IPv4(127, 0, 0, 1))
	p.write(name+".pem", certificate)
	p.write(name+".key", key)
}

// freeAddress returns an address of this machine at which no process listens.
func freeAddress(t *testing.T) string {
	t.Helper()
	l, err := net.Listen("tcp", "127.0.0.1:0")
	if err != nil {
		t.Fatal(err)
	}
	defer l.Close()
	return l.Addr().String()
}

// nodeArguments returns the arguments of a node of a log with several nodes.
func (p *place) nodeArguments(name, address string) []string {
	return []string{"--nodes-listen", address, "--nodes-address", "https://" + address, "--nodes-certificate",
		p.path(name + ".pem"), "--nodes-key", p.path(name + ".key"),
		"--nodes-ca", p.path("nodes.pem"), "--latest-head", p.path(name + ".latest-head")}
}

// metric returns the value of a metric, or "" if there is none.
func (p *program) metric(name string) string {
	p.t.Helper()
	_, text := get(p.operator, "/metrics")
	for _, line := range strings.Split(text, "\n") {
		if value, ok := strings.CutPrefix(line, name+" "); ok {
			return value
		}
	}
	return ""
}

// TestForwards checks that the one of two nodes that does not make the steps forwards its submissions, and accepts them
// itself after the other one was killed. Other clients cannot use the address for nodes.
func TestForwards(t *testing.T) {
	t.Parallel()
	at := newPlace(t)
	authority := at.newNodesAuthority("nodes")
	authority.issue(at, "one")
	authority.issue(at, "two")
	arguments := at.realArguments("--signing-key", at.path("log.pem"), "--index", at.sharedIndex())
	first, second := freeAddress(t), freeAddress(t)
	one := started(t, "", append(append(arguments, at.nodeArguments("one", first)...), "--create")...)
	two := started(t, "", append(arguments, at.nodeArguments("two", second)...)...)
	for until := time.Now().Add(testkit.Patience); two.metric("ctserve_forwarded_submissions_total") == "0"; {
		for _, node := range []*program{one, two} {
			if status, text := post(node.clients, at.submission()); status != 200 {
				t.Fatalf("%d %s", status, text)
			}
		}
		if time.Now().After(until) {
			t.Fatal("nothing is forwarded")
		}
	}
	// The same submission is answered by both with one timestamp.
	body := at.submission()
	_, here := post(one.clients, body)
	status, there := post(two.clients, body)
	if status != 200 || timestampIn(t, here) != timestampIn(t, there) {
		t.Errorf("%d: %s and %s", status, here, there)
	}
	at.refusesOthers(first)
	one.signal(syscall.SIGKILL)
	one.ends()
	if status, text := post(two.clients, at.submission()); status != 200 {
		t.Errorf("the other node was killed: %d %s", status, text)
	}
}

// refusesOthers checks that a node's listener for nodes accepts no client without a certificate of their CA and none
// without TLS, and that a client with such a certificate may only submit.
func (p *place) refusesOthers(address string) {
	p.t.Helper()
	pool := x509.NewCertPool()
	p.newNodesAuthority("others").issue(p, "other")
	pool.AddCert(p.read("nodes.pem"))
	for name, want := range map[string]int{"": 0, "other": 0, "two": http.StatusNotFound} {
		over := &tls.Config{RootCAs: pool}
		if name != "" {
			pair, err := tls.LoadX509KeyPair(p.path(name+".pem"), p.path(name+".key"))
			if err != nil {
				p.t.Fatal(err)
			}
			over.Certificates = []tls.Certificate{pair}
		}
		client := &http.Client{Transport: &http.Transport{TLSClientConfig: over}, Timeout: testkit.Longest}
		answer, err := client.Get("https://" + address + "/checkpoint")
		if err == nil {
			answer.Body.Close()
		}
		if (err == nil) != (want != 0) || err == nil && answer.StatusCode != want {
			p.t.Errorf("a client with the certificate %q: %v, %+v", name, err, answer)
		}
		client.CloseIdleConnections()
	}
	plain := &http.Client{Transport: &http.Transport{}, Timeout: testkit.Longest}
	defer plain.CloseIdleConnections()
	answer, err := plain.Get("http://" + address + "/ct/v1/add-chain")
	if err == nil {
		answer.Body.Close()
	}
	// net/http answers 400 to a request without TLS, before any handler.
	if err == nil && answer.StatusCode != http.StatusBadRequest {
		p.t.Errorf("a client without TLS: %+v", answer)
	}
}

// timestampIn returns the timestamp of an SCT.
func timestampIn(t *testing.T, text string) uint64 {
	t.Helper()
	var sct struct {
		Timestamp uint64 `json:"timestamp"`
	}
	if err := json.Unmarshal([]byte(text), &sct); err != nil || sct.Timestamp == 0 {
		t.Fatalf("%v: %s", err, text)
	}
	return sct.Timestamp
}

// read reads a certificate.
func (p *place) read(name string) *x509.Certificate {
	p.t.Helper()
	text, err := os.ReadFile(p.path(name))
	if err != nil {
		p.t.Fatal(err)
	}
	block, _ := pem.Decode(text)
	certificate, err := x509.ParseCertificate(block.Bytes)
	if err != nil {
		p.t.Fatal(err)
	}
	return certificate
}

// TestSettingsOfNodes checks that wrong or incomplete settings of several nodes are refused with an error that names
// them.
func TestSettingsOfNodes(t *testing.T) {
	at := newPlace(t)
	at.newNodesAuthority("nodes").issue(at, "one")
	at.write("empty.pem", nil)
	with := func(changed ...string) []string {
		arguments := append(at.arguments("--index", "postgres://127.0.0.1/none?log=test"),
			at.nodeArguments("one", "127.0.0.1:1")...)
		return append(arguments, changed...)
	}
	for _, test := range []struct {
		arguments []string
		why       string
	}{
		{at.arguments("--nodes-listen", "127.0.0.1:1"), "need one another"},
		{with("--nodes-ca", ""), "need one another"},
		{with("--index", "leveldb:"+at.path("index")), "must share one index"},
		{with("--nodes-address", "http://127.0.0.1:1"), "write https://HOST:PORT"},
		{with("--nodes-address", "https://127.0.0.1:1/a/path"), "write https://HOST:PORT"},
		{with("--nodes-certificate", at.path("none")), "no such file"},
		{with("--nodes-ca", at.path("none")), "no such file"},
		{with("--nodes-ca", at.path("empty.pem")), "has no certificate in PEM"},
	} {
		if _, err := parse(test.arguments, io.Discard); err == nil || !strings.Contains(err.Error(), test.why) {
			t.Errorf("%q: %v, and not %s", test.arguments, err, test.why)
		}
	}
	if s, err := parse(with(), io.Discard); err != nil || s.node.peers.address != "https://127.0.0.1:1" {
		t.Errorf("%v: %+v", err, s)
	}
}
