package service_test

import (
	"crypto/tls"
	"crypto/x509"
	"fmt"
	"io"
	"net/http"
	"net/http/httptest"
	"net/netip"
	"sync/atomic"
	"testing"

	"wagtenib/internal/ct"
	"wagtenib/internal/log"
	"wagtenib/internal/log/service"
)

// otherNode is a TLS server that stands in for another node of the log.
type otherNode struct {
	*httptest.Server
	status, asked atomic.Int64
	clients       chan string
}

func newOtherNode(t *testing.T) *otherNode {
	t.Helper()
	o := &otherNode{clients: make(chan string, 100)}
	o.status.Store(http.StatusOK)
	o.Server = httptest.NewTLSServer(http.HandlerFunc(func(w http.ResponseWriter, r *http.Request) {
		if r.Method == http.MethodHead {
			return
		}
		o.asked.Add(1)
		body, err := io.ReadAll(r.Body)
		if err != nil {
			t.Error(err)
		}
		o.clients <- fmt.Sprint(r.Header.Values("X-Forwarded-For"), r.URL.Path, string(body))
		w.WriteHeader(int(o.status.Load()))
		fmt.Fprint(w, "the other node's answer")
	}))
	t.Cleanup(o.Close)
	return o
}

// config returns the TLS configuration of a client of the other node.
func (o *otherNode) config() *tls.Config {
	pool := x509.NewCertPool()
	pool.AddCert(o.Certificate())
	return &tls.Config{RootCAs: pool}
}

// leads makes the newest state name the other node's address.
func (p *place) leads(t *testing.T, l *service.Log, address string) {
	t.Helper()
	// Only a node can make a step, so a second node of this log with that address makes one.
	config := p.config()
	config.Address, config.Machine.Files.LatestHead = address, p.path("other-latest-head")
	other := started(t, config)
	var before ct.SignedHead
	eventually(t, "the first head is published", func() bool {
		var err error
		before, err = l.Checkpoint(limited(t))
		return err == nil
	})
	_, err := other.Submit(log.Forwarded(limited(t)), entryOf(1000+int(before.TreeSize)))
	must(t, err)
	ends(t, other)
}

// forwards forwards one request. It reports whether the request was answered, and returns the answer's text.
func forwards(f *service.Forwarder) (isAnswered bool, text string, err error) {
	w := httptest.NewRecorder()
	r := httptest.NewRequest(http.MethodPost, "/ct/v1/add-chain", nil)
	isAnswered, err = f.Forward(w, r, netip.MustParseAddr("192.0.2.7"), []byte("the body"))
	return isAnswered, w.Body.String(), err
}

// TestForward checks that a node forwards to the node that made the newest state, with the client's address. If the
// other one answers with 500 or more, or not at all, the node takes the submission itself, and does not ask the other
// one for a while.
func TestForward(t *testing.T) {
	t.Parallel()
	p, o := newPlace(t), newOtherNode(t)
	config := p.config()
	config.Address = "https://192.0.2.1"
	l := started(t, config)
	f := l.Forward(o.config())
	defer f.Close()
	if isAnswered, _, err := forwards(f); isAnswered || err != nil {
		t.Errorf("no other node makes the steps: %t, %v", isAnswered, err)
	}
	p.leads(t, l, o.URL)
	eventually(t, "it is forwarded", func() bool {
		isAnswered, text, err := forwards(f)
		if err != nil || isAnswered && text != "the other node's answer" {
			t.Fatalf("%q, %v", text, err)
		}
		return isAnswered
	})
	if received := <-o.clients; received != "[192.0.2.7]/ct/v1/add-chainthe body" {
		t.Errorf("the other node gets %s", received)
	}
	if f := l.Metrics(); f.Forwarded != 1 {
		t.Errorf("%d submissions are forwarded", f.Forwarded)
	}
	o.status.Store(http.StatusServiceUnavailable)
	p.leads(t, l, o.URL)
	eventually(t, "the other node fails", func() bool {
		isAnswered, text, err := forwards(f)
		if isAnswered || text != "" {
			t.Fatalf("an answer of 503 is passed on: %q", text)
		}
		return err != nil
	})
	asked := o.asked.Load()
	if isAnswered, _, err := forwards(f); isAnswered || err == nil || o.asked.Load() != asked {
		t.Errorf("the other node is asked again at once: %t, %v", isAnswered, err)
	}
	_, err := l.Submit(log.Forwarded(limited(t)), entryOf(1))
	must(t, err)
}

// TestForwardsToNewLeaderAtOnce lets the node that makes the steps change while the old one has not answered. After the
// old one has failed, the next submission must be forwarded to the new one at once.
func TestForwardsToNewLeaderAtOnce(t *testing.T) {
	t.Parallel()
	p, o := newPlace(t), newOtherNode(t)
	// The old node holds the first submission until release is closed.
	var requests atomic.Int64
	asked, release := make(chan struct{}), make(chan struct{})
	old := httptest.NewTLSServer(http.HandlerFunc(func(w http.ResponseWriter, r *http.Request) {
		if r.Method == http.MethodPost && requests.Add(1) == 1 {
			close(asked)
			<-release
		}
		w.WriteHeader(http.StatusServiceUnavailable)
	}))
	t.Cleanup(old.Close)
	config := p.config()
	config.Address = "https://192.0.2.1"
	l := started(t, config)
	f, other := l.Forward(o.config()), l.Forward(o.config())
	defer f.Close()
	defer other.Close()
	failed := make(chan bool, 1)
	go func() {
		for {
			if isAnswered, _, err := forwards(f); isAnswered || err != nil {
				failed <- err != nil
				return
			}
		}
	}()
	p.leads(t, l, old.URL)
	<-asked
	p.leads(t, l, o.URL)
	eventually(t, "the new node makes the steps", func() bool {
		isAnswered, _, _ := forwards(other)
		return isAnswered
	})
	close(release)
	if !<-failed {
		t.Error("the old node's answer of 503 is passed on")
	}
	eventually(t, "it is forwarded to the new node", func() bool {
		isAnswered, _, err := forwards(f)
		if err != nil {
			t.Fatalf("the new node counts as away: %v", err)
		}
		if !isAnswered {
			// A node follows another one for a few seconds only.
			p.leads(t, l, o.URL)
		}
		return isAnswered
	})
}

// TestForwardsOnlyOverTLS checks that nothing is forwarded to a node whose address is not https, as those of nodes of
// earlier versions.
func TestForwardsOnlyOverTLS(t *testing.T) {
	t.Parallel()
	p := newPlace(t)
	config := p.config()
	config.Address = "https://192.0.2.1"
	l := started(t, config)
	f := l.Forward(&tls.Config{})
	defer f.Close()
	p.leads(t, l, "http://127.0.0.1:1")
	eventually(t, "it is refused", func() bool {
		isAnswered, _, err := forwards(f)
		if isAnswered {
			t.Fatal("it is forwarded")
		}
		return err != nil
	})
	_, err := l.Submit(log.Forwarded(limited(t)), entryOf(1))
	must(t, err)
}
