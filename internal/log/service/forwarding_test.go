package service_test

import (
	"context"
	"net/http"
	"net/http/httptest"
	"net/netip"
	"testing"
	"time"

	"wagtenib/internal/log"
	"wagtenib/internal/log/node"
)

// TestForwardsAfterClientWent checks that a node still forwards after a client went away, which is not the other node's
// fault. An answer of 500 is not passed on.
func TestForwardsAfterClientWent(t *testing.T) {
	t.Parallel()
	p, o := newPlace(t), newOtherNode(t)
	config := p.config()
	config.Address = "https://192.0.2.1"
	l := started(t, config)
	f := l.Forward(o.config())
	defer f.Close()
	p.leads(t, l, o.URL)
	isForwarded := func() bool {
		isAnswered, _, err := forwards(f)
		if err != nil {
			t.Fatal(err)
		}
		return isAnswered
	}
	eventually(t, "it is forwarded", isForwarded)
	gone, cancel := context.WithCancel(context.Background())
	cancel()
	p.leads(t, l, o.URL)
	eventually(t, "the client is gone while it is forwarded", func() bool {
		r := httptest.NewRequest(http.MethodPost, "/ct/v1/add-chain", nil).WithContext(gone)
		isAnswered, err := f.Forward(httptest.NewRecorder(), r, netip.MustParseAddr("192.0.2.7"), []byte("a body"))
		if isAnswered {
			t.Fatal("a client that went away is answered")
		}
		return err != nil
	})
	eventually(t, "the next client is forwarded", isForwarded)
	o.status.Store(http.StatusInternalServerError)
	p.leads(t, l, o.URL)
	eventually(t, "the other node fails", func() bool {
		isAnswered, text, err := forwards(f)
		if isAnswered || text != "" {
			t.Fatalf("an answer of 500 is passed on: %q", text)
		}
		return err != nil
	})
}

// TestSendsNoTimeOfWrongClock checks that a node whose clock is wrong sends no time to other nodes, so that two nodes
// with the same wrong time do not confirm each other.
func TestSendsNoTimeOfWrongClock(t *testing.T) {
	t.Parallel()
	p, got := newPlace(t), &answers{}
	config := p.config()
	clock := newSkewedClock(0)
	clock.set(0, false)
	config.Machine.Clock = clock
	l := started(t, config)
	got.submit(t, l, 0, 3)
	over := httptest.NewServer(l.OfNodes(http.NotFoundHandler()))
	defer over.Close()
	dates := func() []string {
		answer, err := http.Get(over.URL)
		must(t, err)
		must(t, answer.Body.Close())
		return answer.Header.Values("Date")
	}
	if sent := dates(); len(sent) != 1 {
		t.Errorf("with a right clock, the node sends the times %q", sent)
	}
	clock.set(time.Minute, false)
	_, err := l.Submit(limited(t), entryOf(5))
	wants(t, err, log.ErrClock, node.ErrClock)
	if sent := dates(); len(sent) != 0 {
		t.Errorf("with a wrong clock, the node sends the times %q", sent)
	}
}

// TestWaitingSubmissionMoves checks that a waiting submission that may be forwarded leaves the queue when another node
// makes the steps.
func TestWaitingSubmissionMoves(t *testing.T) {
	t.Parallel()
	p, o := newPlace(t), newOtherNode(t)
	config := p.config()
	config.Address = "https://192.0.2.1"
	held := &slow{Objects: config.Stores.Objects}
	config.Stores.Objects = held
	l := started(t, config)
	release := held.hold()
	defer release()
	own, movable := make(chan error, 1), make(chan error, 1)
	go func() {
		_, err := l.Submit(log.Forwarded(limited(t)), entryOf(1))
		own <- err
	}()
	eventually(t, "it waits", func() bool { return l.Metrics().Queue == 1 })
	go func() {
		_, err := l.Submit(limited(t), entryOf(2))
		movable <- err
	}()
	eventually(t, "both wait", func() bool { return l.Metrics().Queue == 2 })
	p.leads(t, l, o.URL)
	release()
	wants(t, <-movable, log.ErrElsewhere)
	must(t, <-own)
}

// TestForwardOfBrokenAnswer checks that nothing of an answer that breaks off is passed on, so that this node can take
// the submission itself.
func TestForwardOfBrokenAnswer(t *testing.T) {
	t.Parallel()
	p, o := newPlace(t), newOtherNode(t)
	breaks := httptest.NewTLSServer(http.HandlerFunc(func(w http.ResponseWriter, _ *http.Request) {
		w.Header().Set("Content-Length", "100")
		w.Write([]byte("a part of"))
		w.(http.Flusher).Flush()
		panic(http.ErrAbortHandler)
	}))
	t.Cleanup(breaks.Close)
	o.Server = breaks
	config := p.config()
	config.Address = "https://192.0.2.1"
	l := started(t, config)
	f := l.Forward(o.config())
	defer f.Close()
	p.leads(t, l, breaks.URL)
	eventually(t, "the answer breaks off", func() bool {
		isAnswered, text, err := forwards(f)
		if isAnswered || text != "" {
			t.Fatalf("a part of an answer is passed on: %q", text)
		}
		return err != nil
	})
}
