package httpd

import (
	"errors"
	"net/http"
	"net/http/httptest"
	"net/netip"
	"strings"
	"testing"

	"wagtenib/internal/log"
	"wagtenib/internal/testkit"
)

// elsewhereAlways is a Forwarder to a node that answers everything, or fails with an error. It counts the submissions
// that it gets.
type elsewhereAlways struct {
	got int
	err error
}

func (e *elsewhereAlways) Forward(w http.ResponseWriter, _ *http.Request, _ netip.Addr, _ []byte) (bool, error) {
	e.got++
	if e.err != nil {
		return false, e.err
	}
	w.WriteHeader(http.StatusTeapot)
	return true, nil
}

// TestForwardsOnce checks that a client's submission is forwarded, and that one that another node has forwarded goes to
// the log. Otherwise two nodes that each take the other one for the leader would forward it to and fro.
func TestForwardsOnce(t *testing.T) {
	other := &elsewhereAlways{}
	f := newFixture(t, 0, func(o *Options) { o.Forward = other })
	// The log refuses each submission at once.
	f.log.Fault = log.ErrBusy
	for _, of := range []struct {
		handler   http.Handler
		status    int
		forwarded int
	}{{f.front, http.StatusTeapot, 1}, {f.front.Nodes(), http.StatusServiceUnavailable, 1}} {
		body := string(testkit.Submission(f.issue(false)))
		w := httptest.NewRecorder()
		of.handler.ServeHTTP(w, httptest.NewRequest(http.MethodPost, "/ct/v1/add-chain", strings.NewReader(body)))
		if w.Code != of.status || other.got != of.forwarded {
			t.Errorf("%d %s, and %d submissions were forwarded", w.Code, w.Body, other.got)
		}
	}
}

// TestTakerChecks checks that the node that takes a submission checks its chain, also if another node forwarded it or
// does not answer. A node that forwards a submission leaves the check to the other one.
func TestTakerChecks(t *testing.T) {
	other := &elsewhereAlways{}
	f := newFixture(t, 0, func(o *Options) { o.Forward = other })
	stranger := testkit.NewAuthority("Another root")
	unknown := stranger.Sign(stranger.Template(ends))
	for body, refusal := range map[string]string{"no JSON": "no-submission",
		string(testkit.Submission(unknown)): "unknown-root"} {
		submits := func(to http.Handler) *httptest.ResponseRecorder {
			w := httptest.NewRecorder()
			to.ServeHTTP(w, httptest.NewRequest(http.MethodPost, "/ct/v1/add-chain", strings.NewReader(body)))
			return w
		}
		other.got, other.err = 0, nil
		if w := submits(f.front); w.Code != http.StatusTeapot || other.got != 1 {
			t.Errorf("%s: %d %s, and %d submissions were forwarded", refusal, w.Code, w.Body, other.got)
		}
		refused(t, "forwarded", submits(f.front.Nodes()), http.StatusBadRequest, refusal)
		other.err = errors.New("it does not answer")
		refused(t, "not answered elsewhere", submits(f.front), http.StatusBadRequest, refusal)
		if size := f.log.Metrics().Entries; size != 0 {
			t.Errorf("%s: the log has %d entries", refusal, size)
		}
	}
}
