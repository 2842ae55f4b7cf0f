package watch_test

import (
	"context"
	"fmt"
	"net/http"
	"net/http/httptest"
	"strings"
	"testing"

	"wagtenib/internal/audit/judge"
	"wagtenib/internal/logclient"
	"wagtenib/internal/testkit"
	"wagtenib/internal/watch"
)

// lie is a signed head of a log with two histories, "A" and "B", which have their first sameEntries entries in common.
type lie struct {
	history string
	size    uint64
	time    uint64
}

const (
	sameEntries = 4 // the entries that both histories have
	allEntries  = 7 // the entries of each history
)

// contradict is the oracle: it says whether two signed heads contradict each other. It knows the histories.
func contradict(a, b lie) bool {
	if a.size > b.size {
		a, b = b, a
	}
	if a.history != b.history && a.size > sameEntries {
		return true // The larger tree does not begin with the smaller one, or they are two of one size.
	}
	return a.size < b.size && a.time >= b.time
}

// mustAccuse says whether two heads of a sequence contradict each other.
func mustAccuse(heads []lie) bool {
	for i := range heads {
		for j := range i {
			if contradict(heads[j], heads[i]) {
				return true
			}
		}
	}
	return false
}

// sequences returns all sequences of up to `length` heads: each tree of the two histories, at each of three times.
func sequences(length int) (all [][]lie) {
	var heads []lie
	for time := range uint64(3) {
		for _, size := range []uint64{3, 5, 7} {
			heads = append(heads, lie{"A", size, time})
			if size > sameEntries {
				heads = append(heads, lie{"B", size, time})
			}
		}
	}
	last := [][]lie{nil}
	for range length {
		var next [][]lie
		for _, sequence := range last {
			for _, head := range heads {
				next = append(next, append(append([]lie{}, sequence...), head))
			}
		}
		all, last = append(all, next...), next
	}
	return all
}

// liar serves a log with two histories. Each has a back end, which knows only its own entries.
type liar struct {
	histories map[string]*testkit.Log
	shown     *testkit.Log
	// what the back ends refuse, besides heads
	refusesEntries, refusesProofs bool
}

func newLiar(t *testing.T) *liar {
	t.Helper()
	a := newLog(t, 0)
	for i := range uint64(allEntries) {
		a.Add(testkit.Entry{Timestamp: epoch, Certificate: []byte{0x30, 1, byte(i)}})
	}
	b := a.Fork(sameEntries)
	for i := range uint64(allEntries - sameEntries) {
		b.Add(testkit.Entry{Timestamp: epoch, Certificate: []byte{0x30, 1, 100 + byte(i)}})
	}
	return &liar{histories: map[string]*testkit.Log{"A": a, "B": b}}
}

func (l *liar) ServeHTTP(w http.ResponseWriter, r *http.Request) {
	isEntries := strings.Contains(r.URL.Path, "/data/") || strings.HasSuffix(r.URL.Path, "get-entries")
	isHead := strings.HasSuffix(r.URL.Path, "checkpoint") || strings.HasSuffix(r.URL.Path, "get-sth")
	if isEntries && l.refusesEntries || !isEntries && !isHead && l.refusesProofs {
		w.WriteHeader(http.StatusForbidden)
		return
	}
	l.shown.ServeHTTP(w, r)
}

// show has the back end of a head's history sign the head, if it did not before, and answer from then on.
func (l *liar) show(head lie, signed map[lie]*testkit.Log) {
	if signed[head] == nil {
		signed[head] = l.histories[head.history].Fork(allEntries)
		signed[head].Publish(head.size, epoch+1000+head.time)
	}
	l.shown = signed[head]
}

// run shows a sequence of heads to a monitor, and then all of them again with nothing refused: twice if something was
// refused at first. It returns the evidence that the monitor has then.
func (l *liar) run(t *testing.T, kind string, heads []lie, fromStart bool) (watch.Log, []watch.Evidence) {
	t.Helper()
	server := httptest.NewServer(l)
	defer server.Close()
	log, k := watched(l.histories["A"], server.URL, kind), newKeeper()
	f := newFollower(t, log, k, watch.Options{FromStart: fromStart, Client: logclient.Options{Clock: newClock(epoch + 5000),
		Limits: logclient.Limits{Attempts: 1}}})
	signed, rounds := map[lie]*testkit.Log{}, 2
	if l.refusesEntries || l.refusesProofs {
		rounds = 3
	}
	for round := range rounds {
		for _, head := range heads {
			l.show(head, signed)
			_ = f.Pass(context.Background()) // The evidence says what the pass found.
		}
		if round == 0 {
			l.refusesEntries, l.refusesProofs = false, false
		}
	}
	return log, k.accused[log.ID]
}

// isMirrored reports whether a sequence is another one with the names of the histories exchanged.
func isMirrored(heads []lie) bool {
	for _, head := range heads {
		if head.size > sameEntries {
			return head.history == "B"
		}
	}
	return false
}

// A log is accused exactly if two heads that it signed contradict each other, for all sequences of up to three heads of
// two histories, at three times, over both kinds of logs. A part of them is also tried with entries or proofs that are
// refused at first, and from the log's end. The independent judge confirms each piece of evidence.
func TestAccusesExactlyLies(t *testing.T) {
	length := 3
	if testing.Short() {
		length = 2
	}
	for at, kind := range kinds {
		t.Run(kind, func(t *testing.T) {
			t.Parallel()
			count := 0
			for i, heads := range sequences(length) {
				if isMirrored(heads) {
					continue
				}
				for refusal := range 4 {
					if refusal > 0 && (i+refusal+at)%9 != 0 {
						continue
					}
					l := newLiar(t)
					l.refusesEntries, l.refusesProofs = refusal&1 != 0, refusal&2 != 0
					fromStart := l.refusesProofs || i%5 != 0 // From its end, a log is followed by proofs.
					log, evidence := l.run(t, kind, heads, fromStart)
					count++
					what := fmt.Sprintf("%v, refusal %d, from start %v", heads, refusal, fromStart)
					checkLies(t, what, log, evidence, mustAccuse(heads))
				}
			}
			t.Logf("%d runs", count)
		})
	}
}

// checkLies checks that a log is accused exactly if it must be, and that the judge confirms all evidence.
func checkLies(t *testing.T, what string, log watch.Log, evidence []watch.Evidence, expected bool) {
	t.Helper()
	isAccused := false
	for _, one := range evidence {
		isAccused = isAccused || one.Verdict != watch.VerdictNotProved
		if _, err := judge.Evidence(writeEvidence(t, one), log.PublicKey); err != nil {
			t.Errorf("%s: %s: %v", what, one.Verdict, err)
		}
		if !expected && one.Verdict != watch.VerdictNotProved {
			t.Errorf("%s: accused: %s: %s", what, one.Verdict, one.Text)
		}
	}
	if expected && !isAccused {
		t.Errorf("%s: not accused", what)
	}
}
