package witness

import (
	"context"
	"crypto/ed25519"
	"errors"
	"fmt"
	"math/bits"
	"net/http"
	"strings"
	"sync"
	"testing"

	"golang.org/x/mod/sumdb/note"

	"wagtenib/internal/blob"
)

// subsets returns the subsets of n witnesses, as bits.
func subsets(n int) (all []uint) {
	for set := uint(0); set < 1<<n; set++ {
		all = append(all, set)
	}
	return all
}

// TestIsSafe checks, for all small numbers, that quorums are safe exactly if any two of their sets have more witnesses
// in common than may be faulty. (laws::quorums and laws::bound of ct_witness prove the same.)
func TestIsSafe(t *testing.T) {
	for n := 1; n <= 6; n++ {
		for start := 1; start <= n; start++ {
			for publish := 1; publish <= n; publish++ {
				minCommon := n
				for _, a := range subsets(n) {
					for _, b := range subsets(n) {
						if bits.OnesCount(a) == start && bits.OnesCount(b) == publish && bits.OnesCount(a&b) < minCommon {
							minCommon = bits.OnesCount(a & b)
						}
					}
				}
				for faults := 0; faults <= n+1; faults++ {
					if safe := (Quorums{Publish: publish, Start: start, Faults: faults}).IsSafe(
						n); safe != (minCommon > faults) {
						t.Errorf("%d witnesses, %d start, %d publish, %d faulty: %t, and two sets have %d in common", n,
							start, publish, faults, safe, minCommon)
					}
				}
			}
		}
	}
}

// memoryLock is a lock in memory. Each call first calls hook, which may change the text, or fail instead of the call.
type memoryLock struct {
	blob.Lock
	mu   sync.Mutex
	text string
	hook func(call string) error
}

func (h *memoryLock) callHook(call string) error {
	if h.hook == nil {
		return nil
	}
	return h.hook(call)
}

func (h *memoryLock) Create(_ context.Context, text string) error {
	if err := h.callHook("create"); err != nil {
		return err
	}
	h.mu.Lock()
	defer h.mu.Unlock()
	if h.text != "" {
		return blob.ErrExists
	}
	h.text = text
	return nil
}

func (h *memoryLock) Read(context.Context) (string, error) {
	if err := h.callHook("read"); err != nil {
		return "", err
	}
	h.mu.Lock()
	defer h.mu.Unlock()
	return h.text, nil
}

func (h *memoryLock) Swap(_ context.Context, old, next string) error {
	if err := h.callHook("swap"); err != nil {
		return err
	}
	h.mu.Lock()
	defer h.mu.Unlock()
	if h.text != old && h.text != next {
		return blob.ErrLost
	}
	h.text = next
	return nil
}

func (h *memoryLock) Close() error { return nil }

// setHead sets a witness's state to a head of a log.
func (h *memoryLock) setHead(t testing.TB, of *leaves, size int64) {
	last, err := readMessage(Message(1, checkpoint(origin, size, of.root(t, size))), origin)
	must(t, err)
	text, err := last.text()
	must(t, err)
	h.mu.Lock()
	h.text = text
	h.mu.Unlock()
}

// signedList is the list of entries of a log, with the key that signs its heads.
type signedList struct {
	by signing
	of *leaves
}

// rollback is a log that had five entries and was rolled back to three, and three witnesses with their states. It has
// the log's head then, and a head of a fork.
type rollback struct {
	all    []*Server
	states []*memoryLock
	// lying has the witnesses that cosign whatever they are shown, as bits.
	lying     uint
	one       *leaves
	old, fork signedList
}

// TestNoQuorumStartsAnOldLog checks quorums of three witnesses, some of which cosigned a head of 5 entries. Some of
// them are then rolled back to 3 entries, or lie. A log that was rolled back to 3 entries does not start, whichever
// witnesses answer. A log that forked after these 3 entries does not start either. If one witness more is faulty than
// allowed, an old log can start.
func TestNoQuorumStartsAnOldLog(t *testing.T) {
	by := headKey(t, origin)
	p := &rollback{one: leavesOf(t, "a", "b", "c", "d", "e")}
	p.old, p.fork = signedList{by, p.one}, signedList{by, leavesOf(t, "a", "b", "c", "x", "y", "z")}
	for i := 1; i <= 3; i++ {
		s, err := New(Options{Name: fmt.Sprintf("w%d.example", i), Key: newKey(t)})
		must(t, err)
		state := &memoryLock{}
		s.SetLogs([]Log{{Origin: origin, Keys: []note.Verifier{by.key}, State: state}})
		p.all, p.states = append(p.all, s), append(p.states, state)
	}
	for publish := 1; publish <= 3; publish++ {
		for start := 1; start <= 3; start++ {
			maxFaults := publish + start - 4
			for faults := 0; faults <= maxFaults; faults++ {
				if starts := p.countStarts(t, Quorums{publish, start, faults}); starts > 0 {
					t.Errorf("%d publish, %d start, %d faulty: an old log started %d times", publish,
						start, faults, starts)
				}
			}
			if maxFaults >= -1 && p.countStarts(t, Quorums{publish, start, maxFaults + 1}) == 0 {
				t.Errorf("%d publish, %d start, %d faulty: the bound is not exact: no old log started",
					publish, start, maxFaults+1)
			}
		}
	}
}

// countStarts returns how often an old log starts, over all sets of witnesses that cosigned the newest head, are
// faulty, and answer.
func (p *rollback) countStarts(t *testing.T, q Quorums) (starts int) {
	for _, cosigned := range subsets(3) {
		for _, faulty := range subsets(3) {
			if bits.OnesCount(cosigned) != q.Publish || bits.OnesCount(faulty) != q.Faults {
				continue
			}
			for _, p.lying = range []uint{0, faulty} {
				starts += p.countStartsWith(t, q, cosigned&^faulty)
			}
		}
	}
	return starts
}

// forgetSeen makes a witness know only its stored state, as if it was restored and started again. A running witness
// would refuse the older state.
func (s *Server) forgetSeen() {
	s.mu.Lock()
	defer s.mu.Unlock()
	s.seen = map[string]state{}
}

// countStartsWith returns how often an old log starts, over all sets of witnesses that may answer. The witnesses in
// know have the newest head, and the others the old one. As in the node, enough must cosign, and none may answer that
// it saw more entries.
func (p *rollback) countStartsWith(t *testing.T, q Quorums, know uint) (starts int) {
	for _, answering := range subsets(3) {
		for size, old := range map[int64]signedList{3: p.old, 6: p.fork} {
			given := 0
			for i, s := range p.all {
				p.states[i].setHead(t, p.one, 3+2*int64(know>>i&1))
				s.forgetSeen()
				if answering>>i&1 == 1 && (p.lying>>i&1 == 1 || cosigns(t, s, old, size)) {
					given++
				}
			}
			if given >= q.Start && given == bits.OnesCount(answering) {
				starts++
			}
		}
	}
	return starts
}

// cosigns reports whether a witness cosigns a head. The witness is asked from no entries, and then from the size that
// it answers.
func cosigns(t *testing.T, s *Server, of signedList, size int64) bool {
	signed := of.by.sign(checkpoint(origin, size, of.of.root(t, size)))
	w := post(t, s, request(0, nil, signed))
	if w.Code == http.StatusConflict {
		seen, err := parseNumber(strings.TrimSuffix(w.Body.String(), "\n"))
		must(t, err)
		if seen > uint64(size) {
			return false
		}
		w = post(t, s, request(int64(seen), of.of.proof(t, int64(seen), size), signed))
	}
	return w.Code == http.StatusOK
}

// TestQuorums checks that quorums are refused if no honest witness is in all of them, and that two witnesses are
// refused if they have the same name, key or URL.
func TestQuorums(t *testing.T) {
	var ones []One
	for i := 0; i < 4; i++ {
		ones = append(ones, One{fmt.Sprint("http://", i), fmt.Sprint("w", i), newKey(t).Public().(ed25519.PublicKey)})
	}
	for _, test := range []struct {
		n, publish, start, faults int
		right                     bool
	}{
		{1, 1, 1, 0, true}, {2, 2, 1, 0, true}, {2, 1, 1, 0, false}, {3, 2, 2, 0, true}, {3, 2, 2, 1, false},
		{3, 3, 2, 1, true},
		{3, 2, 3, 1, true}, {3, 1, 2, 0, false}, {3, 3, 3, 2, true}, {3, 3, 3, 3, false}, {4, 3, 2, 0, true},
		{4, 2, 2, 0, false},
		{3, 4, 2, 0, false}, {3, 2, 4, 0, false}, {3, 0, 4, 0, false}, {3, 4, 0, 0, false}, {3, 3, 3, -1, false},
		{0, 1, 1, 0, false},
	} {
		err := Quorums{test.publish, test.start, test.faults}.Check(test.n)
		if test.right != (err == nil) || err != nil && !errors.Is(err, ErrQuorum) {
			t.Errorf("%+v: %v", test, err)
		}
	}
	if err := CheckDistinct(ones); err != nil {
		t.Errorf("different witnesses are refused: %v", err)
	}
	other := newKey(t).Public().(ed25519.PublicKey)
	for _, twice := range []One{{ones[0].URL, "x", other}, {"http://x", ones[0].Name, other},
		{"http://x", "x", ones[0].Key}} {
		if err := CheckDistinct([]One{ones[0], twice}); !errors.Is(err, ErrQuorum) {
			t.Errorf("%+v: %v", twice, err)
		}
	}
	key := VerifierKey("w.example", ones[0].Key)
	if one, err := ReadOne("https://w.example/a/," + key); err != nil || one.URL != "https://w.example/a" ||
		one.Name != "w.example" || !one.Key.Equal(ones[0].Key) {
		t.Errorf("%+v, %v", one, err)
	}
	for _, wrong := range []string{"", key, "https://w.example", "https://w.example,", "w.example," + key,
		"https://w.example,x"} {
		if _, err := ReadOne(wrong); !errors.Is(err, ErrKey) {
			t.Errorf("%q: %v", wrong, err)
		}
	}
}
