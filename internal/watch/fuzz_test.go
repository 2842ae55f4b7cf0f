package watch_test

import (
	"bytes"
	"context"
	"crypto/ecdh"
	"crypto/ecdsa"
	"crypto/x509"
	"net/http"
	"net/http/httptest"
	"slices"
	"strings"
	"testing"

	"wagtenib/internal/logclient"
	"wagtenib/internal/testkit"
	"wagtenib/internal/watch"
)

// damage describes how some answers of a log are changed.
type damage struct {
	part    string // answers are changed if their paths contain this; empty for none
	isWhole bool   // content replaces the answer; otherwise it overwrites the answer from an offset on
	offset  uint32 // it is reduced modulo the length of the answer plus one
	content []byte // if it is empty and does not replace the answer, the answer is cut at the offset
}

// apply returns the changed answer.
func (d damage) apply(answer []byte) []byte {
	if d.isWhole {
		return d.content
	}
	offset := int(d.offset) % (len(answer) + 1)
	if len(d.content) == 0 {
		return answer[:offset]
	}
	rest := answer[min(len(answer), offset+len(d.content)):]
	return slices.Concat(answer[:offset], d.content, rest)
}

// direct is a transport that asks a log without a network, and changes some of its answers.
type direct struct {
	log *testkit.Log
	damage
}

func (d direct) RoundTrip(r *http.Request) (*http.Response, error) {
	answer := httptest.NewRecorder()
	d.log.ServeHTTP(answer, r)
	if d.part != "" && strings.Contains(r.URL.Path, d.part) && answer.Code == http.StatusOK {
		changed := d.apply(bytes.Clone(answer.Body.Bytes()))
		answer.Body = bytes.NewBuffer(changed)
	}
	return answer.Result(), nil
}

// partsOf holds the parts of paths from which the fuzzer chooses, by the kind of log.
var partsOf = map[string][]string{"tiled": {"checkpoint", "tile/data/", "tile/0/", "tile/1/"},
	"RFC 6962": {"get-sth", "get-entries", "get-sth-consistency", "get-proof-by-hash"}}

// fixedKey returns the same key in each process. A fuzzer has several processes, and their signatures must be those of
// one log.
func fixedKey(t testing.TB) *ecdsa.PrivateKey {
	t.Helper()
	scalar, err := ecdh.P256().NewPrivateKey(bytes.Repeat([]byte{7}, 32))
	if err != nil {
		t.Fatal(err)
	}
	der, err := x509.MarshalPKCS8PrivateKey(scalar)
	if err != nil {
		t.Fatal(err)
	}
	key, err := x509.ParsePKCS8PrivateKey(der)
	if err != nil {
		t.Fatal(err)
	}
	return key.(*ecdsa.PrivateKey)
}

// FuzzLogAnswers changes answers of a log in any way. No answer crashes the follower. It accepts no head that the log
// did not sign, and accuses the log of no head that it did not sign. After the log answers correctly again, all of its
// entries are stored.
func FuzzLogAnswers(f *testing.F) {
	const before, after = 40, 1100
	log := newLog(f, 0)
	log.Key = fixedKey(f)
	grow(log, before)
	states, heads := map[string]watch.State{}, map[string][2]watch.Head{}
	id := watched(log, "http://log.example", "tiled").ID
	for _, size := range []uint64{before, after} {
		grow(log, size-log.Size())
		for _, kind := range kinds {
			k := newKeeper()
			if err := passOver(f, log, kind, k, damage{}); err != nil {
				f.Fatal(err)
			}
			if size == before {
				states[kind] = k.states[id]
			}
			accepted := heads[kind]
			accepted[size/after] = k.states[id].Accepted.Head
			heads[kind] = accepted
		}
	}
	for i, kind := range kinds {
		for number := range uint8(len(partsOf[kind])) {
			f.Add(i == 0, number, false, uint32(9), []byte{0})
			f.Add(i == 0, number, false, uint32(200), []byte(nil))
			f.Add(i == 0, number, true, uint32(0), []byte(`{"entries":[{}]}`))
			// Part 0 is the path of the head.
			f.Add(i == 0, uint8(0), true, uint32(number), heads[kind][number%2].Signed)
		}
	}
	f.Fuzz(func(t *testing.T, isTiled bool, part uint8, isWhole bool, offset uint32, content []byte) {
		kind := kinds[1]
		if isTiled {
			kind = kinds[0]
		}
		k := newKeeper()
		k.states[id] = states[kind]
		names := partsOf[kind]
		// The error is that of the changed answer, or nil if the change does no harm.
		_ = passOver(t, log, kind, k, damage{names[int(part)%len(names)], isWhole, offset, content})
		if accepted := k.states[id].Accepted; accepted.TreeHead != heads[kind][0].TreeHead &&
			accepted.TreeHead != heads[kind][1].TreeHead {
			t.Fatalf("the head %+v was accepted", accepted)
		}
		for _, verdict := range k.verdicts(id) {
			switch verdict {
			case watch.VerdictFork, watch.VerdictShrunk, watch.VerdictNotLater:
				t.Fatalf("the log is accused of %s", verdict)
			}
		}
		err := passOver(t, log, kind, k, damage{})
		for tries := 0; err != nil && tries < 3; tries++ {
			err = passOver(t, log, kind, k, damage{})
		}
		if err != nil || k.states[id].Accepted.TreeHead != heads[kind][1].TreeHead {
			t.Fatalf("the log is no longer followed: %v", err)
		}
		checkLeaves(t, k.entries[id], before, after)
	})
}

// passOver makes one pass over a log of this kind, some of whose answers are damaged.
func passOver(t testing.TB, log *testkit.Log, kind string, k *keeper, d damage) error {
	options := logclient.Options{Transport: direct{log, d}, Clock: newClock(epoch)}
	return newFollower(t, watched(log, "http://log.example", kind), k, watch.Options{FromStart: true,
		Client: options}).Pass(context.Background())
}

// checkLeaves checks that the log's own leaf was stored at each of these indexes.
func checkLeaves(t testing.TB, kept []watch.Entry, first, end uint64) {
	t.Helper()
	missing := map[uint64]bool{}
	for index := first; index < end; index++ {
		missing[index] = true
	}
	for _, entry := range kept {
		if bytes.Equal(entry.Leaf, makeEntries(entry.Index, 1)[0].MerkleLeaf(entry.Index)) {
			delete(missing, entry.Index)
		}
	}
	if len(missing) > 0 {
		t.Fatalf("%d entries were never stored", len(missing))
	}
}
