package wagtenib_test

import (
	"bytes"
	"crypto/sha256"
	"encoding/binary"
	"errors"
	"math/rand"
	"slices"
	"testing"

	"wagtenib/bindings/go/wagtenib"
)

// watched is a model of a monitor: all heads of the accepted tree, all heads of the tree that waits, the accepted
// leaves of the log, and the leaves that were read.
type watched struct {
	accepted, waiting []wagtenib.TreeHead
	sure, read        uint64
}

// beside returns the verdict on a head compared with a known one, or 0 if it is larger and later.
func beside(known, head wagtenib.TreeHead) wagtenib.Verdict {
	switch {
	case head.TreeSize > known.TreeSize && head.Timestamp > known.Timestamp:
		return 0
	case head.TreeSize > known.TreeSize:
		return wagtenib.VerdictNotLater
	case head.TreeSize < known.TreeSize && head.Timestamp < known.Timestamp:
		return wagtenib.VerdictOlder
	case head.TreeSize < known.TreeSize:
		return wagtenib.VerdictShrunk
	case head.Root == known.Root:
		return wagtenib.VerdictAgain
	}
	return wagtenib.VerdictForked
}

// head returns the verdict on a head, beside every known head. It is 0 if the head is larger and later than all.
func (w *watched) head(head wagtenib.TreeHead) wagtenib.Verdict {
	var first wagtenib.Verdict
	for _, known := range slices.Concat(w.accepted, w.waiting) {
		said := beside(known, head)
		if said.Accuses() {
			return said
		}
		if first == 0 {
			first = said
		}
	}
	if first == wagtenib.VerdictAgain {
		if len(w.accepted) > 0 && w.accepted[0].TreeSize == head.TreeSize {
			w.accepted = append(w.accepted, head)
		} else {
			w.waiting = append(w.waiting, head)
		}
	}
	return first
}

// settle returns the verdict on the waiting head after the leaves were read. All of these are leaves of the log.
func (w *watched) settle(t *testing.T, log *madeLog) wagtenib.Verdict {
	t.Helper()
	if w.read != w.waiting[0].TreeSize {
		return wagtenib.VerdictPending
	}
	if w.waiting[0].Root != log.root(t, w.read) {
		w.waiting, w.read = nil, w.sure
		return wagtenib.VerdictOtherRoot
	}
	w.accepted, w.waiting, w.sure = w.waiting, nil, w.read
	return wagtenib.VerdictAccepted
}

// leafAt returns a leaf (MerkleTreeLeaf, RFC 6962, section 3.4) with this timestamp.
func leafAt(timestamp uint64, certificate string) []byte {
	leaf := binary.BigEndian.AppendUint64([]byte{0, 0}, timestamp)
	leaf = append(leaf, 0, 0, 0, 0, byte(len(certificate)))
	return append(append(leaf, certificate...), 0, 0)
}

func TestMonitorAgreesWithTlog(t *testing.T) {
	chance, log := rand.New(rand.NewSource(1)), &madeLog{}
	for i := range 40 {
		log.append(t, leafAt(uint64(10*i), string(rune('a'+i%26))))
	}
	state, err := wagtenib.MonitorBegin()
	if err != nil {
		t.Fatal(err)
	}
	var model watched
	came := map[wagtenib.Verdict]int{}
	for range 6000 {
		var found wagtenib.Judgement
		var next []byte
		var due wagtenib.Verdict
		switch chance.Intn(4) {
		case 0, 1:
			size := min(model.read+uint64(chance.Intn(6)), 40)
			if chance.Intn(4) == 0 {
				size = uint64(chance.Intn(41))
			}
			head := wagtenib.TreeHead{TreeSize: size, Timestamp: 10*size + uint64(chance.Intn(12)), Root: log.root(t, size)}
			if chance.Intn(8) == 0 {
				head.Root[chance.Intn(32)] ^= 1
			}
			if chance.Intn(12) == 0 {
				head.Timestamp = 200
			}
			if due = model.head(head); due == 0 {
				if model.waiting == nil {
					model.waiting = []wagtenib.TreeHead{head}
				}
				due = model.settle(t, log)
			}
			found, next, err = wagtenib.MonitorHead(state, head)
		case 2:
			start := model.read
			if chance.Intn(6) == 0 {
				start = uint64(chance.Intn(41))
			}
			leaves := log.leaves[start:min(start+uint64(chance.Intn(9)), 40)]
			due = wagtenib.VerdictGap
			if model.waiting != nil && start == model.read {
				model.read += min(uint64(len(leaves)), model.waiting[0].TreeSize-model.read)
				due = model.settle(t, log)
			}
			found, _, next, err = wagtenib.MonitorEntries(state, start, leaves)
		default:
			due = wagtenib.VerdictGap
			var proof []wagtenib.Hash
			if model.accepted != nil && model.waiting != nil {
				due = wagtenib.VerdictInconsistent
				first, second := model.accepted[0].TreeSize, model.waiting[0].TreeSize
				if first > 0 && model.waiting[0].Root == log.root(t, second) {
					proof = log.proof(t, first, second)
					if due = wagtenib.VerdictConsistent; chance.Intn(3) == 0 {
						due, proof = wagtenib.VerdictInconsistent, proof[:len(proof)-1]
					}
				}
			}
			found, next, err = wagtenib.MonitorProof(state, proof)
		}
		if err != nil || found.Verdict != due {
			t.Fatalf("%v: %v, due %v over %+v", err, found, due, model)
		}
		wanted := model.read
		if model.waiting != nil {
			wanted = model.waiting[0].TreeSize
		}
		if found.Accepted != model.sure || found.Read != model.read || found.Wanted != wanted {
			t.Fatalf("%+v over %+v", found, model)
		}
		if (found.Fault != nil) != (due == wagtenib.VerdictInconsistent) {
			t.Fatalf("the fault of %v is %v", due, found.Fault)
		}
		came[due]++
		if state = next; model.sure == 40 || chance.Intn(40) == 0 {
			if state, err = wagtenib.MonitorBegin(); err != nil {
				t.Fatal(err)
			}
			model = watched{}
		}
	}
	for verdict := wagtenib.VerdictAccepted; verdict <= wagtenib.VerdictInconsistent; verdict++ {
		if came[verdict] == 0 {
			t.Errorf("no answer came to %v: %v", verdict, came)
		}
	}
}

func TestMonitorReportsEntries(t *testing.T) {
	log := &madeLog{}
	for _, leaf := range [][]byte{leafAt(5, "a"), leafAt(900, "b"), []byte("no leaf"), leafAt(901, "c")} {
		log.append(t, leaf)
	}
	state, err := wagtenib.MonitorBegin()
	if err != nil {
		t.Fatal(err)
	}
	_, state, err = wagtenib.MonitorHead(state, wagtenib.TreeHead{TreeSize: 3, Timestamp: 899, Root: log.root(t, 3)})
	if err != nil {
		t.Fatal(err)
	}
	found, report, _, err := wagtenib.MonitorEntries(state, 0, log.leaves)
	if err != nil || found.Verdict != wagtenib.VerdictAccepted || found.Read != 3 {
		t.Fatalf("%v: %+v", err, found)
	}
	if report.Later == nil || *report.Later != (wagtenib.LaterEntry{Index: 1, Timestamp: 900}) {
		t.Errorf("%+v", report.Later)
	}
	if report.Faulty == nil || report.Faulty.Index != 2 || !errors.Is(report.Faulty.Fault, wagtenib.ErrBadVersion) {
		t.Errorf("%+v", report.Faulty)
	}
	if report.HeadTimestamp != 899 {
		t.Errorf("the head that waited has the timestamp %d", report.HeadTimestamp)
	}
	if _, report, _, err = wagtenib.MonitorEntries(state, 0, log.leaves[:1]); err != nil || report.Later != nil ||
		report.Faulty != nil {
		t.Errorf("%v: %+v", err, report)
	}
}

// TestMonitorEntryJudgesEachEntry checks that each entry gets a verdict of its own, with the timestamp in the report.
// The report itself has only the first entries.
func TestMonitorEntryJudgesEachEntry(t *testing.T) {
	for _, one := range []struct {
		head, due uint64
		leaf      []byte
		fault     error
	}{
		{899, 900, leafAt(900, "b"), wagtenib.ErrLaterEntry},
		{900, 900, leafAt(900, "b"), nil},
		{0, 0, leafAt(0, "a"), nil},
		{1<<64 - 2, 1<<64 - 1, leafAt(1<<64-1, "a"), wagtenib.ErrLaterEntry},
		{1<<64 - 1, 1<<64 - 1, leafAt(1<<64-1, "a"), nil},
		{899, 0, []byte("no leaf"), wagtenib.ErrBadVersion},
		{899, 0, nil, wagtenib.ErrTruncated},
		{899, 0, append(leafAt(900, "b"), 0), wagtenib.ErrTrailing},
	} {
		timestamp, err := wagtenib.MonitorEntry(one.head, one.leaf)
		if timestamp != one.due || !errors.Is(err, one.fault) {
			t.Errorf("%x beside a head of %d: %d, %v, and %d, %v is due", one.leaf, one.head, timestamp, err, one.due,
				one.fault)
		}
	}
}

func TestMonitorNamesKnownHeads(t *testing.T) {
	log := &madeLog{}
	log.append(t, leafAt(5, "a"))
	state, err := wagtenib.MonitorBegin()
	if err != nil {
		t.Fatal(err)
	}
	known := wagtenib.TreeHead{TreeSize: 1, Timestamp: 7, Root: log.root(t, 1)}
	if _, state, err = wagtenib.MonitorHead(state, known); err != nil {
		t.Fatal(err)
	}
	fork := wagtenib.TreeHead{TreeSize: 1, Timestamp: 9, Root: sha256.Sum256([]byte("another"))}
	found, same, err := wagtenib.MonitorHead(state, fork)
	if err != nil || found.Verdict != wagtenib.VerdictForked || found.Known != known || !found.Verdict.Accuses() ||
		!bytes.Equal(same, state) {
		t.Errorf("%v: %+v", err, found)
	}
	found, _, state, err = wagtenib.MonitorEntries(state, 0, log.leaves)
	if err != nil || found.Verdict != wagtenib.VerdictAccepted || found.Verdict.Accuses() {
		t.Fatalf("%v: %+v", err, found)
	}
	found, _, err = wagtenib.MonitorHead(state, wagtenib.TreeHead{TreeSize: 2, Timestamp: 7})
	if err != nil || found.Verdict != wagtenib.VerdictNotLater || found.Known != known {
		t.Errorf("%v: %+v", err, found)
	}
}

// TestMonitorKeepsTimestampsOfKnownTrees checks that a head is compared with the earliest and with the newest timestamp
// of the accepted and of the waiting tree, and that the verdict names the head that contradicts it.
func TestMonitorKeepsTimestampsOfKnownTrees(t *testing.T) {
	log := &madeLog{}
	for i := range 9 {
		log.append(t, leafAt(uint64(i), "a certificate"))
	}
	head := func(size, timestamp uint64) wagtenib.TreeHead {
		return wagtenib.TreeHead{TreeSize: size, Timestamp: timestamp, Root: log.root(t, size)}
	}
	state, err := wagtenib.MonitorStart(head(4, 100), log.subtrees(4))
	if err != nil {
		t.Fatal(err)
	}
	for _, one := range []struct {
		head  wagtenib.TreeHead
		due   wagtenib.Verdict
		known wagtenib.TreeHead
	}{
		{head(4, 140), wagtenib.VerdictAgain, wagtenib.TreeHead{}},
		{head(7, 120), wagtenib.VerdictNotLater, head(4, 140)},
		{head(4, 90), wagtenib.VerdictAgain, wagtenib.TreeHead{}},
		{head(3, 95), wagtenib.VerdictShrunk, head(4, 90)},
		{head(3, 80), wagtenib.VerdictOlder, head(4, 90)},
		{head(7, 200), wagtenib.VerdictPending, wagtenib.TreeHead{}},
		{head(4, 210), wagtenib.VerdictShrunk, head(7, 200)},
		{head(5, 190), wagtenib.VerdictOlder, head(7, 200)},
		{head(7, 300), wagtenib.VerdictAgain, wagtenib.TreeHead{}},
		{head(9, 250), wagtenib.VerdictNotLater, head(7, 300)},
	} {
		found, next, err := wagtenib.MonitorHead(state, one.head)
		if err != nil || found.Verdict != one.due || found.Known != one.known {
			t.Fatalf("%+v: %v, %+v, and %v beside %+v is due", one.head, err, found, one.due, one.known)
		}
		state = next
	}
}

// TestMonitorJudgesOlderHeads checks proofs from each smaller head to the accepted one and to the waiting one. x/mod's
// tlog makes them.
func TestMonitorJudgesOlderHeads(t *testing.T) {
	log := &madeLog{}
	for i := range 12 {
		log.append(t, leafAt(uint64(i), "a certificate"))
	}
	accepted := wagtenib.TreeHead{TreeSize: 7, Timestamp: 100, Root: log.root(t, 7)}
	state, err := wagtenib.MonitorStart(accepted, log.subtrees(7))
	if err != nil {
		t.Fatal(err)
	}
	_, state, err = wagtenib.MonitorHead(state, wagtenib.TreeHead{TreeSize: 12, Timestamp: 200, Root: log.root(t, 12)})
	if err != nil {
		t.Fatal(err)
	}
	for size := range uint64(12) {
		known := uint64(7)
		if size >= known {
			known = 12
		}
		var proof []wagtenib.Hash
		if size > 0 {
			proof = log.proof(t, size, known)
		}
		for _, one := range []struct {
			root wagtenib.Hash
			due  wagtenib.Verdict
		}{
			{log.root(t, size), wagtenib.VerdictConsistent},
			{sha256.Sum256([]byte("a fork")), wagtenib.VerdictInconsistent},
		} {
			head := wagtenib.TreeHead{TreeSize: size, Timestamp: 9, Root: one.root}
			found, next, err := wagtenib.MonitorOlder(state, head, proof)
			if err != nil || found.Verdict != one.due || (found.Fault != nil) != (one.due == wagtenib.VerdictInconsistent) ||
				found.Verdict.Accuses() || !bytes.Equal(next, state) {
				t.Errorf("the size %d: %v, %+v, and %v is due", size, err, found, one.due)
			}
		}
	}
	found, _, err := wagtenib.MonitorOlder(state, wagtenib.TreeHead{TreeSize: 12}, nil)
	if err != nil || found.Verdict != wagtenib.VerdictGap {
		t.Errorf("a head that is not smaller: %v, %+v", err, found)
	}
}

func TestCompareHeads(t *testing.T) {
	a, b := sha256.Sum256([]byte("a")), sha256.Sum256([]byte("b"))
	known := wagtenib.TreeHead{TreeSize: 5, Timestamp: 50, Root: a}
	for _, one := range []struct {
		head wagtenib.TreeHead
		due  wagtenib.Verdict
	}{
		{wagtenib.TreeHead{TreeSize: 5, Timestamp: 50, Root: a}, wagtenib.VerdictAgain},
		{wagtenib.TreeHead{TreeSize: 5, Timestamp: 90, Root: a}, wagtenib.VerdictAgain},
		{wagtenib.TreeHead{TreeSize: 5, Timestamp: 50, Root: b}, wagtenib.VerdictForked},
		{wagtenib.TreeHead{TreeSize: 4, Timestamp: 49, Root: b}, wagtenib.VerdictOlder},
		{wagtenib.TreeHead{TreeSize: 4, Timestamp: 50, Root: b}, wagtenib.VerdictShrunk},
		{wagtenib.TreeHead{TreeSize: 6, Timestamp: 50, Root: b}, wagtenib.VerdictNotLater},
		{wagtenib.TreeHead{TreeSize: 6, Timestamp: 51, Root: b}, 0},
	} {
		if found := wagtenib.CompareHeads(known, one.head); found != one.due {
			t.Errorf("%+v: %v, and %v is due", one.head, found, one.due)
		}
	}
}

// TestMonitorReadsStatesOfVersion1 checks that a state without newest timestamps is read as one whose heads were handed
// out once.
func TestMonitorReadsStatesOfVersion1(t *testing.T) {
	log := &madeLog{}
	for i := range 4 {
		log.append(t, leafAt(uint64(i), "a certificate"))
	}
	head := wagtenib.TreeHead{TreeSize: 4, Timestamp: 100, Root: log.root(t, 4)}
	state, err := wagtenib.MonitorStart(head, log.subtrees(4))
	if err != nil {
		t.Fatal(err)
	}
	// The version 1 lacks the two newest timestamps, which follow the accepted head and the mark of no waiting head.
	at := 1 + 49 + 1
	parts := slices.Concat([]byte{1}, state[1:at], state[at+16:len(state)-sha256.Size])
	sum := sha256.Sum256(parts)
	found, next, err := wagtenib.MonitorHead(append(parts, sum[:]...), wagtenib.TreeHead{TreeSize: 9, Timestamp: 100})
	if err != nil || found.Verdict != wagtenib.VerdictNotLater || found.Known != head || !bytes.Equal(next, state) {
		t.Errorf("%v, %+v", err, found)
	}
}

func TestMonitorRefusesDamagedStates(t *testing.T) {
	state, err := wagtenib.MonitorBegin()
	if err != nil {
		t.Fatal(err)
	}
	wrong := map[string][]byte{"nothing": nil, "a byte less": state[:len(state)-1],
		"a byte more": append(bytes.Clone(state), 0), "no hash": state[:len(state)-32]}
	for place := range state {
		damaged := bytes.Clone(state)
		damaged[place] ^= 1
		if _, _, err := wagtenib.MonitorHead(damaged, wagtenib.TreeHead{}); !errors.Is(err, wagtenib.ErrState) {
			t.Errorf("the byte %d: %v", place, err)
		}
	}
	for name, damaged := range wrong {
		_, _, head := wagtenib.MonitorHead(damaged, wagtenib.TreeHead{})
		_, _, _, entries := wagtenib.MonitorEntries(damaged, 0, nil)
		_, _, proof := wagtenib.MonitorProof(damaged, nil)
		_, _, older := wagtenib.MonitorOlder(damaged, wagtenib.TreeHead{}, nil)
		for _, err := range []error{head, entries, proof, older} {
			if !errors.Is(err, wagtenib.ErrState) {
				t.Errorf("%s: %v", name, err)
			}
		}
	}
}

// TestMonitorStartsAtATrustedHead checks that from the state of each start, the monitor continues like one that read
// the log from its beginning.
func TestMonitorStartsAtATrustedHead(t *testing.T) {
	log := &madeLog{}
	for i := range 20 {
		log.append(t, leafAt(uint64(10*i), "a certificate"))
	}
	last := wagtenib.TreeHead{TreeSize: 20, Timestamp: 300, Root: log.root(t, 20)}
	for size := range uint64(20) {
		head := wagtenib.TreeHead{TreeSize: size, Timestamp: 10 * size, Root: log.root(t, size)}
		var subtrees []wagtenib.Hash
		for i, leaf := range log.leaves[:size] {
			subtrees = wagtenib.Push(uint64(i), subtrees, wagtenib.LeafHash(leaf))
		}
		state, err := wagtenib.MonitorStart(head, subtrees)
		if err != nil {
			t.Fatalf("%d leaves: %v", size, err)
		}
		found, state, err := wagtenib.MonitorHead(state, last)
		if err != nil || found.Verdict != wagtenib.VerdictPending || found.Accepted != size || found.Read != size ||
			found.Wanted != 20 {
			t.Fatalf("%d leaves: %+v, %v", size, found, err)
		}
		found, _, _, err = wagtenib.MonitorEntries(state, size, log.leaves[size:])
		if err != nil || found.Verdict != wagtenib.VerdictAccepted || found.Accepted != 20 {
			t.Fatalf("%d leaves: %+v, %v", size, found, err)
		}
		if size == 0 {
			continue
		}
		path := log.path(t, size-1, size)
		again, err := wagtenib.LastSubtrees(wagtenib.LeafHash(log.leaves[size-1]), size, path)
		if err != nil || !slices.Equal(again, subtrees) {
			t.Errorf("%d leaves: the last path gives %x, %v, and not %x", size, again, err, subtrees)
		}
	}
}

func TestMonitorStartRefusesOtherSubtrees(t *testing.T) {
	log := &madeLog{}
	for i := range 6 {
		log.append(t, leafAt(uint64(i), "a certificate"))
	}
	head := wagtenib.TreeHead{TreeSize: 6, Timestamp: 9, Root: log.root(t, 6)}
	subtrees, err := wagtenib.LastSubtrees(wagtenib.LeafHash(log.leaves[5]), 6, log.path(t, 5, 6))
	if err != nil {
		t.Fatal(err)
	}
	for name, one := range map[string]struct {
		subtrees []wagtenib.Hash
		due      error
	}{
		"none":                   {nil, wagtenib.ErrOtherCount},
		"one":                    {subtrees[:1], wagtenib.ErrOtherCount},
		"one more":               {append(slices.Clone(subtrees), wagtenib.Hash{}), wagtenib.ErrOtherCount},
		"in another order":       {[]wagtenib.Hash{subtrees[1], subtrees[0]}, wagtenib.ErrRootMismatch},
		"a leaf for its subtree": {[]wagtenib.Hash{subtrees[0], wagtenib.LeafHash(log.leaves[5])}, wagtenib.ErrRootMismatch},
	} {
		if state, err := wagtenib.MonitorStart(head, one.subtrees); !errors.Is(err, one.due) || state != nil {
			t.Errorf("%s: %x, %v, but %v is due", name, state, err, one.due)
		}
	}
	head.Root[0] ^= 1
	if _, err := wagtenib.MonitorStart(head, subtrees); !errors.Is(err, wagtenib.ErrRootMismatch) {
		t.Errorf("another root: %v", err)
	}
	if _, err := wagtenib.LastSubtrees(wagtenib.Hash{}, 8,
		make([]wagtenib.Hash, 2)); !errors.Is(err, wagtenib.ErrPathTooShort) {
		t.Errorf("a path of two hashes in a tree of eight leaves: %v", err)
	}
}
