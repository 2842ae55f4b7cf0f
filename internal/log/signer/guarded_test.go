package signer

import (
	"testing"
	"time"
	"wagtenib/internal/ct"
)

// TestHeads asks for heads that follow each other, and between them for forks, older heads and heads with false proofs.
// None of these is signed, and none changes what may be signed.
func TestHeads(t *testing.T) {
	t.Parallel()
	inBothProcesses(t, func(t *testing.T, s Signer, key *Key) {
		ctx, right, fork := limited(t), listOf(t, 20, 20), listOf(t, 20, 3)
		if last, err := s.Last(ctx); err != nil || last != nil || !s.IsGuarded() {
			t.Fatalf("%v, %v, %v", last, err, s.IsGuarded())
		}
		before := 0
		for at, size := range []int{0, 5, 5, 7, 20} {
			timestamp := uint64(100 + 10*at)
			head := right.head(t, size, timestamp)
			for again := 0; again < 2; again++ {
				signed, err := s.SignHead(ctx, head, right.proof(t, before, size))
				must(t, err)
				must(t, CheckHead(key.Key(), head, signed))
			}
			before = size
			if size == 0 {
				continue
			}
			_, err := s.SignHead(ctx, right.head(t, size-1, timestamp+1), nil)
			wantRefusal(t, "size-falls", err)
			_, err = s.SignHead(ctx, right.head(t, size, timestamp-1), nil)
			wantRefusal(t, "timestamp-not-later", err)
			_, err = s.SignHead(ctx, fork.head(t, size, timestamp+1), nil)
			wantRefusal(t, "fork", err)
			_, err = s.SignHead(ctx, fork.head(t, size, timestamp), nil)
			wantRefusal(t, "timestamp-not-later", err)
			if size < 20 {
				_, err = s.SignHead(ctx, fork.head(t, 20, timestamp+1), fork.proof(t, size, 20))
				wantRefusal(t, "inconsistent", err)
				_, err = s.SignHead(ctx, right.head(t, 20, timestamp+1), fork.proof(t, size, 20))
				wantRefusal(t, "inconsistent", err)
				_, err = s.SignHead(ctx, right.head(t, 20, timestamp+1), nil)
				wantRefusal(t, "inconsistent", err)
			}
			if last, err := s.Last(ctx); err != nil || *last != head {
				t.Fatalf("the last head is %+v, %v", last, err)
			}
		}
	})
}

// TestTimestampTooFar continues a log that was stopped for a long time. A head is refused if it is more than an hour
// after the last one and ahead of this machine's clock.
func TestTimestampTooFar(t *testing.T) {
	t.Parallel()
	inBothProcesses(t, func(t *testing.T, s Signer, key *Key) {
		ctx, right, fork := limited(t), listOf(t, 20, 20), listOf(t, 20, 3)
		const hour = 3_600_000
		now := uint64(time.Now().UnixMilli())
		for _, one := range []struct {
			size      int
			timestamp uint64
		}{{5, 100}, {7, now + 30_000}, {9, now + hour}} {
			last, err := s.Last(ctx)
			must(t, err)
			before := 0
			if last != nil {
				before = int(last.TreeSize)
			}
			head := right.head(t, one.size, one.timestamp)
			signed, err := s.SignHead(ctx, head, right.proof(t, before, one.size))
			must(t, err)
			must(t, CheckHead(key.Key(), head, signed))
		}
		for _, head := range []ct.TreeHead{right.head(t, 20, now+2*hour+1), right.head(t, 9, now+2*hour+1),
			right.head(t, 8, 1<<63), fork.head(t, 9, now+3*hour)} {
			_, err := s.SignHead(ctx, head, right.proof(t, 9, 20))
			wantRefusal(t, "timestamp-too-far", err)
			wantError(t, err, TooFar)
		}
		_, err := s.SignHead(ctx, right.head(t, 20, now+2*hour), right.proof(t, 9, 20))
		must(t, err)
	})
}

// TestTimestamps asks for the timestamps of leaves in the last head's tree, and of other leaves.
func TestTimestamps(t *testing.T) {
	t.Parallel()
	inBothProcesses(t, func(t *testing.T, s Signer, key *Key) {
		ctx, right, fork := limited(t), listOf(t, 300, 300), listOf(t, 300, 3)
		_, err := s.SignTimestamps(ctx, []Receipt{right.receipt(t, 0, 1)})
		wantRefusal(t, "no-head", err)
		_, err = s.SignHead(ctx, right.head(t, 290, 10), nil)
		must(t, err)
		var all []Receipt
		for i := 0; i < 290; i++ {
			all = append(all, right.receipt(t, i, 290))
		}
		signatures, err := s.SignTimestamps(ctx, all)
		must(t, err)
		for i, signed := range signatures {
			must(t, Check(key.Key(), right.leaves[i], signed))
		}
		if none, err := s.SignTimestamps(ctx, nil); err != nil || len(none) != 0 {
			t.Errorf("%d, %v", len(none), err)
		}
		// If one of several receipts is wrong, none is signed.
		moved := all[7]
		moved.Index = 8
		head := fork.head(t, 290, 11)
		for what, wrong := range map[string]struct {
			receipt Receipt
			name    string
		}{
			"a leaf of a fork":                {fork.receipt(t, 9, 290), "not-there"},
			"a leaf with another's path":      {Receipt{fork.leaves[9], 9, all[9].Path}, "not-there"},
			"a leaf that comes later":         {right.receipt(t, 295, 300), "not-there"},
			"a leaf at another index":         {moved, "not-there"},
			"a leaf without a path":           {Receipt{all[7].Leaf, 7, nil}, "not-there"},
			"a head's bytes":                  {Receipt{messageOf(head), 7, all[7].Path}, "no-leaf"},
			"the path in another head's tree": {right.receipt(t, 100, 300), "not-there"},
		} {
			signatures, err := s.SignTimestamps(ctx, append(append([]Receipt{}, all[:5]...), wrong.receipt, all[20]))
			if wantRefusal(t, wrong.name, err); len(signatures) != 0 {
				t.Errorf("%s: %d were signed", what, len(signatures))
			}
		}
	})
}

// TestLeafIndexes asks for the timestamps of leaves in the last head's tree. A leaf that is later than that head is
// refused, and so is one whose extension has another leaf's index.
func TestLeafIndexes(t *testing.T) {
	t.Parallel()
	inBothProcesses(t, func(t *testing.T, s Signer, key *Key) {
		ctx, l, later := limited(t), &list{}, leaf("later")
		later[9] = 11
		for _, leaf := range [][]byte{leaf("first"), later, leafNaming("third", 3), leafNaming("fourth", 3)} {
			l.put(t, leaf)
		}
		_, err := s.SignHead(ctx, l.head(t, 4, 10), nil)
		must(t, err)
		for i, name := range []string{"", "later-leaf", "other-index", ""} {
			signatures, err := s.SignTimestamps(ctx, []Receipt{l.receipt(t, i, 4)})
			if name != "" {
				if wantRefusal(t, name, err); len(signatures) != 0 {
					t.Errorf("%s: %d were signed", name, len(signatures))
				}
				continue
			}
			must(t, err)
			must(t, Check(key.Key(), l.leaves[i], signatures[0]))
		}
	})
}
