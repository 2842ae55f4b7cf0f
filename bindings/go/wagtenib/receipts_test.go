package wagtenib_test

import (
	"errors"
	"math/bits"
	"testing"

	"golang.org/x/mod/sumdb/tlog"

	"wagtenib/bindings/go/wagtenib"
)

// subtrees returns the roots of the perfect subtrees of the first leaves, largest first, in the order of x/mod's tlog.
func (l *madeLog) subtrees(first uint64) (roots []wagtenib.Hash) {
	for done := uint64(0); done < first; {
		level := bits.Len64(first-done) - 1
		roots = append(roots, wagtenib.Hash(l.stored[tlog.StoredHashIndex(level, int64(done>>level))]))
		done += 1 << level
	}
	return roots
}

// stepLog returns a log with size leaves, each with its own index as its extension, and its head.
func stepLog(t *testing.T, size uint64) (l madeLog, head wagtenib.TreeHead) {
	t.Helper()
	for i := range size {
		l.append(t, leafOf(1000+i, 0, opaque(3, []byte{byte(i), 1}), indexExtension(i)))
	}
	return l, wagtenib.TreeHead{TreeSize: size, Timestamp: 1000 + size, Root: l.root(t, size)}
}

func TestGuardReceiptsOfEachStep(t *testing.T) {
	const size = 40
	l, head := stepLog(t, size)
	last := signedBytes(head)
	for first := range uint64(size) {
		if err := wagtenib.GuardReceipts(last[:], first, l.subtrees(first), l.leaves[first:]); err != nil {
			t.Errorf("the step from %d: %v", first, err)
		}
		if first > 0 {
			err := wagtenib.GuardReceipts(last[:], first, l.subtrees(first)[1:], l.leaves[first:])
			if !errors.Is(err, wagtenib.ErrRootMismatch) {
				t.Errorf("the step from %d without its first subtree: %v", first, err)
			}
		}
	}
}

func TestGuardReceiptsRefusals(t *testing.T) {
	l, head := stepLog(t, 13)
	last := signedBytes(head)
	early := signedBytes(wagtenib.TreeHead{TreeSize: 13, Timestamp: 1011, Root: head.Root})
	other, _ := stepLog(t, 13)
	other.leaves[12] = leafOf(1012, 0, opaque(3, []byte{9}), nil)
	cut := append([][]byte(nil), l.leaves[8:]...)
	cut[4] = cut[4][:len(cut[4])-1]
	moved, movedHead := stepLog(t, 12)
	moved.append(t, leafOf(1012, 0, opaque(3, []byte{9}), indexExtension(11)))
	movedHead.TreeSize, movedHead.Root = 13, moved.root(t, 13)
	movedLast := signedBytes(movedHead)
	for _, c := range []struct {
		what   string
		last   []byte
		first  uint64
		leaves [][]byte
		due    error
	}{
		{"the right step", last[:], 8, l.leaves[8:], nil},
		{"a state that is none", last[:49], 8, l.leaves[8:], wagtenib.ErrState},
		{"no leaves", last[:], 13, nil, wagtenib.ErrIndexOutOfRange},
		{"a step that ends before the tree", last[:], 8, l.leaves[8:12], wagtenib.ErrIndexOutOfRange},
		{"a step that ends after the tree", last[:], 9, l.leaves[8:], wagtenib.ErrIndexOutOfRange},
		{"another leaf", last[:], 8, other.leaves[8:], wagtenib.ErrRootMismatch},
		{"a leaf that is cut", last[:], 8, cut, wagtenib.ErrRootMismatch},
		{"a leaf later than the head", early[:], 8, l.leaves[8:], wagtenib.ErrLaterLeaf},
		{"a leaf with another index", movedLast[:], 8, moved.leaves[8:], wagtenib.ErrOtherIndex},
	} {
		if err := wagtenib.GuardReceipts(c.last, c.first, l.subtrees(c.first), c.leaves); !errors.Is(err, c.due) {
			t.Errorf("%s: %v, but %v is due", c.what, err, c.due)
		}
	}
}

func TestNodeAccept(t *testing.T) {
	l, head := stepLog(t, 13)
	at := func(size, timestamp uint64) wagtenib.TreeHead {
		return wagtenib.TreeHead{TreeSize: size, Timestamp: timestamp, Root: l.root(t, size)}
	}
	fork := head
	fork.Timestamp, fork.Root = head.Timestamp+1, flipped(head.Root)
	for _, c := range []struct {
		what           string
		accepted, head wagtenib.TreeHead
		proof          []wagtenib.Hash
		due            error
	}{
		{"a later head", at(5, 100), at(13, 101), l.proof(t, 5, 13), nil},
		{"the accepted head", at(5, 100), at(5, 100), nil, nil},
		{"a later head of the same tree", at(5, 100), at(5, 101), nil, nil},
		{"a head after that of no leaves", at(0, 100), at(13, 101), nil, nil},
		{"a lock that fell", at(13, 101), at(5, 100), nil, wagtenib.ErrSizeFalls},
		{"fewer leaves at a later time", at(13, 101), at(5, 102), nil, wagtenib.ErrSizeFalls},
		{"more leaves at an earlier time", at(5, 100), at(13, 99), l.proof(t, 5, 13), wagtenib.ErrTimestampNotLater},
		{"another root of the same size", head, fork, nil, wagtenib.ErrFork},
		{"no proof", at(5, 100), at(13, 101), nil, wagtenib.ErrEmptyPath},
		{"the proof from another size", at(5, 100), at(13, 101), l.proof(t, 4, 13), wagtenib.ErrPathTooShort},
	} {
		if err := wagtenib.NodeAccept(c.accepted, c.head, c.proof); !errors.Is(err, c.due) {
			t.Errorf("%s: %v, but %v is due", c.what, err, c.due)
		}
	}
}
