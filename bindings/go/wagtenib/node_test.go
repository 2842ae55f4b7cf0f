package wagtenib_test

import (
	"errors"
	"fmt"
	"math"
	"strings"
	"testing"

	"wagtenib/bindings/go/wagtenib"
)

// seen is a state, and made is a state that may follow it.
var (
	seen = wagtenib.NodeState{Timestamp: 7, PreviousTimestamp: 5, Salt: 1}
	made = wagtenib.NodeState{Timestamp: 9, PreviousTimestamp: 7, Salt: 2}
)

// TestNodeNext goes through all commands, in the order of docs/NODE.md.
func TestNodeNext(t *testing.T) {
	type command = wagtenib.NodeCommand
	type outcome = wagtenib.NodeOutcome
	older := wagtenib.NodeState{Timestamp: 6, PreviousTimestamp: 4, Salt: 1}
	now := command{}
	for _, step := range []struct {
		told outcome
		want command
	}{
		{outcome{Kind: wagtenib.WasDone}, command{}},
		{outcome{Kind: wagtenib.LockRead, State: seen}, command{Kind: wagtenib.LookForHead, Seen: seen}},
		{outcome{Kind: wagtenib.WasPublished}, command{Kind: wagtenib.TakeStep, Seen: seen}},
		{outcome{Kind: wagtenib.BatchListed, State: made}, command{Kind: wagtenib.TakeStep, Seen: seen}},
		{outcome{Kind: wagtenib.BatchListed, State: seen}, command{Kind: wagtenib.TakeStep, Seen: seen}},
		{outcome{Kind: wagtenib.BatchListed, State: older}, command{Kind: wagtenib.DeleteBatch, Seen: seen, Next: older}},
		{outcome{Kind: wagtenib.WasLost}, command{Kind: wagtenib.TakeStep, Seen: seen}},
		{outcome{Kind: wagtenib.StepMade, State: older, Objects: 2}, command{Kind: wagtenib.TakeStep, Seen: seen}},
		{outcome{Kind: wagtenib.StepMade, State: made, Objects: 2},
			command{Kind: wagtenib.StageBatch, Seen: seen, Next: made, Objects: 2}},
		{outcome{Kind: wagtenib.WasDone}, command{Kind: wagtenib.SwapLock, Seen: seen, Next: made, Objects: 2}},
		{outcome{Kind: wagtenib.WasDone}, command{Kind: wagtenib.PutObjects, Next: made, Objects: 2}},
		{outcome{Kind: wagtenib.WasDone}, command{Kind: wagtenib.AddToIndex, Next: made}},
		{outcome{Kind: wagtenib.WasDone}, command{Kind: wagtenib.PublishHead, Next: made}},
		{outcome{Kind: wagtenib.WasDone}, command{Kind: wagtenib.AnswerAll, Next: made}},
		{outcome{Kind: wagtenib.WasDone}, command{}},
		{outcome{Kind: wagtenib.LockRead, State: made}, command{Kind: wagtenib.LookForHead, Seen: made}},
		{outcome{Kind: wagtenib.BatchRead, Objects: 3}, command{Kind: wagtenib.PutObjects, Next: made, Objects: 3}},
		{outcome{Kind: wagtenib.WasLost}, command{}},
	} {
		next, err := wagtenib.NodeNext(now, step.told)
		if err != nil || next != step.want {
			t.Fatalf("after %+v with %+v: %+v, %v, and expected was %+v", now, step.told, next, err, step.want)
		}
		now = next
	}
	if _, err := wagtenib.NodeNext(command{Kind: 10}, outcome{}); !errors.Is(err, wagtenib.ErrCommand) {
		t.Error(err)
	}
	if _, err := wagtenib.NodeNext(command{}, outcome{Kind: 7}); !errors.Is(err, wagtenib.ErrOutcome) {
		t.Error(err)
	}
}

// lineOf returns the line of a state of a log with this size, timestamp and root.
func lineOf(size, timestamp uint64, root wagtenib.Hash) string {
	return fmt.Sprintf("growth %016x%016x%x%s", size, timestamp, root, strings.Repeat("0", 192))
}

func TestLockTexts(t *testing.T) {
	line := lineOf(3, 9, wagtenib.Hash{1})
	for _, node := range []string{"", "-", "https://node.example", strings.Repeat("n", 10_000)} {
		text, err := wagtenib.LockText([]byte(line), []byte(node), 7, 2)
		if want := fmt.Sprintf("%s\nnode %s\nsalt %016x%016x\n", line, node, 7, 2); err != nil || string(text) != want {
			t.Errorf("%.60q, %v, and expected was %.60q", text, err, want)
		}
		if state, size, err := wagtenib.LockState(text); err != nil || state != made || size != 3 {
			t.Errorf("%+v, %d, %v", state, size, err)
		}
	}
	// A previous timestamp that is not before that of the state counts as 0.
	text, err := wagtenib.LockText([]byte(line), nil, 9, math.MaxUint64)
	if err != nil {
		t.Fatal(err)
	}
	if state, _, err := wagtenib.LockState(text); err != nil ||
		state != (wagtenib.NodeState{Timestamp: 9, Salt: math.MaxUint64}) {
		t.Errorf("%+v, %v", state, err)
	}
	for _, bad := range []string{"", "a text", string(text[1:]), string(text) + "\n",
		strings.Replace(string(text), "salt", "salz", 1), strings.Replace(string(text), "00", "0g", 1)} {
		if state, size, err := wagtenib.LockState([]byte(bad)); !errors.Is(err, wagtenib.ErrLockText) ||
			state != (wagtenib.NodeState{}) || size != 0 {
			t.Errorf("%.60q: %+v, %d, %v", bad, state, size, err)
		}
	}
}

func TestBatchNames(t *testing.T) {
	const name = "staging/000000000000000900000000000000070000000000000002"
	if got := wagtenib.BatchName(made); got != name {
		t.Error(got)
	}
	if state, err := wagtenib.BatchState([]byte(name)); err != nil || state != made {
		t.Errorf("%+v, %v", state, err)
	}
	for _, bad := range []string{"", name[1:], name + "0", "stagin./" + name[8:], name[:55] + "x", name[:55] + "A"} {
		if _, err := wagtenib.BatchState([]byte(bad)); !errors.Is(err, wagtenib.ErrBatchName) {
			t.Errorf("%q: %v", bad, err)
		}
	}
}

// TestNodeStart checks the decision of a node that finds heads before, at and after the head of the lock.
func TestNodeStart(t *testing.T) {
	root := wagtenib.Hash{1}
	lock, err := wagtenib.LockText([]byte(lineOf(3, 9, root)), []byte("-"), 7, 2)
	if err != nil {
		t.Fatal(err)
	}
	head := func(size, timestamp uint64, root wagtenib.Hash) *wagtenib.TreeHead {
		return &wagtenib.TreeHead{TreeSize: size, Timestamp: timestamp, Root: root}
	}
	at := func(size, timestamp uint64) *wagtenib.TreeHead { return head(size, timestamp, root) }
	other := wagtenib.Hash{2}
	type found = wagtenib.NodeFound
	for _, of := range []struct {
		lock  []byte
		found found
		want  error
	}{
		{lock, found{}, nil},
		{lock, found{Seen: head(3, 9, root), Signed: head(3, 9, root), Guarded: true, Published: at(3, 9), Listed: at(3, 9),
			HasObject: true}, nil},
		{lock, found{Seen: head(2, 8, wagtenib.Hash{}), Signed: head(2, 8, wagtenib.Hash{}), Guarded: true,
			Published: at(2, 8), Listed: at(2, 8)}, nil},
		{lock, found{Seen: head(3, 9, wagtenib.Hash{})}, wagtenib.ErrBehindSeen},
		{lock, found{Seen: head(4, 8, root)}, wagtenib.ErrBehindSeen},
		{lock, found{Signed: head(3, 9, wagtenib.Hash{}), Guarded: true}, wagtenib.ErrTwoRoots},
		{lock, found{Signed: head(3, 10, root), Guarded: true}, wagtenib.ErrBehindSigned},
		{lock, found{Signed: head(3, 10, root)}, nil},
		{lock, found{Listed: at(1, 1), Guarded: true}, wagtenib.ErrSignedBehindListed},
		{lock, found{Listed: at(3, 10)}, wagtenib.ErrBehindListed},
		{lock, found{Listed: head(3, 9, other)}, wagtenib.ErrBehindListed},
		{lock, found{Listed: head(2, 8, other)}, nil},
		{lock, found{Published: head(3, 9, other)}, wagtenib.ErrBehindPublished},
		{lock, found{Published: head(2, 8, other)}, nil},
		{lock, found{Published: at(4, 9)}, wagtenib.ErrBehindPublished},
		{nil, found{Creates: true}, wagtenib.ErrCreatesLock},
		{nil, found{}, wagtenib.ErrLockGone},
		{nil, found{Creates: true, HasObject: true}, wagtenib.ErrLockGone},
		{nil, found{Creates: true, Seen: head(0, 1, root)}, wagtenib.ErrLockGone},
		{[]byte("a text"), found{Creates: true}, wagtenib.ErrLockText},
		{[]byte{}, found{Creates: true}, wagtenib.ErrLockText},
	} {
		if err := wagtenib.NodeStart(of.lock, of.found); !errors.Is(err, of.want) {
			t.Errorf("%+v: %v, and expected was %v", of.found, err, of.want)
		}
	}
}
