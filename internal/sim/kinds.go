package sim

import (
	"fmt"
	"time"
)

// Kind is a kind of fault.
type Kind int

// The faults of a call.
const (
	// CallFails: the call is not done, and says so.
	CallFails Kind = iota
	// CallHangs: the call is not done, and gives no answer until the caller gives up.
	CallHangs
	// DoneSaysFailed: the call is done, and says that it failed.
	DoneSaysFailed
	// AnswersLate: the call is done, and its answer comes after the caller gave up.
	AnswersLate
	// DoneLate: the call is done after the caller gave up.
	DoneLate
	// KilledBefore and KilledAfter: the node is killed before the call is done, or after that.
	KilledBefore
	KilledAfter
	// Paused: the node is paused at the call, and continues later.
	Paused
	// Away: no call of the node reaches a store for a while.
	Away
	// StoreFull: no store takes anything for a while. ReadOnly: no store is changed for a while, not even by deleting.
	StoreFull
	ReadOnly
	// ClockForward and ClockBack: the node's time of day is set.
	ClockForward
	ClockBack
	// WitnessSays: a witness answers wrongly. WitnessRolledBack: a witness forgets what it cosigned last, if the log's
	// quorums tolerate this.
	WitnessSays
	WitnessRolledBack
	// PutLost: a put is acknowledged, but the object is not stored. This fault and the following ones are losses: a store
	// loses something that it acknowledged. A history has at most one of these, because no node may be able to see two.
	PutLost
	// NewestLost: the newest object of the store is gone.
	NewestLost
	// ObjectBent: an object has another content. HeadForged: the log's key never signed the newest head. A byte of its
	// signature was changed, or its root, or another key signed it.
	ObjectBent
	HeadForged
	// HeadSwapped: the newest head has the content of another head. EdgeBent: a tile at the right edge of the newest
	// head's tree has another content. The newest staged batch has the right one.
	HeadSwapped
	EdgeBent
	// IndexLost: the index lost some of its newest places. IndexWrong: a place in the index is that of another entry.
	IndexLost
	IndexWrong
	// MemoryLost: the machine's memory is gone, and the node is killed.
	MemoryLost
	// Stores are rolled back to an earlier state: the objects, the lock, the guard's state, two of these together, or all.
	ObjectsRolledBack
	LockRolledBack
	GuardRolledBack
	LockAndGuardRolledBack
	ObjectsAndLockRolledBack
	ObjectsAndGuardRolledBack
	AllRolledBack
	// LockGone: the lock's text is gone. Half of the engines also forget that there was a lock.
	LockGone
	// StepLost: the power fails. All nodes are killed, and the store loses all objects of the newest state except its
	// staged batch. Everything can be restored from that, so a history may have more than one of these faults.
	StepLost

	kinds
)

var kindNames = [kinds]string{
	"call fails", "call hangs", "done, says failed", "answers late", "done late", "killed before", "killed after",
	"paused", "away", "store full", "read-only",
	"clock forward", "clock back", "witness says", "witness rolled back", "put lost", "newest object lost",
	"object bent", "head forged", "head swapped", "edge bent", "index lost", "index wrong", "memory lost",
	"objects rolled back", "lock rolled back", "guard rolled back", "lock, guard rolled back",
	"objects, lock rolled back", "objects, guard rolled back",
	"all rolled back", "lock gone", "newest step lost",
}

func (k Kind) String() string { return kindNames[k] }

// Fault happens at one call of the history.
type Fault struct {
	// At is the number of the call, which counts all calls of all nodes from 1. On is the beginning of the call. Of is the
	// number of the machine that makes the call, which counts from 1, or 0 for any machine. The fault happens at the first
	// such call from At on, and not before the time After.
	At    int
	On    string
	Of    int
	After time.Duration
	Kind  Kind
	// Long is the duration of the fault, or the time by which a clock is changed. Count is the number of calls, in tens,
	// by which a store is rolled back, or selects an object.
	Long  time.Duration
	Count int
}

func (f Fault) String() string {
	text := fmt.Sprintf("%s from call %d on, at the first %q", f.Kind, f.At, f.On)
	if f.Of > 0 {
		text += fmt.Sprintf(" of node %d", f.Of)
	}
	if f.After > 0 {
		text += fmt.Sprintf(" after %v", f.After)
	}
	return fmt.Sprintf("%s (%v, %d)", text, f.Long, f.Count)
}
