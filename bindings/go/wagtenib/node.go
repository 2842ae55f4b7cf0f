//go:build linux && (amd64 || arm64)

package wagtenib

// #cgo nocallback wagtenib_node_next
// #cgo noescape wagtenib_node_next
// #cgo nocallback wagtenib_node_start
// #cgo noescape wagtenib_node_start
// #cgo nocallback wagtenib_node_accept
// #cgo noescape wagtenib_node_accept
// #cgo nocallback wagtenib_lock_text
// #cgo noescape wagtenib_lock_text
// #cgo nocallback wagtenib_lock_state
// #cgo noescape wagtenib_lock_state
// #cgo nocallback wagtenib_batch_name
// #cgo noescape wagtenib_batch_name
// #cgo nocallback wagtenib_batch_state
// #cgo noescape wagtenib_batch_state
// #include "wagtenib.h"
import "C"

import "unsafe"

// NodeState has the parts of a log's state that determine the order of a node's commands.
type NodeState struct {
	Timestamp         uint64 // milliseconds since 1970
	PreviousTimestamp uint64 // that of the state before its step
	Salt              uint64 // a random number
}

func (s NodeState) inC() C.struct_wagtenib_node_state {
	return C.struct_wagtenib_node_state{timestamp: C.uint64_t(s.Timestamp),
		previous_timestamp: C.uint64_t(s.PreviousTimestamp), salt: C.uint64_t(s.Salt)}
}

func ofState(s *C.struct_wagtenib_node_state) NodeState {
	return NodeState{uint64(s.timestamp), uint64(s.previous_timestamp), uint64(s.salt)}
}

// NodeCommandKind is the kind of a command: what a node does next.
type NodeCommandKind uint32

// The commands of a node.
const (
	ReadLock    NodeCommandKind = 0 // read the lock
	LookForHead NodeCommandKind = 1 // look up whether the head of Seen is published; if not, read its staged batch
	TakeStep    NodeCommandKind = 2 // make a step from Seen, or name a staged batch that may be deleted
	StageBatch  NodeCommandKind = 3 // store the staged batch of Next, which was made from Seen
	SwapLock    NodeCommandKind = 4 // swap the lock from the text of Seen to that of Next
	DeleteBatch NodeCommandKind = 5 // delete the staged batch of Next
	PutObjects  NodeCommandKind = 6 // store all objects of Next under their public names
	AddToIndex  NodeCommandKind = 7 // add the entries of Next to the index
	PublishHead NodeCommandKind = 8 // get a signature of the head of Next, and publish it
	AnswerAll   NodeCommandKind = 9 // answer the submissions of Next
)

// NodeCommand is a command of a node. The states and numbers that a command does not use are zero. The zero value is
// the command of a node that starts.
type NodeCommand struct {
	Seen, Next NodeState
	Objects    uint64 // the number of objects of Next
	Kind       NodeCommandKind
}

func (c NodeCommand) inC() C.struct_wagtenib_node_command {
	return C.struct_wagtenib_node_command{seen: c.Seen.inC(), next: c.Next.inC(), objects: C.uint64_t(c.Objects),
		command: C.uint32_t(c.Kind)}
}

// NodeOutcomeKind is the kind of the outcome of a command.
type NodeOutcomeKind uint32

// The outcomes of a command.
const (
	WasDone      NodeOutcomeKind = 0 // the command is done
	WasLost      NodeOutcomeKind = 1 // it is not done, or it is unknown whether it is done and it is no longer tried
	LockRead     NodeOutcomeKind = 2 // the lock has the text of State
	WasPublished NodeOutcomeKind = 3 // the head is published
	BatchRead    NodeOutcomeKind = 4 // the staged batch was read. Objects is the number of its objects
	StepMade     NodeOutcomeKind = 5 // a step was made, which led to State. Objects is the number of its objects
	BatchListed  NodeOutcomeKind = 6 // the store has a staged batch of State
)

// NodeOutcome is the outcome of a command.
type NodeOutcome struct {
	State   NodeState
	Objects uint64
	Kind    NodeOutcomeKind
}

// NodeNext returns the command that follows a command, by its outcome. If the outcome does not belong to the command,
// it returns the same command again. The error is nil, ErrCommand or ErrOutcome.
func NodeNext(command NodeCommand, outcome NodeOutcome) (NodeCommand, error) {
	given, told := command.inC(), C.struct_wagtenib_node_outcome{state: outcome.State.inC(),
		objects: C.uint64_t(outcome.Objects), outcome: C.uint32_t(outcome.Kind)}
	var next C.struct_wagtenib_node_command
	if err := result(C.wagtenib_node_next(&given, &told, &next)); err != nil {
		return NodeCommand{}, err
	}
	return NodeCommand{ofState(&next.seen), ofState(&next.next), uint64(next.objects), NodeCommandKind(next.command)}, nil
}

// NodeFound is what a node finds of a log when it starts, in addition to the lock's text. A field is nil if there is no
// such head. The root of a head is compared only if its size and its timestamp are those of the lock's head.
type NodeFound struct {
	Seen      *TreeHead // the newest head that this machine saw
	Signed    *TreeHead // the last head that was signed
	Published *TreeHead // the newest head that is published
	Listed    *TreeHead // the newest head that the store lists
	Guarded   bool      // a guard decides what is signed
	HasObject bool      // the store has an object of a log
	Creates   bool      // the operator asks for a new log
}

func (f NodeFound) inC() (found C.struct_wagtenib_node_found) {
	flag := func(is bool, value C.uint32_t) bool {
		if is {
			found.flags += value
		}
		return is
	}
	if flag(f.Seen != nil, 1) {
		found.seen = f.Seen.inC()
	}
	if flag(f.Signed != nil, 2) {
		found.signed_head = f.Signed.inC()
	}
	if flag(f.Published != nil, 4) {
		found.published = f.Published.inC()
	}
	if flag(f.Listed != nil, 8) {
		found.listed = f.Listed.inC()
	}
	flag(f.Guarded, 16)
	flag(f.HasObject, 32)
	flag(f.Creates, 64)
	return found
}

// lockExists is the flag of struct wagtenib_node_found that says that there is a lock.
const lockExists = 128

// NodeStart decides what a node does when it starts. The node must read the lock first and the rest after it. A nil
// slice means that there is no lock. A lock that exists without bytes is refused (ErrLockText).
//
// The error is nil exactly if the node continues from the lock's text. Then no head that it found is later than the
// head of the lock, or has its size and timestamp and another root. If the error is ErrCreatesLock, the node creates
// the lock of a new log. Otherwise the node must do neither, and the error is the first reason: ErrLockText,
// ErrLockGone if there is no lock, or ErrBehindSeen, ErrTwoRoots or ErrBehindSigned, ErrSignedBehindListed,
// ErrBehindListed, ErrBehindPublished.
func NodeStart(lock []byte, found NodeFound) error {
	all := found.inC()
	if lock != nil {
		all.flags += lockExists
	}
	return result(C.wagtenib_node_start(ofBytes(lock), C.size_t(len(lock)), &all))
}

// NodeAccept decides whether a node may continue from head, if accepted is the newest head that it accepted. The proof
// is the consistency proof between them (RFC 6962, section 2.1.2). It is not read if their sizes are equal or the size
// of accepted is 0.
//
// It returns nil exactly if head is the accepted head again, or its timestamp is later and the proof shows that its
// tree contains that of accepted. Otherwise it returns the first reason of ErrSizeFalls, ErrTimestampNotLater, ErrFork,
// ErrEmptyPath, ErrPathTooLong, ErrPathTooShort, ErrFirstMismatch and ErrRootMismatch.
//
// A node must not sign or publish anything of a lock's text before its head is accepted, because the lock may have an
// older text again, or that of another list.
func NodeAccept(accepted, head TreeHead, proof []Hash) error {
	before, next := accepted.inC(), head.inC()
	return result(C.wagtenib_node_accept(&before, &next, ofHashes(proof), C.size_t(len(proof))))
}

// LockText returns a lock's text. line is the line of a state that a step returned, node is the address of this node,
// previousTimestamp is the timestamp of the state before the step, and salt is a new random number. The error is nil or
// ErrMemory. LockState refuses the text if the line is not a state's line.
func LockText(line, node []byte, previousTimestamp, salt uint64) ([]byte, error) {
	const rest = 64 // the words and numbers of a text have 45 bytes
	text := make([]byte, len(line)+len(node)+rest)
	var length C.uint64_t
	err := result(C.wagtenib_lock_text(ofBytes(line), C.size_t(len(line)), ofBytes(node), C.size_t(len(node)),
		C.uint64_t(previousTimestamp), C.uint64_t(salt), ofBytes(text), C.size_t(len(text)), &length))
	return text[:length], err
}

// LockState returns the state and the number of entries of a lock's text. The error is nil or ErrLockText.
func LockState(text []byte) (state NodeState, treeSize uint64, err error) {
	var found C.struct_wagtenib_node_state
	var size C.uint64_t
	err = result(C.wagtenib_lock_state(ofBytes(text), C.size_t(len(text)), &found, &size))
	return ofState(&found), uint64(size), err
}

// batchNameBytes is the number of bytes of a staged batch's name.
const batchNameBytes = 56

// BatchName returns the name of a state's staged batch.
func BatchName(of NodeState) string {
	state, name := of.inC(), [batchNameBytes]byte{}
	C.wagtenib_batch_name(&state, (*C.uint8_t)(unsafe.Pointer(&name)))
	return string(name[:])
}

// BatchState returns the state for which BatchName returns a name. The error is nil or ErrBatchName.
func BatchState(name []byte) (NodeState, error) {
	var state C.struct_wagtenib_node_state
	err := result(C.wagtenib_batch_state(ofBytes(name), C.size_t(len(name)), &state))
	return ofState(&state), err
}
