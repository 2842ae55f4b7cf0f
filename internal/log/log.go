// Package log defines what a front sees of a log: it submits entries, and reads the newest published head and
// the published objects. The log of wagtenib/internal/log/service implements it.
package log

import (
	"context"
	"errors"
	"time"

	"wagtenib/internal/ct"
)

// The kinds of errors of Submit. Use errors.Is. A wrapped error says more.
var (
	// ErrBusy reports that too many submissions wait. The client may submit again later (a front answers 503 with
	// Retry-After).
	ErrBusy = errors.New("log: busy")
	// ErrTooLarge reports that the entry has more bytes than a log's entry may have. The log never accepts it.
	ErrTooLarge = errors.New("log: entry too large")
	// ErrElsewhere reports that another node makes the steps. The caller must forward the submission if it may, and
	// otherwise submit it again.
	ErrElsewhere = errors.New("log: another node makes the steps")
	// ErrEnded reports that the log accepts no more submissions.
	ErrEnded = errors.New("log: ended")
	// ErrClock reports that the machine's clock is wrong. The log makes no step until it is right.
	ErrClock = errors.New("log: the clock is wrong")
	// ErrStore reports that a store, the lock, the step or the signer does not answer, or gives an impossible answer.
	ErrStore = errors.New("log: a store failed or is damaged")
)

// Metrics are the log's values for an operator. Counters count since the start of the process.
type Metrics struct {
	// Queue is the number of waiting submissions, and MaxQueue the number at which the log refuses more.
	Queue, MaxQueue int
	// Entries is the size of the newest published head, and HeadAge its age by the machine's clock.
	Entries uint64
	HeadAge time.Duration
	Rounds
	Answers
	Janitor
	Damages
	Faulting
	// Witnesses has the state of each witness that cosigns the log's heads.
	Witnesses []Witness
}

// Rounds are the metrics of the rounds of a node, and of the steps in them.
type Rounds struct {
	// Unpublished is the number of entries of the newest known state that are not published yet. SinceRound is the time
	// since the last successful round. A node without submissions makes a round each second.
	Unpublished uint64
	SinceRound  time.Duration
	// Steps counts swaps that this node won, LostSwaps those that it lost to another node, and UnknownSwaps those whose
	// outcome it only learned by reading the lock.
	Steps, LostSwaps, UnknownSwaps uint64
	// WrittenBytes counts the bytes that steps stored, in their staged batches and as objects.
	WrittenBytes uint64
	// Phases are the parts of a step, in their order, and Batches the numbers of submissions of steps.
	Phases  []Phase
	Batches Batches
}

// Answers are the metrics of what a node does without a step of its own, and of its signer.
type Answers struct {
	// Duplicates counts submissions that were answered with an existing entry. ResumedSteps counts steps that this node
	// published from their staged batch: those of other nodes, and its own ones from before a restart. Forwarded counts
	// submissions that another node answered.
	Duplicates, ResumedSteps, Forwarded uint64
	// SignerStarts counts how often the signer was started or connected to, and WrongSignatures how many of its replies
	// had a wrong signature. VerifiedSCTs and UnverifiedSCTs count the SCT signatures of the signer that were used.
	SignerStarts, WrongSignatures, VerifiedSCTs, UnverifiedSCTs uint64
}

// Janitor are the metrics of the janitor, which deletes objects and reads old ones again.
type Janitor struct {
	// DeletedTiles counts deleted partial tiles, DeletedHeads deleted old heads, and RereadTiles data tiles that were
	// read again and were right.
	DeletedTiles, DeletedHeads, RereadTiles uint64
	// DeletedBatches counts staged batches that were deleted because nothing needs them, and StagedBatches is the
	// number of those in the store when they were last listed.
	DeletedBatches, StagedBatches uint64
	// JanitorFailures counts failed deletions and failed writes of the index, which are tried again. JanitorFailure is
	// the last failure, in one line.
	JanitorFailures uint64
	JanitorFailure  string
	// DeletedTo is the number of entries up to which all partial tiles were deleted, as far as this node knows.
	// ReadNext is the index of the data tile that it reads again next.
	DeletedTo, ReadNext uint64
}

// Damages are the metrics of objects that are missing, or have a content that is not the log's.
type Damages struct {
	// Damaged is the number of data tiles that were missing, unreadable or wrong when they were last read, or have such
	// a hash tile above them. The log continues. Damage describes one damaged object in a line.
	Damaged int
	// DamagedIssuers is the number of issuers that were missing or wrong when they were last read.
	DamagedIssuers int
	Damage         string
	// Repaired counts objects of the log that were missing or wrong and were made again. LastRepaired is the name of
	// the last one.
	Repaired     uint64
	LastRepaired string
}

// Faulting are the metrics of faults that keep the log from accepting submissions.
type Faulting struct {
	// Fault is the present fault in one line. It is empty if there is none.
	Fault string
	// Faults counts the faults that began, and LastFault is the last of them. A fault may be over before anybody reads
	// Fault.
	Faults    uint64
	LastFault string
}

// Phase is a part of a step. Count is how often it was done or failed, and Duration the sum of these times.
type Phase struct {
	Name     string
	Count    uint64
	Duration time.Duration
}

// Batches are the numbers of submissions of this node's steps, of those whose swap was won.
type Batches struct {
	// Steps is the number of these steps, and Submissions the number of all their submissions.
	Steps, Submissions uint64
	// UpTo is a cumulative histogram: it maps each bound to the number of steps with at most so many submissions.
	UpTo map[int]uint64
}

// Witness is the state of a witness that cosigns a log's heads.
type Witness struct {
	Name string
	// Missed is how many heads it was asked to cosign since it last did, and Cosigned how many it cosigned.
	Missed, Cosigned uint64
	// IsAhead is true if the witness cosigned a later head than the one that it was last asked to cosign, or another
	// one of that size.
	IsAhead bool
	// Fault is the reason why it did not cosign the last head, in one line.
	Fault string
}

// Log is one log. Its methods may be called at the same time.
type Log interface {
	// Submit returns after a published head covers the entry. Its errors are ErrBusy, ErrTooLarge, ErrElsewhere,
	// ErrEnded, ErrClock, ErrStore, and the context's. After an error the entry may be in the log anyway.
	Submit(ctx context.Context, entry ct.Entry) (ct.SCT, error)
	// Checkpoint returns the newest published head.
	Checkpoint(ctx context.Context) (ct.SignedHead, error)
	// HeadOf returns a published head of at least so many entries. It returns the newest known head if that has them.
	// Otherwise it reads the newest one, which may have fewer.
	HeadOf(ctx context.Context, entries uint64) (ct.SignedHead, error)
	// Object reads a published object by its name (tile/.., issuer/..). It returns blob.TooLong without reading if
	// the object is longer than maxBytes, blob.ErrAbsent if there is none, and blob.ErrName if the name is
	// invalid. A full tile is compared with the newest head's tree. If it differs, or is missing although the tree has
	// it, Object returns ErrStore.
	Object(ctx context.Context, name string, maxBytes int64) ([]byte, error)
	// IndexOf returns the index of the leaf with this hash as the deduplication index has it, or blob.ErrAbsent. It
	// need not be correct.
	IndexOf(ctx context.Context, leafHash [32]byte) (uint64, error)
	// End accepts no more submissions, publishes those that wait, and answers them, within the context.
	End(ctx context.Context) error
	// Metrics returns the present metrics.
	Metrics() Metrics
}
