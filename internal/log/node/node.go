package node

import (
	"context"
	"errors"
	"fmt"
	"strings"
	"sync/atomic"
	"time"

	"golang.org/x/mod/sumdb/note"

	"wagtenib/bindings/go/wagtenib"
	"wagtenib/internal/blob"
	"wagtenib/internal/ct"
	"wagtenib/internal/log/node/decider"
	"wagtenib/internal/log/node/step"
	"wagtenib/internal/log/signer"
	"wagtenib/internal/tiles"
)

// The errors of a node that cannot continue. Each is found by errors.Is.
var (
	// ErrRolledBack: the lock is gone or was rolled back, or the store has a head that the lock's state does not
	// descend from. The node takes no step.
	ErrRolledBack = errors.New("node: the lock is older than the log")
	// ErrDamaged: an object is missing, or it is not the one that the lock's state names.
	ErrDamaged = tiles.ErrDamaged
	// ErrIndex: the index lacks an entry of the log.
	ErrIndex = errors.New("node: the index is not the log's")
	// ErrWitnesses: too few witnesses cosign a head, so it is not published.
	ErrWitnesses = errors.New("node: too few witnesses cosign")
	// ErrClock: the machine's clock is wrong, so the node takes no submission.
	ErrClock = errors.New("node: the clock is wrong")
	// ErrBusy: the queue is full.
	ErrBusy = errors.New("node: too many submissions wait")
	// ErrEnded: the node takes no more submissions.
	ErrEnded = errors.New("node: it ends")
	// ErrElsewhere: another node makes the steps, so the submission must be forwarded to it, or submitted again.
	ErrElsewhere = errors.New("node: another node makes the steps")
	// ErrConfig: a configuration lacks something.
	ErrConfig = errors.New("node: no such configuration can be")
)

// Objects keeps bytes under names (blob.Objects has what an engine owes).
type Objects interface {
	Put(ctx context.Context, name string, content []byte) error
	Get(ctx context.Context, name string, max int64) ([]byte, error)
	List(ctx context.Context, prefix, after string, max int) ([]string, error)
	Delete(ctx context.Context, name string) error
}

// Current replaces objects by compare-and-set (blob.Current has what an engine owes).
type Current interface {
	Swap(ctx context.Context, name string, old, new []byte) error
}

// Lock is the compare-and-set cell that decides which state comes next, and says how far the log is published
// (blob.Lock has what an engine owes).
type Lock interface {
	Create(ctx context.Context, text string) error
	Read(ctx context.Context) (string, error)
	Swap(ctx context.Context, old, new string) error
	Published(ctx context.Context) (blob.Published, error)
	Raise(ctx context.Context, published blob.Published) error
}

// Index finds the places of entries by their identities, and by the hashes of their leaves (blob.Index has what an
// engine owes).
type Index interface {
	Find(ctx context.Context, identities []blob.Identity) (map[blob.Identity]blob.Place, error)
	FindLeaves(ctx context.Context, hashes []blob.Identity) (map[blob.Identity]blob.Place, error)
	Add(ctx context.Context, rows []blob.Row) error
	Replace(ctx context.Context, rows []blob.Row) error
}

// Memory keeps the newest head that this machine accepted. It must not be in any store or backup: it shows that all
// stores are old together.
type Memory interface {
	// Load returns what Save was given last, and nil if nothing was saved.
	Load(ctx context.Context) (*ct.TreeHead, error)
	Save(ctx context.Context, head ct.TreeHead) error
}

// Clock is the machine's time, and all waiting is done by it.
type Clock interface {
	// Now is the time of day. It may be set forward and back.
	Now() time.Time
	// Elapsed is the time since boot, including suspend. It is monotonic.
	Elapsed() time.Duration
	// Within returns a context that ends after a while, or earlier by the function.
	Within(ctx context.Context, long time.Duration) (context.Context, context.CancelFunc)
	// Wait returns after a while, or as soon as something can be received from wake, or with the context's error.
	Wait(ctx context.Context, long time.Duration, wake <-chan struct{}) error
}

// Sources are other clocks than this machine's.
type Sources interface {
	// Compare compares a time of day, and the time since boot at which it was read, with the other clocks. It returns
	// an error if one differs by more than it may, and otherwise whether one agrees. Starts says that the node has not
	// believed its clock yet.
	Compare(now time.Time, elapsed time.Duration, starts bool) (isVouched bool, err error)
}

// Signer signs heads and timestamps that its guard approves (signer.Signer). If it has a method Verifier, that one
// verifies the log's signatures of notes.
type Signer interface {
	Key() []byte
	// IsGuarded reports whether there is a guard. Without one, Last knows no head.
	IsGuarded() bool
	Last(ctx context.Context) (*ct.TreeHead, error)
	SignHead(ctx context.Context, head ct.TreeHead, consistency [][32]byte) ([]byte, error)
	SignStep(ctx context.Context, step signer.Step) ([][]byte, error)
	SignTimestamps(ctx context.Context, receipts []signer.Receipt) ([][]byte, error)
}

// Decider is the proved order of a node: what it does next, and whether it may start (decider.Decider, docs/NODE.md).
type Decider interface {
	Next(command *decider.Command, outcome *decider.Outcome) (*decider.Command, error)
	Start(found decider.Found) (creates bool, err error)
}

// Steps makes the proved steps of a log (step.Stepper, docs/GROWTH.md).
type Steps interface {
	Begin(timestamp uint64) (string, error)
	Needs(line string) ([]string, error)
	Step(line string, edge [][]byte, batch []wagtenib.Submission, now, most uint64) (*step.Stepped, error)
	Resume(line string, bundle []byte) (*step.Resumed, error)
	Claim(line string, index, timestamp uint64, path [][32]byte, submission wagtenib.Submission) (*wagtenib.Receipt, error)
}

// Stores are those that all nodes of a log share.
type Stores struct {
	Objects Objects
	Lock    Lock
	Index   Index
	// Current keeps the checkpoint that readers fetch without a node. It is nil if nobody does.
	Current Current
}

// Proved are the proved decisions.
type Proved struct {
	Decider Decider
	Steps   Steps
}

// Machine is what a node needs of the machine that it runs on.
type Machine struct {
	Clock  Clock
	Memory Memory
	// Parallel calls functions side by side, waits for all of them and returns the first error. After an error their
	// context ends.
	Parallel func(ctx context.Context, all ...func(context.Context) error) error
	// Random returns a random number.
	Random func() (uint64, error)
	// Sources are other clocks. It is nil if there are none.
	Sources Sources
	// Observer learns what the loop does. It is nil if nobody asks.
	Observer Observer
}

// Pace says when a node does something.
type Pace struct {
	// Look is how often the node reads the lock if no submission waits.
	Look time.Duration
	// Refresh is how old a head gets before the node publishes one without new entries.
	Refresh time.Duration
	// Help is how long the node waits for another node's head before it publishes that head itself.
	Help time.Duration
	// Call is how long one call to a store may take, and Round how long all calls of a round may take together.
	Call, Round time.Duration
	// Cosign is how long a witness may take for one head. It is not used without witnesses.
	Cosign time.Duration
	// Patience is how long something may fail until the waiting submissions are refused.
	Patience time.Duration
	// MaxSkew is how far the clock may be off by what else the node knows.
	MaxSkew time.Duration
	// Interval is the minimum time between the beginnings of two steps.
	Interval time.Duration
}

// Limits bounds what waits.
type Limits struct {
	// MaxBatch is the maximum number of entries added in one step.
	MaxBatch int
	// MaxQueue is the maximum number of submissions that wait.
	MaxQueue int
	// MaxBatchBytes and MaxQueueBytes are the maximum numbers of bytes of the same. 0 is no bound.
	MaxBatchBytes, MaxQueueBytes int
	// MaxWritten is the maximum number of bytes that steps write in a second, on average. 0 is no bound.
	MaxWritten int
}

// Config is what a node needs.
type Config struct {
	// Origin is the log's name in checkpoints (C2SP tlog-checkpoint).
	Origin string
	// Address names this node in the lock's text, so that others wait for it; it may be empty.
	Address string
	// Create says that the node creates a lock that was never created.
	Create    bool
	Stores    Stores
	Proved    Proved
	Signer    Signer
	Witnesses Witnesses
	Machine   Machine
	Pace      Pace
	Limits    Limits
}

// check returns ErrConfig if something is missing.
func (c *Config) check() error {
	for _, one := range []struct {
		isWrong bool
		what    string
	}{
		{c.Stores.lack(), "a store is missing (set all three of Stores)"},
		{c.Proved.Decider == nil || c.Proved.Steps == nil || c.Signer == nil,
			"the decider, the steps or the signer is missing"},
		{c.Machine.lacks(), "the clock, the memory, Parallel or Random of Machine is missing"},
		{c.Origin == "" || strings.ContainsAny(c.Origin, " +\n\r\t"),
			fmt.Sprintf("the origin %q is empty, or has a space or a plus sign", c.Origin)},
		{!c.Pace.lasts(), "a time of Pace is not above 0"},
		{c.Limits.MaxBatch <= 0 || c.Limits.MaxQueue <= 0, "a number of Limits is not above 0"},
		{min(int64(c.Pace.Interval), int64(c.Limits.MaxBatchBytes), int64(c.Limits.MaxQueueBytes),
			int64(c.Limits.MaxWritten)) < 0, "the interval or a number of bytes is below 0"},
	} {
		if one.isWrong {
			return fmt.Errorf("%w: %s", ErrConfig, one.what)
		}
	}
	return c.Witnesses.check(c.Pace.Cosign)
}

// lack reports whether a store is missing that each log needs.
func (s Stores) lack() bool { return s.Objects == nil || s.Lock == nil || s.Index == nil }

// lacks reports whether something is missing that each node needs of its machine.
func (m Machine) lacks() bool {
	return m.Clock == nil || m.Memory == nil || m.Parallel == nil || m.Random == nil
}

// lasts reports whether all times are above 0 that must be.
func (p Pace) lasts() bool {
	return min(p.Look, p.Refresh, p.Call, p.Round, p.Patience, p.MaxSkew) > 0 && p.Help >= 0
}

// Snapshot is what readers see of a log: its newest published head that this node knows. It never changes.
type Snapshot struct {
	ct.SignedHead
	// Line is the state's line that the head is of.
	Line string
}

// Node is what requests may use of a node. All that its loop decides by is in Loop.
type Node struct {
	config   Config
	logID    [32]byte
	verifier note.Verifier
	pool     *pool
	snapshot atomic.Pointer[Snapshot]
	stepping atomic.Pointer[decider.Command]
	newest   atomic.Pointer[state]
	// read is the newest published head that was read for a reader.
	read   atomic.Pointer[ct.SignedHead]
	health health
}

// Stepping returns the newest command to make a step, by which the decider says which staged batches may be deleted. It
// is nil before the first.
func (n *Node) Stepping() *decider.Command { return n.stepping.Load() }

// Snapshot returns the newest published head that this node knows, or nil before the first.
func (n *Node) Snapshot() *Snapshot { return n.snapshot.Load() }

// Fault returns what keeps the node from going on, or nil.
func (n *Node) Fault() error { return n.health.now() }

// Lasting returns the fault if waiting does not help against it, or did not help for a while.
func (n *Node) Lasting() error { return n.health.lasting() }

// Waiting returns how many submissions have no answer yet.
func (n *Node) Waiting() int { return n.pool.count() }

// Decided returns the newest state of the lock that this node knows.
func (n *Node) Decided() ct.TreeHead {
	if k := n.newest.Load(); k != nil {
		return k.TreeHead
	}
	return ct.TreeHead{}
}

// followFor is for how long after a state another node is taken for the one that makes the steps.
const followFor = 3 * time.Second

// Leader returns the address of the other node that set the lock's newest state a short while ago, or nothing. Nodes
// that compete starve each other, since the one that won knows the next state first. So submissions are forwarded to
// that node.
func (n *Node) Leader() string {
	k := n.newest.Load()
	if k == nil || n.config.Address == "" || k.node == n.config.Address ||
		n.config.Machine.Clock.Elapsed()-k.readAt > followFor {
		return ""
	}
	return k.node
}

// End has the node take no more submissions. Run returns after all that wait are answered.
func (n *Node) End() { n.pool.end() }

// IsEnding reports whether End was called.
func (n *Node) IsEnding() bool { return n.pool.isEnding() }

// RefuseAll answers all that still wait with an error, and returns how many these were. It must be called after Run has
// returned only.
func (n *Node) RefuseAll(err error) int { return n.pool.refuse(err) }

// show makes a head the one that readers see. It is no earlier one, since no state is accepted after a later one.
func (n *Node) show(head ct.SignedHead, line string) { n.snapshot.Store(&Snapshot{head, line}) }

// sct returns the timestamp of an entry with an index.
func (n *Node) sct(index, timestamp uint64, signature []byte) ct.SCT {
	return ct.SCT{LogID: n.logID, Timestamp: timestamp, Extensions: ct.IndexExtension(index), Signature: signature}
}

// newNode returns a node that does nothing yet.
func newNode(config Config) *Node {
	config.Stores = limit(config)
	if config.Machine.Observer == nil {
		config.Machine.Observer = unobserved{}
	}
	return &Node{config: config, logID: wagtenib.LogID(config.Signer.Key()), verifier: verifierOf(config), pool: newPool(config.Limits)}
}

// verifierOf returns what verifies the log's own signature of a note (C2SP static-ct-api, signatures of type 5).
func verifierOf(config Config) note.Verifier {
	if own, ok := config.Signer.(interface{ Verifier() note.Verifier }); ok {
		return own.Verifier()
	}
	return ct.LogVerifier(config.Origin, config.Signer.Key())
}
