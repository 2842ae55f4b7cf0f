package service

import (
	"context"
	"crypto/rand"
	"crypto/sha256"
	"encoding/binary"
	"errors"
	"fmt"
	"sync"
	"sync/atomic"
	"time"

	"golang.org/x/sync/errgroup"

	"wagtenib/internal/blob"
	"wagtenib/internal/log"
	"wagtenib/internal/log/node"
	"wagtenib/internal/log/node/decider"
	"wagtenib/internal/log/node/janitor"
	"wagtenib/internal/log/node/step"
	"wagtenib/internal/log/signer"
	"wagtenib/internal/tiles"
	"wagtenib/internal/witness"
)

const (
	// MaxEntry is the maximum number of bytes of an entry: of its certificate, or of its TBSCertificate and its
	// precertificate together.
	MaxEntry = 128 << 10
	// MaxBatch and MaxBatchBytes are the maximum numbers of entries of one step and of their bytes, and MaxQueueBytes
	// is that of the bytes of waiting submissions.
	MaxBatch, MaxBatchBytes, MaxQueueBytes = 1024, 12 << 20, 64 << 20

	// callWithin is the maximum time of one call to a store, roundWithin that of all calls of a round, and cosignWithin
	// that of a witness's answer.
	callWithin, roundWithin, cosignWithin = 10 * time.Second, 2 * time.Minute, 5 * time.Second
	// patience is the time for which something may fail before the waiting submissions are refused.
	patience = 5 * time.Second
	// lookInterval is the interval at which a node without submissions reads the lock. helpAfter is the minimum time
	// for which it waits for another node's head, and twice that is the maximum. The time between them is random.
	lookInterval, helpAfter = time.Second, 400 * time.Millisecond
	// maxParallel is the maximum number of calls of a step that are made at the same time, and maxLookups that of
	// submissions that are looked up at the same time.
	maxParallel, maxLookups = 8, 32
	// maxKnown is the maximum number of times that a submission is looked up, if a step finds that the log has it
	// already.
	maxKnown = 5
)

// Stores are the stores that all nodes of a log share.
type Stores struct {
	Objects blob.Objects
	Lock    blob.Lock
	Index   blob.Index
	// Current keeps the checkpoint that readers fetch without a node. It is nil if there are no such readers.
	Current blob.Current
}

// Files are the names of files that belong to this machine only, and to no backup of the stores. They may be empty.
type Files struct {
	// LatestHead has the newest head that this machine accepted, and NamedDay the day that the operator named
	// (NameDay).
	LatestHead, NamedDay string
}

// ClockBounds decide whether the machine's clock is wrong.
type ClockBounds struct {
	// MaxSkew is the maximum difference from another clock.
	MaxSkew time.Duration
	// Synchronized makes the clock count as wrong unless the kernel reports that it is synchronized.
	Synchronized bool
}

// Pace has the limits for the steps of a node.
type Pace struct {
	// Interval is the minimum time between two steps. Refresh is the age of the newest head at which a head without new
	// entries is made.
	Interval, Refresh time.Duration
	// MaxWritten is the maximum number of bytes that steps write in a second, on average.
	MaxWritten int
	// MaxBatch is the maximum number of entries of one step, and MaxQueue that of waiting submissions.
	MaxBatch, MaxQueue int
}

// Config is the configuration of a log.
type Config struct {
	// Origin is the log's name in checkpoints (C2SP tlog-checkpoint).
	Origin string
	// Address is the URL at which the other nodes reach this one, or empty.
	Address string
	// Create creates the log if there is none.
	Create    bool
	Stores    Stores
	Signer    signer.Signer
	Witnesses []witness.One
	Quorums   witness.Quorums
	Pace      Pace
	Keep      Keep
	Machine   MachineConfig
}

// MachineConfig is the configuration of a node's machine.
type MachineConfig struct {
	Files       Files
	ClockBounds ClockBounds
	// Clock is the machine's clock. If it is nil, Machine() is used.
	Clock Clock
}

// Keep says how long unneeded objects are kept, and how fast old tiles are read again.
type Keep struct {
	// Heads is the time for heads and staged batches, and Tiles that for partial tiles.
	Heads, Tiles time.Duration
	// Interval is the time between two passes of the janitor, and Reread the time in which it reads each tile again.
	Interval, Reread time.Duration
}

// Log is one log, served by this node. It implements log.Log. Its methods may be called at the same time.
type Log struct {
	config   Config
	node     *node.Node
	janitor  *janitor.Janitor
	issuers  *issuers
	sources  *sources
	counts   *counts
	readings readings
	comparer *tiles.Comparer
	lookups  chan struct{}
	running  running
}

// running has the goroutines of a log, and what they share.
type running struct {
	// cancel ends all goroutines. loopDone is closed after the node's loop has ended, and others waits for the rest.
	cancel   context.CancelFunc
	loopDone chan struct{}
	others   *sync.WaitGroup
	logID    [32]byte
	// remotes are the witnesses.
	remotes []*remote
	// askNode asks the node that makes the steps for its time. It is nil before Forward is called.
	askNode atomic.Pointer[func(context.Context)]
}

// Open checks the lock, the stores, the signer and the files, and begins to serve the log. If one of them is wrong, the
// error is node.ErrRolledBack, node.ErrDamaged, node.ErrIndex, node.ErrConfig or signer.ErrState. The stores and the
// signer stay open after End.
func Open(ctx context.Context, config Config) (*Log, error) {
	if config.Stores.Objects == nil || config.Stores.Lock == nil || config.Stores.Index == nil || config.Signer == nil {
		return nil, fmt.Errorf("%w: a store or the signer is missing", node.ErrConfig)
	}
	if config.Machine.Clock == nil {
		config.Machine.Clock = Machine()
	}
	l := &Log{config: config, counts: newCounts(), lookups: make(chan struct{}, maxLookups)}
	l.comparer = tiles.NewComparer(l.read, tiles.Leaves)
	l.running.logID = sha256.Sum256(config.Signer.Key())
	l.issuers = newIssuers(config.Stores.Objects, l.counts.Repaired)
	l.sources = newSources(config.Machine.Clock, config.Machine.ClockBounds, config.Machine.Files, config.Stores)
	l.sources.ask(ctx)
	nodeConfig, err := l.nodeConfig()
	if err != nil {
		return nil, err
	}
	n, loop, err := node.Start(ctx, nodeConfig)
	if err != nil {
		return nil, err
	}
	l.node = n
	if err := l.checkIndex(ctx); err != nil {
		return nil, err
	}
	if l.janitor, err = janitor.New(l.janitorConfig()); err != nil {
		return nil, err
	}
	l.run(loop)
	return l, nil
}

// run starts goroutines for the node's loop, the janitor, the completion of the index, and the questions to other
// clocks.
func (l *Log) run(loop *node.Loop) {
	ctx, cancel := context.WithCancel(context.Background())
	r := &l.running
	r.cancel, r.loopDone, r.others = cancel, make(chan struct{}), &sync.WaitGroup{}
	go func() {
		defer close(r.loopDone)
		// Run returns nil or the error of its context, which cancel ends.
		_ = loop.Run(ctx)
	}()
	r.others.Add(3)
	go func() {
		defer r.others.Done()
		l.completeIndex(ctx)
	}()
	go func() {
		defer r.others.Done()
		// The janitor ends only when its context ends, so its error says nothing else.
		_ = l.janitor.Run(ctx)
	}()
	go func() {
		defer r.others.Done()
		l.sources.run(ctx, func(ctx context.Context) {
			if askNode := r.askNode.Load(); askNode != nil {
				(*askNode)(ctx)
			}
		})
	}()
}

// nodeConfig returns the configuration of the node.
func (l *Log) nodeConfig() (node.Config, error) {
	c := &l.config
	number, err := random()
	if err != nil {
		return node.Config{}, err
	}
	help := helpAfter + time.Duration(number%uint64(helpAfter))
	shared := node.Stores{Objects: c.Stores.Objects, Lock: c.Stores.Lock, Index: &finder{Index: c.Stores.Index}}
	if c.Stores.Current != nil {
		shared.Current = c.Stores.Current
	}
	config := node.Config{
		Origin: c.Origin, Address: c.Address, Create: c.Create, Signer: c.Signer,
		Stores: shared,
		Proved: node.Proved{Decider: decider.New(), Steps: step.New(c.Origin)},
		Machine: node.Machine{Clock: c.Machine.Clock, Memory: memory{c.Machine.Files.LatestHead, l.running.logID},
			Parallel: parallel, Random: random, Sources: l.sources, Observer: l.counts},
		Pace: node.Pace{
			Look: lookInterval, Refresh: c.Pace.Refresh, Help: help, Call: callWithin, Round: roundWithin,
			Cosign: cosignWithin, Patience: patience,
			MaxSkew: c.Machine.ClockBounds.MaxSkew, Interval: c.Pace.Interval,
		},
		Limits: node.Limits{MaxBatch: c.Pace.MaxBatch, MaxQueue: c.Pace.MaxQueue, MaxBatchBytes: MaxBatchBytes,
			MaxQueueBytes: MaxQueueBytes, MaxWritten: c.Pace.MaxWritten},
	}
	if c.Pace.MaxBatch > MaxBatch {
		return config, fmt.Errorf("%w: a batch of %d entries is above %d (lower --max-batch)", node.ErrConfig,
			c.Pace.MaxBatch, MaxBatch)
	}
	if len(c.Witnesses) > 0 {
		config.Witnesses.Quorums = c.Quorums
		for _, one := range c.Witnesses {
			r := newRemote(one, l.counts, l.sources)
			l.running.remotes = append(l.running.remotes, r)
			config.Witnesses.All = append(config.Witnesses.All, r)
		}
	}
	return config, nil
}

const (
	// thinAfter and thinApart are the settings for heads that are too close together (Thin and Apart of janitor.Keep).
	thinAfter, thinApart = 10 * time.Second, 5 * time.Second
)

// janitorConfig returns the configuration of the janitor.
func (l *Log) janitorConfig() janitor.Config {
	keep, tiles := l.config.Keep, min(l.config.Keep.Tiles, l.config.Keep.Heads)
	return janitor.Config{
		Objects: l.config.Stores.Objects, Clock: l.config.Machine.Clock, Decider: decider.New(), Random: random,
		Issuers: l.issuers,
		Newest: func() (janitor.Newest, bool) {
			now := l.node.Snapshot()
			if now == nil || l.node.Fault() != nil {
				return janitor.Newest{}, false
			}
			return janitor.Newest{Head: now.TreeHead, Stepping: l.node.Stepping()}, true
		},
		Keep: janitor.Keep{
			Every: keep.Interval, Tiles: tiles, Heads: keep.Heads, Staged: keep.Heads, Thin: min(thinAfter, tiles),
			Apart: thinApart, Reread: keep.Reread, Call: patience,
		},
	}
}

// random returns a random number.
func random() (uint64, error) {
	var eight [8]byte
	if _, err := rand.Read(eight[:]); err != nil {
		return 0, fmt.Errorf("serve: %w", err)
	}
	return binary.BigEndian.Uint64(eight[:]), nil
}

// parallel calls functions at the same time, at most maxParallel at once. It waits for all of them and returns the
// first error. After an error their context ends.
func parallel(ctx context.Context, all ...func(context.Context) error) error {
	if len(all) == 1 {
		return all[0](ctx)
	}
	group, ctx := errgroup.WithContext(ctx)
	group.SetLimit(maxParallel)
	for _, one := range all {
		group.Go(func() error { return one(ctx) })
	}
	return group.Wait()
}

// End accepts no more submissions, and returns after all waiting ones are answered. If the context ends before that,
// End refuses those that still wait.
func (l *Log) End(ctx context.Context) error {
	l.node.End()
	select {
	case <-l.running.loopDone:
	case <-ctx.Done():
		l.running.cancel()
		<-l.running.loopDone
	}
	l.running.cancel()
	l.running.others.Wait()
	for _, r := range l.running.remotes {
		r.close()
	}
	if left := l.node.RefuseAll(node.ErrEnded); left > 0 {
		return fmt.Errorf("serve: %d waiting submissions were refused at the end: %w", left, errors.Join(ctx.Err(),
			l.node.Fault()))
	}
	return nil
}

// NeedsOperator reports whether an error of Open stays until an operator repairs the log's stores, because the lock,
// the index or the guard's state is missing, damaged or older than the log.
func NeedsOperator(err error) bool {
	return errors.Is(err, node.ErrRolledBack) || errors.Is(err, node.ErrIndex) || errors.Is(err, blob.ErrDamaged) ||
		errors.Is(err, signer.ErrState)
}

// withKind wraps an error in the error of package log for its kind. That is ErrStore if no other one fits.
func withKind(err error) error {
	switch {
	case errors.Is(err, node.ErrBusy):
		return fault{log.ErrBusy, err}
	case errors.Is(err, node.ErrEnded):
		return fault{log.ErrEnded, err}
	case errors.Is(err, node.ErrElsewhere):
		return fault{log.ErrElsewhere, err}
	case errors.Is(err, node.ErrClock):
		return fault{log.ErrClock, err}
	}
	return fault{log.ErrStore, err}
}

// fault is an error with a kind of package log.
type fault struct{ kind, why error }

func (f fault) Error() string        { return f.kind.Error() + ": " + f.why.Error() }
func (f fault) Is(target error) bool { return target == f.kind }
func (f fault) Unwrap() error        { return f.why }
