// Package janitor deletes what nobody needs any more of a log, and reads old tiles again. It runs beside a node, in a
// goroutine of its own, and nothing waits for it.
//
// It deletes these objects:
//
//   - a partial tile, Keep.Tiles after a head has its full tile, if the full tile is whole;
//   - a head, Keep.Heads after a later one was published;
//   - a head that is not the first one of its Keep.Apart, Keep.Thin after a later one was published;
//   - a staged batch that no step needs any more, as the proved decider says (docs/NODE.md).
//
// A partial tile is the beginning of its full tile, so readers find what it had. While the node has a fault, the
// janitor deletes nothing.
//
// Each pass continues where the last one ended: pass.go has its parts in their order.
package janitor

import (
	"context"
	"errors"
	"fmt"
	"sync"
	"time"

	"wagtenib/internal/ct"
	"wagtenib/internal/log/node/decider"
)

// ErrConfig: a configuration lacks something.
var ErrConfig = errors.New("janitor: no such configuration can be")

// Objects keeps bytes under names (blob.Objects has what an engine owes).
type Objects interface {
	Get(ctx context.Context, name string, max int64) ([]byte, error)
	List(ctx context.Context, prefix, after string, max int) ([]string, error)
	Delete(ctx context.Context, name string) error
}

// Clock is the machine's time, and all waiting is done by it (node.Clock).
type Clock interface {
	Elapsed() time.Duration
	Within(ctx context.Context, long time.Duration) (context.Context, context.CancelFunc)
	Wait(ctx context.Context, long time.Duration, wake <-chan struct{}) error
}

// Decider says whether a staged batch that the store lists may be deleted.
type Decider interface {
	Next(command *decider.Command, outcome *decider.Outcome) (*decider.Command, error)
}

// Issuers are the certificates of issuers that the log has put (C2SP static-ct-api).
type Issuers interface {
	// Look reads an issuer again, and puts it again if it is wrong and its bytes are known. An error says that the
	// store does not answer.
	Look(ctx context.Context, fingerprint [32]byte) error
	// Next returns those that are worth a look now.
	Next() (fingerprints [][32]byte)
}

// Newest is what the node knows of the log.
type Newest struct {
	// Head is the newest published head.
	Head ct.TreeHead
	// Stepping is the newest command to make a step, or nil.
	Stepping *decider.Command
}

// Keep says how long what is not needed any more stays.
type Keep struct {
	// Every is the time between two passes.
	Every time.Duration
	// Tiles is for partial tiles, Heads for heads, and Staged is the time between two listings of staged batches.
	Tiles, Heads, Staged time.Duration
	// Thin is how long heads stay that are not the first ones of their Apart: the timestamps from one multiple of Apart
	// to the next.
	Thin, Apart time.Duration
	// Reread is how long it takes until each old tile was read again, if a pass need not read more than maxReread.
	Reread time.Duration
	// Call is how long one call may take.
	Call time.Duration
}

// Config is what a janitor needs.
type Config struct {
	Objects Objects
	Clock   Clock
	Decider Decider
	// Newest returns what the node knows, and false while the node has a fault or has published nothing.
	Newest func() (Newest, bool)
	// Random returns a random number.
	Random func() (uint64, error)
	// Issuers are read again beside the tiles. It is nil if nobody asks for them.
	Issuers Issuers
	Keep    Keep
}

func (c *Config) check() error {
	k := c.Keep
	switch {
	case c.Objects == nil || c.Clock == nil || c.Decider == nil || c.Newest == nil || c.Random == nil:
		return fmt.Errorf("%w: the objects, the clock, the decider, Newest or Random is missing", ErrConfig)
	case k.Every <= 0 || k.Tiles <= 0 || k.Heads <= 0 || k.Staged <= 0 || k.Thin <= 0 || k.Apart < 0 || k.Reread <= 0 ||
		k.Call <= 0:
		return fmt.Errorf("%w: a time of Keep is not above 0", ErrConfig)
	}
	return nil
}

// Report is what a janitor has done since it started.
type Report struct {
	// Tiles, Heads and Staged are how many partial tiles, heads and staged batches it deleted, and Reread how many old
	// data tiles were read and whole.
	Tiles, Heads, Staged, Reread uint64
	// Failures is how often a part of a pass failed, and Failed why the last one did.
	Failures uint64
	Failed   error
	// Damaged are data tiles, by their numbers, that are missing or not the log's, by what was read last.
	Damaged map[uint64]error
	// Listed is how many staged batches were left when they were listed last.
	Listed uint64
	// DeletedTo is the number of entries up to which no partial tile is left, as far as this janitor knows, and Next the
	// data tile that is read again next.
	DeletedTo, Next uint64
}

// Janitor deletes and reads again. Only the goroutine that calls Run uses its fields, except the report.
type Janitor struct {
	config  Config
	tiles   settled
	heads   settled
	partial partial
	reread  reread
	staged  listing
	thin    thinning
	issuers issuers
	report  struct {
		sync.Mutex
		Report
	}
}

// listing is where the listing of a prefix ended, and when it is due again.
type listing struct {
	after string
	due   time.Duration
}

// New returns a janitor. Run must be called once.
func New(config Config) (*Janitor, error) {
	if err := config.check(); err != nil {
		return nil, err
	}
	j := &Janitor{config: config, issuers: issuers{looked: map[[32]byte]bool{}}}
	j.report.Damaged = map[uint64]error{}
	return j, nil
}

// Report returns what was done until now.
func (j *Janitor) Report() Report {
	j.report.Lock()
	defer j.report.Unlock()
	now := j.report.Report
	now.Damaged = make(map[uint64]error, len(j.report.Damaged))
	for number, err := range j.report.Damaged {
		now.Damaged[number] = err
	}
	return now
}

// Note records that a data tile is damaged, if a reader or a step found that. The janitor reads it again soon.
func (j *Janitor) Note(number uint64, err error) { j.damaged(number, err) }

// Run makes one pass after another until the context ends.
func (j *Janitor) Run(ctx context.Context) error {
	for j.config.Clock.Wait(ctx, j.config.Keep.Every, nil) == nil {
		j.pass(ctx)
	}
	return fmt.Errorf("janitor: %w", ctx.Err())
}

// settled finds a head that has been published for some time, out of the newest heads that it is shown.
type settled struct {
	// head is that head. young is a later one, which was the newest at the time since, by Elapsed.
	head, young ct.TreeHead
	since       time.Duration
	isSeen      bool
}

// look shows the newest head of now. The head that is kept has been published at least for the duration after, and at
// most for twice as long.
func (s *settled) look(newest ct.TreeHead, now, after time.Duration) {
	if !s.isSeen {
		s.young, s.since, s.isSeen = newest, now, true
	}
	if now-s.since >= after {
		s.head, s.young, s.since = s.young, newest, now
	}
}
