package service

import (
	"errors"
	"fmt"
	"sync"
	"sync/atomic"
	"time"

	"wagtenib/internal/log"
	"wagtenib/internal/log/node"
	"wagtenib/internal/log/node/decider"
)

// counts is a node.Observer, which counts for metrics what the node does.
type counts struct {
	events    [node.Events]atomic.Uint64
	forwarded atomic.Uint64
	written   atomic.Uint64

	mu     sync.Mutex
	phases map[string]log.Phase
	// batches has the numbers of submissions of the steps.
	batches log.Batches
	tallies
	lastSuccess time.Time
	witnesses   map[string]log.Witness
}

// tallies count the repaired objects, the faults, and the failures outside of steps.
type tallies struct{ repairs, faults, failures tally }

// tally counts events of one kind, and keeps a description of the last one.
type tally struct {
	count uint64
	last  string
}

func (t *tally) add(what string) { t.count, t.last = t.count+1, what }

func newCounts() *counts {
	return &counts{
		phases: map[string]log.Phase{}, lastSuccess: time.Now(), witnesses: map[string]log.Witness{},
		batches: log.Batches{UpTo: map[int]uint64{}},
	}
}

// phaseNames are the parts of a step in their order, by their names in metrics.
var phaseNames = []string{"take", "look", "step", "stage", "swap", "put", "place", "sign", "answer", "delete"}

// Count implements node.Observer.
func (c *counts) Count(of node.Event) { c.events[of].Add(1) }

func (c *counts) total(event node.Event) uint64 { return c.events[event].Load() }

// Took implements node.Observer.
func (c *counts) Took(part string, long time.Duration) {
	if part == decider.Head {
		part = "sign"
	}
	c.mu.Lock()
	defer c.mu.Unlock()
	of := c.phases[part]
	c.phases[part] = log.Phase{Name: part, Count: of.Count + 1, Duration: of.Duration + long}
}

// batchBounds are the bounds of the histogram of submissions of a step.
var batchBounds = []int{0, 1, 2, 4, 8, 16, 32, 64, 128, 256, 512, 1024}

// Decided implements node.Observer.
func (c *counts) Decided(submissions, bytes int) {
	c.written.Add(uint64(bytes))
	c.mu.Lock()
	defer c.mu.Unlock()
	c.batches.Steps++
	c.batches.Submissions += uint64(submissions)
	for _, bound := range batchBounds {
		if submissions <= bound {
			c.batches.UpTo[bound]++
		}
	}
}

// Repaired implements node.Observer.
func (c *counts) Repaired(name string) {
	c.mu.Lock()
	defer c.mu.Unlock()
	c.repairs.add(name)
}

// Faulted implements node.Observer.
func (c *counts) Faulted(err error) {
	c.mu.Lock()
	defer c.mu.Unlock()
	c.faults.add(withKind(err).Error())
}

// WentWell implements node.Observer.
func (c *counts) WentWell() {
	c.mu.Lock()
	defer c.mu.Unlock()
	c.lastSuccess = time.Now()
}

// failed counts a failure outside of steps. What failed is tried again later.
func (c *counts) failed(err error) {
	c.mu.Lock()
	defer c.mu.Unlock()
	c.failures.add(err.Error())
}

// Cosigned implements node.Observer. It records only whether a witness is ahead, because remote counts the rest.
func (c *counts) Cosigned(name string, err error) {
	if err == nil || errors.Is(err, node.ErrWitnessAhead) {
		c.witness(name, func(w *log.Witness) {
			if w.IsAhead = err != nil; w.IsAhead {
				w.Missed, w.Fault = w.Missed+1, err.Error()
			}
		})
	}
}

// witness changes the state of a witness.
func (c *counts) witness(name string, change func(*log.Witness)) {
	c.mu.Lock()
	defer c.mu.Unlock()
	w := c.witnesses[name]
	w.Name = name
	change(&w)
	c.witnesses[name] = w
}

// fill writes what was counted into the metrics of a log.
func (c *counts) fill(f *log.Metrics) {
	f.LostSwaps, f.UnknownSwaps = c.total(node.LostSwap), c.total(node.UnknownSwap)
	f.ResumedSteps, f.Duplicates = c.total(node.ResumedStep), c.total(node.Duplicate)
	f.Forwarded, f.WrittenBytes = c.forwarded.Load(), c.written.Load()
	c.mu.Lock()
	defer c.mu.Unlock()
	for _, name := range phaseNames {
		of := c.phases[name]
		of.Name = name
		f.Phases = append(f.Phases, of)
	}
	f.Steps, f.Batches = c.batches.Steps, log.Batches{Steps: c.batches.Steps, Submissions: c.batches.Submissions,
		UpTo: map[int]uint64{}}
	for _, bound := range batchBounds {
		f.Batches.UpTo[bound] = c.batches.UpTo[bound]
	}
	f.SinceRound = time.Since(c.lastSuccess)
	f.Repaired, f.LastRepaired = c.repairs.count, c.repairs.last
	f.Faults, f.LastFault = c.faults.count, c.faults.last
	f.JanitorFailures, f.JanitorFailure = c.failures.count, c.failures.last
}

// maxSignerWait is the time after which a signer that has not replied yet is a fault. It is half of the time after which
// the signer is ended and the request fails, so that /readyz says so before clients have waited in vain.
const maxSignerWait = 15 * time.Second

// Metrics implements log.Log.
func (l *Log) Metrics() log.Metrics {
	f := log.Metrics{Queue: l.node.Waiting(), MaxQueue: l.config.Pace.MaxQueue}
	if counted, ok := l.config.Signer.(interface{ Starts() uint64 }); ok {
		f.SignerStarts = counted.Starts()
	}
	if verifying, ok := l.config.Signer.(interface {
		WrongSignatures() uint64
		Timestamps() (verified, unverified uint64)
	}); ok {
		f.WrongSignatures = verifying.WrongSignatures()
		f.VerifiedSCTs, f.UnverifiedSCTs = verifying.Timestamps()
	}
	l.counts.fill(&f)
	if head := l.node.Known(); head != nil {
		f.Entries = head.TreeSize
		f.HeadAge = time.Duration(l.config.Machine.Clock.Now().UnixMilli()-int64(head.Timestamp)) * time.Millisecond
	}
	if decided := l.node.Decided(); decided.TreeSize > f.Entries {
		f.Unpublished = decided.TreeSize - f.Entries
	}
	if err := l.node.Fault(); err != nil {
		f.Fault = withKind(err).Error()
	} else if waiting, ok := l.config.Signer.(interface{ Waiting() time.Duration }); ok &&
		waiting.Waiting() > maxSignerWait {
		f.Fault = fmt.Sprintf("signer: no reply for more than %v", maxSignerWait)
	}
	report := l.janitor.Report()
	f.DeletedTiles, f.DeletedHeads, f.DeletedBatches = report.Tiles, report.Heads, report.Staged
	f.StagedBatches, f.RereadTiles = report.Listed, report.Reread
	f.DeletedTo, f.ReadNext, f.Damaged = report.DeletedTo, report.Next, len(report.Damaged)
	if f.JanitorFailures += report.Failures; report.Failed != nil {
		f.JanitorFailure = report.Failed.Error()
	}
	if f.DamagedIssuers, f.Damage = l.issuers.damage(); len(report.Damaged) > 0 {
		first, found := uint64(0), false
		for number := range report.Damaged {
			if !found || number < first {
				first, found = number, true
			}
		}
		f.Damage = report.Damaged[first].Error()
	}
	for _, r := range l.running.remotes {
		f.Witnesses = append(f.Witnesses, r.state())
	}
	return f
}
