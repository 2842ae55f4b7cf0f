package watch

import (
	"context"
	"errors"
	"math/rand/v2"
	"sync"
	"time"

	"wagtenib/internal/logclient"
)

// The defaults of Options.
const (
	defaultPause = time.Minute
	defaultLimit = time.Hour
)

// Group follows many logs at once. Each log has its own goroutine, connections, time limit and pace, so a slow or
// dishonest log does not delay another one.
type Group struct {
	keeper  Keeper
	options Options
	running map[LogID]*member
	mutex   sync.Mutex
	ended   sync.WaitGroup
}

// member is a log that is followed.
type member struct {
	log    Log
	cancel context.CancelFunc
	done   chan struct{}
}

// NewGroup returns a group that follows no log yet.
func NewGroup(keeper Keeper, options Options) *Group {
	if options.Pause <= 0 {
		options.Pause = defaultPause
	}
	if options.Limit <= 0 {
		options.Limit = defaultLimit
	}
	if options.Client.Clock == nil {
		options.Client.Clock = logclient.MachineClock{}
	}
	options.times = NewTimes(nil)
	return &Group{keeper: keeper, options: options, running: map[LogID]*member{}}
}

// Follow follows these logs from now on, until the context ends or Follow is called again. A log that was followed
// before just continues, unless isSame reports a change. A log that is not among them any more is no longer followed,
// after the Keeper's current call for it has returned. If a log cannot be followed, the Keeper gets a report with the
// reason.
func (g *Group) Follow(ctx context.Context, logs []Log) {
	g.mutex.Lock()
	defer g.mutex.Unlock()
	g.options.times.setLogs(logs)
	wanted := map[LogID]Log{}
	for _, log := range logs {
		wanted[log.ID] = log
	}
	var ending []*member
	for id, running := range g.running {
		if log, ok := wanted[id]; !ok || !isSame(log, running.log) {
			running.cancel()
			delete(g.running, id)
			ending = append(ending, running)
		}
	}
	// No log is followed twice at once: a new follower begins after the old one has ended.
	for _, old := range ending {
		if log, ok := wanted[old.log.ID]; ok {
			g.start(ctx, log, old.done)
			delete(wanted, old.log.ID)
		}
	}
	for id, log := range wanted {
		if g.running[id] == nil {
			g.start(ctx, log, nil)
		}
	}
}

// isSame reports whether two descriptions of a log lead to the same requests and the same verdicts.
func isSame(a, b Log) bool {
	return a.URL == b.URL && a.Origin == b.Origin && a.MaxMergeDelay == b.MaxMergeDelay &&
		frozenStates[a.State] == frozenStates[b.State]
}

// start follows a log. If `after` is not nil, it first waits for the end of the old follower, which closes the channel.
func (g *Group) start(ctx context.Context, log Log, after <-chan struct{}) {
	ctx, cancel := context.WithCancel(ctx)
	one := &member{log, cancel, make(chan struct{})}
	g.running[log.ID] = one
	g.ended.Add(1)
	go func() {
		defer g.ended.Done()
		defer close(one.done)
		defer cancel()
		if after != nil {
			<-after
		}
		g.run(ctx, log)
	}()
}

// run makes one pass after another over a log.
func (g *Group) run(ctx context.Context, log Log) {
	f, err := NewFollower(log, g.keeper, g.options)
	if err != nil {
		g.keeper.Report(Status{Log: log, Fault: err})
		return
	}
	for ctx.Err() == nil {
		err := g.pass(ctx, f)
		if g.options.Client.Clock.Wait(ctx, g.pause(err)) != nil {
			return
		}
	}
}

// pass makes one pass within its time limit.
func (g *Group) pass(ctx context.Context, f *Follower) error {
	ctx, cancel := context.WithTimeout(ctx, g.options.Limit)
	defer cancel()
	return f.Pass(ctx)
}

// pause returns the time until the next pass. It varies at random by a tenth, so that many monitors do not ask a log at
// the same time. A busy log is not asked before the time that it names.
func (g *Group) pause(err error) time.Duration {
	pause := g.options.Pause - g.options.Pause/20 + rand.N(g.options.Pause/10+1)
	var busy *logclient.BusyError
	if errors.As(err, &busy) {
		pause = max(pause, min(busy.Until.Sub(g.options.Client.Clock.Now()), maxBusy))
	}
	return pause
}

// maxBusy is the maximum time for which a busy log is not asked. A log must not get rid of its monitors by naming a
// distant day.
const maxBusy = 24 * time.Hour

// Wait returns after all followers have ended, which they do after the context of Follow has ended.
func (g *Group) Wait() { g.ended.Wait() }

// Once makes one pass over each of these logs, all at once, and returns the result of Follower.Pass for each: nil if
// the log's newest head is accepted. It is for a program that a timer starts. The context ends the passes too.
func (g *Group) Once(ctx context.Context, logs []Log) map[LogID]error {
	g.options.times.setLogs(logs)
	results := make(map[LogID]error, len(logs))
	g.passes(ctx, logs, results)
	// A log that the clock accuses is judged again, after all other logs were asked for their heads.
	var unconfirmed []Log
	for _, log := range logs {
		if errors.Is(results[log.ID], errUnconfirmed) {
			unconfirmed = append(unconfirmed, log)
		}
	}
	g.passes(ctx, unconfirmed, results)
	return results
}

// passes makes one pass over each of these logs, all at once, and stores the results.
func (g *Group) passes(ctx context.Context, logs []Log, results map[LogID]error) {
	var mutex sync.Mutex
	var running sync.WaitGroup
	seen := map[LogID]bool{}
	for _, log := range logs {
		if seen[log.ID] {
			continue
		}
		seen[log.ID] = true
		running.Add(1)
		go func() {
			defer running.Done()
			f, err := NewFollower(log, g.keeper, g.options)
			if err == nil {
				err = g.pass(ctx, f)
			} else {
				g.keeper.Report(Status{Log: log, Fault: err})
			}
			mutex.Lock()
			defer mutex.Unlock()
			results[log.ID] = err
		}()
	}
	running.Wait()
}
