package sim

import (
	"cmp"
	"context"
	"errors"
	"fmt"
	"math/rand"
	"slices"
	"strings"
	"time"

	"wagtenib/internal/blob"
	"wagtenib/internal/ct"
	"wagtenib/internal/log/node"
	"wagtenib/internal/log/node/janitor"
)

// Origin is the log's name in checkpoints, which the proved steps need.
const Origin = "log.example/sim"

// epoch is the true time at the beginning of each history.
var epoch = time.Date(2027, 3, 1, 0, 0, 0, 0, time.UTC)

// world holds everything of one history: the stores, the machines, the witnesses, and the judge.
type world struct {
	scheduler
	plan     Plan
	events   events
	stores   memory
	machines []*machine
	// observers are the log's witnesses.
	observers []*observer
	proved    node.Proved
	observed
}

// observed holds what the simulation knows about a history so far.
type observed struct {
	judge   *judge
	excuses excuses
	history history
	// bentAt is the last time at which a readable object was damaged or lost. edge is the tile that was damaged at the
	// right edge.
	bentAt time.Duration
	edge   bentEdge
	// stopped is the reason why the log stopped in the end.
	stopped error
}

// events holds the faults of the plan, and the number of calls that decides when they happen.
type events struct {
	// calls is the number of calls to stores so far. faults holds the faults that have not happened yet.
	calls  int
	faults []Fault
	// If losesNext is set, the next put is lost. If calm is set, no fault happens any more.
	losesNext, calm bool
}

// due returns the faults that happen at a call of a machine, once each.
func (e *events) due(m *machine, n int, call string) (now []Fault) {
	for i := 0; i < len(e.faults); i++ {
		if f := e.faults[i]; f.At <= n && strings.HasPrefix(call, f.On) && (f.Of == 0 || m == m.w.machines[f.Of-1]) &&
			f.After <= m.w.now {
			now = append(now, f)
			e.faults = slices.Delete(e.faults, i, i+1)
			i--
		}
	}
	return now
}

// machine is a machine on which one node runs, is killed and starts again.
type machine struct {
	w       *world
	name    string
	process *process
	node    *node.Node
	// refused is the reason why the last start of the node was refused, or nil.
	refused error
	// offset is the error of the machine's time of day. away is the time until which no call reaches a store.
	offset, away time.Duration
	disk
	signer  *guarded
	janitor *janitor.Janitor
}

// disk holds the memory of a machine.
type disk struct {
	// remembered is the newest head in the memory. accepted holds all heads that a node loaded from it or saved to it
	// since it was made.
	remembered *ct.TreeHead
	accepted   []ct.TreeHead
}

// excuses holds what a history is allowed to do after a store lost something that it acknowledged, or a clock was
// wrong.
type excuses struct {
	// If loss is set, the log may stop, if it says why. If clock is set, it may stop because of its clock.
	loss, clock bool
	// If tiles is set, a tile's name may get two contents. If repeats is set, an identity may have two entries. If missing
	// is set, objects may be missing or damaged.
	tiles, repeats, missing bool
	// If ahead is set, a node may have started with a wrong clock.
	ahead bool
	// If signed is set, only the witnesses show that the log was longer. They see a head only after it was signed, so a
	// head of another list may be signed. It must not be put.
	signed bool
	// unput holds the machines that had not accepted a signed head when the lock and the guard's state were rolled back
	// before that head was put. Their nodes may have a head of another list signed, which must not be put. theirs holds
	// the heads that they had signed since. A witness may cosign one of them if it did not see the lost head.
	unput  map[*machine]bool
	theirs map[ct.TreeHead]bool
	// again holds the identities that may get one more entry.
	again map[[32]byte]bool
}

// errFails is a fault of a store. errAway is a fault of the connection to it.
var (
	errFails    = errors.New("sim: the store fails")
	errAway     = errors.New("sim: the store does not answer")
	errFull     = errors.New("sim: the store is full")
	errReadOnly = errors.New("sim: the store is read-only")
)

// newWorld returns the world for a plan.
func newWorld(plan Plan, proved node.Proved, logs bool) *world {
	w := &world{plan: plan, proved: proved, events: events{faults: slices.Clone(plan.Faults)}, stores: newMemory(),
		observed: observed{history: history{isKept: logs}, bentAt: -readWithin}}
	w.random = rand.New(rand.NewSource(plan.Seed ^ 0x5deece66d))
	w.judge, w.excuses.again = newJudge(w), map[[32]byte]bool{}
	w.excuses.unput, w.excuses.theirs = map[*machine]bool{}, map[ct.TreeHead]bool{}
	w.newObservers()
	for i := range plan.Machines {
		m := &machine{w: w, name: fmt.Sprintf("n%d", i+1)}
		w.machines = append(w.machines, m)
		w.spawn(nil, m.operate)
	}
	return w
}

// operate starts the node of a machine again and again.
func (m *machine) operate() {
	w := m.w
	for {
		p := &process{name: m.name}
		m.process, m.node = p, nil
		m.signer = &guarded{m: m}
		if m.offset > maxSkew || -m.offset > maxSkew {
			w.excuses.ahead = true
		}
		w.judge.stats.Starts++
		w.log(m.name, "starts", "", "")
		ended := false
		w.spawn(p, func() {
			m.carry()
			ended = true
		})
		w.wait(forever, func() bool { return p.dead || ended })
		m.node = nil
		p.dead = true
		w.wait(time.Duration(50+w.random.Intn(3000))*time.Millisecond, nil)
	}
}

// carry runs a node until it is killed, or its start is refused.
func (m *machine) carry() {
	ctx := m.w.background()
	before := m.w.refuses(m)
	n, loop, err := node.Start(ctx, m.config())
	if now := m.w.refuses(m); err == nil && now != "" && now == before {
		m.w.judge.breaks("a start is refused", "%s starts although %s", m.name, now)
	}
	if err != nil {
		m.w.log(m.name, "does not start", err.Error(), "")
		m.refused = err
		m.w.judge.alarms(m, err, false)
		return
	}
	m.node, m.refused = n, nil
	if m.w.plan.Janitors {
		m.tidies()
	}
	// It ends only with its process.
	_ = loop.Run(ctx)
}

// usualBatch is the maximum number of entries of a step, unless the plan has another one.
const usualBatch = 300

// maxSkew is the maximum error of a clock in the nodes' configuration.
const maxSkew = 10 * time.Second

// config returns the configuration of a machine's node.
func (m *machine) config() node.Config {
	shared := node.Stores{Objects: objects{m}, Lock: lock{m}, Index: index{m}}
	if m.w.plan.Public {
		shared.Current = current{m}
	}
	return node.Config{
		Origin: Origin, Address: m.name, Create: true,
		Stores: shared,
		Proved: m.w.proved,
		Signer: m.signer, Witnesses: m.witnesses(),
		Machine: node.Machine{Clock: clock{m}, Memory: remembering{m}, Parallel: m.w.parallel,
			Random: func() (uint64, error) { return m.w.random.Uint64(), nil }},
		Pace: node.Pace{
			Look: time.Second, Refresh: time.Hour, Help: 400*time.Millisecond +
				time.Duration(m.w.random.Intn(400))*time.Millisecond,
			Call: 2 * time.Second, Cosign: 3 * time.Second, Round: 60 * time.Second, Patience: 5 * time.Second,
			MaxSkew: maxSkew,
		},
		Limits: node.Limits{MaxBatch: cmp.Or(m.w.plan.MaxBatch, usualBatch), MaxQueue: 1000},
	}
}

// clock implements the clock of a machine in virtual time.
type clock struct{ m *machine }

func (c clock) Now() time.Time         { return epoch.Add(c.m.w.now + c.m.offset) }
func (c clock) Elapsed() time.Duration { return c.m.w.now }

func (c clock) Within(ctx context.Context, long time.Duration) (context.Context, context.CancelFunc) {
	return within(ctx, long)
}

func (c clock) Wait(ctx context.Context, long time.Duration, wake <-chan struct{}) error {
	of := ctx.(*simulated)
	c.m.w.wait(min(long, max(of.left(), 0)), func() bool { return len(wake) > 0 || of.Err() != nil })
	select {
	case <-wake:
	default:
	}
	return of.Err()
}

// remembering implements the memory of a machine, which is a file on its disk.
type remembering struct{ m *machine }

func (r remembering) Load(ctx context.Context) (head *ct.TreeHead, err error) {
	err = r.m.call(ctx, "memory", "load", false, func() error {
		head = r.m.remembered
		return nil
	})
	if err == nil && head != nil {
		r.m.accepted = append(r.m.accepted, *head)
	}
	return head, err
}

func (r remembering) Save(ctx context.Context, head ct.TreeHead) error {
	err := r.m.call(ctx, "memory", fmt.Sprintf("save %d %d", head.TreeSize, head.Timestamp), false, func() error {
		r.m.remembered = &head
		return nil
	})
	if err == nil {
		r.m.accepted = append(r.m.accepted, head)
	}
	return err
}

// call makes one call of a machine's node to a store, with the faults that happen at this call.
func (m *machine) call(ctx context.Context, store, what string, writes bool, do func() error) error {
	w, of := m.w, ctx.(*simulated)
	w.events.calls++
	n := w.events.calls
	w.stores.call = n
	var fate *Fault
	if !w.events.calm {
		for _, f := range w.events.due(m, n, store+": "+what) {
			if own := w.befalls(m, f, store); own != nil {
				fate = own
			}
		}
	}
	if m.process.dead {
		panic(killed{})
	}
	fault, err := m.befallen(of, store, what, writes, fate, do)
	w.logCall(n, m.name, store, what, err, fault)
	if m.process.dead {
		panic(killed{})
	}
	return err
}

// befallen makes a call, or does not, depending on its fault (fate). It returns the fault's name and the outcome.
func (m *machine) befallen(ctx *simulated, store, what string, writes bool, fate *Fault,
	do func() error) (fault string, err error) {
	w := m.w
	if fate != nil {
		fault = fate.Kind.String()
		if isOver, err := m.isKept(ctx, store, what, writes, fate, do); isOver {
			return fault, err
		}
	}
	if err := w.sleep(ctx, w.latency()); err != nil {
		return fault, unknown(err)
	}
	if fate != nil && fate.Kind == CallFails {
		return fault, errFails
	}
	if err := m.takes(store, writes); err != nil {
		return fault, err
	}
	err = do()
	if w.events.losesNext && err == nil && store == "objects" && strings.HasPrefix(what, "put ") {
		w.events.losesNext = false
		w.losesNewest()
		w.judge.counts[PutLost]++
		fault = PutLost.String()
	}
	return fault, m.outcome(ctx, fate, err)
}

// isKept reports whether a call does not reach its store before its caller gives up or is killed. It also returns the
// error with which the call then ends.
func (m *machine) isKept(ctx *simulated, store, what string, writes bool, fate *Fault, do func() error) (bool, error) {
	w := m.w
	switch fate.Kind {
	case CallHangs:
	case KilledBefore:
		m.process.dead = true
		return true, errAway
	case DoneLate:
		cuts := w.judge.counts[StepLost]
		w.spawn(nil, func() {
			w.wait(ctx.left()+fate.Long, nil)
			if m.takes(store, writes) == nil && cuts == w.judge.counts[StepLost] {
				// No caller waits for the outcome any more. If a damaged tile is deleted late, another node may have put the
				// right tile meanwhile, and that tile is lost.
				w.log("store", what, fmt.Sprint(do()), "done late")
				isMending := store == "objects" && strings.HasPrefix(what, "delete tile/") && w.bentAt > 0
				w.excuses.loss = w.excuses.loss || isMending
			}
		})
	default:
		return false, nil
	}
	_ = w.sleep(ctx, forever)
	return true, unknown(ctx.Err())
}

// outcome returns the error that the caller gets for a call that was done with an error or without.
func (m *machine) outcome(ctx *simulated, fate *Fault, err error) error {
	kind := kinds
	if fate != nil {
		kind = fate.Kind
	}
	switch kind {
	case KilledAfter:
		m.process.dead = true
	case DoneSaysFailed:
		if err == nil {
			err = unknown(errFails)
		}
		return err
	case AnswersLate:
		_ = m.w.sleep(ctx, forever)
		return unknown(ctx.Err())
	}
	if late := m.w.sleep(ctx, m.w.latency()/2); late != nil {
		return unknown(late)
	}
	return err
}

// unknown returns an error that does not say whether the call was done.
func unknown(err error) error { return fmt.Errorf("%w: %w", blob.ErrUnknown, err) }

// latency returns a random duration of a call, mostly some milliseconds.
func (w *world) latency() time.Duration {
	if w.random.Intn(30) == 0 {
		return time.Duration(50+w.random.Intn(400)) * time.Millisecond
	}
	return time.Duration(1+w.random.Intn(6)) * time.Millisecond
}

// takes returns an error if a store refuses the call now. A machine's memory never does.
func (m *machine) takes(store string, writes bool) error {
	s := &m.w.stores
	switch {
	case store == "memory":
		return nil
	case m.away > m.w.now:
		return errAway
	case writes && s.readOnlyUntil > m.w.now:
		return errReadOnly
	case writes && s.fullUntil > m.w.now:
		return errFull
	}
	return nil
}
