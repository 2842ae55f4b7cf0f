package sim

import (
	"fmt"
	"math/rand"
	"slices"
	"time"
)

// One of publicEach histories has a checkpoint for readers that do not ask a node.
const publicEach = 3

// In one of queuesEach histories, submissions wait for several steps.
const queuesEach = 23

// NewPlan returns the plan for a seed.
func NewPlan(seed int64) Plan {
	plan := newPlan(seed)
	if seed%queuesEach == queuesEach/2 {
		plan.queues()
	}
	if seed%hastensEach == hastensEach/2 {
		plan.hastens(seed)
	}
	if seed%unheardEach == unheardEach/2 {
		plan.startsUnheard()
	}
	switch {
	case seed%unreadEach == unreadEach/4:
		plan.startsUnread(seed)
	case seed%elsewhereEach == elsewhereEach/2:
		plan.readsElsewhere(rand.New(rand.NewSource(seed)))
	case seed%atRestEach == atRestEach/2:
		plan.losesAtRest(rand.New(rand.NewSource(seed)))
	case seed%unsignedEach == unsignedEach/2:
		plan.fallsUnsigned(rand.New(rand.NewSource(seed)))
	case seed%beforeSwapEach == beforeSwapEach/2:
		plan.fallsBeforeSwap(rand.New(rand.NewSource(seed)))
	case seed%afterPauseEach == afterPauseEach/2:
		plan.thinsAfterPause(rand.New(rand.NewSource(seed)))
	}
	return plan
}

// One of unheardEach histories is a history of startsUnheard, one of unreadEach is one of startsUnread, and so on.
const (
	unheardEach    = 3
	unreadEach     = 74
	elsewhereEach  = 101
	atRestEach     = 29
	unsignedEach   = 53
	afterPauseEach = 41
	beforeSwapEach = 59
)

// readsElsewhere lets one node make all steps. Readers in haste ask the other nodes, which know the steps only by
// reading. Each of these is away at times, and then has to return what it knows.
func (p *Plan) readsElsewhere(random *rand.Rand) {
	p.Haste, p.Machines, p.Answers, p.Faults, p.Clients = lateHeads, max(p.Machines, 2), 0, nil, nil
	begins := time.Duration(500+random.Intn(500)) * time.Millisecond
	for first := range 5 {
		c := Client{Begins: begins}
		for n := range 8 {
			c.Numbers = append(c.Numbers, 6000+10*first+n)
		}
		p.Clients = append(p.Clients, c)
	}
	for at := begins + 300*time.Millisecond; at < begins+2*time.Second; at += 150 * time.Millisecond {
		for machine := 1; machine < p.Machines; machine++ {
			p.Faults = append(p.Faults, Fault{At: 1, Of: machine + 1, On: "lock: published", Kind: Away,
				After: at + time.Duration(random.Intn(150))*time.Millisecond,
				Long:  time.Duration(10+random.Intn(60)) * time.Millisecond})
		}
	}
}

// losesAtRest lets the newest step be lost in a power failure, three times, or the lock with its engine. The nodes that
// start must then restore that step, or must refuse.
func (p *Plan) losesAtRest(random *rand.Rand) {
	p.Machines, p.Answers = max(p.Machines, 2+random.Intn(2)), 0
	p.Faults = slices.DeleteFunc(p.Faults[:len(p.Faults)/2], func(f Fault) bool { return f.Kind >= PutLost })
	at := 50 + 30*p.Machines + random.Intn(90)
	if random.Intn(3) > 0 {
		for again := range 3 {
			p.Faults = append(p.Faults, Fault{At: at + again*(60+random.Intn(60)), On: "lock: read", Kind: StepLost})
		}
		return
	}
	p.Faults = append(p.Faults, Fault{At: at, On: "lock: read", Kind: LockGone, Count: 1},
		Fault{At: at + random.Intn(20), Kind: KilledBefore})
}

// fallsUnsigned pauses a node after its step was decided and accepted, and before the head is signed. Meanwhile, the
// lock is rolled back to the state before, and other nodes continue from there.
func (p *Plan) fallsUnsigned(random *rand.Rand) {
	p.Machines, p.Answers, p.Faults = max(p.Machines, 2), 0, nil
	own, begins := Client{Begins: 300 * time.Millisecond}, time.Duration(900+random.Intn(600))*time.Millisecond
	for n := range 25 {
		own.Numbers = append(own.Numbers, 7000+n)
	}
	p.Clients = append(p.Clients, own)
	for at := 1; at < p.Machines; at++ {
		c := Client{Begins: begins + time.Duration(50+random.Intn(400))*time.Millisecond, Machine: at, Burst: true}
		for n := range 2 + random.Intn(6) {
			c.Numbers = append(c.Numbers, 7000+100*at+n)
		}
		p.Clients = append(p.Clients, c)
	}
	for _, f := range []Fault{{Kind: Paused, Long: time.Duration(600+random.Intn(3000)) * time.Millisecond},
		{Kind: LockRolledBack, Count: 1 + random.Intn(2)}} {
		f.At, f.Of, f.On, f.After = 1, 1, "guard: read", begins
		p.Faults = append(p.Faults, f)
	}
}

// fallsBeforeSwap pauses a node before it swaps the lock. Meanwhile, others make steps from the same text, and then the
// lock and the guard's state are rolled back, mostly to that text.
func (p *Plan) fallsBeforeSwap(random *rand.Rand) {
	p.Machines, p.Answers, p.Witnesses = max(p.Machines, 2), 0, Witnesses{}
	begins := time.Duration(2500+random.Intn(1000)) * time.Millisecond
	p.Clients = []Client{{Begins: 500 * time.Millisecond, Numbers: []int{9000, 9001}},
		{Begins: begins, Numbers: []int{9010, 9011, 9012}, Burst: true},
		{Begins: begins + 100*time.Millisecond, Machine: 1, Numbers: []int{9020, 9021}[:1+random.Intn(2)]},
		{Begins: begins + 8*time.Second, Machine: 1, Numbers: []int{9030}}}
	falls := begins + time.Duration(500+random.Intn(500))*time.Millisecond
	p.Faults = []Fault{
		{At: 1, Of: 1, On: "objects: put staging", After: begins, Kind: Paused, Long: falls - begins + 300*time.Millisecond},
		{At: 1, After: falls, Kind: LockAndGuardRolledBack, Count: 1 + random.Intn(5)},
	}
}

// thinsAfterPause pauses a node for so long that others put heads which it does not know when its janitor continues.
// Later it is paused again, for a second or two, while its janitor deletes heads. The other nodes put several heads at
// a time, with a pause of some seconds between.
func (p *Plan) thinsAfterPause(random *rand.Rand) {
	p.Machines, p.Answers, p.Janitors = max(p.Machines, 2), 0, true
	begins := time.Duration(1000+random.Intn(5000)) * time.Millisecond
	long := time.Duration(9000+random.Intn(4000)) * time.Millisecond
	p.Faults = []Fault{
		{At: 1, Of: 1, On: "lock: read", After: begins, Kind: Paused, Long: long},
		{At: 1, Of: 1, On: "objects: delete heads", After: begins + long + 1500*time.Millisecond, Kind: Paused,
			Long: time.Duration(1000+random.Intn(900)) * time.Millisecond},
	}
	p.Clients = nil
	each := time.Duration(5000+random.Intn(1500)) * time.Millisecond
	for round := range 5 {
		c := Client{Begins: time.Duration(500+random.Intn(500))*time.Millisecond + time.Duration(round)*each, Machine: 1}
		for n := range 4 {
			c.Numbers = append(c.Numbers, 8000+10*round+n)
		}
		p.Clients = append(p.Clients, c)
	}
}

// queues limits steps to few entries, and lets the same entries be submitted twice at once, in two orders. So the
// second submission of an entry is looked up before the step of the first one, and waits for several more steps.
func (p *Plan) queues() {
	p.MaxBatch = 2
	const entries = 8
	for begins := time.Second; begins < 4*time.Second; begins += time.Second {
		up, down := Client{Begins: begins, Burst: true}, Client{Begins: begins, Burst: true}
		for n := range entries {
			first := 4000 + entries*int(begins/time.Second)
			up.Numbers, down.Numbers = append(up.Numbers, first+n), append(down.Numbers, first+entries-1-n)
		}
		p.Clients = append(p.Clients, up, down)
	}
}

// One of hastensEach histories is a history of hastens.
const hastensEach = 19

// hastens lets the same entries be submitted to all nodes at once, with readers in haste. So another node may publish
// an entry while it is looked up, and a reader may get a head while another reader gets a later one. In a third of
// these histories, each machine is away at times, and then has to return what it knows.
func (p *Plan) hastens(seed int64) {
	p.Haste = lateLookups
	for round := range 4 {
		for machine := range p.Machines {
			c := Client{Begins: time.Duration(1+round) * time.Second, Machine: machine, Burst: true}
			for n := range 5 {
				c.Numbers = append(c.Numbers, 5000+10*round+n)
			}
			p.Clients = append(p.Clients, c)
			if seed%3 > 0 {
				continue
			}
			p.Faults = append(p.Faults, Fault{At: 1, Of: machine + 1, On: "lock: published", Kind: Away,
				After: c.Begins + time.Duration(100+(seed*7+int64(machine)*131+int64(round)*37)%400)*time.Millisecond,
				Long:  300 * time.Millisecond})
		}
	}
}

// startsUnheard lets each witness fail once after all stores are rolled back, so that no witness says what it saw when
// a node starts.
func (p *Plan) startsUnheard() {
	for _, f := range p.Faults {
		if f.Kind == AllRolledBack {
			for n := range p.Witnesses.Count {
				p.Faults = append(p.Faults, Fault{At: f.At + 1, On: fmt.Sprintf("witness%d: add", n+1), Kind: CallFails})
			}
			return
		}
	}
}

// startsUnread lets the index lose its newest places, and lets the only node start again. The first reading of a tile
// fails, by which that node would see the loss.
func (p *Plan) startsUnread(seed int64) {
	p.Machines, p.Answers = 1, 0
	at := 45 + int(seed%61)
	p.Faults = []Fault{{At: at, On: "lock: read", Kind: IndexLost, Count: 2 + int(seed%3)},
		{At: at, On: "lock: read", Kind: KilledBefore}, {At: at + 1, On: "objects: get tile", Kind: CallFails}}
	for i := range p.Clients {
		p.Clients[i].Machine = 0
	}
}
