package sim

import (
	"cmp"
	"fmt"
	"math/rand"
	"strings"
	"time"

	"wagtenib/internal/witness"
)

// Client submits entries by their numbers, one after the other. A number that a client has submitted before is a
// duplicate.
type Client struct {
	Begins  time.Duration
	Machine int
	Numbers []int
	// If Burst is set, all numbers are submitted at once.
	Burst bool
}

// The values of Plan.Haste: the beginnings of the calls of which half are answered late.
const (
	lateLookups = "index: find"
	lateHeads   = "objects: get heads/"
)

// Plan describes a history before it runs. Seed decides everything else.
type Plan struct {
	Seed      int64
	Machines  int
	Witnesses Witnesses
	// If Janitors is set, a janitor runs with each node.
	Janitors bool
	// If Public is set, the nodes also put a checkpoint for readers that do not ask a node.
	Public  bool
	Faults  []Fault
	Clients []Client
	// Answers is the minimum number of answers that the clients must get.
	Answers int
	// MaxBatch is the maximum number of entries of a step, and 0 means usualBatch.
	MaxBatch int
	// Haste is empty, lateLookups or lateHeads. Half of the calls that begin with it are answered late, and readers ask
	// often and at the same time.
	Haste string
}

func (p Plan) String() string {
	var text strings.Builder
	fmt.Fprintf(&text, "seed %d, %d nodes, %d witnesses %+v, janitors: %v, public: %v, haste: %q, at least %d answers, "+
		"at most %d entries a step", p.Seed, p.Machines, p.Witnesses.Count, p.Witnesses.Quorums, p.Janitors, p.Public,
		p.Haste, p.Answers, cmp.Or(p.MaxBatch, usualBatch))
	for _, f := range p.Faults {
		fmt.Fprintf(&text, "\n  fault: %v", f)
	}
	for _, c := range p.Clients {
		fmt.Fprintf(&text, "\n  client: at %v of node %d, entries %v", c.Begins, c.Machine+1, c.Numbers)
		if c.Burst {
			text.WriteString(" at once")
		}
	}
	return text.String()
}

func newPlan(seed int64) Plan {
	random := rand.New(rand.NewSource(seed))
	plan := Plan{Seed: seed, Machines: 1 + random.Intn(3), Public: seed%publicEach == publicEach-1}
	if random.Intn(3) == 0 {
		plan.Witnesses = quorums[random.Intn(len(quorums))]
	}
	for range random.Intn(10) {
		plan.Faults = append(plan.Faults, newFault(random, Kind(random.Intn(int(PutLost))), 50+60*plan.Machines))
	}
	if plan.special(random) {
		return plan
	}
	next := plan.submits(random)
	if random.Intn(40) == 0 {
		return plan.clockIsSlow(random)
	}
	plan.Janitors = random.Intn(3) == 0
	if random.Intn(100) == 0 || plan.Janitors && random.Intn(12) == 0 {
		plan.fillsTile(random, next)
	}
	return plan
}

// special adds a loss, or faults that belong together, and reports whether the plan is complete with them.
func (p *Plan) special(random *rand.Rand) bool {
	switch random.Intn(10) {
	case 0, 1, 2, 3:
		p.Faults = append(p.Faults, newFault(random, PutLost+Kind(random.Intn(int(StepLost-PutLost))), 50+60*p.Machines))
	case 4:
		p.pausesOne(random)
	case 5:
		p.misplacesOne(random)
	case 6:
		p.rollsAllBack(random)
	case 7:
		p.restarts(random)
	case 8:
		if random.Intn(4) == 0 {
			p.looksFirst(random)
			return true
		}
	}
	return false
}

// submits adds clients with new entries and duplicates, and returns the number of the next new entry.
func (p *Plan) submits(random *rand.Rand) (next int) {
	for range 1 + random.Intn(4) {
		c := Client{Begins: time.Duration(random.Intn(6000)) * time.Millisecond, Machine: random.Intn(p.Machines)}
		for range 1 + random.Intn(5) {
			if next > 0 && random.Intn(4) == 0 {
				c.Numbers = append(c.Numbers, random.Intn(next))
				continue
			}
			c.Numbers = append(c.Numbers, next)
			next++
		}
		p.Clients = append(p.Clients, c)
	}
	return next
}

// fillsTile adds clients that submit more entries than a tile has, after a few that make partial tiles. If the plan has
// janitors, it gets fewer faults, so that most of these logs continue. A third of these logs lose the full tile when it
// is put, so that only its partial tiles are left. In another third, a node is paused from before the tile is full
// until its partial tiles are deleted. It then has to answer for entries that it knows from the head before.
func (p *Plan) fillsTile(random *rand.Rand, next int) {
	burst := Client{Begins: time.Duration(1000+random.Intn(3000)) * time.Millisecond,
		Machine: random.Intn(p.Machines), Burst: true}
	for range 250 + random.Intn(25) {
		burst.Numbers = append(burst.Numbers, next)
		next++
	}
	p.Clients = append(p.Clients, burst, Client{Begins: burst.Begins + 6*time.Second, Machine: random.Intn(p.Machines),
		Numbers: []int{0, next, next + 1}})
	if !p.Janitors {
		return
	}
	p.Faults = p.Faults[:len(p.Faults)/3]
	switch random.Intn(3) {
	case 0:
		p.Faults = []Fault{{At: 1, On: "objects: put tile/data/000 (", Kind: PutLost}}
	case 1:
		p.Machines = max(p.Machines, 2)
		still := (burst.Machine + 1) % p.Machines
		p.Faults = []Fault{{At: 1, On: "lock: read", Of: still + 1, After: burst.Begins - 900*time.Millisecond,
			Kind: Paused, Long: 7 * time.Second}}
		p.Clients = append(p.Clients, Client{Machine: burst.Machine, Numbers: []int{0, 1, 2}},
			Client{Begins: burst.Begins + 2*time.Second, Machine: still, Numbers: []int{0, 1, 2}, Burst: true})
	}
}

// pausesOne pauses a node, and then rolls stores back to about that time. The state that the node saw last is then the
// newest again, although other nodes saw later ones.
func (p *Plan) pausesOne(random *rand.Rand) {
	p.Machines = 2 + random.Intn(2)
	of := []Kind{LockRolledBack, LockAndGuardRolledBack, LockAndGuardRolledBack,
		ObjectsAndLockRolledBack}[random.Intn(4)]
	still := Fault{At: 60 + random.Intn(160), Kind: Paused, Long: []time.Duration{900 * time.Millisecond,
		1900 * time.Millisecond, 4 * time.Second}[random.Intn(3)]}
	still.On = []string{"lock: swap", "objects: put staging", ""}[random.Intn(3)]
	back := Fault{At: still.At + 30 + random.Intn(120), Kind: of}
	back.Count = (back.At-still.At)/10 - random.Intn(2)
	p.Faults = append(p.Faults[:len(p.Faults)/2], still, back)
	for i := range p.Machines {
		c := Client{Begins: time.Duration(random.Intn(200)) * time.Millisecond, Machine: i}
		for n := range 8 {
			c.Numbers = append(c.Numbers, 1000*(i+1)+n)
		}
		p.Clients = append(p.Clients, c)
		if random.Intn(2) == 0 {
			// A step with several entries writes tiles with other names than the steps of the other nodes.
			several := Client{Begins: time.Duration(random.Intn(2500)) * time.Millisecond, Machine: i, Burst: true}
			for n := range 3 + random.Intn(8) {
				several.Numbers = append(several.Numbers, 1000*(i+1)+100+n)
			}
			p.Clients = append(p.Clients, several)
		}
	}
}

// restarts lets a store lose something that only a starting node can see or must repair, and lets the nodes start
// again.
func (p *Plan) restarts(random *rand.Rand) {
	p.Machines = 1 + random.Intn(2)
	lost := Fault{At: 50 + 30*p.Machines + random.Intn(80), Kind: []Kind{IndexLost, HeadSwapped, HeadForged, EdgeBent,
		GuardRolledBack, LockRolledBack}[random.Intn(6)], Count: 1 + random.Intn(6)}
	lost.On = "lock: read"
	p.Faults = append(p.Faults[:len(p.Faults)/4], lost)
	for i := range p.Machines {
		// The node that then reads the lock is killed at that call, and the other one soon after it.
		p.Faults = append(p.Faults, Fault{At: lost.At + i, On: "lock: read", Kind: KilledBefore})
	}
	for i := range p.Machines {
		p.Clients = append(p.Clients, Client{Machine: i, Numbers: []int{2000 + 10*i, 2001 + 10*i,
			2002 + 10*i, 2003 + 10*i}})
	}
}

// looksFirst lets one node publish the first heads of a log. Another node looks at a head for the first time after the
// store has lost it.
func (p *Plan) looksFirst(random *rand.Rand) {
	p.Machines, p.Witnesses = 2, Witnesses{}
	at := 40 + random.Intn(70)
	p.Faults = []Fault{
		{At: at, On: "lock: raise", Kind: []Kind{HeadSwapped, HeadForged}[random.Intn(2)], Count: 1 + random.Intn(6)},
		{At: at, On: "lock: raise", Kind: KilledAfter},
	}
	for i := range 2 {
		c := Client{Begins: time.Duration(100*i+random.Intn(300)) * time.Millisecond}
		for n := range 2 + random.Intn(3) {
			c.Numbers = append(c.Numbers, 10*i+n)
		}
		p.Clients = append(p.Clients, c)
	}
}

// clockIsSlow returns a plan whose only fault is that the clock of a node is set to an earlier time, within maxSkew. So
// each client must get its answers.
func (p *Plan) clockIsSlow(random *rand.Rand) Plan {
	p.Faults = []Fault{{At: 40 + random.Intn(100), Kind: ClockBack, Long: 8 * time.Second}}
	p.Witnesses, p.Answers = Witnesses{}, 0
	for i := range p.Clients {
		p.Clients[i].Begins += 2 * time.Second
		p.Answers += len(p.Clients[i].Numbers)
	}
	return *p
}

// misplacesOne makes a place in the index wrong, and interrupts the step that replaces it.
func (p *Plan) misplacesOne(random *rand.Rand) {
	p.Machines = 1 + random.Intn(2)
	wrong := Fault{At: 70 + 30*p.Machines + random.Intn(40), On: "lock: read", Kind: IndexWrong, Count: random.Intn(12)}
	cut := Fault{At: wrong.At, On: []string{"index: replace", "index: add", "lock: swap"}[random.Intn(3)],
		Kind: []Kind{KilledBefore, KilledAfter, CallFails, Away}[random.Intn(4)], Long: 4 * time.Second}
	p.Faults, p.Clients = []Fault{wrong, cut}, []Client{{Numbers: []int{0, 1, 2, 3}, Burst: true}}
	for _, begins := range []time.Duration{15 * time.Second, 30 * time.Second} {
		p.Clients = append(p.Clients, Client{Begins: begins, Machine: random.Intn(p.Machines),
			Numbers: []int{0, 1, 2, 3}})
	}
}

// rollsAllBack rolls back everything that the log has, including its machines. Only its witnesses show this.
func (p *Plan) rollsAllBack(random *rand.Rand) {
	p.Witnesses = quorums[random.Intn(len(quorums))]
	p.Faults = p.Faults[:len(p.Faults)/2]
	if random.Intn(2) == 0 {
		p.Faults = append(p.Faults, Fault{At: 60 + random.Intn(100), Kind: WitnessRolledBack,
			Count: 1 + random.Intn(12)})
	}
	p.Faults = append(p.Faults, Fault{At: 60 + random.Intn(100*p.Machines), Kind: AllRolledBack,
		Count: 1 + random.Intn(12)})
	p.Clients = append(p.Clients, Client{Machine: random.Intn(p.Machines),
		Numbers: []int{3000, 3001, 3002, 3003, 3004, 3005}})
	if random.Intn(2) == 0 {
		p.beginsAgain(random)
	}
}

// beginsAgain rolls the log back to its creation, and one witness with it. The witness that was not needed for the
// first heads saw none of them.
func (p *Plan) beginsAgain(random *rand.Rand) {
	count := 4 + random.Intn(3)
	p.Machines, p.Witnesses = 1, quorums[2]
	for i := range p.Clients {
		p.Clients[i].Machine = 0
	}
	at := 10*count + 9 + random.Intn(5)
	p.Faults = []Fault{{At: at, Kind: AllRolledBack, Count: count},
		{At: at + 5, Kind: WitnessRolledBack, Count: 12 + random.Intn(3)}}
}

// quorums holds the witnesses and quorums from which plans choose.
var quorums = []Witnesses{
	{Count: 1, Quorums: witness.Quorums{Publish: 1, Start: 1}},
	{Count: 3, Quorums: witness.Quorums{Publish: 2, Start: 2}},
	{Count: 3, Quorums: witness.Quorums{Publish: 2, Start: 3, Faults: 1}},
	{Count: 3, Quorums: witness.Quorums{Publish: 3, Start: 2, Faults: 1}},
}

// timestamps holds the beginnings of the calls at which faults interrupt a step.
var timestamps = []string{
	"objects: put staging", "lock: swap", "lock: swap", "lock: read", "objects: put tile", "index: add", "memory: save",
	"guard: swap", "objects: put heads", "lock: raise",
	"witness1: add", "witness2: add", "objects: delete", "objects: list",
}

// newFault returns a fault at one of the first calls. Half of the faults that concern one call happen at one of the
// calls in timestamps.
func newFault(random *rand.Rand, kind Kind, calls int) Fault {
	f := Fault{At: 1 + random.Intn(calls), Kind: kind, Count: 1 + random.Intn(12)}
	if kind <= Paused && random.Intn(2) == 0 {
		f.On = timestamps[random.Intn(len(timestamps))]
	}
	switch kind {
	case ClockForward, ClockBack:
		f.Long = []time.Duration{3 * time.Second, 30 * time.Second, 50 * time.Minute, 3 * time.Hour,
			400 * 24 * time.Hour}[random.Intn(5)]
	default:
		f.Long = []time.Duration{30 * time.Millisecond, 700 * time.Millisecond, 4 * time.Second,
			25 * time.Second}[random.Intn(4)]
	}
	return f
}
