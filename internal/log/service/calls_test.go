package service_test

import (
	"context"
	"sort"
	"strings"
	"sync"
	"sync/atomic"
	"testing"
	"time"

	"wagtenib/internal/blob"
	"wagtenib/internal/ct"
	"wagtenib/internal/log/service"
	"wagtenib/internal/log/signer"
)

// stopped is this machine's clock, except that its time since boot does not advance by itself, and that it waits
// without a limit until it is woken. So a node without submissions never reads the lock.
type stopped struct {
	service.Clock
	elapsed atomic.Int64
	// waits is true while the node waits and nothing has woken it.
	waits atomic.Bool
}

func (s *stopped) Elapsed() time.Duration { return time.Duration(s.elapsed.Load()) }

func (s *stopped) Wait(ctx context.Context, long time.Duration, wake <-chan struct{}) error {
	if wake == nil {
		return s.Clock.Wait(ctx, long, nil)
	}
	select {
	case <-wake:
		return nil
	default:
	}
	s.waits.Store(true)
	defer s.waits.Store(false)
	select {
	case <-wake:
		return nil
	case <-ctx.Done():
		return ctx.Err()
	}
}

// watch records when the calls to stores begin and end, in one order for all. A call of a group ends only after all
// calls of the group have begun.
type watch struct {
	mu sync.Mutex
	// isOn is true while calls are recorded. groups has the group of a call by its name.
	isOn   bool
	groups map[string]*group
	calls  []watched
	// at counts the beginnings and ends.
	at int
}

// group is a group of calls that are made at the same time.
type group struct {
	size  int
	begun int
	full  chan struct{}
}

// watched is a call, with the numbers of its beginning and its end.
type watched struct {
	name       string
	began, end int
}

// expects makes a group of the calls with these names.
func (w *watch) expects(names ...string) {
	w.mu.Lock()
	defer w.mu.Unlock()
	g := &group{size: len(names), full: make(chan struct{})}
	for _, name := range names {
		w.groups[name] = g
	}
}

// begins records that a call begins, waits until all calls of its group have begun, and returns the function that
// records its end.
func (w *watch) begins(ctx context.Context, name string) func() {
	w.mu.Lock()
	if !w.isOn {
		w.mu.Unlock()
		return func() {}
	}
	number := len(w.calls)
	w.at++
	w.calls = append(w.calls, watched{name: name, began: w.at})
	if g := w.groups[name]; g != nil {
		full := g.full
		if g.begun++; g.begun == g.size {
			close(full)
			g.begun, g.full = 0, make(chan struct{})
		}
		w.mu.Unlock()
		select {
		case <-full:
		case <-ctx.Done():
		}
	} else {
		w.mu.Unlock()
	}
	return func() {
		w.mu.Lock()
		defer w.mu.Unlock()
		w.at++
		w.calls[number].end = w.at
	}
}

// steps returns the calls of each recorded step, which ends as the published size is raised. A look-up of a submission
// is none of its calls.
func (w *watch) steps() (steps [][]watched) {
	w.mu.Lock()
	defer w.mu.Unlock()
	isNew := true
	for _, call := range w.calls {
		if call.name == "find in index" {
			continue
		}
		if isNew {
			steps = append(steps, nil)
		}
		steps[len(steps)-1] = append(steps[len(steps)-1], call)
		isNew = call.name == "raise lock"
	}
	return steps
}

// namesOf returns the calls' names in alphabetical order.
func namesOf(calls []watched) []string {
	var names []string
	for _, call := range calls {
		names = append(names, call.name)
	}
	sort.Strings(names)
	return names
}

// chainOf returns the length of the longest chain of calls in which each began after the end of the one before.
func chainOf(calls []watched) (chain int) {
	to := make([]int, len(calls))
	for i, call := range calls {
		to[i] = 1
		for before := range i {
			if calls[before].end < call.began {
				to[i] = max(to[i], to[before]+1)
			}
		}
		chain = max(chain, to[i])
	}
	return chain
}

// turn starts or stops the recording.
func (w *watch) turn(isOn bool) {
	w.mu.Lock()
	defer w.mu.Unlock()
	w.isOn = isOn
}

// kindOf returns the kind of an object by its name.
func kindOf(name string) string {
	kind := name[:strings.Index(name+"/", "/")]
	if strings.HasPrefix(name, "tile/data/") {
		return "tile/data"
	}
	return kind
}

type watchedObjects struct {
	blob.Objects
	watch *watch
}

func (o watchedObjects) Put(ctx context.Context, name string, content []byte) error {
	defer o.watch.begins(ctx, "put "+kindOf(name))()
	return o.Objects.Put(ctx, name, content)
}

func (o watchedObjects) Get(ctx context.Context, name string, maxBytes int64) ([]byte, error) {
	defer o.watch.begins(ctx, "get "+kindOf(name))()
	return o.Objects.Get(ctx, name, maxBytes)
}

func (o watchedObjects) List(ctx context.Context, prefix, after string, maxNames int) ([]string, error) {
	defer o.watch.begins(ctx, "list "+kindOf(prefix))()
	return o.Objects.List(ctx, prefix, after, maxNames)
}

func (o watchedObjects) Delete(ctx context.Context, name string) error {
	defer o.watch.begins(ctx, "delete "+kindOf(name))()
	return o.Objects.Delete(ctx, name)
}

type watchedLock struct {
	blob.Lock
	watch *watch
}

func (l watchedLock) Create(ctx context.Context, text string) error {
	defer l.watch.begins(ctx, "create lock")()
	return l.Lock.Create(ctx, text)
}

func (l watchedLock) Read(ctx context.Context) (string, error) {
	defer l.watch.begins(ctx, "read lock")()
	return l.Lock.Read(ctx)
}

func (l watchedLock) Swap(ctx context.Context, old, new string) error {
	defer l.watch.begins(ctx, "swap lock")()
	return l.Lock.Swap(ctx, old, new)
}

func (l watchedLock) Published(ctx context.Context) (blob.Published, error) {
	defer l.watch.begins(ctx, "published")()
	return l.Lock.Published(ctx)
}

func (l watchedLock) Raise(ctx context.Context, published blob.Published) error {
	defer l.watch.begins(ctx, "raise lock")()
	return l.Lock.Raise(ctx, published)
}

type watchedIndex struct {
	blob.Index
	watch *watch
}

func (i watchedIndex) Find(ctx context.Context,
	identities []blob.Identity) (map[blob.Identity]blob.Place, error) {
	defer i.watch.begins(ctx, "find in index")()
	return i.Index.Find(ctx, identities)
}

func (i watchedIndex) FindLeaves(ctx context.Context,
	hashes []blob.Identity) (map[blob.Identity]blob.Place, error) {
	defer i.watch.begins(ctx, "find leaves in index")()
	return i.Index.FindLeaves(ctx, hashes)
}

func (i watchedIndex) Add(ctx context.Context, rows []blob.Row) error {
	defer i.watch.begins(ctx, "add to index")()
	return i.Index.Add(ctx, rows)
}

func (i watchedIndex) Replace(ctx context.Context, rows []blob.Row) error {
	defer i.watch.begins(ctx, "replace in index")()
	return i.Index.Replace(ctx, rows)
}

// TestCallsOfAStep checks the calls to stores of a step with one entry, if the node made the previous step and has no
// fault. There are eight calls, and the longest chain in which each waits for the one before has five. If the heads
// were not listed for a while, they are listed during the swap, and no staged batch is deleted. A submission is looked
// up before its step.
func TestCallsOfAStep(t *testing.T) {
	t.Parallel()
	p, got, w := newPlace(t), &answers{}, &watch{groups: map[string]*group{}}
	config := p.config()
	clock := &stopped{Clock: config.Machine.Clock}
	config.Machine.Clock = clock
	// The next step may begin at once, as after a step that took longer than the interval.
	config.Pace.Interval, config.Pace.MaxWritten = 0, 0
	config.Stores.Objects, config.Stores.Lock, config.Stores.Index = watchedObjects{config.Stores.Objects, w},
		watchedLock{config.Stores.Lock, w}, watchedIndex{config.Stores.Index, w}
	l := started(t, config)
	// A submission that comes while the node does not wait may be followed by a round without submissions.
	submits := func(from, to int) {
		t.Helper()
		eventually(t, "the node waits", clock.waits.Load)
		got.submit(t, l, from, to)
		eventually(t, "the node waits", clock.waits.Load)
	}
	// The issuers of these entries are put once, and the node makes the newest state.
	submits(0, 5)
	submits(5, 6)
	w.expects("put staging", "delete staging")
	w.expects("put tile", "put tile/data", "add to index")
	w.turn(true)
	const short = 10
	for entry := 6; entry < 6+short; entry++ {
		submits(entry, entry+1)
	}
	clock.elapsed.Add(int64(time.Second))
	w.expects("put staging")
	w.expects("swap lock", "list heads")
	submits(6+short, 7+short)
	w.turn(false)
	steps := w.steps()
	if len(steps) != short+1 {
		t.Fatalf("%d steps were made", len(steps))
	}
	for i, calls := range steps {
		expected := "add to index, delete staging, put heads, put staging, put tile, put tile/data, raise lock, swap lock"
		if i == short {
			expected = "add to index, list heads, put heads, put staging, put tile, put tile/data, raise lock, swap lock"
		}
		if made := strings.Join(namesOf(calls), ", "); made != expected {
			t.Errorf("a step made other calls than expected:\n%s\n%s", made, expected)
		}
		if chain := chainOf(calls); chain != 5 {
			t.Errorf("the longest chain of a step's calls has %d calls, and not 5", chain)
		}
	}
	if leaves := p.checkLog(got); leaves != 7+short {
		t.Errorf("the log has %d entries", leaves)
	}
}

// counting is a signer that counts its calls.
type counting struct {
	signer.Signer
	lasts, steps, timestamps atomic.Int64
}

func (c *counting) Last(ctx context.Context) (*ct.TreeHead, error) {
	c.lasts.Add(1)
	return c.Signer.Last(ctx)
}

func (c *counting) SignStep(ctx context.Context, step signer.Step) ([][]byte, error) {
	c.steps.Add(1)
	return c.Signer.SignStep(ctx, step)
}

func (c *counting) SignTimestamps(ctx context.Context, receipts []signer.Receipt) ([][]byte, error) {
	c.timestamps.Add(1)
	return c.Signer.SignTimestamps(ctx, receipts)
}

// TestSignsEachStepInOneRequest checks that the head and the SCTs of a step are signed in one request, whatever the
// size of the tree is. Only the SCT of a duplicate needs another request. The signer's last head is asked for before
// the first head that this node has signed, and not again.
func TestSignsEachStepInOneRequest(t *testing.T) {
	t.Parallel()
	p, got := newPlace(t), &answers{}
	config := p.config()
	asked := &counting{Signer: config.Signer}
	config.Signer = asked
	l := started(t, config)
	const steps = 40
	got.submit(t, l, 0, 1)
	lasts := asked.lasts.Load()
	for i := 1; i < steps; i++ {
		got.submit(t, l, i, i+1)
	}
	if asked.lasts.Load() != lasts {
		t.Errorf("the last head was asked for %d times more", asked.lasts.Load()-lasts)
	}
	if asked.steps.Load() != steps || asked.timestamps.Load() != 0 {
		t.Errorf("%d steps were signed by %d requests for a step and %d others", steps, asked.steps.Load(),
			asked.timestamps.Load())
	}
	got.submit(t, l, 7, 8)
	if asked.steps.Load() != steps || asked.timestamps.Load() != 1 {
		t.Errorf("a duplicate was signed by %d requests for a step and %d others", asked.steps.Load()-steps,
			asked.timestamps.Load())
	}
}
