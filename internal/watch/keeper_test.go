package watch_test

import (
	"errors"
	"sync"
	"testing"

	"wagtenib/internal/testkit"
	"wagtenib/internal/watch"
)

// errKilled is the error of the call at which a keeper is killed.
var errKilled = errors.New("the keeper was killed")

// keeper implements watch.Keeper in memory. Each call stores all or nothing. A test can let one call fail before or
// after it has stored something.
type keeper struct {
	mutex    sync.Mutex
	states   map[watch.LogID]watch.State
	entries  map[watch.LogID][]watch.Entry // all entries of the calls of Keep that stored something
	accused  map[watch.LogID][]watch.Evidence
	statuses map[watch.LogID]watch.Status
	reported chan watch.Status
	calls    int
	killAt   int  // the number of the call that fails; 0 for none
	stores   bool // the call that fails stores first
}

func newKeeper() *keeper {
	return &keeper{states: map[watch.LogID]watch.State{}, entries: map[watch.LogID][]watch.Entry{},
		accused:  map[watch.LogID][]watch.Evidence{},
		statuses: map[watch.LogID]watch.Status{}, reported: make(chan watch.Status, 1000)}
}

// store counts one call, and stores, unless the keeper is killed before that.
func (k *keeper) store(put func()) error {
	k.mutex.Lock()
	defer k.mutex.Unlock()
	k.calls++
	if k.killAt == k.calls {
		if k.stores {
			put()
		}
		return errKilled
	}
	put()
	return nil
}

func (k *keeper) Load(id watch.LogID) (state watch.State, err error) {
	err = k.store(func() { state = k.states[id] })
	return state, err
}

func (k *keeper) Keep(log watch.Log, next watch.State, entries []watch.Entry) error {
	return k.store(func() {
		k.states[log.ID] = next
		k.entries[log.ID] = append(k.entries[log.ID], entries...)
	})
}

func (k *keeper) Accuse(log watch.Log, next watch.State, evidence watch.Evidence) error {
	return k.store(func() {
		k.states[log.ID] = next
		k.accused[log.ID] = append(k.accused[log.ID], evidence)
	})
}

func (k *keeper) Report(status watch.Status) {
	k.mutex.Lock()
	k.statuses[status.Log.ID] = status
	k.mutex.Unlock()
	select {
	case k.reported <- status:
	default: // No test waits for so many reports.
	}
}

// hasStatus reports whether a log's status was reported.
func (k *keeper) hasStatus(id watch.LogID) bool {
	k.mutex.Lock()
	defer k.mutex.Unlock()
	_, ok := k.statuses[id]
	return ok
}

// verdicts returns the verdicts of the evidence against a log, in order.
func (k *keeper) verdicts(id watch.LogID) (verdicts []string) {
	k.mutex.Lock()
	defer k.mutex.Unlock()
	for _, evidence := range k.accused[id] {
		verdicts = append(verdicts, evidence.Verdict)
	}
	return verdicts
}

// indexes returns the indexes of the entries that were kept, in order.
func (k *keeper) indexes(id watch.LogID) (indexes []uint64) {
	k.mutex.Lock()
	defer k.mutex.Unlock()
	for _, entry := range k.entries[id] {
		indexes = append(indexes, entry.Index)
	}
	return indexes
}

// epoch is the time at which the logs of the tests begin, in milliseconds since 1970. Their heads are old by the
// machine's clock, so a log of a test has a maximum merge delay only if the test is about that.
const epoch = 1_800_000_000_000

// makeEntries returns entries with made-up certificates. Their indexes begin with first, and their timestamps are one
// second apart.
func makeEntries(first, count uint64) (entries []testkit.Entry) {
	for i := first; i < first+count; i++ {
		entries = append(entries, testkit.Entry{Timestamp: epoch + 1000*i, Certificate: []byte{0x30, 3, byte(i >> 16),
			byte(i >> 8), byte(i)}})
	}
	return entries
}

// newLog returns a log with this number of entries, and a head that covers them.
func newLog(t testing.TB, count uint64) *testkit.Log {
	t.Helper()
	log := testkit.NewLog("log.example/2027")
	grow(log, count)
	return log
}

// grow adds entries to a log, and signs a head that covers all of them.
func grow(log *testkit.Log, count uint64) {
	log.Add(makeEntries(log.Size(), count)...)
	log.Publish(log.Size(), epoch+1000*log.Size())
}

var _ watch.Keeper = (*keeper)(nil)

// within is the maximum time for which a test waits, on a machine that is busy.
const within = testkit.Patience
