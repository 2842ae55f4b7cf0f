package watch

import (
	"errors"
	"sync"
	"time"
)

// errUnconfirmed means that a log would be accused by this machine's clock, and that no other log has signed a head yet
// with which the clock can be compared.
var errUnconfirmed = errors.New("watch: this machine's clock accuses the log, and no other log has confirmed the clock yet")

// Times hold the newest timestamp that each of several logs signed. A log does not sign a head before its time. So the
// newest head of the other logs shows that its time has passed, whatever the machine's clock says. Times may be used by
// several goroutines.
type Times struct {
	mutex  sync.Mutex
	newest map[LogID]uint64 // milliseconds since 1970; 0 for a log that has signed no head yet
}

// NewTimes returns the times of logs that have signed no head yet.
func NewTimes(logs []Log) *Times {
	t := &Times{newest: map[LogID]uint64{}}
	t.setLogs(logs)
	return t
}

// setLogs sets the logs that are compared from now on. A log that need not sign new heads is not among them.
func (t *Times) setLogs(logs []Log) {
	t.mutex.Lock()
	defer t.mutex.Unlock()
	kept := map[LogID]uint64{}
	for _, log := range logs {
		if !frozenStates[log.State] {
			kept[log.ID] = t.newest[log.ID]
		}
	}
	t.newest = kept
}

// Add records the timestamp of a head that a log signed.
func (t *Times) Add(id LogID, timestamp uint64) {
	t.mutex.Lock()
	defer t.mutex.Unlock()
	if last, ok := t.newest[id]; ok {
		t.newest[id] = max(last, timestamp)
	}
}

// newestOther returns the newest timestamp of the logs except one, and whether there are such logs.
func (t *Times) newestOther(id LogID) (newest uint64, hasOthers bool) {
	t.mutex.Lock()
	defer t.mutex.Unlock()
	for other, timestamp := range t.newest {
		if other != id {
			newest, hasOthers = max(newest, timestamp), true
		}
	}
	return newest, hasOthers
}

// Passed returns a time that has passed. It is the machine's time, or that of the newest head of the other logs if that
// one is earlier. So a clock that is ahead does not accuse a log of lateness. If there is no other log, it is the
// machine's time. isKnown is false if there are other logs and none of them has signed a head yet.
func (t *Times) Passed(id LogID, machine time.Time) (passed time.Time, isKnown bool) {
	newest, hasOthers := t.newestOther(id)
	switch {
	case !hasOthers:
		return machine, true
	case newest == 0:
		return time.Time{}, false
	}
	if signed := timeOf(newest); signed.Before(machine) {
		return signed, true
	}
	return machine, true
}

// Reached returns the latest time that it can be. It is the machine's time, or that of the newest head of the other
// logs if that one is later. So a clock that is behind does not accuse a log of a timestamp in the future. If there is
// no other log, the newest head of the log itself counts.
func (t *Times) Reached(id LogID, machine time.Time) time.Time {
	newest, hasOthers := t.newestOther(id)
	if !hasOthers {
		t.mutex.Lock()
		newest = t.newest[id]
		t.mutex.Unlock()
	}
	if signed := timeOf(newest); signed.After(machine) {
		return signed
	}
	return machine
}

// timeOf returns the time of a timestamp in milliseconds. A timestamp that is beyond every clock is cut.
func timeOf(timestamp uint64) time.Time { return time.UnixMilli(int64(min(timestamp, 1<<62))) }
