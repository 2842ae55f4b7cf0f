package service

import (
	"context"
	"errors"
	"fmt"
	"sort"
	"sync"
	"time"

	"wagtenib/internal/blob"
	"wagtenib/internal/witness"
)

const (
	// askInterval is the interval at which other machines are asked for the time, and askWithin the maximum time for
	// their answers.
	askInterval = 10 * time.Second
	askWithin   = 3 * time.Second
	// maxReadingAge is the time for which an answer counts.
	maxReadingAge = 10 * time.Minute
)

// timedStore is a store on another machine that has a clock.
type timedStore struct {
	name string
	blob.Timed
}

// clockReading is the answer of another clock.
type clockReading struct {
	// at is its time of day, which may be off by margin because of the precision and duration of the answer.
	at     time.Time
	margin time.Duration
	// elapsed is the time since boot of this machine when that was the time of day.
	elapsed time.Duration
}

// sources compares the machine's time of day with other sources: the kernel, the clocks of the stores' machines, of the
// node that makes the steps and of the witnesses, and the day that the operator names. The comparison is needed because
// the timestamps of a log must never fall: a timestamp in the future stops the log until then.
type sources struct {
	clock       Clock
	files       Files
	bounds      ClockBounds
	timedStores []timedStore
	// askNow wakes the loop that asks the other clocks.
	askNow chan struct{}

	mu sync.Mutex
	// ofStores has the last readings of the stores' clocks by their names, and ofNode the last one of another node by
	// its address.
	ofStores map[string]clockReading
	ofNode   map[string]clockReading
	// ofWitnesses has the last readings of the witnesses on other machines by their names.
	ofWitnesses map[string]clockReading
}

// newSources returns the sources of a log over these stores.
func newSources(clock Clock, bounds ClockBounds, files Files, of Stores) *sources {
	s := &sources{clock: clock, bounds: bounds, files: files, askNow: make(chan struct{}, 1),
		ofStores: map[string]clockReading{}, ofNode: map[string]clockReading{}, ofWitnesses: map[string]clockReading{}}
	for _, one := range []struct {
		name  string
		store any
	}{{"the objects' store", of.Objects}, {"the lock's store", of.Lock}, {"the index's store", of.Index}} {
		if timed, ok := one.store.(blob.Timed); ok {
			s.timedStores = append(s.timedStores, timedStore{one.name, timed})
		}
	}
	return s
}

// Compare implements node.Sources. The kernel, the stores' machines and the node that makes the steps always count. The
// witnesses can confirm the time. They can refuse it only when a node starts, because a witness's clock must not stop a
// running log.
func (s *sources) Compare(now time.Time, elapsed time.Duration, starts bool) (bool, error) {
	isVouched, err := s.compare(now, elapsed, starts)
	if err != nil {
		s.askSoon()
	}
	return isVouched, err
}

func (s *sources) compare(now time.Time, elapsed time.Duration, starts bool) (bool, error) {
	isSynchronized, isKnown := s.clock.Synchronized()
	if s.bounds.Synchronized && !(isSynchronized && isKnown) {
		return false, errors.New("it is not synchronized, or the kernel does not know whether it is " +
			"(start an NTP client, or unset --require-synchronized-clock)")
	}
	s.mu.Lock()
	defer s.mu.Unlock()
	isVouched := isSynchronized && isKnown
	for _, readings := range []map[string]clockReading{s.ofStores, s.ofNode} {
		for name, of := range readings {
			if elapsed-of.elapsed > maxReadingAge {
				continue
			}
			if err := s.checkSkew(now.Sub(of.at.Add(elapsed-of.elapsed)), of.margin, name); err != nil {
				return false, err
			}
			isVouched = true
		}
	}
	isWitnessed, skew := s.compareWitnesses(now, elapsed)
	if isVouched || isWitnessed && skew == nil {
		return true, nil
	}
	if starts && skew != nil {
		return false, skew
	}
	return starts && s.isNamed(now), nil
}

// compareWitnesses compares the time of day with the median of the witnesses' clocks, because some witnesses may lie or
// have wrong clocks. If there is no reading of a witness, isKnown is false. The caller holds the mutex.
func (s *sources) compareWitnesses(now time.Time, elapsed time.Duration) (isKnown bool, err error) {
	var all []clockReading
	for _, of := range s.ofWitnesses {
		if elapsed-of.elapsed <= maxReadingAge {
			of.at, of.elapsed = of.at.Add(elapsed-of.elapsed), elapsed
			all = append(all, of)
		}
	}
	if len(all) == 0 {
		return false, nil
	}
	sort.Slice(all, func(i, j int) bool { return all[i].at.Before(all[j].at) })
	median := all[(len(all)-1)/2]
	return true, s.checkSkew(now.Sub(median.at), median.margin, "the witnesses")
}

// checkSkew returns an error if this machine's clock differs from another one by more than the bound and a margin.
func (s *sources) checkSkew(ahead, margin time.Duration, other string) error {
	switch {
	case ahead > s.bounds.MaxSkew+margin:
		return fmt.Errorf("it is ahead of %s by %v (set it right)", other, ahead.Round(time.Millisecond))
	case -ahead > s.bounds.MaxSkew+margin:
		return fmt.Errorf("it is behind %s by %v (set it right)", other, (-ahead).Round(time.Millisecond))
	}
	return nil
}

// isNamed reports whether the operator named this day.
func (s *sources) isNamed(now time.Time) bool {
	day, err := readDay(s.files.NamedDay)
	return err == nil && isOn(day, now)
}

// record records the time of another clock. asked is the time by Elapsed at which it was asked. The time counts as that
// of the middle between the question and now, and half of that duration is added to its margin.
func (s *sources) record(into map[string]clockReading, name string, at time.Time, margin, asked time.Duration) {
	took := s.clock.Elapsed() - asked
	s.mu.Lock()
	defer s.mu.Unlock()
	into[name] = clockReading{at, margin + took/2, asked + took/2}
}

// recordNode records the time of the node that makes the steps. It forgets every other node.
func (s *sources) recordNode(address string, at time.Time, asked time.Duration) {
	s.mu.Lock()
	s.ofNode = map[string]clockReading{}
	into := s.ofNode
	s.mu.Unlock()
	s.record(into, "the node "+address, at, time.Second, asked)
}

// recordWitness records the time of a witness's cosignature.
func (s *sources) recordWitness(name, line string, asked time.Duration) {
	if _, at, ok := witness.TimestampOf(line); ok {
		s.record(s.ofWitnesses, name, at, time.Second, asked)
	}
}

// ask asks the clocks of all timed stores at the same time. A store that does not answer is asked again later.
func (s *sources) ask(ctx context.Context) {
	ctx, cancel := context.WithTimeout(ctx, askWithin)
	defer cancel()
	var all sync.WaitGroup
	for _, one := range s.timedStores {
		all.Add(1)
		go func() {
			defer all.Done()
			asked := s.clock.Elapsed()
			if at, margin, err := one.Time(ctx); err == nil {
				s.record(s.ofStores, one.name, at, margin, asked)
			}
		}()
	}
	all.Wait()
}

// askSoon makes the loop of run ask the other clocks without waiting for the interval.
func (s *sources) askSoon() {
	select {
	case s.askNow <- struct{}{}:
	default:
	}
}

// run asks the timed stores at each interval until the context ends, and calls askNode, which asks the node that makes
// the steps.
func (s *sources) run(ctx context.Context, askNode func(context.Context)) {
	for s.clock.Wait(ctx, askInterval, s.askNow) == nil {
		s.ask(ctx)
		askNode(ctx)
		// A second passes before the next question, even if askSoon was called.
		if s.clock.Wait(ctx, time.Second, nil) != nil {
			return
		}
	}
}
