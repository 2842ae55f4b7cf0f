// Package memorylog is a log in memory behind a front, for tests of the front. Its tree, its tiles and its signatures are
// those of testkit.Log.
package memorylog

import (
	"context"
	"crypto/ecdsa"
	"crypto/sha256"
	"encoding/json"
	"strings"
	"sync"
	"time"

	"wagtenib/internal/blob"
	"wagtenib/internal/ct"
	"wagtenib/internal/log"
	"wagtenib/internal/testkit"
)

// Log is a log in memory. It publishes a head when Publish is called, and if Interval is above 0, at each interval.
type Log struct {
	Key      *ecdsa.PrivateKey
	Interval time.Duration
	// MaxQueue is the maximum number of waiting submissions.
	MaxQueue int
	Troubles

	mutex   sync.Mutex
	of      *testkit.Log
	head    ct.SignedHead
	waiting []waiting
	ended   bool
	stop    chan struct{}
}

// Troubles are the ways in which a log misbehaves.
type Troubles struct {
	// Fault is the error of each call, or nil.
	Fault error
	// Damage is the description of a damaged tile in the metrics.
	Damage string
	// Slow is the time that each read takes.
	Slow time.Duration
	// faults counts the faults, and lastFault is the last one.
	faults    uint64
	lastFault string
}

type waiting struct {
	entry ct.Entry
	place chan ct.SCT
}

// New makes a log without entries, which publishes at each interval. If the interval is 0, it publishes only when
// Publish is called.
func New(interval time.Duration) *Log {
	of := testkit.NewLog("log.example/stand-in")
	l := &Log{Key: of.Key, Interval: interval, MaxQueue: 1024, of: of, stop: make(chan struct{})}
	l.publish()
	if interval > 0 {
		go l.run()
	}
	return l
}

func (l *Log) run() {
	timer := time.NewTicker(l.Interval)
	defer timer.Stop()
	for {
		select {
		case <-timer.C:
			l.Publish()
		case <-l.stop:
			return
		}
	}
}

// Submit implements log.Log.
func (l *Log) Submit(ctx context.Context, entry ct.Entry) (ct.SCT, error) {
	w := waiting{entry, make(chan ct.SCT, 1)}
	l.mutex.Lock()
	var err error
	switch {
	case l.Fault != nil:
		err = l.Fault
	case l.ended:
		err = log.ErrEnded
	case len(l.waiting) >= l.MaxQueue:
		err = log.ErrBusy
	default:
		l.waiting = append(l.waiting, w)
	}
	l.mutex.Unlock()
	if err != nil {
		return ct.SCT{}, err
	}
	select {
	case place := <-w.place:
		return place, nil
	case <-ctx.Done():
		return ct.SCT{}, ctx.Err()
	}
}

// Add publishes entries without waiting for their places.
func (l *Log) Add(entries []ct.Entry) {
	l.mutex.Lock()
	defer l.mutex.Unlock()
	for _, entry := range entries {
		l.waiting = append(l.waiting, waiting{entry, make(chan ct.SCT, 1)})
	}
	l.publish()
}

// Publish publishes the waiting submissions.
func (l *Log) Publish() {
	l.mutex.Lock()
	defer l.mutex.Unlock()
	if len(l.waiting) > 0 {
		l.publish()
	}
}

// publish publishes a head over the waiting submissions. The caller must hold the mutex.
func (l *Log) publish() {
	now := uint64(time.Now().UnixMilli())
	batch := l.waiting
	l.waiting = nil
	var places []ct.SCT
	for _, w := range batch {
		places = append(places, l.take(EntryOf(w.entry, now)))
	}
	size := l.of.Size()
	l.of.Publish(size, now)
	var sth struct {
		Signature []byte `json:"tree_head_signature"`
	}
	if err := json.Unmarshal(l.of.STH(), &sth); err != nil {
		panic(err) // The log wrote it.
	}
	l.head = ct.SignedHead{TreeHead: ct.TreeHead{TreeSize: size, Timestamp: now, Root: l.of.Root(size)},
		Signed: l.of.Checkpoint(), Signature: sth.Signature}
	for i, w := range batch {
		w.place <- places[i]
	}
}

// EntryOf returns an entry as testkit has it.
func EntryOf(entry ct.Entry, timestamp uint64) testkit.Entry {
	of := testkit.Entry{Timestamp: timestamp, Certificate: entry.Certificate, Chain: entry.Issuers}
	if entry.Type == ct.PrecertEntry {
		of.Certificate, of.IssuerKeyHash = entry.TBSCertificate, entry.IssuerKeyHash[:]
		of.Precertificate = entry.Precertificate
	}
	return of
}

// take adds an entry to the tree.
func (l *Log) take(entry testkit.Entry) ct.SCT {
	index := l.of.Size()
	l.of.Add(entry)
	// An SCT has its version, the log's ID, the timestamp and the extensions with their length before the signature.
	const before = 1 + sha256.Size + 8 + 2
	sct, extensions := l.of.SCT(entry, index), testkit.Extensions(index)
	return ct.SCT{Timestamp: entry.Timestamp, Extensions: extensions,
		LogID: sha256.Sum256(l.of.PublicKey()), Signature: sct[before+len(extensions):]}
}

// Checkpoint implements log.Log.
func (l *Log) Checkpoint(ctx context.Context) (ct.SignedHead, error) {
	if err := l.slowly(ctx); err != nil {
		return ct.SignedHead{}, err
	}
	l.mutex.Lock()
	defer l.mutex.Unlock()
	return l.head, l.Fault
}

// HeadOf implements log.Log.
func (l *Log) HeadOf(ctx context.Context, _ uint64) (ct.SignedHead, error) {
	return l.Checkpoint(ctx)
}

// Object implements log.Log.
func (l *Log) Object(ctx context.Context, name string, maxBytes int64) ([]byte, error) {
	if err := l.slowly(ctx); err != nil {
		return nil, err
	}
	l.mutex.Lock()
	defer l.mutex.Unlock()
	if l.Fault != nil {
		return nil, l.Fault
	}
	// The log deletes a partial tile after the full one is there.
	full, _, isPartial := strings.Cut(name, ".p/")
	_, isFull := l.of.Object(full)
	content, ok := l.of.Object(name)
	if !ok || isPartial && isFull {
		return nil, blob.ErrAbsent
	}
	if int64(len(content)) > maxBytes {
		return nil, blob.TooLong{Length: int64(len(content))}
	}
	return content, nil
}

func (l *Log) slowly(ctx context.Context) error {
	select {
	case <-time.After(l.Slow):
		return ctx.Err()
	case <-ctx.Done():
		return ctx.Err()
	}
}

// Change replaces the content of a name. A nil content deletes it.
func (l *Log) Change(name string, content []byte) { l.of.Change(name, content) }

// SetFault makes each call return an error. A nil error ends the fault.
func (l *Log) SetFault(err error) {
	l.mutex.Lock()
	defer l.mutex.Unlock()
	if err != nil {
		l.faults++
		l.lastFault = err.Error()
	}
	l.Fault = err
}

// AddPastFault adds a fault that is over to the metrics.
func (l *Log) AddPastFault(fault string) {
	l.mutex.Lock()
	defer l.mutex.Unlock()
	l.faults++
	l.lastFault = fault
}

// SetDamage sets the damage in the metrics. An empty text ends the damage.
func (l *Log) SetDamage(damage string) {
	l.mutex.Lock()
	defer l.mutex.Unlock()
	l.Damage = damage
}

// IndexOf implements log.Log.
func (l *Log) IndexOf(ctx context.Context, leafHash [32]byte) (uint64, error) {
	if err := l.slowly(ctx); err != nil {
		return 0, err
	}
	index, ok := l.of.IndexOf(leafHash)
	if !ok {
		return 0, blob.ErrAbsent
	}
	return index, nil
}

// End implements log.Log.
func (l *Log) End(ctx context.Context) error {
	l.mutex.Lock()
	defer l.mutex.Unlock()
	if !l.ended {
		l.ended = true
		close(l.stop)
		l.publish()
	}
	return ctx.Err()
}

// Metrics implements log.Log.
func (l *Log) Metrics() log.Metrics {
	l.mutex.Lock()
	defer l.mutex.Unlock()
	metrics := log.Metrics{
		Queue: len(l.waiting), MaxQueue: l.MaxQueue, Entries: l.head.TreeSize,
		HeadAge: time.Since(time.UnixMilli(int64(l.head.Timestamp))),
		Rounds: log.Rounds{LostSwaps: 3, Unpublished: 18, SinceRound: 2500 * time.Millisecond, WrittenBytes: 16,
			Phases:  []log.Phase{{Name: "stage", Count: 17, Duration: 1500 * time.Millisecond}},
			Batches: log.Batches{Steps: 20, Submissions: 21, UpTo: map[int]uint64{1: 18, 8: 20}}},
		Answers: log.Answers{SignerStarts: 7, WrongSignatures: 22, VerifiedSCTs: 23, UnverifiedSCTs: 24},
		Janitor: log.Janitor{DeletedTiles: 4, DeletedHeads: 8, RereadTiles: 5, DeletedBatches: 11,
			StagedBatches: 12, JanitorFailures: 13, JanitorFailure: "nothing is deleted", DeletedTo: 512, ReadNext: 19},
		Damages:  log.Damages{Damaged: 6, Damage: l.Damage, DamagedIssuers: 9, Repaired: 10, LastRepaired: "issuer/07"},
		Faulting: log.Faulting{Faults: l.faults, LastFault: l.lastFault},
		Witnesses: []log.Witness{{Name: "w.example", Missed: 14, Cosigned: 15, IsAhead: true,
			Fault: "it has seen 7 entries"}},
	}
	if l.Fault != nil {
		metrics.Fault = l.Fault.Error()
	}
	return metrics
}
