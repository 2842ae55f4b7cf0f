package service_test

import (
	"context"
	"crypto/ecdsa"
	"crypto/elliptic"
	"crypto/rand"
	"crypto/sha256"
	"crypto/x509"
	"encoding/pem"
	"errors"
	"fmt"
	"io/fs"
	"os"
	"path/filepath"
	"strings"
	"sync"
	"testing"
	"time"

	"wagtenib/internal/audit/judge"
	"wagtenib/internal/blob"
	"wagtenib/internal/ct"
	"wagtenib/internal/log"
	"wagtenib/internal/log/service"
	"wagtenib/internal/log/signer"
	"wagtenib/internal/testkit"
)

var must, wants = testkit.Must, testkit.WantError

// limited returns a context that ends with the longest time that a test may take.
func limited(t testing.TB) context.Context { return testkit.Limited(t, testkit.Longest) }

// place is a folder with a log's key, its stores and the files of its machine.
type place struct {
	t      testing.TB
	folder string
	key    *signer.Key
	index  blob.Index
}

func newPlace(t testing.TB) *place {
	t.Helper()
	p := &place{t: t, folder: t.TempDir()}
	key, err := ecdsa.GenerateKey(elliptic.P256(), rand.Reader)
	must(t, err)
	der, err := x509.MarshalECPrivateKey(key)
	must(t, err)
	must(t, os.WriteFile(p.path("key.pem"), pem.EncodeToMemory(&pem.Block{Type: "EC PRIVATE KEY", Bytes: der}), 0o600))
	p.key, err = signer.OpenKey(p.path("key.pem"))
	must(t, err)
	return p
}

func (p *place) path(name string) string { return filepath.Join(p.folder, name) }

// object returns the path of an object.
func (p *place) object(name string) string { return filepath.Join(p.folder, "objects", name) }

// opened returns the index. It is opened once for all configurations, because its folder can be opened only once. If a
// test removed the folder, the index is opened again.
func (p *place) opened() blob.Index {
	p.t.Helper()
	if _, err := os.Stat(p.path("index")); p.index != nil && err == nil {
		return p.index
	}
	if p.index == nil {
		p.t.Cleanup(func() { must(p.t, p.index.Close()) })
	} else {
		must(p.t, p.index.Close())
	}
	var err error
	p.index, err = blob.IndexAt(limited(p.t), "leveldb:"+p.path("index"))
	must(p.t, err)
	return p.index
}

// config opens the stores, and closes them at the test's end. The janitor waits for an hour, and the kernel reports
// that the clock is synchronized.
func (p *place) config() service.Config {
	p.t.Helper()
	ctx := limited(p.t)
	config := service.Config{
		Origin: "log.example/tried", Create: true,
		Pace: service.Pace{Interval: 5 * time.Millisecond, Refresh: time.Hour, MaxWritten: 16 << 20,
			MaxBatch: service.MaxBatch, MaxQueue: 4096},
		Keep: service.Keep{Heads: time.Hour, Tiles: 5 * time.Minute, Interval: time.Hour, Reread: time.Hour},
		Machine: service.MachineConfig{Files: service.Files{LatestHead: p.path("latest-head"), NamedDay: p.path("day")},
			ClockBounds: service.ClockBounds{MaxSkew: 10 * time.Second}, Clock: newSkewedClock(0)},
	}
	objects, err := blob.ObjectsAt(ctx, "folder:"+p.path("objects"))
	must(p.t, err)
	lock, err := blob.LockAt(ctx, "file:"+p.path("register"))
	must(p.t, err)
	p.t.Cleanup(func() { must(p.t, errors.Join(lock.Close(), objects.Close())) })
	config.Stores = service.Stores{Objects: objects, Lock: lock, Index: p.opened()}
	state, err := blob.OpenFile(p.path("guard"))
	must(p.t, err)
	config.Signer, err = signer.NewGuarded(ctx, p.key, signer.Guard{State: state, Create: true})
	must(p.t, err)
	return config
}

// started opens a log, and ends it at the test's end.
func started(t testing.TB, config service.Config) *service.Log {
	t.Helper()
	l, err := service.Open(limited(t), config)
	must(t, err)
	t.Cleanup(func() {
		// A test that checks the error ends the log itself.
		ctx, cancel := context.WithTimeout(context.Background(), 10*time.Second)
		defer cancel()
		if err := l.End(ctx); err != nil {
			t.Log(err)
		}
	})
	return l
}

// ends ends a log, and fails the test if that fails.
func ends(t testing.TB, l *service.Log) {
	t.Helper()
	must(t, l.End(limited(t)))
}

// eventually waits until a condition is true.
func eventually(t testing.TB, what string, condition func() bool) {
	t.Helper()
	for until := time.Now().Add(testkit.Patience); !condition(); time.Sleep(time.Millisecond) {
		if time.Now().After(until) {
			t.Fatalf("this does not happen: %s", what)
		}
	}
}

// entryOf returns the entry with a number. Every third one is a precertificate.
func entryOf(i int) ct.Entry {
	text := []byte(strings.Repeat(fmt.Sprintf("%d;", i), 1+i%40))
	issuers := [][]byte{[]byte(fmt.Sprint("issuer ", i%5)), []byte("root")}
	if i%3 == 0 {
		return ct.Entry{Type: ct.PrecertEntry, IssuerKeyHash: sha256.Sum256(issuers[0]), TBSCertificate: text,
			Precertificate: append([]byte("pre"), text...), Issuers: issuers}
	}
	return ct.Entry{Type: ct.X509Entry, Certificate: text, Issuers: issuers}
}

// answers has the answers that clients got.
type answers struct {
	mu  sync.Mutex
	all []judge.Answer
}

// indexOf returns the index that an SCT names.
func indexOf(sct ct.SCT) uint64 {
	index, _ := sct.Index()
	return index
}

func (a *answers) add(entry ct.Entry, place ct.SCT) {
	a.mu.Lock()
	defer a.mu.Unlock()
	one := judge.Answer{Certificate: entry.Certificate, Timestamp: place.Timestamp, Extensions: place.Extensions,
		Signature: place.Signature, LogID: place.LogID[:]}
	if entry.Type == ct.PrecertEntry {
		one.IssuerKeyHash, one.TBSCertificate = entry.IssuerKeyHash[:], entry.TBSCertificate
	}
	a.all = append(a.all, one)
}

// submit submits the entries with the numbers from, .., to-1 at the same time. Each must be answered.
func (a *answers) submit(t testing.TB, l log.Log, from, to int) {
	t.Helper()
	ctx := limited(t)
	failed := make(chan error, to-from)
	var all sync.WaitGroup
	for n := from; n < to; n++ {
		all.Add(1)
		go func() {
			defer all.Done()
			place, err := l.Submit(ctx, entryOf(n))
			if err != nil {
				failed <- fmt.Errorf("%d: %w", n, err)
				return
			}
			a.add(entryOf(n), place)
		}()
	}
	all.Wait()
	if len(failed) > 0 {
		t.Fatal(<-failed)
	}
}

// checkLog checks the log's folder and all answers with judge, which shares no code with the node. It returns the
// number of entries.
func (p *place) checkLog(a *answers) int {
	p.t.Helper()
	for {
		report, err := judge.Folder(p.path("objects"), p.key.Key(), a.all)
		if errors.Is(err, fs.ErrNotExist) || errors.Is(err, blob.ErrAbsent) {
			// The janitor deleted an object during the check.
			continue
		}
		must(p.t, err)
		if report.Repeats != 0 {
			p.t.Fatalf("%d entries are in the log twice", report.Repeats)
		}
		return report.Leaves
	}
}

// skewedClock is this machine's clock, set ahead by some time. The test decides whether it is synchronized by the
// kernel's report.
type skewedClock struct {
	service.Clock
	mu             sync.Mutex
	by             time.Duration
	isSynchronized bool
}

func newSkewedClock(by time.Duration) *skewedClock {
	return &skewedClock{Clock: service.Machine(), by: by, isSynchronized: by == 0}
}

func (b *skewedClock) set(by time.Duration, isSynchronized bool) {
	b.mu.Lock()
	defer b.mu.Unlock()
	b.by, b.isSynchronized = by, isSynchronized
}

func (b *skewedClock) Now() time.Time {
	b.mu.Lock()
	defer b.mu.Unlock()
	return b.Clock.Now().Add(b.by)
}

func (b *skewedClock) Synchronized() (isSynchronized, isKnown bool) {
	b.mu.Lock()
	defer b.mu.Unlock()
	return b.isSynchronized, true
}
