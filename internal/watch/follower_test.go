package watch_test

import (
	"context"
	"crypto/sha256"
	"errors"
	"fmt"
	"net/http"
	"net/http/httptest"
	"slices"
	"testing"
	"time"

	"wagtenib/internal/logclient"
	"wagtenib/internal/testkit"
	"wagtenib/internal/watch"
)

// kinds are the kinds of logs.
var kinds = []string{"tiled", "RFC 6962"}

// watched returns the description of a log of this kind at a URL.
func watched(log *testkit.Log, url, kind string) watch.Log {
	description := watch.Log{ID: sha256.Sum256(log.PublicKey()), Name: kind, URL: url, PublicKey: log.PublicKey()}
	if kind == "tiled" {
		description.Origin = log.Origin
	}
	return description
}

// serve serves a log, and returns its description.
func serve(t testing.TB, log *testkit.Log, kind string) watch.Log {
	t.Helper()
	server := httptest.NewServer(log)
	t.Cleanup(server.Close)
	return watched(log, server.URL, kind)
}

// newFollower returns a follower of a log, or ends the test.
func newFollower(t testing.TB, log watch.Log, k watch.Keeper, options watch.Options) *watch.Follower {
	t.Helper()
	f, err := watch.NewFollower(log, k, options)
	if err != nil {
		t.Fatal(err)
	}
	return f
}

// numbers returns the numbers from first to end-1.
func numbers(first, end uint64) (all []uint64) {
	for i := first; i < end; i++ {
		all = append(all, i)
	}
	return all
}

func checkEntries(t testing.TB, k *keeper, id watch.LogID, expected []uint64) {
	t.Helper()
	if found := k.indexes(id); !slices.Equal(found, expected) {
		t.Errorf("%d entries were stored, which begin with %v, and %d are expected, which begin with %v", len(found),
			found[:min(len(found), 5)], len(expected), expected[:min(len(expected), 5)])
	}
}

func checkVerdicts(t testing.TB, k *keeper, id watch.LogID, expected ...string) {
	t.Helper()
	if found := k.verdicts(id); !slices.Equal(found, expected) {
		t.Errorf("the log is accused of %q, and %q is expected", found, expected)
	}
}

// A log that grows is followed from its start: each entry is stored once, in order, and unchanged.
func TestFollowsFromStart(t *testing.T) {
	for _, kind := range kinds {
		t.Run(kind, func(t *testing.T) {
			log := newLog(t, 0)
			listed := serve(t, log, kind)
			k := newKeeper()
			f := newFollower(t, listed, k, watch.Options{FromStart: true})
			for _, growth := range []uint64{0, 1, 255, 1, 700, 0, 3000, 44} {
				grow(log, growth)
				if growth == 0 {
					log.Publish(log.Size(), epoch+1000*log.Size()+500)
				}
				if err := f.Pass(context.Background()); err != nil {
					t.Fatalf("%d entries: %v", log.Size(), err)
				}
				state := k.states[listed.ID]
				if state.Accepted.TreeSize != log.Size() || state.Accepted.Root != log.Root(log.Size()) ||
					state.Read != log.Size() || len(state.Waiting.Signed) > 0 {
					t.Fatalf("%d entries are accepted and %d read, and the log has %d", state.Accepted.TreeSize, state.Read,
						log.Size())
				}
			}
			checkEntries(t, k, listed.ID, numbers(0, log.Size()))
			checkVerdicts(t, k, listed.ID)
			expected := makeEntries(0, log.Size())
			for i, entry := range k.entries[listed.ID] {
				if entry.Fault != nil || entry.Timestamp != expected[i].Timestamp ||
					string(entry.Certificate) != string(expected[i].Certificate) ||
					string(entry.Leaf) != string(expected[i].MerkleLeaf(uint64(i))) {
					t.Fatalf("entry %d is %+v", i, entry)
				}
			}
		})
	}
}

// A log of any size is followed from its end: no earlier entry is read, and no later one is left out.
func TestFollowsFromEnd(t *testing.T) {
	for _, kind := range kinds {
		for _, size := range []uint64{0, 1, 2, 3, 255, 256, 257, 300, 1000, 65_536, 65_537} {
			if size > 2000 && testing.Short() {
				continue
			}
			t.Run(fmt.Sprint(kind, size), func(t *testing.T) {
				log := newLog(t, size)
				listed := serve(t, log, kind)
				k := newKeeper()
				f := newFollower(t, listed, k, watch.Options{})
				if err := f.Pass(context.Background()); err != nil {
					t.Fatal(err)
				}
				if state := k.states[listed.ID]; state.Start != size || state.Read != size || state.Accepted.TreeSize != size {
					t.Fatalf("the state begins at %d and has read %d", state.Start, state.Read)
				}
				grow(log, 1300)
				if err := f.Pass(context.Background()); err != nil {
					t.Fatal(err)
				}
				checkEntries(t, k, listed.ID, numbers(size, size+1300))
				checkVerdicts(t, k, listed.ID)
			})
		}
	}
}

// A monitor that is killed at any call of its Keeper continues from the stored state. Each entry is stored once.
func TestKilledAtEachCall(t *testing.T) {
	for _, kind := range kinds {
		for _, stores := range []bool{false, true} {
			t.Run(fmt.Sprint(kind, stores), func(t *testing.T) {
				log := newLog(t, 10)
				listed := serve(t, log, kind)
				kills := 0
				for at := 1; ; at++ {
					k := newKeeper()
					k.killAt, k.stores = at, stores
					run := log.Fork(10)
					run.Publish(10, epoch+10_000)
					server := httptest.NewServer(run)
					listed.URL = server.URL
					killed := false
					f := newFollower(t, listed, k, watch.Options{FromStart: true})
					for _, growth := range []uint64{0, 600, 1, 2000} {
						grow(run, growth)
						for err := f.Pass(context.Background()); err != nil; err = f.Pass(context.Background()) {
							if !errors.Is(err, errKilled) {
								t.Fatal(err)
							}
							killed = true
							f = newFollower(t, listed, k, watch.Options{FromStart: true})
						}
					}
					server.Close()
					checkEntries(t, k, listed.ID, numbers(0, run.Size()))
					checkVerdicts(t, k, listed.ID)
					if !killed {
						break
					}
					kills++
				}
				if kills < 6 {
					t.Fatalf("there were only %d kills", kills)
				}
			})
		}
	}
}

// A follower refuses a log that it cannot follow.
func TestNewFollowerRefuses(t *testing.T) {
	log := newLog(t, 1)
	good := watched(log, "https://log.example", "tiled")
	for what, change := range map[string]func(listed *watch.Log, options *watch.Options){
		"another ID": func(listed *watch.Log, _ *watch.Options) { listed.ID[0] ^= 1 },
		"no key":     func(listed *watch.Log, _ *watch.Options) { listed.PublicKey = []byte{1} },
		"no address": func(listed *watch.Log, _ *watch.Options) { listed.URL = "log.example" },
		"a file":     func(listed *watch.Log, _ *watch.Options) { listed.URL = "file:///etc/passwd" },
		"a query":    func(listed *watch.Log, _ *watch.Options) { listed.URL = "https://log.example/?a=b" },
		"a mirror only": func(_ *watch.Log, options *watch.Options) {
			options.Mirror = func(watch.Log) (watch.Mirror, error) { return noMirror{}, nil }
		},
	} {
		listed, options := good, watch.Options{}
		change(&listed, &options)
		if _, err := watch.NewFollower(listed, newKeeper(), options); err == nil {
			t.Errorf("%s: NewFollower returns no error", what)
		}
	}
	if _, err := watch.NewFollower(good, newKeeper(), watch.Options{}); err != nil {
		t.Error(err)
	}
}

type noMirror struct{}

func (noMirror) Stage(logclient.DataTile) error           { return nil }
func (noMirror) Accept(context.Context, watch.Head) error { return nil }

// During a long pass the status is reported as well, with the fault of the last pass.
func TestReportsDuringAPass(t *testing.T) {
	log := newLog(t, 20_000)
	listed := serve(t, log, "tiled")
	k := newKeeper()
	at := newClock(epoch)
	log.Intercept(func(http.ResponseWriter, *http.Request) bool {
		at.now.Add(1000) // Each answer takes a second.
		return false
	})
	f := newFollower(t, listed, k, watch.Options{FromStart: true, Client: logclient.Options{Clock: at}})
	if err := f.Pass(context.Background()); err != nil {
		t.Fatal(err)
	}
	var read []uint64
	for len(k.reported) > 0 {
		status := <-k.reported
		read = append(read, status.Read)
	}
	// How many entries arrive at once depends on the machine, but it is never all of them.
	if len(read) < 2 || !slices.IsSorted(read) || read[0] == 0 || read[0] == 20_000 || read[len(read)-1] != 20_000 {
		t.Errorf("the reports say that %v entries are read", read)
	}
}

// A monitor that is killed at any call of its Keeper loses no evidence against a head or an entry, and no entry.
func TestLosesNothingWhenKilledWhileAccusing(t *testing.T) {
	for _, kind := range kinds {
		for _, stores := range []bool{false, true} {
			kills := 0
			for at := 1; ; at++ {
				log := newLog(t, 300)
				server := httptest.NewServer(log)
				listed := watched(log, server.URL, kind)
				listed.MaxMergeDelay = 2 * time.Minute
				k := newKeeper()
				k.killAt, k.stores = at, stores
				options := watch.Options{FromStart: true, Client: logclient.Options{Clock: newClock(epoch + 310_000)}}
				f, killed := newFollower(t, listed, k, options), false
				// passUntil makes passes until the error of one is the expected one, with a new follower after each kill.
				passUntil := func(isExpected func(error) bool) {
					for err := f.Pass(context.Background()); !isExpected(err); err = f.Pass(context.Background()) {
						if !errors.Is(err, errKilled) {
							t.Fatal(err)
						}
						killed, f = true, newFollower(t, listed, k, options)
					}
				}
				passUntil(func(err error) bool { return err == nil })
				log.Add(testkit.Entry{Timestamp: epoch + 100, Certificate: []byte("late")})
				log.Publish(301, epoch+305_000)
				passUntil(func(err error) bool { return err == nil })
				log.PublishRoot(301, epoch+306_000, [32]byte{1})
				var accused *watch.AccusedError
				passUntil(func(err error) bool { return errors.As(err, &accused) })
				server.Close()
				checkEntries(t, k, listed.ID, numbers(0, 301))
				if found := slices.Compact(k.verdicts(listed.ID)); !slices.Equal(found, []string{watch.VerdictLateMerge,
					watch.VerdictFork}) {
					t.Errorf("killed at %d: the log is accused of %q", at, found)
				}
				if !killed {
					break
				}
				kills++
			}
			if kills < 8 {
				t.Errorf("%s: there were only %d kills", kind, kills)
			}
		}
	}
}
