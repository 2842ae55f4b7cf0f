package blob

import (
	"context"
	"os"
	"os/exec"
	"testing"
	"time"

	"wagtenib/internal/testkit"
)

// pauseCommand is the command that stops an engine's process (SIGSTOP) for some seconds. tests/engines.sh sets it.
var pauseCommand = os.Getenv("STORES_PAUSE")

// pauseSeconds is how long an engine is stopped.
const pauseSeconds = "4"

// stop stops an engine, makes calls of at most a second until one fails, and returns its error. It returns nil if no
// call failed before the engine continued.
func stop(t *testing.T, engine string, call func(ctx context.Context) error) (err error) {
	t.Helper()
	all := processes[engine]
	command := exec.Command("sh", "-c", pauseCommand+" "+all[len(all)-1]+" "+pauseSeconds)
	command.Stderr = os.Stderr
	must(t, command.Start())
	ended := make(chan error, 1)
	go func() { ended <- command.Wait() }()
	for err == nil && len(ended) == 0 {
		ctx, cancel := context.WithTimeout(context.Background(), time.Second)
		err = call(ctx)
		cancel()
	}
	continued := len(ended) > 0
	must(t, <-ended)
	if continued {
		return nil
	}
	return err
}

// whilePaused checks that a call on a stopped engine ends with its context, before the engine continues, and returns an
// error. After the engine continues, the call is repeated until it is done.
func whilePaused(t *testing.T, engine string, call func(ctx context.Context) error) {
	t.Helper()
	must(t, call(limited(t)))
	// On a busy machine it may happen that no call begins and ends in that time. Then the engine is stopped again.
	for all := limited(t); stop(t, engine, call) == nil; {
		if all.Err() != nil {
			t.Fatalf("%s: no call on a silent engine fails before the engine continues", engine)
		}
	}
	start := time.Now()
	for {
		short, cancel := context.WithTimeout(limited(t), 5*time.Second)
		err := call(short)
		cancel()
		if err == nil {
			return
		}
		if time.Since(start) > testkit.Patience {
			t.Fatalf("%s: the engine continues, and the call still fails: %v", engine, err)
		}
	}
}

func TestSilentEngines(t *testing.T) {
	inTurn(t, locks, func(t *testing.T, at tried[Lock]) {
		lock := at.opened(t)
		must(t, lock.Create(limited(t), "text"))
		whilePaused(t, at.name, func(ctx context.Context) error { return lock.Raise(ctx, Published{Size: 5}) })
		whilePaused(t, at.name, func(ctx context.Context) error { return lock.Swap(ctx, "text", "other text") })
		whilePaused(t, at.name, func(ctx context.Context) error { _, err := lock.Read(ctx); return err })
	})
	inTurn(t, indexes, func(t *testing.T, at tried[Index]) {
		store := at.opened(t)
		whilePaused(t, at.name, func(ctx context.Context) error { return store.Add(ctx, []Row{rowAt(1)}) })
		whilePaused(t, at.name, func(ctx context.Context) error {
			_, err := store.Find(ctx, []Identity{identity(1)})
			return err
		})
	})
	inTurn(t, objectStores, func(t *testing.T, at tried[Objects]) {
		store := at.opened(t)
		whilePaused(t, at.name, func(ctx context.Context) error { return store.Put(ctx, "a", []byte("x")) })
		whilePaused(t, at.name, func(ctx context.Context) error { _, err := store.Get(ctx, "a", 9); return err })
		whilePaused(t, at.name, func(ctx context.Context) error { _, err := store.List(ctx, "", "", 9); return err })
	})
}
