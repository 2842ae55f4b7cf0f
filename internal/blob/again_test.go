package blob

import (
	"context"
	"errors"
	"fmt"
	"math/rand"
	"os"
	"os/exec"
	"strings"
	"testing"
	"time"
)

// restartCommand is the command that kills an engine's process (-9) and starts it again. tests/engines.sh sets it.
var restartCommand = os.Getenv("STORES_AGAIN")

// processes holds the processes of each engine that the tests kill.
var processes = map[string][]string{
	"etcd": {"etcd"}, "postgres": {"postgres"}, "s3": {"ceph-osd", "radosgw"}, "s3-without-conditions": {"radosgw"},
}

const engineKills = 2

// whileEnginesDie writes without a pause while an engine is killed and started again, and returns how many writes were
// acknowledged. Each write has a second. A write that fails is repeated.
func whileEnginesDie(t *testing.T, engine string, write writer) (acknowledged int) {
	t.Helper()
	ended, failed := make(chan struct{}), make(chan error, 1)
	go func() {
		defer close(failed)
		for kill := 0; kill < engineKills; kill++ {
			for _, process := range processes[engine] {
				time.Sleep(200*time.Millisecond + time.Duration(rand.Int63n(int64(300*time.Millisecond))))
				command := exec.Command("sh", "-c", restartCommand+" "+process)
				command.Stderr = os.Stderr
				if err := command.Run(); err != nil {
					failed <- fmt.Errorf("%s: %w", process, err)
					return
				}
			}
		}
		time.Sleep(300 * time.Millisecond)
	}()
	go func() {
		if err := <-failed; err != nil {
			t.Error(err)
		}
		close(ended)
	}()
	failures := 0
	for {
		select {
		case <-ended:
			t.Logf("%s: %d writes were acknowledged, %d failed", engine, acknowledged, failures)
			return acknowledged
		default:
		}
		ctx, cancel := context.WithTimeout(context.Background(), time.Second)
		if err := write(ctx, acknowledged+1); err == nil {
			acknowledged++
		} else {
			failures++
			time.Sleep(10 * time.Millisecond)
		}
		cancel()
	}
}

// inTurn runs a test on every engine that can be killed, one after the other.
func inTurn[T interface{ Close() error }](t *testing.T, all []implementation[T], test func(t *testing.T, at tried[T])) {
	for _, one := range all {
		if one.folder || one.inMemory {
			continue
		}
		t.Run(one.name, func(t *testing.T) {
			if one.missing != "" {
				t.Skip(one.missing)
			}
			if testing.Short() {
				t.Skip("engines are not killed in a short run")
			}
			test(t, tried[T]{one, "suite-" + randomName()})
		})
	}
}

func TestObjectsOutliveTheirEngine(t *testing.T) {
	inTurn(t, objectStores, func(t *testing.T, at tried[Objects]) {
		store, ctx := at.opened(t), limited(t)
		last := whileEnginesDie(t, at.name, func(ctx context.Context, i int) error {
			return store.Put(ctx, objectName(i), objectContent(i))
		})
		for i := 1; i <= last; i++ {
			if got, err := store.Get(ctx, objectName(i), manyBytes); err != nil ||
				string(got) != string(objectContent(i)) {
				t.Fatalf("of %d writes that were acknowledged, number %d has %d bytes, %v", last, i, len(got), err)
			}
		}
	})
}

func TestLockOutlivesItsEngine(t *testing.T) {
	inTurn(t, locks, func(t *testing.T, at tried[Lock]) {
		lock, ctx := at.opened(t), limited(t)
		must(t, lock.Create(ctx, "text 0"))
		tries := 0
		last := whileEnginesDie(t, at.name, func(ctx context.Context, i int) error {
			old, err := lock.Read(ctx)
			if err != nil {
				return err
			}
			if number(old) < i-1 {
				t.Fatalf("the text is %q, and %d was acknowledged", old, i-1)
			}
			tries++
			err = lock.Swap(ctx, old, fmt.Sprintf("try %d: %d", tries, i))
			if errors.Is(err, ErrAbsent) {
				t.Fatal(err)
			}
			if err != nil {
				return err
			}
			return lock.Raise(ctx, Published{uint64(i), uint64(2 * i)})
		})
		text, err := lock.Read(ctx)
		if err != nil || number(text) < last || !strings.HasPrefix(text, "try ") {
			t.Errorf("the text is %q, %v, and %d was acknowledged", text, err, last)
		}
		if published, err := lock.Published(ctx); err != nil || published.Size < uint64(last) ||
			published.Timestamp != 2*published.Size {
			t.Errorf("%v is published, %v, and %d was acknowledged", published, err, last)
		}
	})
}

func TestIndexOutlivesItsEngine(t *testing.T) {
	inTurn(t, indexes, func(t *testing.T, at tried[Index]) {
		store := at.opened(t)
		last := whileEnginesDie(t, at.name, func(ctx context.Context, i int) error {
			_, all, _ := someOf(perWrite*i, perWrite*(i+1))
			return store.Add(ctx, all)
		})
		must(t, parts(perWrite*last, MaxRows, func(from, to int) error {
			asked, _, want := someOf(perWrite+from, perWrite+to)
			wantFound(t, store, asked, want)
			return nil
		}))
	})
}
