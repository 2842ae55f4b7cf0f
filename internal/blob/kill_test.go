package blob

import (
	"bufio"
	"context"
	"fmt"
	"math/rand"
	"os"
	"os/exec"
	"strconv"
	"strings"
	"testing"
	"time"

	"wagtenib/internal/testkit"
)

// writer makes write number i on a store, and returns after it is acknowledged. It may make a write again. A child
// process calls it.
type writer func(ctx context.Context, i int) error

// writerTask is the environment variable with the task of a writer process: KIND IMPLEMENTATION PLACE FIRST.
const writerTask = "STORES_WRITER"

func TestMain(m *testing.M) {
	if task := strings.Fields(os.Getenv(writerTask)); len(task) == 4 {
		fmt.Fprintln(os.Stderr, write(task))
		os.Exit(1)
	}
	os.Exit(m.Run())
}

// write writes until it is killed, and prints the number of each acknowledged write.
func write(task []string) error {
	ctx, cancel := context.WithTimeout(context.Background(), testkit.Longest)
	defer cancel()
	writers := map[string]func(context.Context, string, string) (writer, error){"objects": objectWriter,
		"lock": lockWriter, "index": indexWriter}
	do, err := writers[task[0]](ctx, task[1], task[2])
	if err != nil {
		return err
	}
	first, err := strconv.Atoi(task[3])
	for i := first; err == nil; i++ {
		if err = do(ctx, i); err == nil {
			fmt.Println(i)
		}
	}
	return err
}

func find[T any](ctx context.Context, all []implementation[T], name, place string) (store T, err error) {
	for _, one := range all {
		if one.name == name {
			return one.open(ctx, place)
		}
	}
	return store, fmt.Errorf("no implementation %s", name)
}

func objectName(i int) string { return fmt.Sprintf("written/%02d/%03d/%d", i/1000, i/20, i) }

// objectContent returns a content of some bytes to some hundred thousand bytes.
func objectContent(i int) []byte {
	return []byte(strings.Repeat(fmt.Sprintf("%d;", i), 1+i*7919%40000))
}

func objectWriter(ctx context.Context, name, place string) (writer, error) {
	store, err := find(ctx, objectStores, name, place)
	return func(ctx context.Context, i int) error { return store.Put(ctx, objectName(i), objectContent(i)) }, err
}

func lockWriter(ctx context.Context, name, place string) (writer, error) {
	store, err := find(ctx, locks, name, place)
	return func(ctx context.Context, i int) error {
		old, err := store.Read(ctx)
		if err != nil {
			return err
		}
		if err := store.Swap(ctx, old, fmt.Sprintf("text %d", i)); err != nil {
			return err
		}
		return store.Raise(ctx, Published{uint64(i), uint64(2 * i)})
	}, err
}

// perWrite is the number of identities in one write.
const perWrite = 7

func indexWriter(ctx context.Context, name, place string) (writer, error) {
	store, err := find(ctx, indexes, name, place)
	return func(ctx context.Context, i int) error {
		_, all, _ := someOf(perWrite*i, perWrite*(i+1))
		return store.Add(ctx, all)
	}, err
}

// killWriter starts a writer process that begins with a given number. It kills the process (-9) at a random time after
// one of its first acknowledged writes, and returns the last number that the process printed.
func killWriter(t *testing.T, kind, name, place string, first int) (last int) {
	t.Helper()
	program, err := os.Executable()
	must(t, err)
	child := exec.Command(program)
	child.Env = append(os.Environ(), fmt.Sprintf("%s=%s %s %s %d", writerTask, kind, name, place, first))
	child.Stderr = os.Stderr
	output, err := child.StdoutPipe()
	must(t, err)
	must(t, child.Start())
	last = first - 1
	from := first + rand.Intn(5)
	for lines := bufio.NewScanner(output); lines.Scan(); {
		last, err = strconv.Atoi(lines.Text())
		must(t, err)
		if last == from {
			time.AfterFunc(time.Duration(rand.Int63n(int64(40*time.Millisecond))), func() { child.Process.Kill() })
		}
	}
	if err := child.Wait(); err == nil || !strings.Contains(err.Error(), "killed") {
		t.Fatalf("the writer was not killed: %v", err)
	}
	return last
}

const kills = 8

func TestObjectsOutliveKills(t *testing.T) {
	eachOf(t, objectStores, func(t *testing.T, at tried[Objects]) {
		if at.inMemory {
			t.Skip("its data ends with the process")
		}
		at.opened(t)
		ctx, last := limited(t), 0
		for kill := 0; kill < kills; kill++ {
			last = killWriter(t, "objects", at.name, at.place, last+1)
			store := at.opened(t)
			for i := 1; i <= last+1; i++ {
				got, err := store.Get(ctx, objectName(i), manyBytes)
				// The object after the last acknowledged one is absent or complete.
				if i <= last && err != nil || err == nil && string(got) != string(objectContent(i)) {
					t.Fatalf("of %d writes that were acknowledged, number %d has %d bytes, %v", last, i, len(got), err)
				}
			}
		}
		t.Logf("%s: %d writes, %d kills", at.name, last, kills)
	})
}

func TestLockOutlivesKills(t *testing.T) {
	eachOf(t, locks, func(t *testing.T, at tried[Lock]) {
		ctx, last := limited(t), 0
		must(t, at.opened(t).Create(ctx, "text 0"))
		for kill := 0; kill < kills; kill++ {
			last = killWriter(t, "lock", at.name, at.place, last+1)
			lock := at.opened(t)
			text, err := lock.Read(ctx)
			if n := number(text); err != nil || n != last && n != last+1 {
				t.Fatalf("the text is %q, %v, and %d was acknowledged", text, err, last)
			}
			published, err := lock.Published(ctx)
			if n := published.Size; err != nil || n != uint64(last) && n != uint64(last)+1 ||
				published.Timestamp != 2*n {
				t.Fatalf("%v is published, %v, and %d was acknowledged", published, err, last)
			}
		}
		t.Logf("%s: %d swaps and raises, %d kills", at.name, last, kills)
	})
}

func TestIndexOutlivesKills(t *testing.T) {
	eachOf(t, indexes, func(t *testing.T, at tried[Index]) {
		store := at.opened(t)
		last := 0
		for kill := 0; kill < kills; kill++ {
			// Only one process at a time can have LevelDB open.
			must(t, store.Close())
			last = killWriter(t, "index", at.name, at.place, last+1)
			store = at.opened(t)
			must(t, parts(perWrite*last, MaxRows, func(from, to int) error {
				asked, _, want := someOf(perWrite+from, perWrite+to)
				wantFound(t, store, asked, want)
				return nil
			}))
		}
		t.Logf("%s: %d rows, %d kills", at.name, perWrite*last, kills)
	})
}
