package blob

import (
	"context"
	"encoding/binary"
	"errors"
	"os"
	"path/filepath"
	"strings"
	"sync"
	"testing"

	"github.com/syndtr/goleveldb/leveldb/opt"
	"github.com/syndtr/goleveldb/leveldb/storage"

	"wagtenib/internal/testkit"
)

// smallOptions returns options with buffers and tables that are so small that some hundred rows fill them.
func smallOptions() opt.Options {
	small := levelOptions
	small.WriteBuffer, small.CompactionTableSize, small.CompactionTotalSize = 16<<10, 4<<10, 64<<10
	small.OpenFilesCacheCapacity = 8
	return small
}

// openIndexes holds the indexes in LevelDB that the suite has open, by their folders. Only one index in a folder can be
// open at a time. So each open closes the index that was open before, and all handles use the newest one.
type openIndexes struct {
	mu       sync.Mutex
	byFolder map[string]*sharedIndex
}

var levelOpens = openIndexes{byFolder: map[string]*sharedIndex{}}

// sharedIndex is an index whose handles all use the index that was opened last.
type sharedIndex struct {
	mu    sync.RWMutex
	index Index
}

// opening returns a function that opens the index in a folder with these options.
func (o *openIndexes) opening(options opt.Options) func(ctx context.Context, place string) (Index, error) {
	return func(ctx context.Context, place string) (Index, error) {
		o.mu.Lock()
		shared := o.byFolder[place]
		if shared == nil {
			shared = &sharedIndex{}
			o.byFolder[place] = shared
		}
		o.mu.Unlock()
		shared.mu.Lock()
		defer shared.mu.Unlock()
		if shared.index != nil {
			if err := shared.index.Close(); err != nil {
				return nil, err
			}
		}
		var err error
		if shared.index, err = openLevelDB(ctx, filepath.Join(place, "index"), options, openLevelFiles); err != nil {
			shared.index = nil
			return nil, err
		}
		return shared, nil
	}
}

// newest returns the index, which stays open until the returned function is called.
func (o *sharedIndex) newest() (Index, func()) {
	o.mu.RLock()
	return o.index, o.mu.RUnlock
}

func (o *sharedIndex) Find(ctx context.Context, identities []Identity) (map[Identity]Place, error) {
	index, done := o.newest()
	defer done()
	return index.Find(ctx, identities)
}

func (o *sharedIndex) FindLeaves(ctx context.Context, hashes []Identity) (map[Identity]Place, error) {
	index, done := o.newest()
	defer done()
	return index.FindLeaves(ctx, hashes)
}

func (o *sharedIndex) Add(ctx context.Context, rows []Row) error {
	index, done := o.newest()
	defer done()
	return index.Add(ctx, rows)
}

func (o *sharedIndex) Replace(ctx context.Context, rows []Row) error {
	index, done := o.newest()
	defer done()
	return index.Replace(ctx, rows)
}

func (o *sharedIndex) Close() error {
	o.mu.Lock()
	defer o.mu.Unlock()
	if o.index == nil {
		return nil
	}
	index := o.index
	o.index = nil
	return index.Close()
}

// TestLevelDBRefusesASecondOpen: an open of an index that is open is refused with its path. The index can be opened
// after it was closed.
func TestLevelDBRefusesASecondOpen(t *testing.T) {
	path, ctx := filepath.Join(t.TempDir(), "index"), limited(t)
	one, err := OpenLevelDB(ctx, path)
	must(t, err)
	if _, err := OpenLevelDB(ctx, path); !errors.Is(err, ErrInUse) || !strings.Contains(err.Error(), path) {
		t.Errorf("%v", err)
	}
	must(t, one.Add(ctx, []Row{rowAt(1)}))
	must(t, one.Close())
	again, err := OpenLevelDB(ctx, path)
	must(t, err)
	wantFound(t, again, []Identity{identity(1)}, map[Identity]Place{identity(1): rowAt(1).Place})
	must(t, again.Close())
}

// TestLevelDBEndsWithItsContext: a call that waits for the write of another call ends with its context. Look-ups go on.
func TestLevelDBEndsWithItsContext(t *testing.T) {
	ctx := limited(t)
	store, err := OpenLevelDB(ctx, filepath.Join(t.TempDir(), "index"))
	must(t, err)
	defer store.Close()
	turn := store.(*inLevelDB).turn
	turn <- struct{}{}
	ending, end := context.WithCancel(ctx)
	errs := make(chan error, 2)
	for _, call := range []func(context.Context, []Row) error{store.Add, store.Replace} {
		go func() { errs <- call(ending, []Row{rowAt(1)}) }()
	}
	end()
	for i := 0; i < cap(errs); i++ {
		select {
		case err := <-errs:
			testkit.WantError(t, err, context.Canceled)
		case <-ctx.Done():
			t.Fatal("a call waits after its context has ended")
		}
	}
	wantFound(t, store, []Identity{identity(1)}, map[Identity]Place{})
	<-turn
	must(t, store.Add(ctx, []Row{rowAt(1)}))
}

// counting counts what an index does with its journals.
type counting struct {
	storage.Storage
	mu sync.Mutex
	// syncs is the number of syncs of journals, and writes the number of writes to journals.
	syncs, writes int
}

type countingFile struct {
	storage.Writer
	counts *counting
}

func (c *counting) Create(fd storage.FileDesc) (storage.Writer, error) {
	w, err := c.Storage.Create(fd)
	if err != nil || fd.Type != storage.TypeJournal {
		return w, err
	}
	return &countingFile{w, c}, nil
}

func (c *countingFile) Write(content []byte) (int, error) {
	c.counts.mu.Lock()
	defer c.counts.mu.Unlock()
	c.counts.writes++
	return c.Writer.Write(content)
}

func (c *countingFile) Sync() error {
	c.counts.mu.Lock()
	defer c.counts.mu.Unlock()
	c.counts.syncs++
	return c.Writer.Sync()
}

// TestLevelDBSyncsOnce: the rows of both tables need one write and one sync of the journal. Rows that are already in
// the index need none.
func TestLevelDBSyncsOnce(t *testing.T) {
	ctx, files := limited(t), &counting{}
	store, err := openLevelDB(ctx, filepath.Join(t.TempDir(), "index"), levelOptions,
		func(path string) (_ storage.Storage, err error) {
			files.Storage, err = openLevelFiles(path)
			return files, err
		})
	must(t, err)
	defer store.Close()
	_, all, _ := someOf(0, 64)
	for _, one := range []struct {
		what  string
		call  func() error
		syncs int
	}{
		{"64 rows", func() error { return store.Add(ctx, all) }, 1},
		{"the same", func() error { return store.Add(ctx, all) }, 0},
		{"the same, to replace", func() error { return store.Replace(ctx, all) }, 1},
		{"one more", func() error { return store.Add(ctx, append([]Row{rowAt(64)}, all...)) }, 1},
	} {
		files.syncs, files.writes = 0, 0
		must(t, one.call())
		if files.syncs != one.syncs || files.writes != one.syncs {
			t.Errorf("%s: %d syncs and %d writes, not %d", one.what, files.syncs, files.writes, one.syncs)
		}
	}
}

// TestLevelDBBoundsOpenFiles: the number of open files does not grow with the log.
func TestLevelDBBoundsOpenFiles(t *testing.T) {
	root, ctx := t.TempDir(), limited(t)
	store, err := openLevelDB(ctx, filepath.Join(root, "index"), smallOptions(), openLevelFiles)
	must(t, err)
	defer store.Close()
	for from := 0; from < 6000; from += 500 {
		asked, all, want := someOf(from, from+500)
		must(t, store.Add(ctx, all))
		wantFound(t, store, asked, want)
	}
	tables, err := filepath.Glob(filepath.Join(root, "index", "*.ldb"))
	must(t, err)
	// In addition to cached tables, the lock, LevelDB's own log, the manifest and two journals are open. While LevelDB
	// merges tables, it also has the tables open that it reads, the one that it writes, and those of the youngest
	// level.
	const maxOpen = 8 + 5 + 2 + 24
	if many := countOpen(t, root); len(tables) < 3*maxOpen || many > maxOpen {
		t.Errorf("%d files of %d tables are open, and at most %d should be", many, len(tables), maxOpen)
	}
}

// TestLevelDBReportsAnotherForm: if the folder is a file, the error names it. A row with an invalid value is reported
// as damaged.
func TestLevelDBReportsAnotherForm(t *testing.T) {
	root, ctx := t.TempDir(), limited(t)
	path := filepath.Join(root, "file")
	must(t, os.WriteFile(path, []byte(strings.Repeat("no index ", 1000)), 0o644))
	if _, err := OpenLevelDB(ctx, path); err == nil || !strings.Contains(err.Error(), path) {
		t.Errorf("%v", err)
	}
	store, err := OpenLevelDB(ctx, filepath.Join(root, "index"))
	must(t, err)
	defer store.Close()
	for i, value := range [][]byte{{}, {1}, {0x80}, {1, 0x80}, {1, 2, 3}, binary.AppendUvarint(nil, 1<<40)} {
		id := identity(i)
		must(t, store.(*inLevelDB).db.Put(keyIn(ofIdentities, &id), value, nil))
		if _, err := store.Find(ctx, []Identity{id}); !errors.Is(err, ErrDamaged) {
			t.Errorf("the value %x: %v", value, err)
		}
	}
}
