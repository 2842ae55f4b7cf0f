package blob

import (
	"math/rand"
	"os"
	"path/filepath"
	"sync"
	"testing"

	"github.com/syndtr/goleveldb/leveldb/opt"
	"github.com/syndtr/goleveldb/leveldb/storage"
)

// fragile is storage on a disk that keeps only what was synced.
type fragile struct {
	storage.Storage
	folder string
	mu     sync.Mutex
	// kept holds, for each file, how many of its bytes are on the disk. named holds the files whose names are on the
	// disk.
	kept  map[string]int64
	named map[string]bool
}

type fragileFile struct {
	storage.Writer
	disk       *fragile
	fd         storage.FileDesc
	name       string
	length     int64
	isManifest bool
}

func (f *fragile) Create(fd storage.FileDesc) (storage.Writer, error) {
	f.mu.Lock()
	defer f.mu.Unlock()
	w, err := f.Storage.Create(fd)
	f.kept[fd.String()] = 0
	return &fragileFile{Writer: w, disk: f, fd: fd, name: fd.String(), isManifest: fd.Type == storage.TypeManifest}, err
}

func (f *fragile) Remove(fd storage.FileDesc) error {
	f.mu.Lock()
	defer f.mu.Unlock()
	return f.Storage.Remove(fd)
}

func (f *fragile) SetMeta(fd storage.FileDesc) error {
	f.mu.Lock()
	defer f.mu.Unlock()
	defer f.nameAll()
	return f.Storage.SetMeta(fd)
}

// nameAll notes that the folder was synced.
func (f *fragile) nameAll() {
	for name := range f.kept {
		f.named[name] = true
	}
}

func (f *fragileFile) Write(content []byte) (int, error) {
	f.disk.mu.Lock()
	defer f.disk.mu.Unlock()
	n, err := f.Writer.Write(content)
	f.length += int64(n)
	return n, err
}

func (f *fragileFile) Sync() error {
	f.disk.mu.Lock()
	defer f.disk.mu.Unlock()
	f.disk.kept[f.name] = f.length
	if f.isManifest {
		f.disk.nameAll()
	}
	// Nothing is really synced, since the test only counts what would be on the disk.
	return nil
}

// cut returns a folder with what is left after a power cut. Each file contains the bytes that were synced, and may
// contain more of its bytes, or zeros in their place. A file whose name was not synced may be missing.
func (f *fragile) cut(t *testing.T, random *rand.Rand) string {
	t.Helper()
	f.mu.Lock()
	defer f.mu.Unlock()
	to := filepath.Join(t.TempDir(), "index")
	must(t, os.CopyFS(to, os.DirFS(f.folder)))
	files, err := os.ReadDir(to)
	must(t, err)
	for _, file := range files {
		kept, isOne := f.kept[file.Name()]
		if !isOne {
			continue
		}
		path := filepath.Join(to, file.Name())
		if !f.named[file.Name()] && random.Intn(2) == 0 {
			must(t, os.Remove(path))
			continue
		}
		content, err := os.ReadFile(path)
		must(t, err)
		left := kept
		if more := int64(len(content)) - kept; more > 0 {
			left += random.Int63n(more + 1)
		}
		content = content[:left]
		if random.Intn(2) == 0 {
			clear(content[kept:])
		}
		must(t, os.WriteFile(path, content, 0o644))
	}
	return to
}

// TestLevelDBOutlivesPowerCuts: after a power cut at any time, everything that was acknowledged is found.
func TestLevelDBOutlivesPowerCuts(t *testing.T) {
	for name, options := range map[string]opt.Options{"large": levelOptions, "small": smallOptions()} {
		for seed := range int64(6) {
			random, ctx := rand.New(rand.NewSource(seed)), limited(t)
			folder, added := filepath.Join(t.TempDir(), "index"), 0
			for start := range 4 {
				disk := &fragile{folder: folder, kept: map[string]int64{}, named: map[string]bool{}}
				fsync = func(file *os.File) error {
					if file.Name() == folder {
						disk.mu.Lock()
						defer disk.mu.Unlock()
						disk.nameAll()
					}
					return nil
				}
				store, err := openLevelDB(ctx, folder, options, func(path string) (_ storage.Storage, err error) {
					disk.Storage, err = openLevelFiles(path)
					return disk, err
				})
				if err != nil {
					t.Fatalf("%s, seed %d, start %d: %v", name, seed, start, err)
				}
				asked, _, want := someOf(0, added)
				wantFound(t, store, asked, want)
				for range random.Intn(8) {
					next := added + 1 + random.Intn(200)
					_, all, _ := someOf(added, next)
					must(t, store.Add(ctx, all))
					added = next
				}
				// The next start is after a power cut.
				left := disk.cut(t, random)
				must(t, store.Close())
				fsync = (*os.File).Sync
				folder = left
			}
		}
	}
}
