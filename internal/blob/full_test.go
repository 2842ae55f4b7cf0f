package blob

import (
	"bytes"
	"errors"
	"fmt"
	"os"
	"path/filepath"
	"strings"
	"syscall"
	"testing"

	"github.com/syndtr/goleveldb/leveldb/opt"
)

// smallDisk mounts a file system in memory with this size in bytes, and returns its folder. Only root can mount it, so
// the test is skipped for other users.
func smallDisk(t *testing.T, size int) string {
	t.Helper()
	folder := t.TempDir()
	if err := syscall.Mount("tmpfs", folder, "tmpfs", 0, fmt.Sprintf("size=%d", size)); err != nil {
		t.Skipf("no small file system can be mounted here, since that needs root: %v", err)
	}
	t.Cleanup(func() {
		awaitFreed()
		must(t, syscall.Unmount(folder, 0))
	})
	return folder
}

// fill fills the file system of a folder to the last byte, and returns a function that makes room again.
func fill(t *testing.T, folder string) (makeRoom func()) {
	t.Helper()
	awaitFreed()
	path := filepath.Join(folder, "ballast")
	file, err := os.Create(path)
	must(t, err)
	for size := 1 << 16; size > 0; {
		if _, err := file.Write(make([]byte, size)); err != nil {
			size /= 2
		}
	}
	must(t, file.Close())
	return func() { must(t, os.Remove(path)) }
}

func isFull(err error) bool {
	return errors.Is(err, syscall.ENOSPC)
}

func TestFolderOnAFullDisk(t *testing.T) {
	disk, ctx := smallDisk(t, 4<<20), limited(t)
	store, err := OpenFolder(filepath.Join(disk, "store"))
	must(t, err)
	content := func(i int) []byte { return bytes.Repeat([]byte{byte(i)}, 100_000) }
	name := func(i int) string { return fmt.Sprintf("tile/%d", i) }
	kept := 0
	for err == nil {
		if err = store.Put(ctx, name(kept), content(kept)); err == nil {
			kept++
		}
	}
	if !isFull(err) || kept < 30 {
		t.Fatalf("after %d objects: %v", kept, err)
	}
	for i := 0; i < kept; i++ {
		if got, err := store.Get(ctx, name(i), manyBytes); err != nil || !bytes.Equal(got, content(i)) {
			t.Errorf("object %d: %d bytes, %v", i, len(got), err)
		}
	}
	if _, err := store.Get(ctx, name(kept), manyBytes); !errors.Is(err, ErrAbsent) {
		t.Errorf("an object that was not acknowledged: %v", err)
	}
	if left, err := os.ReadDir(filepath.Join(disk, "store", temporary)); err != nil || len(left) > 0 {
		t.Errorf("temporary files are left: %v, %v", left, err)
	}
	must(t, store.Delete(ctx, name(0)))
	must(t, store.Put(ctx, name(kept), content(kept)))
}

func TestFileOnAFullDisk(t *testing.T) {
	disk, ctx := smallDisk(t, 1<<20), limited(t)
	lock, err := OpenFile(filepath.Join(disk, "lock"))
	must(t, err)
	must(t, lock.Create(ctx, "first"))
	must(t, lock.Raise(ctx, Published{Size: 5}))
	makeRoom := fill(t, disk)
	long := strings.Repeat("x", MaxText)
	if err := lock.Swap(ctx, "first", long); !isFull(err) || errors.Is(err, ErrUnknown) {
		t.Errorf("Swap: %v", err)
	}
	if err := lock.Raise(ctx, Published{Size: 6}); !isFull(err) || errors.Is(err, ErrUnknown) {
		t.Errorf("Raise: %v", err)
	}
	wantLock(t, lock, "first", 5)
	makeRoom()
	must(t, lock.Swap(ctx, "first", long))
	must(t, lock.Raise(ctx, Published{Size: 6}))
	wantLock(t, lock, long, 6)
}

func TestLevelDBOnAFullDisk(t *testing.T) {
	for name, options := range map[string]opt.Options{"in the journal": levelOptions, "in a table": smallOptions()} {
		t.Run(name, func(t *testing.T) {
			disk, ctx := smallDisk(t, 4<<20), limited(t)
			store, err := openLevelDB(ctx, filepath.Join(disk, "index"), options, openLevelFiles)
			must(t, err)
			defer store.Close()
			_, all, want := someOf(0, 500)
			must(t, store.Add(ctx, all))
			makeRoom := fill(t, disk)
			kept := 500
			for ; err == nil && kept < 500_000; kept += 500 {
				_, more, _ := someOf(kept, kept+500)
				err = store.Add(ctx, more)
			}
			asked, _, _ := someOf(0, 500)
			// Each write opens the index again, which fails as well.
			for range 3 {
				if !isFull(err) || !strings.Contains(err.Error(), disk) {
					t.Fatalf("after %d rows: %v", kept, err)
				}
				wantFound(t, store, asked, want)
				err = store.Add(ctx, []Row{rowAt(500_000)})
			}
			wantFound(t, store, []Identity{identity(600_000)}, map[Identity]Place{})
			makeRoom()
			last := kept - 500
			_, more, wanted := someOf(last, kept)
			must(t, store.Add(ctx, more))
			wantFound(t, store, asked, want)
			asked, _, _ = someOf(last, kept)
			wantFound(t, store, asked, wanted)
		})
	}
}
