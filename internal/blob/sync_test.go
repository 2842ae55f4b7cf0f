package blob

import (
	"errors"
	"os"
	"path/filepath"
	"reflect"
	"strings"
	"sync"
	"syscall"
	"testing"
	"time"

	"wagtenib/internal/testkit"
)

// syncs returns the paths below a root that are synced to the disk during a call, in their order. A file with a
// temporary name is called "file". " (named)" is appended to a path if the public name exists at the time of its sync.
func syncs(t *testing.T, root, public string, call func() error) (paths []string) {
	t.Helper()
	var mu sync.Mutex
	fsync = func(file *os.File) error {
		mu.Lock()
		defer mu.Unlock()
		path, err := filepath.Rel(root, file.Name())
		must(t, err)
		if strings.HasPrefix(path, temporary+"/") {
			path = "file"
		}
		if _, err := os.Stat(filepath.Join(root, public)); err == nil {
			path += " (named)"
		}
		paths = append(paths, path)
		return file.Sync()
	}
	defer func() { fsync = (*os.File).Sync }()
	must(t, call())
	return paths
}

func wantSynced(t *testing.T, what string, got, want []string) {
	t.Helper()
	if !reflect.DeepEqual(got, want) {
		t.Errorf("%s: synced %q, and %q should be", what, got, want)
	}
}

// TestFolderSyncs: an object is on the disk before it has its name, and its folders with their names before Put
// returns.
func TestFolderSyncs(t *testing.T) {
	root, ctx := t.TempDir(), limited(t)
	store, err := OpenFolder(root)
	must(t, err)
	put := func(name string) []string {
		return syncs(t, root, name, func() error { return store.Put(ctx, name, []byte("x")) })
	}
	wantSynced(t, "an object in new folders", put("a/b/c"), []string{"file", "a/b (named)", "a (named)", ". (named)"})
	wantSynced(t, "another one", put("a/b/d"), []string{"file", "a/b (named)"})
	// The process that put the object first may have been killed before its sync.
	wantSynced(t, "the same again", put("a/b/c"), []string{"file (named)", "a/b (named)"})
	again, err := OpenFolder(root)
	must(t, err)
	store = again
	wantSynced(t, "one in folders of others", put("a/b/e"), []string{"file", "a/b (named)", "a (named)", ". (named)"})
	wantSynced(t, "one at the top", put("f"), []string{"file", ". (named)"})
}

// TestMadeFoldersSync: the names of folders that are made are synced, each before the name of the folder below it. A
// folder that exists is not synced.
func TestMadeFoldersSync(t *testing.T) {
	root := t.TempDir()
	folders := func() error { return MakeFolder(filepath.Join(root, "a/b"), publicFolder) }
	wantSynced(t, "new folders", syncs(t, root, "none", folders), []string{".", "a"})
	wantSynced(t, "the same once more", syncs(t, root, "none", folders), nil)
	must(t, os.WriteFile(filepath.Join(root, "file"), nil, 0o600))
	if err := MakeFolder(filepath.Join(root, "file/b"), publicFolder); err == nil {
		t.Error("a folder is made below a file")
	}
}

// TestFileSyncs: a text is on the disk before it has its name, and the folder before Swap and Read return.
func TestFileSyncs(t *testing.T) {
	root, ctx := t.TempDir(), limited(t)
	lock, err := OpenFile(root)
	must(t, err)
	got := syncs(t, root, textFile, func() error { return lock.Create(ctx, "a") })
	wantSynced(t, "Create", got, []string{"file", ".", "file", ". (named)"})
	read := func() error { _, err := lock.Read(ctx); return err }
	wantSynced(t, "Read", syncs(t, root, "none", read), []string{"."})
	// A text that this process knows to be on the disk is not synced again.
	wantSynced(t, "Read of the same", syncs(t, root, "none", read), nil)
	swap := func() error { return lock.Swap(ctx, "a", "b") }
	wantSynced(t, "Swap", syncs(t, root, "none", swap), []string{"file", "."})
	wantSynced(t, "the same Swap", syncs(t, root, "none", swap), nil)
	wantSynced(t, "Read of what was swapped", syncs(t, root, "none", read), nil)
	raise := func() error { return lock.Raise(ctx, Published{Size: 5}) }
	wantSynced(t, "Raise", syncs(t, root, "none", raise), []string{"file", "."})
	same := func() error { return lock.Raise(ctx, Published{5, 1}) }
	wantSynced(t, "Raise of one size", syncs(t, root, "none", same), []string{"file", "."})
	published := func() error { _, err := lock.Published(ctx); return err }
	wantSynced(t, "Published", syncs(t, root, "none", published), nil)
	// The text that another process set may not be on the disk.
	other, err := OpenFile(root)
	must(t, err)
	lock = other
	wantSynced(t, "Published by another process", syncs(t, root, "none", published), []string{"."})
	wantSynced(t, "the same Raise", syncs(t, root, "none", same), nil)
	wantSynced(t, "Read by another process", syncs(t, root, "none", read), []string{"."})
	third, err := OpenFile(root)
	must(t, err)
	lock = third
	wantSynced(t, "the same Swap by another process", syncs(t, root, "none", swap), []string{"."})
	wantSynced(t, "the same Raise by another process", syncs(t, root, "none", same), []string{"."})
}

// TestCurrentSyncs: the folder of an object that is replaced is on the disk before Swap returns. This is so even if
// another process replaced the object, since it may have been killed before its own sync.
func TestCurrentSyncs(t *testing.T) {
	root := filepath.Join(t.TempDir(), "store")
	objects, err := OpenFolder(root)
	must(t, err)
	swap := func() error { return objects.(*folder).Swap(limited(t), "checkpoint", nil, []byte("a")) }
	wantSynced(t, "Swap", syncs(t, root, "checkpoint", swap), []string{"file", ". (named)"})
	wantSynced(t, "the same Swap", syncs(t, root, "checkpoint", swap), []string{". (named)"})
}

// TestFailedSyncs: if a sync fails, nothing is acknowledged. The outcome of a swap is unknown after its text has its
// name.
func TestFailedSyncs(t *testing.T) {
	fault := errors.New("the disk is broken")
	broken := func(folders bool) {
		fsync = func(file *os.File) error {
			if info, err := file.Stat(); err != nil || info.IsDir() == folders {
				return fault
			}
			return file.Sync()
		}
	}
	defer func() { fsync = (*os.File).Sync }()
	root, ctx := t.TempDir(), limited(t)
	store, err := OpenFolder(filepath.Join(root, "objects"))
	must(t, err)
	lock, err := OpenFile(filepath.Join(root, "lock"))
	must(t, err)
	must(t, lock.Create(ctx, "a"))
	for _, folders := range []bool{false, true} {
		broken(folders)
		if err := store.Put(ctx, "x", nil); !errors.Is(err, fault) {
			t.Errorf("Put, folders %t: %v", folders, err)
		}
	}
	broken(false)
	if err := lock.Swap(ctx, "a", "b"); !errors.Is(err, fault) || errors.Is(err, ErrUnknown) {
		t.Errorf("Swap on a disk that accepts no file: %v", err)
	}
	fsync = (*os.File).Sync
	wantLock(t, lock, "a", 0)
	calls := 0
	fsync = func(file *os.File) error {
		if calls++; calls == 2 { // that of the folder, after the file's
			return fault
		}
		return file.Sync()
	}
	if err := lock.Swap(ctx, "a", "b"); !errors.Is(err, ErrUnknown) {
		t.Errorf("Swap on a disk that does not accept the name: %v", err)
	}
	fsync = (*os.File).Sync
	wantLock(t, lock, "b", 0)
}

// TestKeptFile: a file has its new content or the one before. The content is on the disk before it has its name, and
// the folder before KeepFile returns. Files that a killed writer left are deleted.
func TestKeptFile(t *testing.T) {
	root := t.TempDir()
	path := filepath.Join(root, "kept")
	has := func(want string) {
		t.Helper()
		if content, err := KeptFile(path); err != nil || string(content) != want {
			t.Errorf("%q, %v", content, err)
		}
	}
	if _, err := KeptFile(path); !errors.Is(err, ErrAbsent) {
		t.Errorf("none: %v", err)
	}
	left, writes := path+halfKept+"1", path+halfKept+"2"
	must(t, os.WriteFile(left, nil, 0o600))
	must(t, os.WriteFile(writes, nil, 0o600))
	must(t, os.Chtimes(left, time.Now(), time.Now().Add(-2*abandoned)))
	var isNamed []bool
	fsync = func(file *os.File) error {
		_, err := os.Stat(path)
		isNamed = append(isNamed, err == nil)
		return file.Sync()
	}
	defer func() { fsync = (*os.File).Sync }()
	must(t, KeepFile(path, []byte("a")))
	if !reflect.DeepEqual(isNamed, []bool{false, true}) {
		t.Errorf("synced with the name there: %v", isNamed)
	}
	has("a")
	fault := errors.New("the disk is broken")
	fsync = func(*os.File) error { return fault }
	if err := KeepFile(path, []byte("b")); !errors.Is(err, fault) {
		t.Errorf("%v", err)
	}
	has("a")
	if err := KeepFile(path, make([]byte, MaxKept+1)); !errors.Is(err, ErrTooLong) {
		t.Errorf("%v", err)
	}
	if names, err := filepath.Glob(path + "*"); err != nil || !reflect.DeepEqual(names, []string{path, writes}) {
		t.Errorf("%v, %v", names, err)
	}
}

// TestKeptFileInAFolderOfAnyName: files that killed writers left are deleted whatever the name of the folder is.
func TestKeptFileInAFolderOfAnyName(t *testing.T) {
	for _, name := range []string{"log [1", "log[12]", "log*", "log?\\"} {
		folder := filepath.Join(t.TempDir(), name)
		must(t, os.Mkdir(folder, 0o700))
		path := filepath.Join(folder, "kept")
		old, young, other := path+halfKept+"1", path+halfKept+"2", filepath.Join(folder, "other")+halfKept+"3"
		for _, half := range []string{old, young, other} {
			must(t, os.WriteFile(half, nil, 0o600))
		}
		must(t, os.Chtimes(old, time.Now(), time.Now().Add(-2*abandoned)))
		leaves := func(want ...string) {
			t.Helper()
			files, err := os.ReadDir(folder)
			var names []string
			for _, file := range files {
				names = append(names, filepath.Join(folder, file.Name()))
			}
			if err != nil || !reflect.DeepEqual(names, want) {
				t.Errorf("%s: %q, and %q are expected: %v", name, names, want, err)
			}
		}
		if _, err := KeptFile(path); !errors.Is(err, ErrAbsent) {
			t.Errorf("%s: %v", name, err)
		}
		leaves(young, other)
		must(t, DropHalfKept(path))
		leaves(other)
	}
}

// TestKeepsOldContentOnFullDisk: if the disk is full in the middle of a new content, the file keeps its old content and
// its mode, and no temporary file is left.
func TestKeepsOldContentOnFullDisk(t *testing.T) {
	path := filepath.Join(t.TempDir(), "kept")
	for mode, keep := range map[os.FileMode]func(string, []byte) error{0o600: KeepFile, 0o644: ShowFile} {
		must(t, keep(path, []byte("before")))
		err := testkit.ShortFiles(t, 100, func() error { return keep(path, make([]byte, 200)) })
		if !errors.Is(err, syscall.EFBIG) {
			t.Errorf("%v: %v", mode, err)
		}
		if content, err := KeptFile(path); err != nil || string(content) != "before" {
			t.Errorf("%v: %q, %v", mode, content, err)
		}
		info, err := os.Stat(path)
		must(t, err)
		if names, err := filepath.Glob(path + "*"); err != nil || len(names) != 1 || info.Mode() != mode {
			t.Errorf("%v: %v, and %v, %v", mode, info.Mode(), names, err)
		}
	}
	must(t, ShowFile(path, make([]byte, MaxKept+1)))
}
