package blob

import (
	"errors"
	"io/fs"
	"os"
	"path/filepath"
	"runtime/debug"
	"strings"
	"testing"

	"wagtenib/internal/testkit"
)

// countOpen returns the number of files below a folder that this process has open. These may be deleted files.
func countOpen(t *testing.T, root string) (many int) {
	t.Helper()
	links, err := filepath.Glob("/proc/self/fd/*")
	must(t, err)
	for _, link := range links {
		// Readlink fails for a file that was closed meanwhile.
		if to, err := os.Readlink(link); err == nil && strings.HasPrefix(to, root) {
			many++
		}
	}
	return many
}

// TestLeavesNoFileOpen: swaps of a lock and deletions of objects leave no file open.
func TestLeavesNoFileOpen(t *testing.T) {
	// A garbage collection would close files that the code forgot to close.
	defer debug.SetGCPercent(debug.SetGCPercent(-1))
	root, ctx := t.TempDir(), limited(t)
	lock, err := OpenFile(filepath.Join(root, "lock"))
	must(t, err)
	objects, err := OpenFolder(filepath.Join(root, "objects"))
	must(t, err)
	must(t, lock.Create(ctx, "a0"))
	for i := '0'; i < '9'; i++ {
		must(t, lock.Swap(ctx, "a"+string(i), "a"+string(i+1)))
		must(t, objects.Put(ctx, "b/c", []byte("x")))
		must(t, objects.Delete(ctx, "b/c"))
		must(t, KeepFile(filepath.Join(root, "kept"), []byte("x")))
	}
	testkit.Eventually(t, "all deleted files are closed", func() bool { return countOpen(t, root) == 0 })
}

// TestFreesInTheBackground: a file is freed after its name was removed, and at most maxFreeing files are freed at once
// in the background.
func TestFreesInTheBackground(t *testing.T) {
	root := t.TempDir()
	path := filepath.Join(root, "file")
	remove := func() error { return os.Remove(path) }
	if err := freeLater(path, remove); !errors.Is(err, fs.ErrNotExist) || countOpen(t, root) != 0 {
		t.Errorf("no file: %v", err)
	}
	removeOpen := func() error {
		if countOpen(t, root) != 1 {
			t.Error("the file is not open while its name is removed")
		}
		return remove()
	}
	must(t, os.WriteFile(path, []byte("x"), 0o600))
	must(t, freeLater(path, removeOpen))
	testkit.Eventually(t, "the file is freed", func() bool { return countOpen(t, root) == 0 })
	// All places are taken, so the next file is freed before the call returns.
	for range maxFreeing {
		freeing <- struct{}{}
	}
	must(t, os.WriteFile(path, []byte("x"), 0o600))
	must(t, freeLater(path, removeOpen))
	if many := countOpen(t, root); many != 0 {
		t.Errorf("%d more than %d files are freed in the background", many, maxFreeing)
	}
	for range maxFreeing {
		<-freeing
	}
}
