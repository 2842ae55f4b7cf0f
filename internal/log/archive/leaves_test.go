package archive

import (
	"context"
	"crypto/sha256"
	"errors"
	"fmt"
	"os"
	"path/filepath"
	"strings"
	"syscall"
	"testing"
	"time"

	"wagtenib/bindings/go/wagtenib"
	"wagtenib/internal/testkit"
)

// hashOf returns the hash that the tests use as that of a leaf.
func hashOf(i int) wagtenib.Hash { return sha256.Sum256([]byte(fmt.Sprint(i))) }

func hashesOf(from, to int) (hashes []wagtenib.Hash) {
	for i := from; i < to; i++ {
		hashes = append(hashes, hashOf(i))
	}
	return hashes
}

func openIndex(t *testing.T, path string) *leafIndex {
	t.Helper()
	index, err := openLeafIndex(testkit.Limited(t, testkit.Longest), path)
	testkit.Must(t, err)
	t.Cleanup(func() { index.close() })
	return index
}

// checkFound looks leaves up. Each leaf must have its index if it is in the range from first to before last, and
// otherwise must not be found.
func checkFound(t *testing.T, index *leafIndex, first, last int, leaves ...int) {
	t.Helper()
	for _, i := range leaves {
		found, ok, err := index.find(testkit.Limited(t, testkit.Longest), hashOf(i))
		if isInRange := first <= i && i < last; err != nil || ok != isInRange || isInRange && found != uint64(i) {
			t.Errorf("leaf %d of %d to %d: %d, %v, %v", i, first, last, found, ok, err)
		}
	}
}

// TestLeafIndex checks that leaves are found by the process that added them and by another one, that they keep their
// first index, and that no others are found.
func TestLeafIndex(t *testing.T) {
	t.Parallel()
	ctx, path := testkit.Limited(t, testkit.Longest), filepath.Join(t.TempDir(), "index")
	one, other := openIndex(t, path), openIndex(t, path)
	testkit.Must(t, one.add(ctx, 0, nil))
	testkit.Must(t, one.add(ctx, 5, hashesOf(5, 5+2*maxVariables+1)))
	testkit.Must(t, one.add(ctx, 7000, append(hashesOf(5, 9), hashesOf(6, 7)...)))
	for _, index := range []*leafIndex{one, other, openIndex(t, path)} {
		checkFound(t, index, 5, 5+2*maxVariables+1, 0, 4, 5, 6, 8, 5+maxVariables, 5+2*maxVariables, 6+2*maxVariables)
	}
}

// TestLeafIndexEndsWithItsContext checks that a call ends with its context while another process or another call
// writes.
func TestLeafIndexEndsWithItsContext(t *testing.T) {
	path, ctx := filepath.Join(t.TempDir(), "index"), testkit.Limited(t, testkit.Longest)
	one, other := openIndex(t, path), openIndex(t, path)
	holding, err := one.db.BeginTx(ctx, nil)
	testkit.Must(t, err)
	short, cancel := context.WithTimeout(ctx, 300*time.Millisecond)
	defer cancel()
	testkit.WantError(t, other.add(short, 1, hashesOf(1, 2)), context.DeadlineExceeded)
	// The database can still be read.
	checkFound(t, other, 0, 0, 1)
	testkit.Must(t, holding.Rollback())
	testkit.Must(t, other.add(ctx, 1, hashesOf(1, 2)))
	checkFound(t, one, 1, 2, 0, 1, 2)
	// Here another call of the same process writes.
	other.writes <- struct{}{}
	ended, end := context.WithCancel(ctx)
	end()
	testkit.WantError(t, other.add(ended, 2, hashesOf(2, 3)), context.Canceled)
	<-other.writes
}

// TestLeafIndexSyncs checks that each commit is synced to the disk, in write-ahead mode, where that is not the default
// (PRAGMA synchronous is 2, FULL).
func TestLeafIndexSyncs(t *testing.T) {
	ctx := testkit.Limited(t, testkit.Longest)
	var synchronous, cache, page int
	var journal string
	db := openIndex(t, filepath.Join(t.TempDir(), "index")).db
	testkit.Must(t, errors.Join(db.QueryRowContext(ctx, "pragma synchronous").Scan(&synchronous),
		db.QueryRowContext(ctx, "pragma journal_mode").Scan(&journal),
		db.QueryRowContext(ctx, "pragma cache_size").Scan(&cache),
		db.QueryRowContext(ctx, "pragma page_size").Scan(&page)))
	// A negative cache size is in KiB.
	if synchronous != 2 || journal != "wal" || cache != -16384 || page != 1024 {
		t.Errorf("synchronous is %d, the journal's mode %s, the cache %d, and a page %d", synchronous, journal, cache, page)
	}
}

// TestLeafIndexThatIsDamaged checks that the error about a file that is not a database names the file.
func TestLeafIndexThatIsDamaged(t *testing.T) {
	path := filepath.Join(t.TempDir(), "index")
	testkit.Must(t, os.WriteFile(path, []byte(strings.Repeat("no database ", 1000)), 0o644))
	if _, err := openLeafIndex(testkit.Limited(t, testkit.Longest), path); err == nil || !strings.Contains(err.Error(), path) {
		t.Errorf("%v", err)
	}
}

// TestLeafIndexOnAFullDisk checks that a full disk is an error that says so, that look-ups continue, and that the index
// works again after there is space.
func TestLeafIndexOnAFullDisk(t *testing.T) {
	disk, ctx := t.TempDir(), testkit.Limited(t, testkit.Longest)
	if err := syscall.Mount("tmpfs", disk, "tmpfs", 0, "size=4194304"); err != nil {
		t.Skipf("a small file system cannot be mounted here (run the tests as root): %v", err)
	}
	t.Cleanup(func() { testkit.Must(t, syscall.Unmount(disk, 0)) })
	index := openIndex(t, filepath.Join(disk, "index"))
	testkit.Must(t, index.add(ctx, 0, hashesOf(0, 500)))
	ballast, err := os.Create(filepath.Join(disk, "ballast"))
	testkit.Must(t, err)
	for size := 1 << 16; size > 0; {
		if _, err := ballast.Write(make([]byte, size)); err != nil {
			size /= 2
		}
	}
	testkit.Must(t, ballast.Close())
	last := 500
	for ; err == nil && last < 500_000; last += 500 {
		err = index.add(ctx, uint64(last), hashesOf(last, last+500))
	}
	if err == nil || !strings.Contains(err.Error(), "full") {
		t.Fatalf("after %d leaves: %v", last, err)
	}
	checkFound(t, index, 0, 500, 0, 250, 499)
	testkit.Must(t, os.Remove(ballast.Name()))
	testkit.Must(t, index.add(ctx, uint64(last-500), hashesOf(last-500, last)))
	checkFound(t, index, last-500, last, last-500, last-1)
}
