package blob

import (
	"bytes"
	"errors"
	"fmt"
	"math/rand"
	"os"
	"path/filepath"
	"strings"
	"testing"

	"github.com/syndtr/goleveldb/leveldb/opt"
)

// damaged returns a copy of a folder in which one file is damaged.
func damaged(t *testing.T, folder, name string, damage func(content []byte) []byte) string {
	t.Helper()
	to := filepath.Join(t.TempDir(), "index")
	must(t, os.CopyFS(to, os.DirFS(folder)))
	path := filepath.Join(to, name)
	content, err := os.ReadFile(path)
	must(t, err)
	if content = damage(content); content == nil {
		must(t, os.Remove(path))
		return to
	}
	must(t, os.WriteFile(path, content, 0o644))
	return to
}

// damagedIndex is an index whose copies the tests damage.
type damagedIndex struct {
	folder  string
	options opt.Options
	asked   []Identity
	want    map[Identity]Place
}

// newDamagedIndex returns an index of 1500 rows, in tables and in a journal. Opening it merges no tables.
func newDamagedIndex(t *testing.T) *damagedIndex {
	t.Helper()
	ctx, d := limited(t), &damagedIndex{folder: filepath.Join(t.TempDir(), "index"), options: smallOptions()}
	var all []Row
	d.asked, all, d.want = someOf(0, 1500)
	d.options.CompactionL0Trigger, d.options.CompactionTotalSize, d.options.WriteBuffer = 1000, 1<<30, 1<<20
	from := 0
	// The second open deletes tables that are no longer needed. The last rows are in the journal.
	for _, open := range []struct {
		options opt.Options
		last    int
	}{{smallOptions(), 1200}, {d.options, 1500}} {
		store, err := openLevelDB(ctx, d.folder, open.options, openLevelFiles)
		must(t, err)
		for ; from < open.last; from += 100 {
			must(t, store.Add(ctx, all[from:from+100]))
		}
		must(t, store.Close())
	}
	return d
}

// isReported reports whether a call returns the damage in a folder as an error. If none does, all rows must be found.
func (d *damagedIndex) isReported(t *testing.T, what, folder string) bool {
	t.Helper()
	ctx := limited(t)
	isDamage := func(err error) bool {
		if err != nil && (!errors.Is(err, ErrDamaged) || !strings.Contains(err.Error(), folder) ||
			!strings.Contains(err.Error(), "ctserve index")) {
			t.Errorf("%s: %v", what, err)
		}
		return err != nil
	}
	store, err := openLevelDB(ctx, folder, d.options, openLevelFiles)
	if isDamage(err) {
		return true
	}
	defer store.Close()
	for _, id := range d.asked {
		found, err := store.Find(ctx, []Identity{id})
		if isDamage(err) {
			return true
		}
		leaves, err := store.FindLeaves(ctx, []Identity{leafOf(id)})
		if isDamage(err) {
			return true
		}
		if found[id] != d.want[id] || leaves[leafOf(id)] != d.want[id] {
			t.Fatalf("%s: a row is dropped: %v, %v", what, found, leaves)
		}
	}
	return false
}

// isJournal reports whether a file is a journal. A journal without its last rows cannot be distinguished from one that
// was still being written.
func isJournal(name string) bool { return strings.HasSuffix(name, ".log") }

// files returns the names of the files that contain rows or say where rows are, and the number of tables among them.
func (d *damagedIndex) files(t *testing.T) (names []string, tables int) {
	t.Helper()
	files, err := os.ReadDir(d.folder)
	must(t, err)
	for _, file := range files {
		name := file.Name()
		if name == "LOCK" || name == "LOG" || strings.HasSuffix(name, ".bak") {
			continue
		}
		names = append(names, name)
		if strings.HasSuffix(name, ".ldb") {
			tables++
		}
	}
	return names, tables
}

// TestLevelDBReportsAMissingFile: if a file is missing, cut off or empty, an error says that the index is damaged,
// where it is, and what to do.
func TestLevelDBReportsAMissingFile(t *testing.T) {
	index := newDamagedIndex(t)
	names, tables := index.files(t)
	if tables < 5 {
		t.Errorf("there are %d tables", tables)
	}
	for _, name := range names {
		for what, damage := range map[string]func([]byte) []byte{
			"is missing":             func([]byte) []byte { return nil },
			"is empty":               func([]byte) []byte { return []byte{} },
			"has half of its bytes":  func(content []byte) []byte { return content[:len(content)/2] },
			"has zeros in its place": func(content []byte) []byte { return make([]byte, len(content)) },
		} {
			what = name + " " + what
			if !isJournal(name) && !index.isReported(t, what, damaged(t, index.folder, name, damage)) {
				t.Errorf("%s, and this is not reported", what)
			}
		}
	}
}

// TestLevelDBReportsAFlippedBit: if any bit of any file is flipped, all rows are found, or a call reports that the
// index is damaged. No row is dropped.
func TestLevelDBReportsAFlippedBit(t *testing.T) {
	index, random, reported := newDamagedIndex(t), rand.New(rand.NewSource(1)), 0
	names, _ := index.files(t)
	for _, name := range names {
		for range 5 {
			what := fmt.Sprintf("a bit of %s is flipped", name)
			if index.isReported(t, what, damaged(t, index.folder, name, func(content []byte) []byte {
				if len(content) == 0 {
					return content
				}
				at := random.Intn(len(content))
				// The last record of a journal is not damaged: with another length it looks unfinished, and is cut off.
				if last := len(content) - 100*110; isJournal(name) && at > last {
					at = max(last, 0) / 2
				}
				content[at] ^= 1 << random.Intn(8)
				return content
			})) {
				reported++
			}
		}
	}
	if reported < 20 {
		t.Errorf("%d damages were reported", reported)
	}
}

// TestLevelDBDropsAnUnfinishedRecord: wherever the journal is cut off, with or without zeros after that, all rows of
// complete records are found, and more rows can be added.
func TestLevelDBDropsAnUnfinishedRecord(t *testing.T) {
	ctx, folder := limited(t), filepath.Join(t.TempDir(), "index")
	store, err := OpenLevelDB(ctx, folder)
	must(t, err)
	// The last record crosses two ends of blocks.
	var ends []int64
	lengths := []int{3, 1, 100, 400, 700}
	journal := func() string {
		names, err := filepath.Glob(filepath.Join(folder, "*.log"))
		if err != nil || len(names) != 1 {
			t.Fatalf("journals: %v, %v", names, err)
		}
		return names[0]
	}
	total := 0
	for _, length := range lengths {
		_, all, _ := someOf(total, total+length)
		must(t, store.Add(ctx, all))
		total += length
		info, err := os.Stat(journal())
		must(t, err)
		ends = append(ends, info.Size())
	}
	must(t, store.Close())
	name := filepath.Base(journal())
	var cuts []int64
	for i, end := range ends {
		from := int64(0)
		if i > 0 {
			from = ends[i-1]
		}
		cuts = append(cuts, from, from+1, from+6, from+7, from+8, (from+end)/2, end-1, end)
	}
	cuts = append(cuts, levelBlock-1, levelBlock, levelBlock+1, levelBlock+7, levelBlock+8, 2*levelBlock, 3*levelBlock)
	for _, cut := range cuts {
		for _, zeros := range []int{0, 1, 50_000} {
			complete := 0
			for i, end := range ends {
				if end <= cut {
					complete += lengths[i]
				}
			}
			left := damaged(t, folder, name, func(content []byte) []byte {
				return append(bytes.Clone(content[:min(cut, int64(len(content)))]), make([]byte, zeros)...)
			})
			store, err := OpenLevelDB(ctx, left)
			if err != nil {
				t.Errorf("cut at %d of %v, and %d zeros: %v", cut, ends, zeros, err)
				continue
			}
			asked, _, _ := someOf(0, total)
			_, _, want := someOf(0, complete)
			wantFound(t, store, asked, want)
			_, all, want := someOf(0, total)
			must(t, store.Add(ctx, all))
			wantFound(t, store, asked, want)
			must(t, store.Close())
		}
	}
}

// TestLevelDBReportsACutManifest: if a manifest has lost records, or ends within one, the index is reported as damaged,
// or no row is missing.
func TestLevelDBReportsACutManifest(t *testing.T) {
	ctx, folder, options := limited(t), filepath.Join(t.TempDir(), "index"), smallOptions()
	options.CompactionL0Trigger, options.WriteL0SlowdownTrigger, options.WriteL0PauseTrigger = 1000, 1000, 1000
	store, err := openLevelDB(ctx, folder, options, openLevelFiles)
	must(t, err)
	asked, all, want := someOf(0, 1000)
	for from := 0; from < len(all); from += 50 {
		must(t, store.Add(ctx, all[from:from+50]))
	}
	must(t, store.Close())
	names, err := filepath.Glob(filepath.Join(folder, "MANIFEST-*"))
	if err != nil || len(names) != 1 {
		t.Fatalf("manifests: %v, %v", names, err)
	}
	info, err := os.Stat(names[0])
	must(t, err)
	if info.Size() < 300 {
		t.Fatalf("the manifest has %d bytes", info.Size())
	}
	refused := 0
	for cut := info.Size() - 1; cut >= 0; cut -= 1 + info.Size()/60 {
		left := damaged(t, folder, info.Name(), func(content []byte) []byte { return content[:cut] })
		store, err := openLevelDB(ctx, left, options, openLevelFiles)
		if err != nil {
			if refused++; !errors.Is(err, ErrDamaged) {
				t.Errorf("cut at %d: %v", cut, err)
			}
			continue
		}
		wantFound(t, store, asked, want)
		must(t, store.Close())
	}
	if refused < 30 {
		t.Errorf("%d were refused", refused)
	}
}
