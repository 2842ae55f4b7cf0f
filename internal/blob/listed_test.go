package blob

import (
	"fmt"
	"io/fs"
	"math/rand"
	"os"
	"path/filepath"
	"sort"
	"strings"
	"testing"
)

// TestFolderListsWhatAWalkFinds: a list of a folder, after any text and of any length, has the names that a walk over
// its files finds, in order.
func TestFolderListsWhatAWalkFinds(t *testing.T) {
	t.Parallel()
	root, ctx := t.TempDir(), limited(t)
	store, err := OpenFolder(root)
	must(t, err)
	from := rand.New(rand.NewSource(7))
	parts := []string{"a", "a.p", "a-b", "ab", "b", "b0", "B", "0", "1"}
	for i := 0; i < 150; i++ {
		name := "n" + fmt.Sprint(i%40)
		for depth := from.Intn(3); depth > 0; depth-- {
			name = parts[from.Intn(len(parts))] + "/" + name
		}
		must(t, store.Put(ctx, name, nil))
	}
	// A file whose name is not the name of an object, and empty folders, are not listed.
	must(t, os.WriteFile(filepath.Join(root, "a", "no name"), nil, 0o600))
	must(t, os.MkdirAll(filepath.Join(root, "a", "empty", "too"), 0o755))
	var all []string
	must(t, filepath.WalkDir(root, func(path string, entry fs.DirEntry, err error) error {
		name := strings.TrimPrefix(path, root+"/")
		if err == nil && entry.Type().IsRegular() && !strings.HasPrefix(name, ".") && !strings.Contains(name, " ") {
			all = append(all, name)
		}
		return err
	}))
	sort.Strings(all)
	afters := append([]string{"", "a", "a.", "a.p", "a/b/", "a/a/n3", "zz"}, all...)
	for _, prefix := range []string{"", "a/", "a/b/", "b/", "a/empty/", "zz/"} {
		for _, after := range afters {
			var want []string
			for _, name := range all {
				if strings.HasPrefix(name, prefix) && name > after {
					want = append(want, name)
				}
			}
			for _, maxNames := range []int{1, 3, MaxListed} {
				some := want
				if len(some) > maxNames {
					some = some[:maxNames]
				}
				got, err := store.List(ctx, prefix, after, maxNames)
				if err != nil || fmt.Sprint(got) != fmt.Sprint(some) {
					t.Fatalf("%d of %q after %q: %q, %v, and not %q", maxNames, prefix, after, got, err, some)
				}
			}
		}
	}
	// No object is below a file.
	if got, err := store.List(ctx, all[0]+"/", "", 9); err != nil || len(got) > 0 {
		t.Errorf("%q, %v", got, err)
	}
}
