package blob

import (
	"errors"
	"fmt"
	"io/fs"
	"os"
	"path/filepath"
	"sync"
	"testing"
)

// TestRemovesEmptyFolders: a folder is removed with its last object, and made again with the next object. The first
// folder of a name is not removed.
func TestRemovesEmptyFolders(t *testing.T) {
	root, ctx := t.TempDir(), limited(t)
	objects, err := OpenFolder(root)
	if err != nil {
		t.Fatal(err)
	}
	has := func(folder string) bool {
		_, err := os.Stat(filepath.Join(root, folder))
		if err != nil && !errors.Is(err, fs.ErrNotExist) {
			t.Fatal(err)
		}
		return err == nil
	}
	for round := 0; round < 2; round++ {
		for _, name := range []string{"tile/0/000.p/1", "tile/0/000.p/2", "tile/0/000", "heads/1"} {
			if err := objects.Put(ctx, name, []byte(name)); err != nil {
				t.Fatal(err)
			}
		}
		for _, step := range []struct {
			name   string
			folder string
			stays  bool
		}{{"tile/0/000.p/1", "tile/0/000.p", true}, {"tile/0/000.p/2", "tile/0/000.p", false},
			{"tile/0/000", "tile/0", false}, {"heads/1", "heads", true}} {
			if err := objects.Delete(ctx, step.name); err != nil {
				t.Fatal(err)
			}
			if has(step.folder) != step.stays {
				t.Errorf("round %d: after %s was deleted, the folder %s exists: %v", round, step.name, step.folder,
					!step.stays)
			}
		}
		if !has("tile") {
			t.Error("the first folder of a name was removed")
		}
	}
	if err := objects.Delete(ctx, "tile/0/000.p/1"); err != nil {
		t.Errorf("an object that does not exist: %v", err)
	}
}

// TestPutsDuringDeletes: while some calls delete the last object of a folder, others put objects into it. All objects
// persist that were put and not deleted.
func TestPutsDuringDeletes(t *testing.T) {
	root, ctx := t.TempDir(), limited(t)
	var all sync.WaitGroup
	errs := make(chan error, 8)
	for i := 0; i < 8; i++ {
		objects, err := OpenFolder(root)
		if err != nil {
			t.Fatal(err)
		}
		all.Add(1)
		go func(i int) {
			defer all.Done()
			for round := 0; round < 50; round++ {
				deleted, kept := fmt.Sprintf("tile/0/%03d.p/deleted-%d", round, i),
					fmt.Sprintf("tile/0/%03d.p/%d", round, i)
				err := objects.Put(ctx, deleted, []byte(deleted))
				if err == nil {
					err = objects.Delete(ctx, deleted)
				}
				if err == nil {
					err = objects.Put(ctx, kept, []byte(kept))
				}
				if err != nil {
					errs <- err
					return
				}
			}
		}(i)
	}
	all.Wait()
	close(errs)
	for err := range errs {
		t.Error(err)
	}
	objects, err := OpenFolder(root)
	if err != nil {
		t.Fatal(err)
	}
	for round := 0; round < 50; round++ {
		for i := 0; i < 8; i++ {
			name := fmt.Sprintf("tile/0/%03d.p/%d", round, i)
			if content, err := objects.Get(ctx, name, 100); err != nil || string(content) != name {
				t.Errorf("%s: %q, %v", name, content, err)
			}
		}
	}
}
