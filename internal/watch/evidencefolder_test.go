package watch_test

import (
	"errors"
	"os"
	"path/filepath"
	"testing"

	"wagtenib/internal/watch"
)

// Evidence is written into a new or an empty folder, and not beside other files. Names of files do not lead out of it.
func TestWritesEvidenceIntoANewFolder(t *testing.T) {
	evidence := watch.Evidence{Files: map[string][]byte{"head-1": []byte("a head"), "proofs/second": []byte("a proof")}}
	above := t.TempDir()
	for _, folder := range []string{filepath.Join(above, "new", "below"), t.TempDir()} {
		if err := evidence.Write(folder); err != nil {
			t.Fatal(err)
		}
		for name, content := range evidence.Files {
			if found, err := os.ReadFile(filepath.Join(folder, name)); err != nil || string(found) != string(content) {
				t.Errorf("%s: %q, %v", name, found, err)
			}
		}
		if err := evidence.Write(folder); !errors.Is(err, watch.ErrNotNew) {
			t.Errorf("a second time: %v", err)
		}
		if err := watch.CheckNew(folder); !errors.Is(err, watch.ErrNotNew) {
			t.Errorf("the folder counts as new: %v", err)
		}
	}
	if err := watch.CheckNew(filepath.Join(above, "absent")); err != nil {
		t.Error(err)
	}
	if err := watch.CheckNew(filepath.Join(above, "new", "below", "head-1")); err == nil || errors.Is(err, watch.ErrNotNew) {
		t.Errorf("a file counts as a folder: %v", err)
	}
	outside := watch.Evidence{Files: map[string][]byte{"../out": []byte("a file")}}
	if err := outside.Write(filepath.Join(above, "inside")); err == nil {
		t.Error("a name leads out of the folder")
	}
	if _, err := os.Stat(filepath.Join(above, "out")); !os.IsNotExist(err) {
		t.Errorf("a file is outside the folder: %v", err)
	}
}
