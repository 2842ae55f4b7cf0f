package archive_test

import (
	"encoding/json"
	"errors"
	"fmt"
	"net/http"
	"os"
	"path/filepath"
	"strconv"
	"strings"
	"testing"

	"wagtenib/internal/blob"
	"wagtenib/internal/ct"
	"wagtenib/internal/log"
	"wagtenib/internal/log/archive"
	"wagtenib/internal/logclient"
	"wagtenib/internal/testkit"
)

// intercept replaces the answers to one call by those of a function. If the function returns false, the log answers.
func intercept(of *testkit.Log, call string, respond func(w http.ResponseWriter, r *http.Request) bool) {
	of.Intercept(func(w http.ResponseWriter, r *http.Request) bool {
		return r.URL.Path == "/ct/v1/"+call && respond(w, r)
	})
}

// changeEntry makes a log answer one entry as a function changes it.
func changeEntry(of *testkit.Log, index uint64, change func(leaf, extra []byte) (any, bool)) {
	intercept(of, "get-entries", func(w http.ResponseWriter, r *http.Request) bool {
		start, err := strconv.ParseUint(r.URL.Query().Get("start"), 10, 64)
		end, failed := strconv.ParseUint(r.URL.Query().Get("end"), 10, 64)
		if err != nil || failed != nil || index < start || index > end {
			return false
		}
		var answer struct {
			Entries []any `json:"entries"`
		}
		honest := of.Fork(of.Size())
		honest.Publish(of.Size(), 1)
		for at := start; at <= end; at++ {
			var one struct {
				Entries []struct {
					Leaf  []byte `json:"leaf_input"`
					Extra []byte `json:"extra_data"`
				} `json:"entries"`
			}
			recorded := record(honest, fmt.Sprintf("/ct/v1/get-entries?start=%d&end=%d", at, at))
			if err := json.Unmarshal(recorded, &one); err != nil {
				return false
			}
			leaf, extra := one.Entries[0].Leaf, one.Entries[0].Extra
			if at != index {
				answer.Entries = append(answer.Entries, map[string][]byte{"leaf_input": leaf, "extra_data": extra})
			} else if changed, isPresent := change(leaf, extra); isPresent {
				answer.Entries = append(answer.Entries, changed)
			}
		}
		return json.NewEncoder(w).Encode(answer) == nil
	})
}

// entry returns an entry of get-entries.
func entry(leaf, extra []byte) map[string][]byte {
	return map[string][]byte{"leaf_input": leaf, "extra_data": extra}
}

// lies has the lies of a log of 600 entries, 300 of which were archived before, and the errors that they must cause.
var lies = map[string]struct {
	apply    func(t *testing.T, w *world)
	expected error
}{
	"another root": {func(_ *testing.T, w *world) {
		w.log.PublishRoot(600, 2_000_700, [32]byte{1})
	}, archive.ErrInconsistent},
	"a fork": {func(t *testing.T, w *world) {
		w.fork(t, 250, 300)
	}, archive.ErrFork},
	"a longer fork": {func(t *testing.T, w *world) {
		w.fork(t, 250, 600)
	}, archive.ErrInconsistent},
	"an older fork": {func(t *testing.T, w *world) {
		w.fork(t, 100, 200)
	}, archive.ErrFork},
	"an older head": {func(_ *testing.T, w *world) { w.log.Publish(200, 2_000_200) }, archive.ErrBehind},
	"no entries":    {func(_ *testing.T, w *world) { w.log.Publish(0, 2_000_200) }, archive.ErrEmpty},
	"a head of another key": {func(t *testing.T, w *world) {
		other := testkit.NewLog(origin)
		other.PublishRoot(600, 2_000_700, w.log.Root(600))
		intercept(w.log, "get-sth", func(rw http.ResponseWriter, _ *http.Request) bool {
			_, err := rw.Write(record(other, "/ct/v1/get-sth"))
			return err == nil
		})
	}, ct.ErrSigner},
	"a head that is none": {func(_ *testing.T, w *world) {
		intercept(w.log, "get-sth", func(rw http.ResponseWriter, _ *http.Request) bool {
			_, err := rw.Write([]byte(`{"tree_size":600}`))
			return err == nil
		})
	}, ct.ErrForm},
	"another certificate": {func(_ *testing.T, w *world) {
		changeEntry(w.log, 400, func(leaf, extra []byte) (any, bool) {
			leaf[len(leaf)-4] ^= 1
			return entry(leaf, extra), true
		})
	}, archive.ErrUnproved},
	"another last certificate": {func(_ *testing.T, w *world) {
		changeEntry(w.log, 599, func(leaf, extra []byte) (any, bool) {
			leaf[len(leaf)-4] ^= 1
			return entry(leaf, extra), true
		})
	}, archive.ErrOther},
	"an entry is left out": {func(_ *testing.T, w *world) {
		changeEntry(w.log, 400, func([]byte, []byte) (any, bool) { return nil, false })
	}, archive.ErrUnproved},
	"no entries any more": {func(_ *testing.T, w *world) {
		intercept(w.log, "get-entries", func(rw http.ResponseWriter, _ *http.Request) bool {
			_, err := rw.Write([]byte(`{"entries":[]}`))
			return err == nil
		})
	}, logclient.ErrNonsense},
	"a leaf that is none": {func(_ *testing.T, w *world) {
		changeEntry(w.log, 400, func(leaf, extra []byte) (any, bool) { return entry(leaf[:12], extra), true })
	}, archive.ErrEntry},
	"a chain that is cut off": {func(_ *testing.T, w *world) {
		changeEntry(w.log, 400, func(leaf, extra []byte) (any, bool) { return entry(leaf, extra[:len(extra)-1]), true })
	}, archive.ErrEntry},
	"bytes after a chain": {func(_ *testing.T, w *world) {
		changeEntry(w.log, 400, func(leaf, extra []byte) (any, bool) { return entry(leaf, append(extra, 0)), true })
	}, archive.ErrEntry},
	"no proof": {func(_ *testing.T, w *world) {
		intercept(w.log, "get-sth-consistency", func(rw http.ResponseWriter, r *http.Request) bool {
			rw.WriteHeader(http.StatusBadRequest)
			return true
		})
	}, archive.ErrInconsistent},
	"a wrong proof between heads and entries": {func(_ *testing.T, w *world) {
		intercept(w.log, "get-sth-consistency", func(rw http.ResponseWriter, r *http.Request) bool {
			if r.URL.Query().Get("first") == "300" {
				return false
			}
			_, err := rw.Write([]byte(`{"consistency":["` + base64Of(32) + `"]}`))
			return err == nil
		})
	}, archive.ErrUnproved},
}

// TestRefusesALogThatLies checks the error for each lie. What was archived before must not change, and as soon as the
// log is honest again, the archive continues.
func TestRefusesALogThatLies(t *testing.T) {
	for what, of := range lies {
		t.Run(what, func(t *testing.T) {
			w := newWorld(t, 300)
			testkit.Must(t, w.make())
			before := filesIn(t, w.folder)
			w.grow(300)
			of.apply(t, w)
			if err := w.make(); !errors.Is(err, of.expected) || strings.Contains(err.Error(), "nil") {
				t.Errorf("%v, expected %v", err, of.expected)
			}
			after := filesIn(t, w.folder)
			for name, content := range before {
				isGrown := name == "progress" && after[name] == "512\n" && errors.Is(of.expected, archive.ErrOther)
				if after[name] != content && name != "wanted-head.json" && !isGrown {
					t.Errorf("%s has changed", name)
				}
			}
			if _, isStored := after["other-head.json"]; isStored != (errors.Is(of.expected, archive.ErrFork) ||
				errors.Is(of.expected, archive.ErrInconsistent)) {
				t.Errorf("a head that contradicts the archive is stored: %v", isStored)
			}
			for name := range after {
				// What was proved before the lie may remain.
				if _, ok := before[name]; !ok && name != "other-head.json" && !errors.Is(of.expected, archive.ErrOther) {
					t.Errorf("%s was written", name)
				}
			}
			w.log.Intercept(nil)
			w.log.Publish(600, 2_000_800)
			w.checkServed(300)
			testkit.Must(t, w.make())
			w.checkArchived()
		})
	}
}

// TestRefusesAWrongRootUntilDeleted checks that a signed head with a wrong root blocks the archive until the operator
// deletes that head.
func TestRefusesAWrongRootUntilDeleted(t *testing.T) {
	w := newWorld(t, 300)
	w.log.PublishRoot(300, 2_000_300, [32]byte{1})
	if err := w.make(); !errors.Is(err, archive.ErrUnproved) {
		t.Errorf("%v", err)
	}
	w.log.Publish(300, 2_000_301)
	if err := w.make(); !errors.Is(err, archive.ErrFork) {
		t.Errorf("%v", err)
	}
	testkit.Must(t, os.Remove(filepath.Join(w.folder, "wanted-head.json")))
	testkit.Must(t, os.Remove(filepath.Join(w.folder, "other-head.json")))
	testkit.Must(t, w.make())
	w.checkArchived()
	// Deleting wanted-head.json does not discard the head of which the archive has all entries.
	testkit.Must(t, os.Remove(filepath.Join(w.folder, "wanted-head.json")))
	w.log.Publish(200, 2_000_302)
	if err := w.make(); !errors.Is(err, archive.ErrBehind) {
		t.Errorf("%v", err)
	}
	w.log.Publish(300, 2_000_303)
	testkit.Must(t, w.make())
	w.checkArchived()
}

// TestRefusesAnotherFolder checks that a folder of another log, of another origin, with other files, or in use is
// refused.
func TestRefusesAnotherFolder(t *testing.T) {
	w, other := newWorld(t, 20), newWorld(t, 20)
	testkit.Must(t, w.make())
	before := filesIn(t, w.folder)
	other.folder = w.folder
	if err := other.make(); !errors.Is(err, archive.ErrFolder) {
		t.Errorf("another log: %v", err)
	}
	of := w.archivedLog()
	of.Origin = "elsewhere.example"
	if _, err := archive.Make(testkit.Limited(t, testkit.Longest), w.folder, of,
		options()); !errors.Is(err, archive.ErrFolder) {
		t.Errorf("another origin: %v", err)
	}
	checkSame(t, before, filesIn(t, w.folder))
	w.folder = t.TempDir()
	testkit.Must(t, os.WriteFile(filepath.Join(w.folder, "letter"), []byte("Dear"), 0o600))
	if err := w.make(); !errors.Is(err, archive.ErrFolder) || !strings.HasSuffix(err.Error(), "(name an empty folder)") {
		t.Errorf("a folder with a letter: %v", err)
	}
	w.folder = t.TempDir()
	testkit.Must(t, os.WriteFile(filepath.Join(w.folder, "log.json"), []byte("{}"), 0o600))
	if err := w.make(); !errors.Is(err, archive.ErrFolder) ||
		!strings.Contains(err.Error(), "it has no origin or no key") {
		t.Errorf("a folder of no log: %v", err)
	}
	w.folder = filepath.Join(t.TempDir(), "archive")
	settings := options()
	settings.Progress = func(uint64, uint64) {
		if err := w.make(); !errors.Is(err, archive.ErrInUse) {
			t.Errorf("a folder in use: %v", err)
		}
	}
	_, err := archive.Make(testkit.Limited(t, testkit.Longest), w.folder, w.archivedLog(), settings)
	testkit.Must(t, err)
}

// TestIndexIsBuiltAgain checks that a lost index is an error, and that the next run builds it again.
func TestIndexIsBuiltAgain(t *testing.T) {
	w := newWorld(t, 600)
	testkit.Must(t, w.make())
	lost, err := filepath.Glob(filepath.Join(w.folder, "index*"))
	testkit.Must(t, err)
	for _, path := range lost {
		testkit.Must(t, os.Remove(path))
	}
	if _, err := archive.Open(testkit.Limited(t, testkit.Longest), w.folder); !errors.Is(err, archive.ErrDamaged) {
		t.Errorf("%v", err)
	}
	testkit.Must(t, w.make())
	w.checkArchived()
}

// TestServesNoDamage checks that objects that do not belong to the tree are not served, and that others are.
func TestServesNoDamage(t *testing.T) {
	w := newWorld(t, 600)
	testkit.Must(t, w.make())
	ctx := testkit.Limited(t, testkit.Longest)
	served, err := archive.Open(ctx, w.folder)
	testkit.Must(t, err)
	defer served.Close()
	for name, expected := range map[string]error{
		"tile/data/000": log.ErrStore, "tile/0/001": log.ErrStore,
		"tile/data/002.p/88": log.ErrStore, "tile/data/001": nil, "tile/data/002.p/87": blob.ErrAbsent,
		"tile/data/003": blob.ErrAbsent, "checkpoint": blob.ErrName, "../signed-head.json": blob.ErrName} {
		if errors.Is(expected, log.ErrStore) {
			path := filepath.Join(w.folder, "objects", filepath.FromSlash(name))
			content, err := os.ReadFile(path)
			testkit.Must(t, err)
			content[3] ^= 1 // In a data tile, this is a byte of a timestamp, which a hash covers.
			testkit.Must(t, os.WriteFile(path, content, 0o600))
		}
		content, err := served.Object(ctx, name, 1<<20)
		if !errors.Is(err, expected) || (err == nil) != (content != nil) {
			t.Errorf("%s: %d bytes, %v, expected %v", name, len(content), err, expected)
		}
	}
}

// fork makes the log answer with another history from an index on.
func (w *world) fork(t *testing.T, from, size uint64) {
	t.Helper()
	other := w.log.Fork(from)
	for other.Size() < size {
		other.Add(testkit.Entry{Timestamp: 5_000_000, Certificate: fmt.Appendf(nil, "other %d", other.Size())})
	}
	other.Publish(size, 3_000_000)
	w.log.Intercept(func(rw http.ResponseWriter, r *http.Request) bool {
		other.ServeHTTP(rw, r)
		return true
	})
}
