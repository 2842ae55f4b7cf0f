package watchstore_test

import (
	"bytes"
	"database/sql"
	"errors"
	"math/rand/v2"
	"os"
	"path/filepath"
	"strings"
	"testing"

	"wagtenib/internal/testkit"
	"wagtenib/internal/watch"
	"wagtenib/internal/watch/alert"
	"wagtenib/internal/watch/watchstore"
)

// TestFullDiskLosesNothing: while files cannot grow, Keep fails and stores nothing. Afterwards, the same call stores
// all.
func TestFullDiskLosesNothing(t *testing.T) {
	authority := testkit.NewAuthority("Test CA 1")
	folder := t.TempDir()
	store := open(t, folder, watchstore.Options{Searcher: searcher("example.org")})
	must(t, store.UseOutputs([]string{"test"}))
	one, other := entriesOf(authority.Issue("a.example.org"), 0), entriesOf(authority.Issue("b.example.org"), 2)
	must(t, store.Keep(logOf(0), watch.State{Read: 2}, one))
	err := testkit.ShortFiles(t, 4096, func() error { return store.Keep(logOf(0), watch.State{Read: 4}, other) })
	if err == nil || !strings.Contains(err.Error(), watchstore.FileName) {
		t.Fatalf("a full disk: %v", err)
	}
	state, err := store.Load(logOf(0).ID)
	if err != nil || state.Read != 2 {
		t.Errorf("after a full disk %d entries are read, and not 2: %v", state.Read, err)
	}
	if alerts, err := store.Next("test", 9); err != nil || len(alerts) != 1 {
		t.Errorf("after a full disk there are %d alerts, and not 1: %v", len(alerts), err)
	}
	must(t, store.Keep(logOf(0), watch.State{Read: 4}, other))
	if alerts, err := store.Next("test", 9); err != nil || len(alerts) != 2 {
		t.Errorf("with room there are %d alerts, and not 2: %v", len(alerts), err)
	}
}

// TestRefusesDamagedStores: Open refuses a store that was overwritten, cut or replaced. The error names it and the
// remedy.
func TestRefusesDamagedStores(t *testing.T) {
	for what, damage := range map[string]func(content []byte) []byte{
		"overwritten in the middle": func(content []byte) []byte {
			for i := len(content) / 4; i < len(content)/2; i++ {
				content[i] = 0xff
			}
			return content
		},
		"overwritten at its start": func(content []byte) []byte {
			copy(content,
				"this is no database")
			return content
		},
		"cut":          func(content []byte) []byte { return content[:len(content)/2] },
		"another file": func([]byte) []byte { return []byte(strings.Repeat("a line of text\n", 1000)) },
	} {
		path := makeStore(t)
		content, err := os.ReadFile(path)
		must(t, err)
		must(t, os.WriteFile(path, damage(content), 0o600))
		_, err = watchstore.Open(filepath.Dir(path), watchstore.Options{Searcher: searcher("example.org")})
		if !errors.Is(err, watchstore.ErrDamaged) || !strings.Contains(err.Error(), path) ||
			!strings.Contains(err.Error(), "restore it from a backup") {
			t.Errorf("%s: %v", what, err)
		}
	}
}

// TestNamesADamagedStore flips a bit of a store, or cuts it, at many places. Open and each query then return the right
// answer, or an error that names the store. SQLite has no checksum of a row, so a wrong text or number is possible, but
// not a wrong certificate or state of a log.
func TestNamesADamagedStore(t *testing.T) {
	path := makeStore(t)
	whole, err := os.ReadFile(path)
	must(t, err)
	folder, random := t.TempDir(), rand.New(rand.NewPCG(1, 2))
	certificates := certificatesOf(t, filepath.Dir(path))
	refused := 0
	for round := range 150 {
		damaged, offset := bytes.Clone(whole), random.IntN(len(whole))
		if damaged[offset] ^= 1 << random.IntN(8); round%5 == 0 {
			damaged = damaged[:offset]
		}
		must(t, os.WriteFile(filepath.Join(folder, watchstore.FileName), damaged, 0o600))
		store, err := watchstore.Open(folder, watchstore.Options{Searcher: searcher("example.org")})
		if err == nil {
			for hash, der := range certificates {
				found, fault := store.Certificate(hash)
				if fault == nil && !bytes.Equal(found, der) {
					t.Fatalf("round %d: the store returns other bytes for certificate %s", round, hash)
				}
				err = errors.Join(err, ignoreAbsent(fault))
			}
			_, nextErr := store.Next("test", 100)
			_, loadErr := store.Load(logOf(0).ID)
			err = errors.Join(err, nextErr, loadErr, store.Close())
		}
		if err == nil {
			continue
		}
		if refused++; !strings.Contains(err.Error(), watchstore.FileName) {
			t.Errorf("round %d: the error does not name the store: %v", round, err)
		}
		for _, name := range []string{watchstore.FileName + "-wal", watchstore.FileName + "-shm"} {
			if err := os.Remove(filepath.Join(folder, name)); err != nil && !errors.Is(err, os.ErrNotExist) {
				t.Fatal(err)
			}
		}
	}
	if refused < 30 {
		t.Errorf("only %d damaged stores were refused", refused)
	}
}

// ignoreAbsent returns nil for ErrAbsent, because a flipped bit in its hash hides a certificate. It returns all other
// errors.
func ignoreAbsent(err error) error {
	if errors.Is(err, watchstore.ErrAbsent) {
		return nil
	}
	return err
}

// certificatesOf returns the certificates of a store by their hashes.
func certificatesOf(t *testing.T, folder string) map[string][]byte {
	t.Helper()
	store, err := watchstore.OpenToRead(folder)
	must(t, err)
	found, err := store.Find(watchstore.Query{Limit: 100})
	must(t, err)
	certificates := map[string][]byte{}
	for _, one := range found {
		certificates[one.SHA256], err = store.Certificate(one.SHA256)
		must(t, err)
	}
	must(t, store.Close())
	if len(certificates) != 50 {
		t.Fatalf("%d certificates", len(certificates))
	}
	return certificates
}

// TestRefusesOtherStores: a database of another program, and one of a later version, are refused. The error names them.
func TestRefusesOtherStores(t *testing.T) {
	for what, statement := range map[string]string{"another program's": "PRAGMA application_id = 7",
		"a later one": "PRAGMA user_version = 99"} {
		path := makeStore(t)
		db, err := sql.Open("sqlite3", path)
		must(t, err)
		_, err = db.Exec(statement)
		must(t, err)
		must(t, db.Close())
		if _, err := watchstore.Open(filepath.Dir(path), watchstore.Options{}); !errors.Is(err,
			watchstore.ErrOther) || !strings.Contains(err.Error(), path) {
			t.Errorf("%s: %v", what, err)
		}
		if _, err := watchstore.OpenToRead(filepath.Dir(path)); !errors.Is(err, watchstore.ErrOther) {
			t.Errorf("%s, to read: %v", what, err)
		}
	}
}

// TestRefusesASecondWriter: only one process can open a store for writing. Others can read it at the same time.
func TestRefusesASecondWriter(t *testing.T) {
	folder := t.TempDir()
	store := open(t, folder, watchstore.Options{Searcher: searcher("example.org")})
	if _, err := watchstore.Open(folder, watchstore.Options{}); !errors.Is(err, watchstore.ErrInUse) ||
		!strings.Contains(err.Error(), folder) {
		t.Errorf("a second one: %v", err)
	}
	must(t, store.Keep(logOf(0), watch.State{}, entriesOf(testkit.NewAuthority("Test CA 1").Issue("a.example.org"), 0)))
	reader, err := watchstore.OpenToRead(folder)
	must(t, err)
	if counts, err := reader.Counts(); err != nil || counts.Issuances != 1 {
		t.Errorf("%+v %v", counts, err)
	}
	must(t, reader.Close())
	if _, err := watchstore.OpenToRead(filepath.Join(folder, "absent")); !errors.Is(err, os.ErrNotExist) ||
		!strings.Contains(err.Error(), "start ctwatch run first") {
		t.Errorf("no store: %v", err)
	}
}

// TestMarksAlertsThatWereBegun: after a restart, Again is set in alerts that Begin named and Done did not. It is not
// set in others.
func TestMarksAlertsThatWereBegun(t *testing.T) {
	authority, folder := testkit.NewAuthority("Test CA 1"), t.TempDir()
	options := watchstore.Options{Searcher: searcher("example.org")}
	store, err := watchstore.Open(folder, options)
	must(t, err)
	must(t, store.UseOutputs([]string{"test", "other"}))
	for i := range 4 {
		must(t, store.Keep(logOf(0), watch.State{}, entriesOf(authority.Issue("a.example.org"), uint64(2*i))))
	}
	must(t, store.Begin("test", 3))
	must(t, store.Done("test", 1))
	must(t, store.Close())
	store = open(t, folder, options)
	for output, want := range map[string][]bool{"test": {true, true, false}, "other": {false, false, false, false}} {
		alerts, err := store.Next(output, 9)
		must(t, err)
		if len(alerts) != len(want) {
			t.Fatalf("%s: %d alerts, and not %d", output, len(alerts), len(want))
		}
		for i, one := range alerts {
			if one.Again != want[i] || one.ID != int64(i+5-len(want)) {
				t.Errorf("%s: alert %d, again %v, and not %v", output, one.ID, one.Again, want[i])
			}
		}
	}
	must(t, store.Failed("test", 2, errors.New("no")))
	if alerts, err := store.Next("test", 9); err != nil || !alerts[0].Again || alerts[1].Again {
		t.Errorf("Again is not set in the alert that was tried, or is set in the one that was not: %v", err)
	}
	if outputs, err := store.Outputs(); err != nil || len(outputs) != 2 ||
		outputs[1] != (watchstore.Output{Name: "test", Waiting: 3, Fault: "no"}) {
		t.Errorf("%+v %v", outputs, err)
	}
}

// makeStore returns the path of a closed store with findings.
func makeStore(t *testing.T) string {
	t.Helper()
	folder, authority := t.TempDir(), testkit.NewAuthority("Test CA 1")
	store, err := watchstore.Open(folder, watchstore.Options{Searcher: searcher("example.org")})
	must(t, err)
	for i := range 50 {
		must(t, store.Keep(logOf(0), watch.State{}, entriesOf(authority.Issue("a.example.org"), uint64(2*i))))
	}
	must(t, store.UseOutputs([]string{"test"}))
	if alerts, err := store.Next("test", 1); err != nil || len(alerts) != 0 {
		t.Fatalf("a new output gets alerts that were stored before: %v %v", []alert.Alert(alerts), err)
	}
	must(t, store.Close())
	return filepath.Join(folder, watchstore.FileName)
}

// TestReadersKeepTheJournalMode: a reader does not set how SQLite writes a file. If it did, then a new store could not be
// made while a health check looks at it ("database is locked").
func TestReadersKeepTheJournalMode(t *testing.T) {
	folder := t.TempDir()
	store, err := watchstore.Open(folder, watchstore.Options{})
	must(t, err)
	must(t, store.Close())
	path := filepath.Join(folder, watchstore.FileName)
	db, err := sql.Open("sqlite3", path)
	must(t, err)
	_, err = db.Exec("PRAGMA journal_mode = DELETE")
	must(t, err)
	must(t, db.Close())
	reader, err := watchstore.OpenToRead(folder)
	must(t, err)
	must(t, reader.Close())
	content, err := os.ReadFile(path)
	must(t, err)
	// The file format version for writing (SQLite, "The Database Header"): 1 is a rollback journal, and 2 is WAL.
	if content[18] != 1 {
		t.Errorf("after a reader the file has the format version %d, and not 1", content[18])
	}
}
