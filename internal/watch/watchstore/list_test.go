package watchstore_test

import (
	"database/sql"
	"errors"
	"path/filepath"
	"testing"
	"time"

	"wagtenib/internal/watch/watchstore"
)

// checkList checks the stored state of the followed log list.
func checkList(t *testing.T, store *watchstore.Store, content, fault string, read time.Time) {
	t.Helper()
	list, err := store.List()
	must(t, err)
	if string(list.Content) != content || list.Fault != fault || !list.Read.Equal(read) {
		t.Errorf("the list is %q, read at %v, with the fault %q", list.Content, list.Read, list.Fault)
	}
}

// TestKeepsTheFollowedList: the list that was last read stays in the store after a fault and after a restart, until
// another place or another key is set, or no list is followed.
func TestKeepsTheFollowedList(t *testing.T) {
	now := time.UnixMilli(1_770_000_000_000).UTC()
	folder, options := t.TempDir(), watchstore.Options{Now: func() time.Time { return now }}
	store, err := watchstore.Open(folder, options)
	must(t, err)
	must(t, store.UseList("a.json", []byte("key")))
	must(t, store.ReportList(errors.New("refused")))
	checkList(t, store, "", "refused", time.Time{})
	must(t, store.KeepList([]byte("list")))
	checkList(t, store, "list", "", now)
	must(t, store.ReportList(errors.New("refused\n")))
	must(t, store.Close())
	store = open(t, folder, options)
	must(t, store.UseList("a.json", []byte("key")))
	if list, err := store.List(); err != nil || string(list.Content) != "list" || list.Fault == "" ||
		list.Fault == "refused\n" {
		t.Errorf("%v: the list is %q, with the fault %q", err, list.Content, list.Fault)
	}
	for _, other := range []struct {
		place string
		key   []byte
	}{{"a.json", nil}, {"b.json", nil}, {"", nil}} {
		must(t, store.KeepList([]byte("list")))
		must(t, store.UseList(other.place, other.key))
		checkList(t, store, "", "", time.Time{})
	}
}

// TestReadsAStoreWithoutLists: a store from before lists were stored can be read. It gets their table when it is opened
// for writing.
func TestReadsAStoreWithoutLists(t *testing.T) {
	folder := t.TempDir()
	store, err := watchstore.Open(folder, watchstore.Options{})
	must(t, err)
	must(t, store.Close())
	db, err := sql.Open("sqlite3", filepath.Join(folder, watchstore.FileName))
	must(t, err)
	_, err = db.Exec("drop table lists")
	must(t, errors.Join(err, db.Close()))
	reader, err := watchstore.OpenToRead(folder)
	must(t, err)
	checkList(t, reader, "", "", time.Time{})
	_, err = reader.Health(time.Hour)
	must(t, errors.Join(err, reader.Close()))
	store = open(t, folder, watchstore.Options{})
	must(t, store.UseList("a.json", nil))
	must(t, store.ReportList(errors.New("refused")))
	checkList(t, store, "", "refused", time.Time{})
}
