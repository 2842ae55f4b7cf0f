package watchstore_test

import (
	"database/sql"
	"path/filepath"
	"testing"
	"time"

	_ "github.com/mattn/go-sqlite3"

	"wagtenib/bindings/go/wagtenib"
	"wagtenib/internal/watch"
	"wagtenib/internal/watch/watchstore"
)

// A store of an earlier ctwatch has only one head of each tree. Its states are read, and the head is there.
func TestReadsStatesOfAnEarlierCtwatch(t *testing.T) {
	folder := t.TempDir()
	store, err := watchstore.Open(folder, watchstore.Options{})
	must(t, err)
	must(t, store.Keep(logOf(0), watch.State{Monitor: []byte("monitor"), Read: 7}, nil))
	must(t, store.Close())
	db, err := sql.Open("sqlite3", filepath.Join(folder, watchstore.FileName))
	must(t, err)
	// This is the JSON of the head of an earlier build: a size, a timestamp, a root of 32 numbers, and bytes in base64.
	const root = "[9,0,0,0,0,0,0,0,0,0,0,0,0,0,0,0,0,0,0,0,0,0,0,0,0,0,0,0,0,0,0,0]"
	_, err = db.Exec("update states set accepted = ?, waiting = ?", `{"TreeSize":5,"Timestamp":1000,"Root":`+root+
		`,"Signed":"c2lnbmVk"}`, `{"TreeSize":9,"Timestamp":2000,"Root":`+root+`,"Signed":"bW9yZQ=="}`)
	must(t, err)
	must(t, db.Close())
	store = open(t, folder, watchstore.Options{})
	state, err := store.Load(logOf(0).ID)
	must(t, err)
	accepted := wagtenib.TreeHead{TreeSize: 5, Timestamp: 1000, Root: wagtenib.Hash{9}}
	if state.Accepted.TreeHead != accepted || string(state.Accepted.Signed) != "signed" ||
		state.Waiting.TreeSize != 9 || string(state.Waiting.Signed) != "more" || len(state.Accepted.Earliest.Signed) != 0 ||
		!state.Withheld.IsZero() || state.Unplaced != nil {
		t.Errorf("%+v", state)
	}
}

// A head without a proof is stored and reported like evidence, and counts as none.
func TestUnprovedHeadsAreNoEvidence(t *testing.T) {
	store := open(t, t.TempDir(), watchstore.Options{})
	must(t, store.UseOutputs([]string{"one"}))
	evidence, err := watch.NewEvidence(logOf(0), time.Unix(1_800_000_000, 0), watch.VerdictNotProved, "this is no accusation",
		map[string][]byte{watch.FileFirst: []byte("first"), watch.FileHead: []byte("second")})
	must(t, err)
	for range 2 {
		must(t, store.Accuse(logOf(0), watch.State{Read: 5}, evidence))
	}
	alerts, err := store.Next("one", 10)
	if err != nil || len(alerts) != 1 || alerts[0].Kind != "unproved" || alerts[0].Log.Text != "this is no accusation" {
		t.Errorf("%+v, %v", alerts, err)
	}
	counts, err := store.Counts()
	if err != nil || counts.Evidence != 0 || counts.NewEvidence != 0 || counts.NewUnproved != 1 || counts.Alerts != 1 {
		t.Errorf("%+v, %v", counts, err)
	}
	must(t, store.MarkSeen(1))
	if counts, err = store.Counts(); err != nil || counts.NewUnproved != 0 {
		t.Errorf("%+v, %v", counts, err)
	}
}
