package mirror_test

import (
	"bytes"
	"context"
	"crypto/sha256"
	"errors"
	"io/fs"
	"net/http"
	"net/http/httptest"
	"os"
	"path/filepath"
	"strings"
	"sync"
	"syscall"
	"testing"

	"golang.org/x/mod/sumdb/tlog"

	"wagtenib/bindings/go/wagtenib"
	"wagtenib/internal/blob"
	"wagtenib/internal/logclient"
	"wagtenib/internal/testkit"
	"wagtenib/internal/watch"
	"wagtenib/internal/watch/mirror"
)

// keeper implements watch.Keeper for one log, in memory.
type keeper struct {
	state   watch.State
	entries int
}

func (k *keeper) Load(watch.LogID) (watch.State, error) { return k.state, nil }
func (k *keeper) Keep(_ watch.Log, next watch.State, entries []watch.Entry) error {
	k.state = next
	k.entries += len(entries)
	return nil
}
func (k *keeper) Accuse(watch.Log, watch.State, watch.Evidence) error {
	return errors.New("the log is accused")
}
func (k *keeper) Report(watch.Status) {}

// grow adds certificates and precertificates with two issuers, and signs a head.
func grow(log *testkit.Log, count uint64) {
	timestamp := 10 * (log.Size() + count)
	if count == 0 {
		timestamp += 5 // The head covers the same tree, but is later.
	}
	for i := log.Size(); count > 0; i, count = i+1, count-1 {
		e := testkit.Entry{Timestamp: i, Certificate: []byte{0x30, 2, byte(i >> 8), byte(i)},
			Chain: [][]byte{[]byte("issuer"), []byte("root")}}
		if i%3 == 0 {
			e.IssuerKeyHash, e.Precertificate, e.Chain = make([]byte, 32), []byte{0x30, 1, byte(i)}, [][]byte{{byte(i % 5)}}
		}
		log.Add(e)
	}
	log.Publish(log.Size(), timestamp)
}

// world holds a log, the folder of its mirror, and the state of its follower.
type world struct {
	log     *testkit.Log
	watched watch.Log
	folder  string
	keeper  *keeper
}

func newWorld(t *testing.T) *world {
	t.Helper()
	log := testkit.NewLog("log.example/2027")
	server := httptest.NewServer(log)
	t.Cleanup(server.Close)
	watched := watch.Log{ID: sha256.Sum256(log.PublicKey()), Name: "log", Origin: log.Origin, URL: server.URL,
		PublicKey: log.PublicKey()}
	return &world{log, watched, filepath.Join(t.TempDir(), "mirror"), &keeper{}}
}

// pass makes one pass with a new follower, which opens the mirror again.
func (w *world) pass() error {
	limits := logclient.Limits{Attempts: 1}
	options := watch.Options{FromStart: true, Client: logclient.Options{Limits: limits},
		Mirror: func(log watch.Log) (watch.Mirror, error) {
			return mirror.Open(w.folder, log, logclient.Options{Limits: limits})
		}}
	f, err := watch.NewFollower(w.watched, w.keeper, options)
	if err != nil {
		return err
	}
	return f.Pass(context.Background())
}

// checkMirrored compares each file of the folder with the log's answer, and checks that no tile of the tree is missing.
func (w *world) checkMirrored(t *testing.T, size uint64) {
	t.Helper()
	files := map[string][]byte{}
	err := filepath.WalkDir(w.folder, func(path string, entry fs.DirEntry, err error) error {
		if err != nil || entry.IsDir() {
			return err
		}
		name, err := filepath.Rel(w.folder, path)
		if err != nil {
			return err
		}
		// The file server may run as another user.
		if info, err := entry.Info(); err != nil || info.Mode().Perm() != 0o644 {
			t.Errorf("%s: %v, %v", name, info.Mode(), err)
		}
		files[filepath.ToSlash(name)], err = os.ReadFile(path)
		return err
	})
	if err != nil {
		t.Fatal(err)
	}
	for name, content := range files {
		recorded := httptest.NewRecorder()
		w.log.ServeHTTP(recorded, httptest.NewRequest(http.MethodGet, "/"+name, nil))
		if recorded.Code != http.StatusOK || !bytes.Equal(recorded.Body.Bytes(), content) {
			t.Errorf("%s has other bytes than the log's", name)
		}
		if strings.HasPrefix(name, ".") {
			t.Errorf("%s was not deleted", name)
		}
	}
	expected := []tlog.Tile{}
	for level, hashes := -1, size; hashes > 0; level++ {
		for n := uint64(0); n*256 < hashes; n++ {
			expected = append(expected, tlog.Tile{H: 8, L: level, N: int64(n), W: int(min(256, hashes-n*256))})
		}
		if level >= 0 {
			hashes /= 256
		}
	}
	for _, tile := range expected {
		if name := "tile/" + strings.TrimPrefix(tile.Path(), "tile/8/"); files[name] == nil {
			t.Errorf("%s is missing", name)
		}
	}
	if files["checkpoint"] == nil {
		t.Error("there is no checkpoint")
	}
}

// A mirror grows with its log, over restarts, and has each of its files. If a file server serves it, it can be followed
// like the log itself.
func TestMirrorsAGrowingLog(t *testing.T) {
	w := newWorld(t)
	for _, count := range []uint64{1, 0, 43, 212, 1, 500, 256, 70_000, 300} {
		grow(w.log, count)
		if err := w.pass(); err != nil {
			t.Fatalf("%d entries: %v", w.log.Size(), err)
		}
		if asked := w.log.Requests("/tile/data/250"); count == 70_000 && asked != 1 {
			t.Errorf("a data tile was read %d times: the staged one was not used", asked)
		}
		w.checkMirrored(t, w.log.Size())
	}
	server := httptest.NewServer(http.FileServer(http.Dir(w.folder)))
	defer server.Close()
	served := w.watched
	served.URL = server.URL
	reader := &keeper{}
	f, err := watch.NewFollower(served, reader, watch.Options{FromStart: true})
	if err != nil {
		t.Fatal(err)
	}
	if err := f.Pass(context.Background()); err != nil || reader.entries != int(w.log.Size()) ||
		reader.state.Accepted.Root != w.log.Root(w.log.Size()) {
		t.Errorf("%d entries are read from the mirror: %v", reader.entries, err)
	}
}

// If an issuer is missing, the folder keeps the old checkpoint, and the next pass continues. That pass reads a damaged
// staged tile again.
func TestContinuesAfterAFailure(t *testing.T) {
	w := newWorld(t)
	grow(w.log, 100)
	if err := w.pass(); err != nil {
		t.Fatal(err)
	}
	before, err := os.ReadFile(filepath.Join(w.folder, "checkpoint"))
	if err != nil {
		t.Fatal(err)
	}
	w.log.Add(testkit.Entry{Timestamp: 100, Certificate: []byte("new"), Chain: [][]byte{[]byte("a new issuer")}})
	grow(w.log, 400)
	w.log.Intercept(func(out http.ResponseWriter, r *http.Request) bool {
		if strings.HasPrefix(r.URL.Path, "/issuer/") {
			http.NotFound(out, r)
			return true
		}
		return false
	})
	if err := w.pass(); !errors.Is(err, logclient.ErrNotFound) {
		t.Errorf("without an issuer: %v", err)
	}
	after, err := os.ReadFile(filepath.Join(w.folder, "checkpoint"))
	if err != nil || !bytes.Equal(before, after) {
		t.Error("the checkpoint was written before the tiles")
	}
	if _, err := os.Stat(filepath.Join(w.folder, "tile", "data", "000")); !errors.Is(err, fs.ErrNotExist) {
		t.Errorf("a data tile was written before its issuers: %v", err)
	}
	w.log.Intercept(nil)
	// A crash can damage a staged tile.
	if err := os.WriteFile(filepath.Join(w.folder, ".staged", "tile", "data", "000"), []byte("damaged"),
		0o600); err != nil {
		t.Fatal(err)
	}
	if err := w.pass(); err != nil {
		t.Fatal(err)
	}
	w.checkMirrored(t, w.log.Size())
	if w.keeper.entries != int(w.log.Size()) {
		t.Errorf("%d entries were searched", w.keeper.entries)
	}
}

// No stored file changes, whatever the log answers later.
func TestNeverChangesAFile(t *testing.T) {
	w := newWorld(t)
	grow(w.log, 100)
	if err := w.pass(); err != nil {
		t.Fatal(err)
	}
	w.log.Intercept(func(out http.ResponseWriter, r *http.Request) bool {
		if r.URL.Path != "/tile/data/000.p/200" {
			return false
		}
		recorded := httptest.NewRecorder()
		w.log.Intercept(nil)
		w.log.ServeHTTP(recorded, r)
		// The bytes of the first entry's precertificate are 300100. No hash covers them.
		changed := bytes.Replace(recorded.Body.Bytes(), []byte{0, 0, 3, 0x30, 1, 0}, []byte{0, 0, 3, 0x30, 1, 9}, 1)
		_, err := out.Write(changed)
		return err == nil
	})
	grow(w.log, 100)
	if err := w.pass(); !errors.Is(err, mirror.ErrOther) {
		t.Errorf("a tile that begins with other bytes: %v", err)
	}
	other := newWorld(t)
	other.folder = w.folder
	grow(other.log, 5)
	if err := other.pass(); !errors.Is(err, mirror.ErrFolder) {
		t.Errorf("the folder of another log: %v", err)
	}
	w.keeper = &keeper{}
	m, err := mirror.Open(w.folder, w.watched, logclient.Options{})
	if err != nil {
		t.Fatal(err)
	}
	root := w.log.Root(100)
	for what, of := range map[string]struct {
		head     wagtenib.TreeHead
		expected error
	}{
		"fewer entries":                   {wagtenib.TreeHead{TreeSize: 50, Timestamp: 9000, Root: w.log.Root(50)}, mirror.ErrAhead},
		"an earlier timestamp":            {wagtenib.TreeHead{TreeSize: 100, Timestamp: 999, Root: root}, mirror.ErrAhead},
		"more entries at an earlier time": {wagtenib.TreeHead{TreeSize: 200, Timestamp: 999, Root: w.log.Root(200)}, mirror.ErrAhead},
		"another root":                    {wagtenib.TreeHead{TreeSize: 100, Timestamp: 9000}, mirror.ErrOther},
		"the same head":                   {wagtenib.TreeHead{TreeSize: 100, Timestamp: 1000, Root: root}, nil},
	} {
		before := w.checkpoint(t)
		err := m.Accept(context.Background(), watch.Head{TreeHead: of.head, Signed: []byte("another checkpoint")})
		if !errors.Is(err, of.expected) || w.checkpoint(t) != before {
			t.Errorf("%s: %v, and the checkpoint is %q", what, err, w.checkpoint(t))
		}
	}
}

// checkpoint returns the stored checkpoint.
func (w *world) checkpoint(t *testing.T) string {
	t.Helper()
	content, err := os.ReadFile(filepath.Join(w.folder, "checkpoint"))
	if err != nil {
		t.Fatal(err)
	}
	return string(content)
}

// A file that the mirror would write exists with other bytes, a stored tile is missing, or an issuer has another hash:
// then the checkpoint stays as it is, and so does the file.
func TestRefusesOtherFiles(t *testing.T) {
	const other = "other bytes"
	for what, of := range map[string]struct {
		name     string // of the file
		content  string // empty to delete it
		expected error
	}{
		"a new hash tile with other bytes":    {"tile/0/000.p/200", other, mirror.ErrOther},
		"a new data tile with other bytes":    {"tile/data/000.p/200", other, mirror.ErrOther},
		"a stored data tile with other bytes": {"tile/data/000.p/100", other, mirror.ErrOther},
		"a stored data tile is missing":       {"tile/data/000.p/100", "", blob.ErrAbsent},
	} {
		w := newWorld(t)
		grow(w.log, 100)
		testkit.Must(t, w.pass())
		before, path := w.checkpoint(t), filepath.Join(w.folder, filepath.FromSlash(of.name))
		if of.content == "" {
			testkit.Must(t, os.Remove(path))
		} else {
			testkit.Must(t, os.WriteFile(path, []byte(of.content), 0o644))
		}
		grow(w.log, 100)
		if err := w.pass(); !errors.Is(err, of.expected) || w.checkpoint(t) != before {
			t.Errorf("%s: %v, and the checkpoint is %q", what, err, w.checkpoint(t))
		}
		if content, _ := os.ReadFile(path); string(content) != of.content {
			t.Errorf("%s: the file is %q", what, content)
		}
	}
	w := newWorld(t)
	grow(w.log, 100)
	w.log.Intercept(func(out http.ResponseWriter, r *http.Request) bool {
		if !strings.HasPrefix(r.URL.Path, "/issuer/") {
			return false
		}
		_, err := out.Write([]byte(other))
		return err == nil
	})
	if err := w.pass(); !errors.Is(err, logclient.ErrNonsense) {
		t.Errorf("an issuer with another hash: %v", err)
	}
	if _, err := os.Stat(filepath.Join(w.folder, "checkpoint")); !errors.Is(err, fs.ErrNotExist) {
		t.Errorf("there is a checkpoint: %v", err)
	}
}

// Until the new checkpoint is written, the older one has all of its tiles. A disk that is full in the middle of the new
// one leaves the older one, and the mirror continues later.
func TestKeepsTheOlderTree(t *testing.T) {
	w := newWorld(t)
	grow(w.log, 5)
	testkit.Must(t, w.pass())
	before, path := w.checkpoint(t), filepath.Join(w.folder, "checkpoint")
	grow(w.log, 0)
	err := testkit.ShortFiles(t, uint64(len(before)-20), w.pass)
	if !errors.Is(err, syscall.EFBIG) || w.checkpoint(t) != before {
		t.Errorf("%v, and the checkpoint is %q", err, w.checkpoint(t))
	}
	testkit.Must(t, w.pass())
	w.checkMirrored(t, 5)
	grow(w.log, 295)
	m, err := mirror.Open(w.folder, w.watched, logclient.Options{Limits: logclient.Limits{Attempts: 1}})
	testkit.Must(t, err)
	testkit.Must(t, os.Rename(path, path+".older"))
	testkit.Must(t, os.Mkdir(path, 0o755))
	head := watch.Head{TreeHead: wagtenib.TreeHead{TreeSize: 300, Timestamp: 3000, Root: w.log.Root(300)},
		Signed: w.log.Checkpoint()}
	if err := m.Accept(context.Background(), head); err == nil {
		t.Error("a checkpoint replaces a folder")
	}
	for _, name := range []string{"tile/data/000.p/5", "tile/0/000.p/5"} {
		if _, err := os.Stat(filepath.Join(w.folder, name)); err != nil {
			t.Errorf("no checkpoint is written yet: %v", err)
		}
	}
	testkit.Must(t, os.Remove(path))
	testkit.Must(t, os.Rename(path+".older", path))
	testkit.Must(t, w.pass())
	w.checkMirrored(t, 300)
}

// A mirror of a log that was read before it reads the log's tiles ahead: the log answers the first one only after it was
// asked for the second one.
func TestReadsAhead(t *testing.T) {
	w := newWorld(t)
	grow(w.log, 600)
	second := make(chan struct{})
	var once sync.Once
	w.log.Intercept(func(_ http.ResponseWriter, r *http.Request) bool {
		switch r.URL.Path {
		case "/tile/data/000":
			select {
			case <-second:
			case <-r.Context().Done():
			}
		case "/tile/data/001":
			once.Do(func() { close(second) })
		}
		return false
	})
	m, err := mirror.Open(w.folder, w.watched, logclient.Options{Limits: logclient.Limits{Attempts: 1}})
	testkit.Must(t, err)
	head := watch.Head{TreeHead: wagtenib.TreeHead{TreeSize: 600, Timestamp: 6000, Root: w.log.Root(600)},
		Signed: w.log.Checkpoint()}
	testkit.Must(t, m.Accept(testkit.Limited(t, testkit.Longest), head))
	w.checkMirrored(t, 600)
}

// If a log has only the full tile instead of the partial one of a head, the mirror stores the partial one.
func TestStoresThePartOfAFullTile(t *testing.T) {
	w := newWorld(t)
	grow(w.log, 300)
	full := w.log.Fork(300)
	full.Publish(300, 10*full.Size())
	w.log.Publish(100, 10*w.log.Size()+7)
	w.log.Intercept(func(out http.ResponseWriter, r *http.Request) bool {
		switch {
		case strings.HasPrefix(r.URL.Path, "/tile/data/000.p/"):
			http.NotFound(out, r)
		case r.URL.Path == "/tile/data/000":
			full.ServeHTTP(out, r)
		default:
			return false
		}
		return true
	})
	if err := w.pass(); err != nil {
		t.Fatal(err)
	}
	w.log.Intercept(nil)
	w.checkMirrored(t, 100)
}
