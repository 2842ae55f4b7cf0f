package archive_test

import (
	"bytes"
	"context"
	"crypto/sha256"
	"encoding/base64"
	"encoding/binary"
	"errors"
	"fmt"
	"io/fs"
	"net/http"
	"net/http/httptest"
	"os"
	"os/exec"
	"path/filepath"
	"strings"
	"syscall"
	"testing"

	"golang.org/x/mod/sumdb/tlog"

	"wagtenib/internal/ct"
	"wagtenib/internal/log/archive"
	"wagtenib/internal/logclient"
	"wagtenib/internal/testkit"
	"wagtenib/internal/tiles"
)

const origin = "log.example/2022"

// world is a log of RFC 6962 and the folder of its archive.
type world struct {
	t      *testing.T
	log    *testkit.Log
	server *httptest.Server
	folder string
}

func newWorld(t *testing.T, entries uint64) *world {
	t.Helper()
	log := testkit.NewLog(origin)
	w := &world{t: t, log: log, server: httptest.NewServer(log), folder: filepath.Join(t.TempDir(), "archive")}
	t.Cleanup(w.server.Close)
	w.grow(entries)
	return w
}

// plain returns the MerkleTreeLeaf of a log of RFC 6962, which has no extensions (section 3.4).
func plain(e testkit.Entry) []byte {
	leaf := binary.BigEndian.AppendUint64([]byte{0, 0}, e.Timestamp)
	if e.IssuerKeyHash != nil {
		leaf = append(append(leaf, 0, 1), e.IssuerKeyHash...)
	} else {
		leaf = append(leaf, 0, 0)
	}
	length := binary.BigEndian.AppendUint32(nil, uint32(len(e.Certificate)))[1:]
	return append(append(append(leaf, length...), e.Certificate...), 0, 0)
}

// grow adds certificates and precertificates with several issuers, and signs a head. The timestamps go back and forth,
// as those of logs of RFC 6962 do. Every fifth leaf has the extension leaf_index, as those of logs on tiles have.
func (w *world) grow(count uint64) {
	for i := w.log.Size(); count > 0; i, count = i+1, count-1 {
		e := testkit.Entry{Timestamp: 1_000_000 + i ^ 5, Certificate: fmt.Appendf(nil, "certificate %d", i),
			Chain: [][]byte{[]byte("issuer"), []byte("root")}}
		if i%3 == 0 {
			e.IssuerKeyHash, e.Precertificate = bytes.Repeat([]byte{byte(i)}, 32), fmt.Appendf(nil, "precertificate %d", i)
			e.Chain = [][]byte{{byte(i % 5), 1}}
		}
		if i%5 != 0 {
			e.Leaf = plain(e)
		}
		w.log.Add(e)
	}
	w.log.Publish(w.log.Size(), 2_000_000+w.log.Size())
}

func (w *world) archivedLog() archive.Log {
	return archive.Log{Origin: origin, URL: w.server.URL, PublicKey: w.log.PublicKey()}
}

func options() archive.Options {
	return archive.Options{Client: logclient.Options{Limits: logclient.Limits{Attempts: 1}}, MaxTiles: 1}
}

// make archives the log.
func (w *world) make() error {
	_, err := archive.Make(testkit.Limited(w.t, testkit.Longest), w.folder, w.archivedLog(), options())
	return err
}

// filesIn returns the contents of the files of a folder by their names, except the index, whose bytes SQLite
// determines.
func filesIn(t *testing.T, folder string) map[string]string {
	t.Helper()
	files := map[string]string{}
	err := filepath.WalkDir(folder, func(path string, one fs.DirEntry, err error) error {
		if err != nil || one.IsDir() {
			return err
		}
		name, err := filepath.Rel(folder, path)
		if err != nil {
			return err
		}
		content, err := os.ReadFile(path)
		if !strings.HasPrefix(name, "index") {
			files[filepath.ToSlash(name)] = string(content)
		}
		return err
	})
	if !errors.Is(err, fs.ErrNotExist) {
		testkit.Must(t, err)
	}
	return files
}

// checkArchived compares the archive with the log: each file, the head with its signature, and the index.
func (w *world) checkArchived() {
	w.t.Helper()
	size := w.log.Size()
	files := filesIn(w.t, w.folder)
	for name, content := range files {
		at, isObject := strings.CutPrefix(name, "objects/")
		if status, answer := get(w.t, w.log, "/"+at); isObject && at != "checkpoint" && (status != 200 || answer != content) {
			w.t.Errorf("%s differs from the log: status %d", name, status)
		}
	}
	for level, hashes := -1, size; hashes > 0; level++ {
		for n := uint64(0); n*256 < hashes; n++ {
			of := tlog.Tile{H: 8, L: level, N: int64(n), W: int(min(256, hashes-n*256))}
			if name := "objects/tile/" + strings.TrimPrefix(of.Path(), "tile/8/"); files[name] == "" {
				w.t.Errorf("%s is missing", name)
			}
		}
		if level >= 0 {
			hashes /= 256
		}
	}
	if _, answer := get(w.t, w.log, "/ct/v1/get-sth"); files["signed-head.json"] != answer {
		w.t.Errorf("the stored head is %q, and the log answers %q", files["signed-head.json"], answer)
	}
	head, err := ct.OpenCheckpoint([]byte(files["objects/checkpoint"]), origin, w.log.PublicKey())
	if err != nil || head.TreeSize != size || head.Root != w.log.Root(size) {
		w.t.Errorf("the checkpoint has %d entries and the root %x: %v", head.TreeSize, head.Root, err)
	}
	w.checkServed(size)
}

// checkServed opens the archive, and compares the indexes that it returns for some leaves.
func (w *world) checkServed(size uint64) {
	w.t.Helper()
	ctx := testkit.Limited(w.t, testkit.Longest)
	served, err := archive.Open(ctx, w.folder)
	testkit.Must(w.t, err)
	defer served.Close()
	for index := uint64(0); index < size; index += 1 + size/20 {
		_, answer := get(w.t, w.log, fmt.Sprintf("/ct/v1/get-entries?start=%d&end=%d", index, index))
		if found, err := served.IndexOf(ctx, leafHashIn(w.t, answer)); err != nil || found != index {
			w.t.Errorf("leaf %d has the index %d: %v", index, found, err)
		}
	}
}

// get returns the status and the body of a response.
func get(t *testing.T, of http.Handler, path string) (int, string) {
	t.Helper()
	recorded := httptest.NewRecorder()
	of.ServeHTTP(recorded, httptest.NewRequest(http.MethodGet, path, nil))
	return recorded.Code, recorded.Body.String()
}

// record returns the body of a response.
func record(of http.Handler, path string) []byte {
	recorded := httptest.NewRecorder()
	of.ServeHTTP(recorded, httptest.NewRequest(http.MethodGet, path, nil))
	return recorded.Body.Bytes()
}

// base64Of returns this number of zero bytes in base64.
func base64Of(length int) string { return base64.StdEncoding.EncodeToString(make([]byte, length)) }

// leafHashIn returns the hash of the leaf in an answer to get-entries.
func leafHashIn(t *testing.T, answer string) [32]byte {
	t.Helper()
	_, after, _ := strings.Cut(answer, `"leaf_input":"`)
	text, _, _ := strings.Cut(after, `"`)
	leaf, err := base64.StdEncoding.DecodeString(text)
	if err != nil || len(leaf) == 0 {
		t.Fatalf("%.100q has no leaf: %v", answer, err)
	}
	return sha256.Sum256(append([]byte{0}, leaf...))
}

// TestArchivesALog checks that a log of any size becomes the tiles of its tree, with its last signed head.
func TestArchivesALog(t *testing.T) {
	for _, size := range []uint64{1, 255, 256, 257, 512, 1300} {
		t.Run(fmt.Sprint(size), func(t *testing.T) {
			w := newWorld(t, size)
			testkit.Must(t, w.make())
			w.checkArchived()
			before := filesIn(t, w.folder)
			testkit.Must(t, w.make())
			checkSame(t, before, filesIn(t, w.folder))
		})
	}
}

func checkSame(t *testing.T, expected, files map[string]string) {
	t.Helper()
	for name, content := range expected {
		if files[name] != content {
			t.Errorf("%s has other bytes, or is missing", name)
		}
	}
	for name := range files {
		if _, ok := expected[name]; !ok {
			t.Errorf("%s is left over", name)
		}
	}
}

// TestDropsHalfWrittenFiles checks that what a killed process left of a file is deleted.
func TestDropsHalfWrittenFiles(t *testing.T) {
	w := newWorld(t, 300)
	testkit.Must(t, os.Mkdir(w.folder, 0o755))
	testkit.Must(t, os.WriteFile(filepath.Join(w.folder, "log.json.writing-1"), []byte("{"), 0o600))
	testkit.Must(t, w.make())
	before := filesIn(t, w.folder)
	for _, name := range []string{"progress", "signed-head.json", "objects/checkpoint"} {
		testkit.Must(t, os.WriteFile(filepath.Join(w.folder, filepath.FromSlash(name)+".writing-2"), nil, 0o600))
	}
	testkit.Must(t, w.make())
	checkSame(t, before, filesIn(t, w.folder))
}

// TestGrows checks that an archive grows with its log, and ends with the same bytes as one that was made at once.
func TestGrows(t *testing.T) {
	w := newWorld(t, 1)
	for _, count := range []uint64{0, 43, 212, 1, 500, 256, 1000} {
		w.grow(count)
		testkit.Must(t, w.make())
		w.checkArchived()
	}
	folderThatGrew := w.folder
	w.folder = filepath.Join(t.TempDir(), "at once")
	testkit.Must(t, w.make())
	checkSame(t, filesIn(t, w.folder), filesIn(t, folderThatGrew))
}

// The environment variables of a child process that archives a log and is killed before a write.
const (
	childFolder = "ARCHIVE_CHILD_FOLDER"
	childURL    = "ARCHIVE_CHILD_URL"
	childKey    = "ARCHIVE_CHILD_KEY"
	childWrites = "ARCHIVE_CHILD_WRITES"
)

func TestMain(m *testing.M) {
	if os.Getenv(childFolder) == "" {
		os.Exit(m.Run())
	}
	key, err := base64.StdEncoding.DecodeString(os.Getenv(childKey))
	if err != nil {
		panic(err)
	}
	var left int
	if _, err := fmt.Sscan(os.Getenv(childWrites), &left); err != nil {
		panic(err)
	}
	settings := options()
	settings.Writing = func(string) {
		if left--; left < 0 {
			_ = syscall.Kill(os.Getpid(), syscall.SIGKILL)
			select {}
		}
	}
	of := archive.Log{Origin: origin, URL: os.Getenv(childURL), PublicKey: key}
	if _, err := archive.Make(context.Background(), os.Getenv(childFolder), of, settings); err != nil {
		panic(err)
	}
	os.Exit(0)
}

// makeKilled archives the log in a process that is killed (-9) before the write with this number.
func (w *world) makeKilled(write int) {
	w.t.Helper()
	program, err := os.Executable()
	testkit.Must(w.t, err)
	child := exec.Command(program)
	child.Env = append(os.Environ(), childFolder+"="+w.folder, childURL+"="+w.server.URL,
		childKey+"="+base64.StdEncoding.EncodeToString(w.log.PublicKey()), fmt.Sprintf("%s=%d", childWrites, write))
	output, err := child.CombinedOutput()
	var exit *exec.ExitError
	if !errors.As(err, &exit) || exit.Sys().(syscall.WaitStatus).Signal() != syscall.SIGKILL {
		w.t.Fatalf("it was not killed before write %d: %v %s", write, err, output)
	}
}

// countWrites archives the log in a new folder that begins as another one, and returns the number of writes.
func (w *world) countWrites(from string) (count int) {
	w.t.Helper()
	w.newFolder(from)
	settings := options()
	settings.Writing = func(string) { count++ }
	_, err := archive.Make(testkit.Limited(w.t, testkit.Longest), w.folder, w.archivedLog(), settings)
	testkit.Must(w.t, err)
	return count
}

// newFolder sets the folder to a new one, with the files of another one if that is named.
func (w *world) newFolder(from string) {
	w.t.Helper()
	w.folder = filepath.Join(w.t.TempDir(), "archive")
	if from != "" {
		testkit.Must(w.t, os.CopyFS(w.folder, os.DirFS(from)))
	}
}

// TestContinuesAfterAKillAtEachWrite kills a process before each of its writes. The next process must continue in the
// folder that is left, and end with the same bytes. A head is served as soon as all of it is stored, and from then on
// there is always one.
func TestContinuesAfterAKillAtEachWrite(t *testing.T) {
	w := newWorld(t, 300)
	testkit.Must(t, w.make())
	first := filepath.Join(t.TempDir(), "first")
	testkit.Must(t, os.CopyFS(first, os.DirFS(w.folder)))
	w.grow(300)
	testkit.Must(t, w.make())
	second := filesIn(t, w.folder)
	for what, from := range map[string]string{"from nothing": "", "from 300 entries": first} {
		writes := w.countWrites(from)
		if writes < 15 {
			t.Errorf("%s: there are only %d writes", what, writes)
		}
		for write := range writes {
			t.Run(fmt.Sprintf("%s %d", what, write), func(t *testing.T) {
				t.Parallel()
				own := &world{t: t, log: w.log, server: w.server}
				own.newFolder(from)
				own.makeKilled(write)
				served, err := archive.Open(testkit.Limited(t, testkit.Longest), own.folder)
				switch {
				case err == nil:
					if size := served.Metrics().Entries; size != 600 && (from == "" || size != 300) {
						t.Errorf("an archive of %d entries is served", size)
					}
					served.Close()
				case from != "" || !errors.Is(err, archive.ErrIncomplete) && !errors.Is(err, archive.ErrFolder):
					t.Error(err)
				}
				testkit.Must(t, own.make())
				checkSame(t, second, filesIn(t, own.folder))
				own.checkServed(600)
			})
		}
	}
}

// TestServesWhileTheArchiveGrows checks that what is served remains complete while another process adds entries to the
// archive and deletes partial tiles.
func TestServesWhileTheArchiveGrows(t *testing.T) {
	w := newWorld(t, 300)
	testkit.Must(t, w.make())
	ctx := testkit.Limited(t, testkit.Longest)
	served, err := archive.Open(ctx, w.folder)
	testkit.Must(t, err)
	defer served.Close()
	names := []string{"tile/data/001.p/44", "tile/0/001.p/44", "tile/1/000.p/1", "tile/data/000"}
	before := filesIn(t, w.folder)
	for _, count := range []uint64{100, 600} {
		w.grow(count)
		testkit.Must(t, w.make())
		if _, err := os.Stat(filepath.Join(w.folder, "objects", names[0])); !errors.Is(err, fs.ErrNotExist) {
			t.Errorf("%s is not deleted: %v", names[0], err)
		}
		for _, name := range names {
			content, err := served.Object(ctx, name, 1<<20)
			if err != nil || string(content) != before["objects/"+name] {
				t.Errorf("%s: %d bytes, %v", name, len(content), err)
			}
		}
		if root, err := tiles.NewProver(served.Object, 1).Root(ctx, 300, 300); err != nil || root != w.log.Root(300) {
			t.Errorf("the root is %x: %v", root, err)
		}
		w.checkArchived()
	}
}
