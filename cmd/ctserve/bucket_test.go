package main

import (
	"bytes"
	"compress/gzip"
	"context"
	"crypto/ecdsa"
	"crypto/sha256"
	"crypto/x509"
	"encoding/base64"
	"encoding/binary"
	"encoding/hex"
	"fmt"
	"io"
	"math/rand"
	"net/http"
	"net/http/httptest"
	"os"
	"os/exec"
	"strconv"
	"strings"
	"sync"
	"sync/atomic"
	"syscall"
	"testing"
	"time"

	"golang.org/x/mod/sumdb/tlog"

	"wagtenib/internal/audit/judge"
	"wagtenib/internal/ct"
	"wagtenib/internal/log/signer"
	"wagtenib/internal/testkit"
)

// bucketReader is a monitor that reads a log only from its bucket. It verifies what it reads with the log's key and
// with tlog of x/mod.
type bucketReader struct {
	key *ecdsa.PublicKey
	// get reads an object by its name.
	get func(name string) ([]byte, error)

	mu        sync.Mutex
	tree      tlog.Tree
	timestamp uint64
	heads     int
}

// Height returns the height of tiles (tlog.TileReader).
func (r *bucketReader) Height() int { return 8 }

// ReadTiles reads tiles of hashes (tlog.TileReader).
func (r *bucketReader) ReadTiles(tiles []tlog.Tile) (contents [][]byte, err error) {
	for _, of := range tiles {
		content, err := r.get("tile/" + strings.TrimPrefix(of.Path(), "tile/8/"))
		if err != nil {
			return nil, err
		}
		contents = append(contents, content)
	}
	return contents, nil
}

// SaveTiles does nothing (tlog.TileReader).
func (r *bucketReader) SaveTiles([]tlog.Tile, [][]byte) {}

// look reads the checkpoint, and everything that its tree adds to the last one. It returns the number of entries.
func (r *bucketReader) look() (size int64, err error) {
	r.mu.Lock()
	defer r.mu.Unlock()
	note, err := r.get("checkpoint")
	if err != nil {
		return r.tree.N, err
	}
	now, timestamp, err := r.open(string(note))
	if err != nil {
		return 0, err
	}
	if timestamp == r.timestamp && now == r.tree {
		return now.N, nil
	}
	if now.N < r.tree.N || timestamp <= r.timestamp {
		return 0, fmt.Errorf("the checkpoint goes back from %d entries at %d ms to %d at %d ms", r.tree.N, r.timestamp,
			now.N, timestamp)
	}
	if err := r.grows(now); err != nil {
		return 0, fmt.Errorf("%d entries after %d: %w", now.N, r.tree.N, err)
	}
	r.tree, r.timestamp, r.heads = now, timestamp, r.heads+1
	return now.N, nil
}

// open verifies a checkpoint's signature (C2SP static-ct-api, signatures of type 5, over RFC 6962's TreeHeadSignature).
func (r *bucketReader) open(note string) (tree tlog.Tree, timestamp uint64, err error) {
	text, signatures, _ := strings.Cut(note, "\n\n")
	lines := strings.Split(text, "\n")
	if len(lines) != 3 || lines[0] != "log.example/test" {
		return tree, 0, fmt.Errorf("no checkpoint: %q", note)
	}
	if tree.N, err = strconv.ParseInt(lines[1], 10, 64); err != nil {
		return tree, 0, err
	}
	root, err := base64.StdEncoding.DecodeString(lines[2])
	if err != nil || len(root) != 32 {
		return tree, 0, fmt.Errorf("no root: %q", lines[2])
	}
	tree.Hash = tlog.Hash(root)
	first, _, _ := strings.Cut(signatures, "\n")
	blob, err := base64.StdEncoding.DecodeString(strings.TrimPrefix(first, "— log.example/test "))
	if err != nil || len(blob) < 16 {
		return tree, 0, fmt.Errorf("no signature: %q", first)
	}
	timestamp = binary.BigEndian.Uint64(blob[4:])
	signed := binary.BigEndian.AppendUint64([]byte{0, 1}, timestamp)
	signed = append(binary.BigEndian.AppendUint64(signed, uint64(tree.N)), root...)
	if sum := sha256.Sum256(signed); !ecdsa.VerifyASN1(r.key, sum[:], blob[16:]) {
		return tree, 0, fmt.Errorf("another key's signature: %q", note)
	}
	return tree, timestamp, nil
}

// grows reads everything that a later tree adds. It checks that the new tree begins with the old one, that each data
// tile has the tree's entries, and that each issuer exists.
func (r *bucketReader) grows(now tlog.Tree) error {
	if now.N == 0 {
		return nil
	}
	hashes := tlog.TileHashReader(now, r)
	if r.tree.N > 0 {
		proof, err := tlog.ProveTree(now.N, r.tree.N, hashes)
		if err == nil {
			err = tlog.CheckTree(proof, now.N, now.Hash, r.tree.N, r.tree.Hash)
		}
		if err != nil {
			return err
		}
	}
	for first := r.tree.N / 256 * 256; first < now.N; first += 256 {
		name := ct.TileName(tlog.Tile{H: 8, L: -1, N: first / 256, W: int(min(now.N-first, 256))})
		content, err := r.get(name)
		if err != nil {
			return err
		}
		leaves, err := ct.ReadDataTile(content)
		if err != nil || int64(len(leaves)) != min(now.N-first, 256) {
			return fmt.Errorf("%s: %d entries, %v", name, len(leaves), err)
		}
		for i, leaf := range leaves {
			expected, err := hashes.ReadHashes([]int64{tlog.StoredHashIndex(0, first+int64(i))})
			if err != nil || tlog.RecordHash(leaf.Input()) != expected[0] {
				return fmt.Errorf("%s: entry %d is not the tree's: %v", name, i, err)
			}
			for chain := leaf.Chain; len(chain) > 0; chain = chain[sha256.Size:] {
				fingerprint := [sha256.Size]byte(chain)
				issuer, err := r.get("issuer/" + hex.EncodeToString(fingerprint[:]))
				if err != nil || sha256.Sum256(issuer) != fingerprint {
					return fmt.Errorf("an issuer of entry %d: %d bytes, %v", first+int64(i), len(issuer), err)
				}
			}
		}
	}
	return nil
}

// unpacked returns an object's content, which it decompresses if the encoding is gzip.
func unpacked(content []byte, encoding string) ([]byte, error) {
	if encoding != "gzip" {
		return content, nil
	}
	reader, err := gzip.NewReader(bytes.NewReader(content))
	if err != nil {
		return nil, err
	}
	return io.ReadAll(reader)
}

// overHTTP returns a function that reads objects from a plain web server, as a client of a CDN does.
func overHTTP(url string) func(name string) ([]byte, error) {
	return func(name string) ([]byte, error) {
		answer, err := http.Get(url + "/" + testkit.BucketName + "/" + name)
		if err != nil {
			return nil, err
		}
		defer answer.Body.Close()
		content, err := io.ReadAll(answer.Body)
		if err == nil && answer.StatusCode != http.StatusOK {
			err = fmt.Errorf("%s: %s", name, answer.Status)
		}
		return content, err
	}
}

// killed is the handler of a bucket for a node. It kills the node at one of its requests, before or after it carries
// out the request, and never answers it.
type killed struct {
	bucket *testkit.Bucket
	// left is the number of requests up to the kill, and after says whether the last one is carried out.
	left  atomic.Int64
	after atomic.Bool
	kill  atomic.Pointer[func()]
	// onCheckpoint is called after each put of the checkpoint.
	onCheckpoint func()
}

func (k *killed) ServeHTTP(w http.ResponseWriter, r *http.Request) {
	isLast := k.left.Add(-1) == 0
	if isLast && !k.after.Load() {
		(*k.kill.Load())()
		panic(http.ErrAbortHandler)
	}
	answer := httptest.NewRecorder()
	k.bucket.ServeHTTP(answer, r)
	if r.Method == http.MethodPut && strings.HasSuffix(r.URL.Path, "/checkpoint") {
		k.onCheckpoint()
	}
	if isLast {
		(*k.kill.Load())()
		panic(http.ErrAbortHandler)
	}
	for name, values := range answer.Header() {
		w.Header()[name] = values
	}
	w.WriteHeader(answer.Code)
	// A node that was killed reads no answer, so the write may fail.
	_, _ = w.Write(answer.Body.Bytes())
}

// TestBucketServesThroughKills kills two nodes of one log at requests to its bucket, again and again, while clients
// submit. A reader that knows only the bucket follows the log. No checkpoint may fall, and each tile, entry and issuer
// must exist as soon as a checkpoint needs it. The bucket's checkpoint must cover each answered submission.
// CTSERVE_KILLS sets the number of kills.
func TestBucketServesThroughKills(t *testing.T) {
	t.Parallel()
	kills := int64(12)
	if text := os.Getenv("CTSERVE_KILLS"); text != "" {
		var err error
		kills, err = strconv.ParseInt(text, 10, 64)
		testkit.Must(t, err)
	}
	at, bucket := newPlace(t), testkit.NewBucket(true)
	key := at.publicKey()
	object := func(name string) ([]byte, error) {
		of, ok := bucket.Object(name)
		if !ok {
			return nil, fmt.Errorf("%s is missing", name)
		}
		return unpacked(of.Content, of.Encoding)
	}
	judge := &bucketReader{key: key, get: object}
	plain := httptest.NewServer(bucket)
	defer plain.Close()
	monitor := &bucketReader{key: key, get: overHTTP(plain.URL)}
	onCheckpoint := func() {
		if _, err := judge.look(); err != nil {
			t.Errorf("after a put of the checkpoint: %v", err)
		}
	}
	ctx, stop := context.WithCancel(context.Background())
	var left atomic.Int64
	left.Store(kills)
	var nodes sync.WaitGroup
	var clients []string
	for i := range 2 {
		k := &killed{bucket: bucket, onCheckpoint: onCheckpoint}
		server := httptest.NewServer(k)
		defer server.Close()
		listen := testkit.Free(t)
		clients = append(clients, listen)
		arguments := append(at.bucketArguments(server.URL), "--listen", listen, "--operator-listen", "", "--create",
			"--public-store", "--latest-head", at.path(fmt.Sprintf("latest-head-%d", i)))
		nodes.Add(1)
		go func() {
			defer nodes.Done()
			k.runs(ctx, t, arguments, rand.New(rand.NewSource(int64(i))), &left)
		}()
	}
	answered := int64(0)
	for late := time.Now().Add(testkit.Patience); left.Load() > 0 || answered < 5; {
		if time.Now().After(late) {
			t.Errorf("the test takes too long: %d kills and %d answers", kills-left.Load(), answered)
			break
		}
		if status, _ := post(clients[rand.Intn(2)], at.submission()); status == http.StatusOK {
			answered++
			late = time.Now().Add(testkit.Patience)
		}
		size, err := monitor.look()
		if err != nil && monitor.heads > 0 {
			t.Fatal(err)
		}
		if size < answered {
			t.Errorf("%d submissions were answered, and the bucket's checkpoint has %d entries", answered, size)
		}
	}
	stop()
	nodes.Wait()
	if size, err := monitor.look(); err != nil || size < answered || monitor.heads < 5 {
		t.Errorf("%d entries after %d answers, %d checkpoints: %v", size, answered, monitor.heads, err)
	}
	entry, _ := bucket.Object("log.v3.json")
	submission := []byte(`"submission_url": "https://log.example/test/"`)
	if !bytes.Contains(entry.Content, submission) || entry.Type != "application/json" {
		t.Errorf("log.v3.json: %+v", entry)
	}
	t.Logf("%d kills, %d answers, %d checkpoints put, %d of them read over HTTP", kills-left.Load(), answered,
		judge.heads, monitor.heads)
}

// bucketArguments returns the arguments of a log whose objects are in a bucket.
func (p *place) bucketArguments(url string) []string {
	p.t.Helper()
	store := "s3://key:secret@" + strings.TrimPrefix(url, "http://") + "/" + testkit.BucketName + "?tls=no&region=us-east-1"
	return p.arguments("--store", store, "--lock", "file:"+p.path("lock"), "--index", p.sharedIndex(),
		"--guard-state", "file:"+p.path("guard"))
}

// publicKey returns the log's public key.
func (p *place) publicKey() *ecdsa.PublicKey {
	p.t.Helper()
	of, err := signer.OpenKey(p.path("log.pem"))
	testkit.Must(p.t, err)
	defer of.Close()
	key, err := x509.ParsePKIXPublicKey(of.Key())
	testkit.Must(p.t, err)
	return key.(*ecdsa.PublicKey)
}

// runs starts the node again and again, until the context ends.
func (k *killed) runs(ctx context.Context, t *testing.T, arguments []string, random *rand.Rand, left *atomic.Int64) {
	for ctx.Err() == nil {
		var lines bytes.Buffer
		command := exec.CommandContext(ctx, os.Args[0], arguments...)
		command.Env, command.Stderr = append(os.Environ(), childKey+"=1"), &lines
		kill := func() {
			left.Add(-1)
			// The node may have ended already.
			_ = command.Process.Kill()
		}
		k.kill.Store(&kill)
		k.after.Store(random.Intn(2) == 0)
		k.left.Store(int64(5 + random.Intn(60)))
		if err := command.Start(); err != nil {
			t.Error(err)
			return
		}
		// The node is killed by the bucket or at the end of the test, so an error is expected.
		_ = command.Wait()
		if code := command.ProcessState.ExitCode(); code == statusRolledBack || code == 2 {
			t.Errorf("a node does not start: %s", &lines)
			return
		}
	}
}

// asked requests a URL with an Accept-Encoding, and perhaps a range. It returns the body as it was sent, and its
// Content-Encoding.
func asked(t *testing.T, url, accepted, ranged string) (body []byte, encoding string) {
	t.Helper()
	request, err := http.NewRequest(http.MethodGet, url, nil)
	testkit.Must(t, err)
	request.Header.Set("Accept-Encoding", accepted)
	if ranged != "" {
		request.Header.Set("Range", ranged)
	}
	answer, err := http.DefaultTransport.RoundTrip(request)
	testkit.Must(t, err)
	defer answer.Body.Close()
	body, err = io.ReadAll(answer.Body)
	testkit.Must(t, err)
	return body, answer.Header.Get("Content-Encoding")
}

// TestPublicStoreOfALogThatExists starts a log with public-store that was made without it. The checkpoint must be
// written without a new entry. Older tiles are served as they are, and new ones are compressed. ctserve sends a
// compressed tile as it is stored to clients that accept gzip, and decompresses it for others.
func TestPublicStoreOfALogThatExists(t *testing.T) {
	t.Parallel()
	at, bucket := newPlace(t), testkit.NewBucket(true)
	server := httptest.NewServer(bucket)
	defer server.Close()
	arguments := at.bucketArguments(server.URL)
	submits := func(p *program) {
		if status, text := post(p.clients, at.submission()); status != http.StatusOK {
			t.Fatalf("%d %s", status, text)
		}
	}
	p := started(t, "", append(arguments, "--create")...)
	submits(p)
	_, checkpoint := get(p.clients, "/checkpoint")
	p.signal(syscall.SIGTERM)
	p.ends()
	if _, ok := bucket.Object("checkpoint"); ok {
		t.Error("there is a checkpoint without public-store")
	}
	p = started(t, "", append(arguments, "--public-store")...)
	for until := time.Now().Add(testkit.Patience); ; time.Sleep(time.Millisecond) {
		of, ok := bucket.Object("checkpoint")
		isAsServed := of.Type == "text/plain; charset=utf-8" && of.Cache == "public, max-age=1"
		if ok && string(of.Content) == checkpoint && isAsServed {
			break
		}
		if time.Now().After(until) {
			t.Fatalf("the checkpoint is %+v, and not %q", of, checkpoint)
		}
	}
	submits(p)
	for name, want := range map[string]string{"tile/data/000.p/1": "", "tile/data/000.p/2": "gzip"} {
		stored, _ := bucket.Object(name)
		content, err := unpacked(stored.Content, stored.Encoding)
		testkit.Must(t, err)
		if stored.Encoding != want {
			t.Errorf("%s is stored in %q", name, stored.Encoding)
		}
		url := "http://" + p.clients + "/" + name
		// ctserve itself does not compress such a short tile.
		if body, encoding := asked(t, url, "gzip", ""); encoding != want || !bytes.Equal(body, stored.Content) {
			t.Errorf("%s with gzip: %d bytes in %q", name, len(body), encoding)
		}
		if body, encoding := asked(t, url, "identity", ""); encoding != "" || !bytes.Equal(body, content) {
			t.Errorf("%s without gzip: %d bytes in %q", name, len(body), encoding)
		}
		if body, encoding := asked(t, url, "gzip", "bytes=3-9"); encoding != "" || !bytes.Equal(body, content[3:10]) {
			t.Errorf("%s, a range: %d bytes in %q", name, len(body), encoding)
		}
	}
}

// TestPublicFolder reads a log on a folder through a plain file server, while its node is killed after answers. At the
// end package judge checks the folder.
func TestPublicFolder(t *testing.T) {
	t.Parallel()
	at := newPlace(t)
	objects := http.FileServer(http.Dir(at.path("log/objects")))
	files := httptest.NewServer(http.StripPrefix("/"+testkit.BucketName+"/", objects))
	defer files.Close()
	reader := &bucketReader{key: at.publicKey(), get: overHTTP(files.URL)}
	arguments := at.arguments("--create", "--public-store", "--guard-state", "file:"+at.path("guard"))
	var answers []judge.Answer
	for range 4 {
		p := started(t, "", arguments...)
		for range 2 {
			status, text, one := at.submitted(t, p)
			if status != http.StatusOK {
				t.Fatalf("%d %s", status, text)
			}
			answers = append(answers, one)
			if size, err := reader.look(); err != nil || size < int64(len(answers)) {
				t.Fatalf("%d entries after %d answers: %v", size, len(answers), err)
			}
		}
		p.signal(syscall.SIGKILL)
		p.ends()
	}
	of, err := signer.OpenKey(at.path("log.pem"))
	testkit.Must(t, err)
	defer of.Close()
	report, err := judge.Folder(at.path("log/objects"), of.Key(), answers)
	if err != nil || report.Leaves < len(answers) {
		t.Errorf("%+v, %v", report, err)
	}
}
