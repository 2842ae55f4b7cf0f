package main

import (
	"crypto/sha256"
	"encoding/base64"
	"encoding/json"
	"encoding/pem"
	"fmt"
	"math/rand/v2"
	"net/url"
	"os"
	"os/exec"
	"path/filepath"
	"strconv"
	"strings"
	"sync"
	"syscall"
	"testing"
	"time"

	"golang.org/x/mod/sumdb/tlog"

	"wagtenib/internal/ct"
	"wagtenib/internal/testkit"
)

// archiveEntries is the environment variable with the number of entries of the log of TestArchive, if it is not 300.
const archiveEntries = "CTSERVE_ARCHIVE_ENTRIES"

// submitMany submits so many new certificates, several at the same time.
func (p *place) submitMany(address string, count int) {
	p.t.Helper()
	bodies, wrong := make(chan []byte), make(chan string, 1)
	var running sync.WaitGroup
	for range 32 {
		running.Add(1)
		go func() {
			defer running.Done()
			for body := range bodies {
				if status, text := post(address, body); status != 200 {
					select {
					case wrong <- fmt.Sprint(status, " ", text):
					default:
					}
				}
			}
		}()
	}
	for range count {
		bodies <- p.submission()
	}
	close(bodies)
	running.Wait()
	select {
	case text := <-wrong:
		p.t.Fatalf("a submission: %s", text)
	default:
	}
}

// entriesOf reads all entries of a log by get-entries. It returns the hashes of their tree as tlog stores them, and the
// leaves.
func entriesOf(t *testing.T, address string, size int64) (hashes tlog.HashReaderFunc, leaves [][]byte) {
	t.Helper()
	var stored []tlog.Hash
	hashes = func(indexes []int64) ([]tlog.Hash, error) {
		found := make([]tlog.Hash, len(indexes))
		for i, index := range indexes {
			found[i] = stored[index]
		}
		return found, nil
	}
	for int64(len(leaves)) < size {
		var answer struct {
			Entries []struct {
				Leaf []byte `json:"leaf_input"`
			} `json:"entries"`
		}
		wantsJSON(t, address, fmt.Sprintf("/ct/v1/get-entries?start=%d&end=%d", len(leaves), size-1), &answer)
		for _, each := range answer.Entries {
			more, err := tlog.StoredHashes(int64(len(leaves)), each.Leaf, hashes)
			testkit.Must(t, err)
			stored, leaves = append(stored, more...), append(leaves, each.Leaf)
		}
	}
	return hashes, leaves
}

// wantsJSON reads an answer of a log.
func wantsJSON(t *testing.T, address, path string, into any) {
	t.Helper()
	status, text := read(address, path)
	if err := json.Unmarshal([]byte(text), into); status != 200 || err != nil {
		t.Fatalf("%s: %d %.200s %v", path, status, text, err)
	}
}

// archived archives a log in a process of its own, and logs its speed and its memory. It returns the output.
func archived(t *testing.T, entries int, arguments ...string) string {
	t.Helper()
	command := exec.Command(os.Args[0], append([]string{"archive"}, arguments...)...)
	command.Env = append(os.Environ(), childKey+"=1")
	began := time.Now()
	output, err := command.CombinedOutput()
	took := time.Since(began)
	if err != nil {
		t.Fatalf("ctserve archive: %v: %s", err, output)
	}
	usage := command.ProcessState.SysUsage().(*syscall.Rusage)
	t.Logf("%d entries in %v (%.0f a second), %v of processors, at most %d MB", entries, took,
		float64(entries)/took.Seconds(), command.ProcessState.UserTime()+command.ProcessState.SystemTime(),
		usage.Maxrss>>10)
	return string(output)
}

// TestArchive checks that the archive of a log, which is read by the calls of RFC 6962, has the signed root. It is
// served with the head that the log signed, with the same entries, and with proofs that tlog verifies.
func TestArchive(t *testing.T) {
	t.Parallel()
	size := int64(300)
	if text := os.Getenv(archiveEntries); text != "" {
		var err error
		size, err = strconv.ParseInt(text, 10, 64)
		testkit.Must(t, err)
	}
	at := newPlace(t)
	p := started(t, "", at.realArguments("--signing-key", at.path("log.pem"), "--create", "--max-connections-per-address",
		"100")...)
	at.submitMany(p.clients, int(size))
	_, key := read(p.clients, "/key")
	at.write("public.pem", []byte(key))
	folder := at.path("archive")
	output := archived(t, int(size), "http://"+p.clients, "--key", at.path("public.pem"), "--folder", folder, "--origin",
		"log.example/test")
	if !strings.Contains(output, fmt.Sprintf("complete: %d entries, root ", size)) {
		t.Errorf("ctserve archive: %s", output)
	}
	if status, output := runs([]string{"--archive", folder, "--roots", at.path("roots.pem")}); status != 2 {
		t.Errorf("an archive with roots: status %d: %s", status, output)
	}
	from := started(t, "", append(patient(), "--listen", "127.0.0.1:0", "--operator-listen", "127.0.0.1:0", "--archive",
		folder)...)
	hashes, leaves := entriesOf(t, p.clients, size)
	wantsHead(t, p.clients, from.clients, key, size, hashes)
	wantsSameAnswers(t, p.clients, from.clients, size)
	wantsProofs(t, from.clients, size, hashes, leaves)
	wantsNoSubmission(t, at, from)
	for _, each := range []*program{p, from} {
		each.signal(syscall.SIGTERM)
		if status := each.ends(); status != 0 {
			t.Errorf("status %d", status)
		}
	}
}

// wantsHead compares the head of an archive with that of the log, in both forms.
func wantsHead(t *testing.T, log, archive, key string, size int64, hashes tlog.HashReader) {
	t.Helper()
	_, signed := read(log, "/ct/v1/get-sth")
	if _, answer := read(archive, "/ct/v1/get-sth"); answer != signed {
		t.Errorf("get-sth: %s, and the log answers %s", answer, signed)
	}
	root, err := tlog.TreeHash(size, hashes)
	testkit.Must(t, err)
	block, _ := pem.Decode([]byte(key))
	_, checkpoint := read(archive, "/checkpoint")
	head, err := ct.OpenCheckpoint([]byte(checkpoint), "log.example/test", block.Bytes)
	if err != nil || int64(head.TreeSize) != size || head.Root != root {
		t.Errorf("/checkpoint: %d entries, root %x, not %x: %v", head.TreeSize, head.Root, root, err)
	}
}

// some returns the first and the last number below an end, and random ones between them.
func some(end int64, count int) []int64 {
	numbers := []int64{0, end - 1, min(255, end-1), min(256, end-1)}
	for range count {
		numbers = append(numbers, rand.Int64N(end))
	}
	return numbers
}

// wantsSameAnswers compares tiles, issuers and entries of an archive with those of the log, byte by byte.
func wantsSameAnswers(t *testing.T, log, archive string, size int64) {
	t.Helper()
	var paths []string
	for _, index := range some(size, 40) {
		paths = append(paths, fmt.Sprintf("/ct/v1/get-entries?start=%d&end=%d", index, index+9),
			fmt.Sprintf("/ct/v1/get-entry-and-proof?leaf_index=%d&tree_size=%d", index, size))
		for level := -1; level < 3; level++ {
			all := size >> (8 * max(level, 0))
			of := tlog.Tile{H: 8, L: level, N: index >> (8 * (max(level, 0) + 1))}
			if of.W = int(min(256, all-of.N*256)); of.W > 0 {
				paths = append(paths, "/tile/"+strings.TrimPrefix(of.Path(), "tile/8/"))
			}
		}
	}
	for _, path := range paths {
		status, expected := read(log, path)
		if other, answer := read(archive, path); status != 200 || other != 200 || answer != expected {
			t.Errorf("%s: %d, and the log answers %d; the same bytes: %v", path, other, status, answer == expected)
		}
	}
}

// wantsProofs verifies proofs of an archive with tlog.
func wantsProofs(t *testing.T, address string, size int64, hashes tlog.HashReader, leaves [][]byte) {
	t.Helper()
	root, err := tlog.TreeHash(size, hashes)
	testkit.Must(t, err)
	for _, index := range some(size, 100) {
		var answer struct {
			Index int64    `json:"leaf_index"`
			Path  [][]byte `json:"audit_path"`
		}
		leaf := sha256.Sum256(append([]byte{0}, leaves[index]...))
		wantsJSON(t, address, fmt.Sprintf("/ct/v1/get-proof-by-hash?tree_size=%d&hash=%s", size,
			url.QueryEscape(base64.StdEncoding.EncodeToString(leaf[:]))), &answer)
		if err := tlog.CheckRecord(asHashes(answer.Path), size, root, index, leaf); err != nil || answer.Index != index {
			t.Errorf("the proof of entry %d, at %d: %v", index, answer.Index, err)
		}
	}
	for _, first := range some(size, 100) {
		if first == 0 {
			continue
		}
		var answer struct {
			Proof [][]byte `json:"consistency"`
		}
		wantsJSON(t, address, fmt.Sprintf("/ct/v1/get-sth-consistency?first=%d&second=%d", first, size), &answer)
		before, err := tlog.TreeHash(first, hashes)
		testkit.Must(t, err)
		if err := tlog.CheckTree(asHashes(answer.Proof), size, root, first, before); err != nil {
			t.Errorf("the proof from %d entries: %v", first, err)
		}
	}
}

func asHashes(path [][]byte) []tlog.Hash {
	hashes := make([]tlog.Hash, len(path))
	for i := range path {
		copy(hashes[i][:], path[i])
	}
	return hashes
}

// wantsNoSubmission checks that an archive refuses submissions, and shows that it is an archive.
func wantsNoSubmission(t *testing.T, at *place, p *program) {
	t.Helper()
	if status, text := post(p.clients, at.submission()); status != 403 || !strings.Contains(text, "read-only") {
		t.Errorf("add-chain: %d %s", status, text)
	}
	for path, expected := range map[string]string{"/readyz": "ready", "/log.v3.json": archiveNotice,
		"/ct/v1/get-roots": `"certificates":[]`, "/": "<!doctype html>"} {
		if status, text := read(p.clients, path); status != 200 || !strings.Contains(text, expected) {
			t.Errorf("%s: %d %.300s", path, status, text)
		}
	}
	if _, text := get(p.operator, "/metrics"); strings.Contains(text, "ctserve_max_merge_delay_seconds ") {
		t.Error("an archive has a maximum merge delay, with which an alert compares its head's age")
	}
	if status, output := runs([]string{"--archive", filepath.Join(at.folder, "none")}); status != 2 {
		t.Errorf("no archive: status %d: %s", status, output)
	}
}
