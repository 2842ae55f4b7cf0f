package main

import (
	"encoding/base64"
	"encoding/json"
	"fmt"
	"net/url"
	"os"
	"path/filepath"
	"strconv"
	"strings"
	"syscall"
	"testing"
	"time"

	"wagtenib/internal/audit/judge"
	"wagtenib/internal/log/signer"
	"wagtenib/internal/testkit"
)

// fill fills the file system of a folder, except for so many bytes. The function that it returns makes room again.
func fill(t *testing.T, folder string, free int64) (makeRoom func()) {
	t.Helper()
	path := filepath.Join(folder, "ballast")
	file, err := os.Create(path)
	if err != nil {
		t.Fatal(err)
	}
	written := int64(0)
	for size := 1 << 16; size > 0; {
		wrote, err := file.Write(make([]byte, size))
		if written += int64(wrote); err != nil {
			size /= 2
		}
	}
	if written > free {
		err = file.Truncate(written - free)
	}
	if closing := file.Close(); err != nil || closing != nil {
		t.Fatal(err, closing)
	}
	return func() {
		if err := os.Remove(path); err != nil {
			t.Fatal(err)
		}
	}
}

// TestFullDisk has a whole log (objects, lock, index, the guard's state, the latest head) on a disk that is full except
// for a few bytes. Submissions are refused with an error of their own, and reads are answered. After there is room
// again, submissions are accepted. Each answered entry is in its place.
func TestFullDisk(t *testing.T) {
	t.Parallel()
	at := newPlace(t)
	disk := at.mount(t)
	arguments := at.realArguments("--signing-key", at.path("log.pem"), "--guard-state", "file:"+at.path("log/guard"),
		"--latest-head", at.path("log/latest-head"))
	p := started(t, "", append(arguments, "--create")...)
	var answers []judge.Answer
	submit := func() (int, string) {
		t.Helper()
		status, text, one := at.submitted(t, p)
		if status == 200 {
			answers = append(answers, one)
		}
		return status, text
	}
	again := func() {
		t.Helper()
		for until := time.Now().Add(testkit.Patience); ; time.Sleep(50 * time.Millisecond) {
			status, text := submit()
			if status == 200 {
				return
			}
			if status != 503 || time.Now().After(until) {
				t.Fatalf("with room: %d %s", status, text)
			}
		}
	}
	for i := 0; i < 5; i++ {
		again()
	}
	const puts = `{call="put",store="objects"}`
	if failed, all := failures(t, p, ""), metricOf(t, p, "ctserve_store_seconds_count"+puts); failed != 0 || all < 5 {
		t.Errorf("with room, %v calls count as failed, and %v puts were made", failed, all)
	}
	for _, free := range []int64{0, 64 << 10} {
		// Without a free byte, the put of the staged batch fails, which is the first one. With a few bytes, any store
		// may be the first to fail.
		of := ""
		if free == 0 {
			of = puts
		}
		before := failures(t, p, of)
		makeRoom := fill(t, disk, free)
		// If a few bytes are free, a step without entries may still succeed. Then the log has no fault until the next
		// submission.
		var ready, metrics string
		atFault := func() bool {
			var status int
			status, ready = get(p.clients, "/readyz")
			_, metrics = get(p.operator, "/metrics")
			return status == 503 && strings.Contains(metrics, "ctserve_fault 1\n") && failures(t, p, of) > before
		}
		for until := time.Now().Add(testkit.Patience); ; time.Sleep(10 * time.Millisecond) {
			status, text := submit()
			refused := status == 503 && strings.Contains(text, `"store"`)
			if refused && atFault() {
				break
			}
			if status != 200 && !refused || time.Now().After(until) {
				t.Fatalf("with %d bytes, and %v calls that failed before: %d %s; /readyz: %s; /metrics: %s", free, before,
					status, text, ready, metrics)
			}
		}
		readsAll(t, p, fmt.Sprintf("with %d bytes", free), answers)
		makeRoom()
		again()
	}
	// The log is killed while the disk is full.
	makeRoom := fill(t, disk, 0)
	p.signal(syscall.SIGKILL)
	p.ends()
	makeRoom()
	p = started(t, "", arguments...)
	again()
	p.signal(syscall.SIGTERM)
	if status := p.ends(); status != 0 {
		t.Errorf("ctserve ended with status %d", status)
	}
	key, err := signer.OpenKey(at.path("log.pem"))
	if err != nil {
		t.Fatal(err)
	}
	report, err := judge.Folder(filepath.Join(disk, "objects"), key.Key(), answers)
	if err != nil || report.Answers < 8 || report.Repeats != 0 {
		t.Errorf("%+v, %v", report, err)
	}
}

// metricsOf returns the metrics of a log.
func metricsOf(t *testing.T, p *program) map[string]float64 {
	t.Helper()
	_, text := get(p.operator, "/metrics")
	found := map[string]float64{}
	for _, line := range strings.Split(text, "\n") {
		at := strings.LastIndexByte(line, ' ')
		if at < 0 || strings.HasPrefix(line, "#") {
			continue
		}
		value, err := strconv.ParseFloat(line[at+1:], 64)
		if err != nil {
			t.Fatalf("%s: %v", line, err)
		}
		found[line[:at]] = value
	}
	return found
}

// failures returns the number of calls of stores that failed so far, of all or of one kind.
func failures(t *testing.T, p *program, of string) (sum float64) {
	t.Helper()
	for name, times := range metricsOf(t, p) {
		kind, isFailures := strings.CutPrefix(name, "ctserve_store_failures_total")
		if isFailures && (of == "" || kind == of) {
			sum += times
		}
	}
	return sum
}

// metricOf returns the value of a log's metric.
func metricOf(t *testing.T, p *program, name string) float64 {
	t.Helper()
	value, ok := metricsOf(t, p)[name]
	if !ok {
		t.Fatalf("there is no metric %s", name)
	}
	return value
}

// mount mounts a small file system at the log's folder.
func (at place) mount(t *testing.T) (disk string) {
	t.Helper()
	disk = at.path("log")
	if err := os.Mkdir(disk, 0o755); err != nil {
		t.Fatal(err)
	}
	if err := syscall.Mount("tmpfs", disk, "tmpfs", 0, fmt.Sprintf("size=%d", 8<<20)); err != nil {
		t.Skipf("no small file system can be mounted here, which only root may: %v", err)
	}
	t.Cleanup(func() {
		if err := syscall.Unmount(disk, syscall.MNT_DETACH); err != nil {
			t.Error(err)
		}
	})
	return disk
}

// submitted submits a new certificate. It returns the status and text of the answer, and the parsed answer.
func (at place) submitted(t *testing.T, p *program) (status int, text string, one judge.Answer) {
	t.Helper()
	der := at.authority.Sign(at.authority.Template(time.Date(2027, 1, 1, 0, 0, 0, 0, time.UTC)))
	if status, text = post(p.clients, testkit.Submission(der)); status != 200 {
		return status, text, one
	}
	var read struct {
		ID         []byte `json:"id"`
		Timestamp  uint64 `json:"timestamp"`
		Extensions []byte `json:"extensions"`
		Signature  []byte `json:"signature"`
	}
	if err := json.Unmarshal([]byte(text), &read); err != nil {
		t.Fatal(err)
	}
	return status, text, judge.Answer{Certificate: der, LogID: read.ID, Timestamp: read.Timestamp,
		Extensions: read.Extensions, Signature: read.Signature}
}

// readsAll checks that all kinds of reads are answered, that the head covers all answered submissions, and that the
// process is alive.
func readsAll(t *testing.T, p *program, when string, answers []judge.Answer) {
	t.Helper()
	var head struct {
		Size uint64 `json:"tree_size"`
	}
	if _, text := read(p.clients, "/ct/v1/get-sth"); json.Unmarshal([]byte(text), &head) != nil ||
		head.Size < uint64(len(answers)) {
		t.Errorf("%s: get-sth: %s", when, text)
	}
	hash := testkit.LeafHash(leafOf(answers[2]))
	proof := fmt.Sprintf("/ct/v1/get-proof-by-hash?tree_size=%d&hash=%s", head.Size,
		url.QueryEscape(base64.StdEncoding.EncodeToString(hash[:])))
	for _, path := range []string{"/checkpoint", fmt.Sprintf("/tile/0/000.p/%d", head.Size),
		fmt.Sprintf("/tile/data/000.p/%d", head.Size), "/ct/v1/get-entries?start=0&end=4",
		fmt.Sprint("/ct/v1/get-sth-consistency?first=3&second=", head.Size), proof, "/healthz"} {
		if status, text := read(p.clients, path); status != 200 {
			t.Errorf("%s: %s: %d %s", when, path, status, text)
		}
	}
}

// leafOf returns the MerkleTreeLeaf of an answer for a certificate (RFC 6962, section 3.4).
func leafOf(a judge.Answer) []byte {
	leaf := append([]byte{0, 0}, make([]byte, 8)...)
	for i := range leaf[2:] {
		leaf[2+i] = byte(a.Timestamp >> (56 - 8*i))
	}
	size := len(a.Certificate)
	leaf = append(leaf, 0, 0, byte(size>>16), byte(size>>8), byte(size))
	leaf = append(append(leaf, a.Certificate...), byte(len(a.Extensions)>>8), byte(len(a.Extensions)))
	return append(leaf, a.Extensions...)
}
