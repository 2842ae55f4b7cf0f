package main

import (
	"bytes"
	"encoding/json"
	"encoding/pem"
	"fmt"
	"os"
	"path/filepath"
	"strings"
	"syscall"
	"testing"
	"time"

	"wagtenib/internal/audit/judge"
	"wagtenib/internal/log/httpd"
	"wagtenib/internal/testkit"
)

// realArguments returns the arguments of a log on a folder.
func (p *place) realArguments(more ...string) []string {
	p.t.Helper()
	return append(append(patient(), "--listen", "127.0.0.1:0", "--operator-listen", "127.0.0.1:0", "--origin",
		"log.example/test", "--roots", p.path("roots.pem"),
		"--folder", p.path("log"), "--interval", "50ms"), more...)
}

// TestRealLog checks that a start creates a log on a folder only with --create. Each answered entry exists after a
// kill, and a duplicate gets the same place. All reads are consistent.
func TestRealLog(t *testing.T) {
	t.Parallel()
	var at *place
	var arguments []string
	var p *program
	for until := time.Now().Add(testkit.Patience); ; {
		at = newPlace(t)
		arguments = at.realArguments("--signing-key", at.path("log.pem"))
		if status, output := runs(arguments); status != statusRolledBack {
			t.Errorf("a log is made without --create: status %d: %s", status, output)
		}
		began := time.Now()
		p = started(t, "", append(arguments, "--create")...)
		// ctserve does not wait for the first head longer than a read may take.
		isLate := p.serving["level"] == "warn" && p.serving["fault"] != nil &&
			time.Since(began) >= httpd.DefaultLimits().Reading
		if !isLate || time.Now().After(until) {
			break
		}
		p.signal(syscall.SIGKILL)
		p.ends()
	}
	if p.serving["level"] != "info" || p.serving["entries"] != 0.0 {
		t.Errorf("ctserve serves before a head is published: %v", p.serving)
	}
	if at, err := time.Parse(time.RFC3339, fmt.Sprint(p.serving["head_of"])); err != nil ||
		time.Since(at) < -time.Second || time.Since(at) > 10*time.Minute {
		t.Errorf("the line serving does not have the time of the first head: %v", p.serving)
	}
	first := at.submission()
	status, answer := post(p.clients, first)
	if status != 200 {
		t.Fatalf("%d %s", status, answer)
	}
	answers := make(chan int, 20)
	for i := 0; i < 20; i++ {
		body := at.submission()
		go func() {
			status, _ := post(p.clients, body)
			answers <- status
		}()
	}
	for i := 0; i < 20; i++ {
		if status := <-answers; status != 200 {
			t.Errorf("one of twenty: %d", status)
		}
	}
	p.signal(syscall.SIGKILL)
	p.ends()
	p = started(t, "", arguments...)
	if status, text := read(p.clients, "/readyz"); status != 200 {
		t.Errorf("/readyz: %d %s", status, text)
	}
	place := func(text string) string {
		var reply struct {
			Timestamp  uint64 `json:"timestamp"`
			Extensions []byte `json:"extensions"`
		}
		if err := json.Unmarshal([]byte(text), &reply); err != nil {
			t.Fatalf("%s: %v", text, err)
		}
		return fmt.Sprint(reply)
	}
	if status, text := post(p.clients, first); status != 200 || place(text) != place(answer) {
		t.Errorf("a duplicate: %d %s, first %s", status, text, answer)
	}
	_, checkpoint := read(p.clients, "/checkpoint")
	if !strings.HasPrefix(checkpoint, "log.example/test\n21\n") {
		t.Errorf("/checkpoint: %q", checkpoint)
	}
	// The calls of the stores are counted by kind.
	for _, call := range []string{`call="get",store="objects"`, `call="read",store="lock"`,
		`call="find",store="index"`} {
		if asked, failed := metricOf(t, p, "ctserve_store_seconds_count{"+call+"}"),
			metricOf(t, p, "ctserve_store_failures_total{"+call+"}"); asked < 1 || failed != 0 {
			t.Errorf("{%s}: %v calls, of which %v failed", call, asked, failed)
		}
	}
	if unpublished, since := metricOf(t, p, "ctserve_unpublished_entries"),
		metricOf(t, p, "ctserve_round_age_seconds"); unpublished != 0 || since < 0 || since > 3600 {
		t.Errorf("%v entries are not published, and no round succeeded for %v s", unpublished, since)
	}
	var head struct {
		Size uint64 `json:"tree_size"`
		Root []byte `json:"sha256_root_hash"`
	}
	if _, text := read(p.clients, "/ct/v1/get-sth"); json.Unmarshal([]byte(text), &head) != nil || head.Size != 21 {
		t.Errorf("get-sth: %s", text)
	}
	var listed struct {
		Entries []struct {
			LeafInput []byte `json:"leaf_input"`
		} `json:"entries"`
	}
	if _, text := read(p.clients, "/ct/v1/get-entries?start=0&end=100"); json.Unmarshal([]byte(text), &listed) != nil ||
		len(listed.Entries) != 21 {
		t.Fatalf("get-entries: %s", text)
	}
	var hashes [][32]byte
	for _, entry := range listed.Entries {
		hashes = append(hashes, testkit.LeafHash(entry.LeafInput))
	}
	if root := testkit.MerkleTreeHash(hashes); !bytes.Equal(root[:], head.Root) {
		t.Error("the entries do not have the head's root")
	}
	if _, tile := read(p.clients, "/tile/0/000.p/21"); len(tile) != 21*32 ||
		!strings.HasPrefix(tile, string(hashes[0][:])) {
		t.Errorf("the tile has %d bytes", len(tile))
	}
	p.signal(syscall.SIGTERM)
	if status := p.ends(); status != 0 {
		t.Errorf("ctserve ended with status %d", status)
	}
}

// TestKeyInAToken runs a log whose key is in a PKCS#11 token. Its signer must log in to the token, and the token's key
// must sign everything that is answered and published, also after another start.
func TestKeyInAToken(t *testing.T) {
	module, pin := testkit.Token(t)
	at := newPlace(t)
	uri := "pkcs11:token=log-token;object=key?module-path=" + module + "&pin-source=file:" + pin
	arguments := at.realArguments("--signing-key", uri)
	status, stdout, stderr := does("key", "--show", uri)
	if status != 0 {
		t.Fatalf("its key is not shown: %s", stderr)
	}
	_, public, _ := strings.Cut(stdout, "-----BEGIN")
	block, _ := pem.Decode([]byte("-----BEGIN" + public))
	if block == nil {
		t.Fatalf("no key: %s", stdout)
	}
	var answers []judge.Answer
	for i, create := range []string{"true", "false"} {
		p := started(t, "", append(arguments, "--create="+create)...)
		der := at.authority.Sign(at.authority.Template(time.Date(2027, 1, 1, 0, 0, 0, 0, time.UTC)))
		status, text := post(p.clients, testkit.Submission(der))
		var read struct {
			ID         []byte `json:"id"`
			Timestamp  uint64 `json:"timestamp"`
			Extensions []byte `json:"extensions"`
			Signature  []byte `json:"signature"`
		}
		if err := json.Unmarshal([]byte(text), &read); err != nil || status != 200 {
			t.Fatalf("start %d: %d %s", i, status, text)
		}
		answers = append(answers, judge.Answer{Certificate: der, LogID: read.ID, Timestamp: read.Timestamp,
			Extensions: read.Extensions, Signature: read.Signature})
		p.signal(syscall.SIGTERM)
		if status := p.ends(); status != 0 {
			t.Fatalf("ctserve ended with status %d", status)
		}
	}
	if report, err := judge.Folder(filepath.Join(at.path("log"), "objects"), block.Bytes, answers); err != nil ||
		report.Leaves != 2 {
		t.Errorf("%+v, %v", report, err)
	}
}

// TestLogsDamage checks what happens if a tile that no step needs is damaged. A duplicate of its entry is refused, the
// log stays ready, and the tile's name is logged until the tile is repaired.
func TestLogsDamage(t *testing.T) {
	t.Parallel()
	at := newPlace(t)
	arguments := at.realArguments("--signing-key", at.path("log.pem"), "--scrub-interval", "50ms")
	p := started(t, "", append(arguments, "--create")...)
	body := at.submission()
	if status, text := post(p.clients, body); status != 200 {
		t.Fatalf("%d %s", status, text)
	}
	p.signal(syscall.SIGTERM)
	if status := p.ends(); status != 0 {
		t.Errorf("ctserve ended with status %d", status)
	}
	const tile = "tile/data/000.p/1"
	content, err := os.ReadFile(at.path("log/objects/" + tile))
	if err != nil {
		t.Fatal(err)
	}
	if err := os.Remove(at.path("log/objects/" + tile)); err != nil {
		t.Fatal(err)
	}
	p = started(t, "", arguments...)
	if status, text := post(p.clients, body); status != 503 || !strings.Contains(text, `"store"`) {
		t.Errorf("%d %s", status, text)
	}
	if line := p.until("damage"); line["level"] != "error" ||
		!strings.Contains(fmt.Sprint(line["detail"]), tile+" is missing") {
		t.Errorf("the line is %v", line)
	}
	if status, text := read(p.clients, "/readyz"); status != 200 {
		t.Errorf("/readyz: %d %s", status, text)
	}
	_, text := get(p.operator, "/metrics")
	for _, line := range []string{"ctserve_fault 0", "ctserve_damaged_tiles 1"} {
		if !strings.Contains(text, "\n"+line+"\n") {
			t.Errorf("/metrics lacks %s", line)
		}
	}
	at.write("log/objects/"+tile, content)
	p.until("mended")
	if status, text := post(p.clients, body); status != 200 {
		t.Errorf("after the tile was repaired: %d %s", status, text)
	}
}
