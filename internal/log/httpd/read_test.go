package httpd

import (
	"bytes"
	"compress/gzip"
	"encoding/json"
	"fmt"
	"io"
	"net/http/httptest"
	"strings"
	"testing"
	"time"

	"golang.org/x/crypto/cryptobyte"
	"golang.org/x/mod/sumdb/tlog"

	"wagtenib/internal/ct"
	"wagtenib/internal/testkit"
)

// served returns the content of an answer. It checks the status, the type and the Cache-Control of the answer, and that
// HEAD has the same headers.
func (f *fixture) served(path, kind, keep string) []byte {
	f.t.Helper()
	w := f.get(path)
	header := w.Header()
	if w.Code != 200 || header.Get("Content-Type") != kind || header.Get("Cache-Control") != keep ||
		header.Get("X-Content-Type-Options") != "nosniff" {
		f.t.Errorf("%s: %d %v", path, w.Code, header)
	}
	if header.Get("Content-Length") != fmt.Sprint(w.Body.Len()) {
		f.t.Errorf("%s: Content-Length %s of %d", path, header.Get("Content-Length"), w.Body.Len())
	}
	head := f.do("HEAD", path, nil)
	if head.Code != 200 || fmt.Sprint(head.Header()) != fmt.Sprint(header) {
		f.t.Errorf("HEAD %s: %d %v", path, head.Code, head.Header())
	}
	return w.Body.Bytes()
}

func TestObjectsAreServed(t *testing.T) {
	f := newFixture(t, 0, nil)
	f.fill(260)
	note := f.served("/checkpoint", "text/plain; charset=utf-8", "public, max-age=1")
	if !bytes.HasPrefix(note, []byte("log.example/stand-in\n260\n")) {
		t.Errorf("/checkpoint: %q", note)
	}
	for path, length := range map[string]int{"/tile/0/000": 256 * 32, "/tile/0/001.p/4": 4 * 32, "/tile/data/000": 0,
		"/tile/data/001.p/4": 0} {
		keep := "public, max-age=31536000, immutable"
		if strings.Contains(path, ".p/") {
			keep = "public, max-age=60"
		}
		content := f.served(path, "application/octet-stream", keep)
		if length > 0 && len(content) != length {
			t.Errorf("%s has %d bytes", path, len(content))
		}
	}
	issuer := f.served("/issuer/"+fingerprintOf(f.authority.Root.Raw), "application/pkix-cert",
		"public, max-age=31536000, immutable")
	if !bytes.Equal(issuer, f.authority.Root.Raw) {
		t.Error("the issuer is another one")
	}
	for _, path := range []string{"/tile/0/002", "/tile/0/000.p/255", "/tile/1/000.p/2", "/tile/data/x001/000",
		"/issuer/" + strings.Repeat("0", 64)} {
		refused(t, path, f.get(path), 404, "absent")
	}
}

// TestDamagedObjectsAreNotServed checks that an object with another number of hashes or entries than its name says, or
// another hash than its name, is a fault of the store. No cache keeps the response.
func TestDamagedObjectsAreNotServed(t *testing.T) {
	f := newFixture(t, 0, nil)
	f.fill(260)
	for path, width := range map[string]int{
		"/tile/0/000": 256, "/tile/0/001.p/4": 4, "/tile/data/000": 256, "/tile/data/001.p/4": 4, "/issuer/" +
			fingerprintOf(f.authority.Root.Raw): 1,
	} {
		content := f.get(path).Body.Bytes()
		one := len(content) / width
		with := func(more []byte) []byte { return append(append([]byte{}, content...), more...) }
		for what, other := range map[string][]byte{
			"empty": {}, "short": content[:len(content)-1], "one less": content[:len(content)-one],
			"long": with([]byte{0}), "one more": with(content[:one]),
		} {
			f.log.Change(path[1:], other)
			refused(t, path+", "+what, f.get(path), 503, "store")
		}
		f.log.Change(path[1:], content)
		if w := f.get(path); w.Code != 200 || !bytes.Equal(w.Body.Bytes(), content) {
			t.Errorf("%s, after it was repaired: %d", path, w.Code)
		}
	}
	issuer := "issuer/" + fingerprintOf(f.authority.Root.Raw)
	damaged := append([]byte{}, f.authority.Root.Raw...)
	damaged[7] ^= 1
	f.log.Change(issuer, damaged)
	refused(t, "another issuer", f.get("/"+issuer), 503, "store")
}

func TestNames(t *testing.T) {
	for text, want := range map[string]tlog.Tile{
		"0/000":                  {H: 8, L: 0, W: 256},
		"5/000.p/1":              {H: 8, L: 5, W: 1},
		"0/x001/x234/067":        {H: 8, N: 1234067, W: 256},
		"data/x123/000.p/255":    {H: 8, L: -1, N: 123000, W: 255},
		"0/x004/x294/x967/295":   {H: 8, N: 1<<32 - 1, W: 256},
		"data/x001/x000/000.p/9": {H: 8, L: -1, N: 1000000, W: 9},
	} {
		name, ok := readTileName("tile/" + text)
		if !ok || name != want || ct.TileName(name) != "tile/"+text {
			t.Errorf("%s: %v %v", text, name, ok)
		}
	}
	for _, text := range []string{
		"", "0", "0/", "/000", "6/000", "00/000", "01/000", "-1/000", "+1/000", "data", "data/", "Data/000",
		"entries/000", "names/000",
		"0/0", "0/00", "0/0000", "0/1000", "0/x000", "0/x000/000", "0/x000/x001/000", "0/001/000", "0/x001/x000",
		"0/X001/000", "0/x01/000", "0/x001//000",
		"0/x004/x294/x967/296", "0/x001/x000/x000/x000/000", "0/000/", "0/000.p", "0/000.p/", "0/000.p/0",
		"0/000.p/256", "0/000.p/01", "0/000.p/1/", "0/000.p/+1",
		"0/000.p/1.p/1", "0/000.P/1", "0/000 ", " 0/000", "0/00\u0660", "0/000\x00", "0/x001.p/1/000", "../checkpoint",
		"0/..", "0/x../000",
	} {
		if name, ok := readTileName("tile/" + text); ok {
			t.Errorf("%q is read as %+v", text, name)
		}
	}
	for _, text := range []string{"", "ab", strings.Repeat("A", 64), strings.Repeat("a", 63), strings.Repeat("a", 65),
		strings.Repeat("g", 64), strings.Repeat("a", 63) + "/"} {
		if isFingerprint(text) {
			t.Errorf("%q is taken for a fingerprint", text)
		}
	}
}

func TestTreeHead(t *testing.T) {
	f := newFixture(t, 0, nil)
	f.fill(3)
	var reply struct {
		Size      uint64 `json:"tree_size"`
		Timestamp uint64 `json:"timestamp"`
		Root      []byte `json:"sha256_root_hash"`
		Signature []byte `json:"tree_head_signature"`
	}
	w := f.get("/ct/v1/get-sth")
	if err := json.Unmarshal(w.Body.Bytes(), &reply); err != nil || w.Code != 200 {
		t.Fatal(w.Code, err)
	}
	head, _ := f.log.Checkpoint(httptest.NewRequest("GET", "/", nil).Context())
	if reply.Size != 3 || reply.Timestamp != head.Timestamp || !bytes.Equal(reply.Root, head.Root[:]) ||
		!f.verifies(testkit.TreeHeadSignature(head.TreeSize, head.Timestamp, head.Root), reply.Signature) {
		t.Errorf("get-sth: %s", w.Body)
	}
}

// entries asks for entries, and returns those that are answered.
func (f *fixture) entries(start, end uint64) []entryOf {
	f.t.Helper()
	w := f.get(fmt.Sprintf("/ct/v1/get-entries?start=%d&end=%d", start, end))
	var reply struct {
		Entries []entryOf `json:"entries"`
	}
	if err := json.Unmarshal(w.Body.Bytes(), &reply); err != nil || w.Code != 200 {
		f.t.Fatalf("entries from %d to %d: %d %s", start, end, w.Code, w.Body)
	}
	return reply.Entries
}

// TestEntriesHaveTheHeadsRoot checks that all entries together have the head's root, and that each has the chain that
// was submitted.
func TestEntriesHaveTheHeadsRoot(t *testing.T) {
	f := newFixture(t, 0, nil)
	certificates := f.fill(515)
	var hashes [][32]byte
	for len(hashes) < 515 {
		start := len(hashes)
		entries := f.entries(uint64(start), 100000)
		if len(entries) == 0 {
			t.Fatalf("none from %d on", start)
		}
		for i, entry := range entries {
			hashes = append(hashes, testkit.LeafHash(entry.LeafInput))
			certificate := certificates[start+i]
			if !bytes.Contains(entry.LeafInput, certificate) || entry.LeafInput[14] != byte(len(certificate)) {
				t.Fatalf("entry %d is not the one that was submitted", start+i)
			}
			var chain, issuer cryptobyte.String
			extra := cryptobyte.String(entry.ExtraData)
			if !extra.ReadUint24LengthPrefixed(&chain) || !extra.Empty() || !chain.ReadUint24LengthPrefixed(&issuer) ||
				!chain.Empty() {
				t.Fatalf("entry %d: its chain: %x", start+i, entry.ExtraData)
			}
			if !bytes.Equal(issuer, f.authority.Root.Raw) {
				t.Fatalf("entry %d: its issuer is another one", start+i)
			}
		}
	}
	head, _ := f.log.Checkpoint(httptest.NewRequest("GET", "/", nil).Context())
	if testkit.MerkleTreeHash(hashes) != head.Root {
		t.Error("the entries do not have the head's root")
	}
	for _, test := range []struct{ start, end, count uint64 }{{0, 0, 1}, {7, 9, 3}, {255, 256, 1}, {256, 1 << 62, 256},
		{512, 515, 3}, {514, 514, 1}, {0, 511, 256}} {
		if entries := f.entries(test.start, test.end); uint64(len(entries)) != test.count {
			t.Errorf("%d to %d: %d entries, not %d", test.start, test.end, len(entries), test.count)
		}
	}
}

func TestEntryOfPrecertificate(t *testing.T) {
	f := newFixture(t, 5*time.Millisecond, nil)
	precertificate := f.issue(true)
	if w := f.do("POST", "/ct/v1/add-pre-chain", testkit.Submission(precertificate)); w.Code != 200 {
		t.Fatal(w.Body)
	}
	wanted, err := f.checker.Precertificate([][]byte{precertificate})
	if err != nil {
		t.Fatal(err)
	}
	entry := f.entries(0, 0)[0]
	leaf := cryptobyte.String(entry.LeafInput)
	var version, kind uint8
	var number uint16
	var timestamp, keyHash []byte
	var tbs, extensions, submitted, issuers, issuer cryptobyte.String
	if !leaf.ReadUint8(&version) || !leaf.ReadUint8(&kind) || !leaf.ReadBytes(&timestamp, 8) ||
		!leaf.ReadUint16(&number) || !leaf.ReadBytes(&keyHash, 32) ||
		!leaf.ReadUint24LengthPrefixed(&tbs) || !leaf.ReadUint16LengthPrefixed(&extensions) || !leaf.Empty() {
		t.Fatalf("the leaf: %x", entry.LeafInput)
	}
	if version != 0 || kind != 0 || ct.EntryType(number) != ct.PrecertEntry ||
		!bytes.Equal(keyHash, wanted.IssuerKeyHash[:]) || !bytes.Equal(tbs, wanted.TBSCertificate) {
		t.Errorf("the leaf has another content: %x", entry.LeafInput)
	}
	extra := cryptobyte.String(entry.ExtraData)
	if !extra.ReadUint24LengthPrefixed(&submitted) || !extra.ReadUint24LengthPrefixed(&issuers) || !extra.Empty() ||
		!issuers.ReadUint24LengthPrefixed(&issuer) || !issuers.Empty() {
		t.Fatalf("the chain: %x", entry.ExtraData)
	}
	if !bytes.Equal(submitted, precertificate) || !bytes.Equal(issuer, f.authority.Root.Raw) {
		t.Error("the chain is another one")
	}
}

func TestParametersAreRefused(t *testing.T) {
	f := newFixture(t, 0, nil)
	refused(t, "an empty log", f.get("/ct/v1/get-entries?start=0&end=0"), 400, "bad-parameter")
	f.fill(3)
	for _, query := range []string{
		"", "start=0", "end=0", "start=1&end=0", "start=3&end=3", "start=-1&end=0", "start=+0&end=0", "start=00&end=0",
		"start=0x1&end=1", "start=0&end=1&end=1",
		"start=0&end=", "start=0&end=9223372036854775808", "start=0&end=99999999999999999999", "start=0;end=0",
		"start=0&end=%zz", "start=%30%30&end=1", "start=1e0&end=1",
	} {
		refused(t, query, f.get("/ct/v1/get-entries?"+query), 400, "bad-parameter")
	}
}

// TestParametersAreNamed checks that the error for a wrong parameter names the parameter and the problem.
func TestParametersAreNamed(t *testing.T) {
	f := newFixture(t, 0, nil)
	f.fill(3)
	for path, detail := range map[string]string{
		"/ct/v1/get-entries?end=0":                            "start is missing",
		"/ct/v1/get-entries?start=0":                          "end is missing",
		"/ct/v1/get-entries?start=0&end=1&end=1":              "end occurs more than once",
		"/ct/v1/get-entries?start=0&end=18446744073709551615": "end is a number from 0 to 9223372036854775807",
		"/ct/v1/get-entries?start=&end=0": "start is a number from 0 to " +
			"9223372036854775807",
		"/ct/v1/get-entries?start=2&end=1":                     "start is after end",
		"/ct/v1/get-entries?start=3&end=3":                     "the log has 3 entries",
		"/ct/v1/get-entries?start=0&end=%zz":                   "the query cannot be parsed",
		"/ct/v1/get-sth-consistency?first=1":                   "second is missing",
		"/ct/v1/get-sth-consistency?first=2&second=1":          "first is after second",
		"/ct/v1/get-proof-by-hash?tree_size=3":                 "hash is missing",
		"/ct/v1/get-proof-by-hash?hash=&tree_size=3&hash=":     "hash occurs more than once",
		"/ct/v1/get-proof-by-hash?tree_size=3&hash=AAAA":       "hash is 32 bytes in base64",
		"/ct/v1/get-entry-and-proof?leaf_index=3&tree_size=3":  "leaf_index is not below tree_size",
		"/ct/v1/get-entry-and-proof?leaf_index=0&tree_size=4":  "the log has 3 entries",
		"/ct/v1/get-entry-and-proof?leaf_index=0&leaf_index=0": "leaf_index occurs more than once",
		"/ct/v1/get-entry-and-proof?leaf_index=0x0&tree_size=3&x=y&z": "leaf_index is a number from 0 to " +
			"9223372036854775807",
	} {
		w := f.get(path)
		refused(t, path, w, 400, "bad-parameter")
		var reply struct{ Detail string }
		if err := json.Unmarshal(w.Body.Bytes(), &reply); err != nil || reply.Detail != detail {
			t.Errorf("%s: %q, %v, and not %q", path, reply.Detail, err, detail)
		}
	}
}

// dataTileOf returns a data tile with certificates of these sizes in bytes.
func dataTileOf(sizes ...int) []byte {
	var b cryptobyte.Builder
	for _, size := range sizes {
		certificate := make([]byte, size)
		b.AddUint64(7)
		b.AddUint16(0)
		b.AddUint24LengthPrefixed(func(b *cryptobyte.Builder) { b.AddBytes(certificate) })
		b.AddUint16LengthPrefixed(func(b *cryptobyte.Builder) {})
		b.AddUint16LengthPrefixed(func(b *cryptobyte.Builder) {})
	}
	return b.BytesOrPanic()
}

// TestEntriesAreBoundedByBytes checks that a response has at most MaxEntryBytes of entries. A larger entry is returned
// as the only one.
func TestEntriesAreBoundedByBytes(t *testing.T) {
	f := newFixture(t, 0, nil)
	f.fill(3)
	f.log.Change("tile/data/000.p/3", dataTileOf(700000, MaxEntryBytes+1, 700000))
	for start := uint64(0); start < 3; start++ {
		if entries := f.entries(start, 2); len(entries) != 1 {
			t.Errorf("%d entries from %d on", len(entries), start)
		}
	}
}

// TestCheckpointByItsTag checks that If-None-Match with the checkpoint's tag in a list, in any form that a cache sends,
// gets 304. Another tag gets the checkpoint.
func TestCheckpointByItsTag(t *testing.T) {
	f := newFixture(t, 0, nil)
	f.fill(3)
	asked := func(tags ...string) *httptest.ResponseRecorder {
		w, r := httptest.NewRecorder(), httptest.NewRequest("GET", "/checkpoint", nil)
		for _, tag := range tags {
			r.Header.Add("If-None-Match", tag)
		}
		f.front.ServeHTTP(w, r)
		return w
	}
	first := asked()
	tag := first.Header().Get("ETag")
	if first.Code != 200 || len(tag) < 3 || tag[0] != '"' {
		t.Fatalf("%d, ETag %q", first.Code, tag)
	}
	for _, tags := range [][]string{{tag}, {"W/" + tag}, {`"x", ` + tag}, {`"x"`, tag}, {"*"}} {
		w := asked(tags...)
		if w.Code != 304 || w.Body.Len() != 0 || w.Header().Get("ETag") != tag ||
			w.Header().Get("Cache-Control") != "public, max-age=1" {
			t.Errorf("%q: %d, %d bytes, %v", tags, w.Code, w.Body.Len(), w.Header())
		}
	}
	for _, tags := range [][]string{{}, {""}, {`"x"`}, {strings.Trim(tag, `"`)}} {
		if w := asked(tags...); w.Code != 200 || !bytes.Equal(w.Body.Bytes(), first.Body.Bytes()) {
			t.Errorf("%q: %d", tags, w.Code)
		}
	}
	f.fill(1)
	if w := asked(tag); w.Code != 200 || w.Header().Get("ETag") == tag {
		t.Errorf("the next head: %d, %v", w.Code, w.Header())
	}
}

// TestAnswersInGzip checks that data tiles and entries are compressed for clients that accept gzip, and have the same
// content. A content that would not get smaller is not compressed, and a refusal is not either.
func TestAnswersInGzip(t *testing.T) {
	f := newFixture(t, 0, nil)
	f.fill(260)
	asked := func(path, accepts string) *httptest.ResponseRecorder {
		w, r := httptest.NewRecorder(), httptest.NewRequest("GET", path, nil)
		if accepts != "" {
			r.Header.Set("Accept-Encoding", accepts)
		}
		f.front.ServeHTTP(w, r)
		return w
	}
	for _, path := range []string{"/tile/data/000", "/tile/data/001.p/4", "/ct/v1/get-entries?start=0&end=255"} {
		plain := asked(path, "")
		for accepts, isPacked := range map[string]bool{"": false, "gzip": true, "br, gzip;q=0.5": true, "GZIP": true,
			"gzip;q=0": false, "gzip; q=0.0": false, "identity": false, "gzip;q=x": false} {
			w := asked(path, accepts)
			content := w.Body.Bytes()
			if packed := w.Header().Get("Content-Encoding") == "gzip"; packed != isPacked {
				t.Errorf("%s for a client that accepts %q: in gzip %v", path, accepts, packed)
				continue
			}
			if w.Header().Get("Vary") != "Accept-Encoding" ||
				w.Header().Get("Content-Length") != fmt.Sprint(len(content)) {
				t.Errorf("%s: %v", path, w.Header())
			}
			if isPacked {
				unpacker, err := gzip.NewReader(bytes.NewReader(content))
				if err != nil {
					t.Fatal(err)
				}
				if content, err = io.ReadAll(unpacker); err != nil || w.Body.Len() >= plain.Body.Len() {
					t.Errorf("%s: %d bytes of %d, %v", path, w.Body.Len(), plain.Body.Len(), err)
				}
			}
			if !bytes.Equal(content, plain.Body.Bytes()) {
				t.Errorf("%s for a client that accepts %q has another content", path, accepts)
			}
		}
	}
	for _, path := range []string{"/tile/0/000", "/checkpoint", "/tile/data/009", "/ct/v1/get-entries"} {
		if w := asked(path, "gzip"); w.Header().Get("Content-Encoding") != "" {
			t.Errorf("%s is in gzip", path)
		}
	}
	if used := f.front.uses.answers.used.Load(); used != 0 {
		t.Errorf("%d bytes are still counted", used)
	}
}

// TestPagesOfOtherOrigins checks that a web page of another origin may read each answer to a call that reads, also a
// refusal, and may ask beforehand whether it may. It may not read answers to submissions.
func TestPagesOfOtherOrigins(t *testing.T) {
	f := newFixture(t, 0, nil)
	f.fill(3)
	for path, status := range map[string]int{
		"/checkpoint": 200, "/ct/v1/get-sth": 200, "/ct/v1/get-entries?start=0&end=1": 200, "/ct/v1/get-entries": 400,
		"/tile/0/000.p/3": 200, "/tile/0/009": 404,
		"/tile/x": 404, "/issuer/x": 404, "/ct/v1/get-roots": 200, "/ct/v1/get-proof-by-hash": 400,
	} {
		if w := f.get(path); w.Code != status || w.Header().Get("Access-Control-Allow-Origin") != "*" {
			t.Errorf("%s: %d %v", path, w.Code, w.Header())
		}
		w := f.do("OPTIONS", path, nil)
		header := w.Header()
		if w.Code != 204 || w.Body.Len() != 0 || header.Get("Access-Control-Allow-Origin") != "*" ||
			header.Get("Access-Control-Allow-Methods") != "GET, HEAD, OPTIONS" ||
			header.Get("Allow") != "GET, HEAD, OPTIONS" {
			t.Errorf("OPTIONS %s: %d %v", path, w.Code, header)
		}
	}
	refused(t, "OPTIONS with a body", f.do("OPTIONS", "/checkpoint", []byte("x")), 405, "method")
	w := f.do("OPTIONS", "/ct/v1/add-chain", nil)
	refused(t, "OPTIONS add-chain", w, 405, "method")
	if w.Header().Get("Access-Control-Allow-Origin") != "" {
		t.Errorf("add-chain: %v", w.Header())
	}
}
