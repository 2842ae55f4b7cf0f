package httpd

import (
	"context"
	"crypto/sha256"
	"encoding/base64"
	"encoding/json"
	"errors"
	"fmt"
	"net/http/httptest"
	"net/netip"
	"net/url"
	"reflect"
	"strings"
	"testing"
	"time"

	"wagtenib/bindings/go/wagtenib"
	"wagtenib/internal/blob"
	"wagtenib/internal/log"
	"wagtenib/internal/testkit"
	"wagtenib/internal/tiles"
)

// half returns the largest power of two below n.
func half(n int) int {
	k := 1
	for 2*k < n {
		k *= 2
	}
	return k
}

// pathOf returns PATH(m, D) of RFC 6962, section 2.1.1.
func pathOf(m int, d [][32]byte) [][]byte {
	if len(d) == 1 {
		return [][]byte{}
	}
	k := half(len(d))
	if m < k {
		root := testkit.MerkleTreeHash(d[k:])
		return append(pathOf(m, d[:k]), root[:])
	}
	root := testkit.MerkleTreeHash(d[:k])
	return append(pathOf(m-k, d[k:]), root[:])
}

// proofOf returns SUBPROOF(m, D, whole) of RFC 6962, section 2.1.2.
func proofOf(m int, d [][32]byte, whole bool) [][]byte {
	if m == len(d) && whole {
		return [][]byte{}
	}
	if m == len(d) {
		root := testkit.MerkleTreeHash(d)
		return [][]byte{root[:]}
	}
	k := half(len(d))
	if m <= k {
		root := testkit.MerkleTreeHash(d[k:])
		return append(proofOf(m, d[:k], whole), root[:])
	}
	root := testkit.MerkleTreeHash(d[:k])
	return append(proofOf(m-k, d[k:], false), root[:])
}

// leaves returns the hashes of all leaves, and their leaf_input, as get-entries has them.
func (f *fixture) leaves() (hashes [][32]byte, inputs [][]byte) {
	f.t.Helper()
	head, err := f.log.Checkpoint(context.Background())
	if err != nil {
		f.t.Fatal(err)
	}
	for uint64(len(hashes)) < head.TreeSize {
		var reply struct {
			Entries []struct {
				LeafInput []byte `json:"leaf_input"`
			}
		}
		f.reads(fmt.Sprintf("get-entries?start=%d&end=%d", len(hashes), head.TreeSize-1), &reply)
		for _, entry := range reply.Entries {
			hashes, inputs = append(hashes, sha256.Sum256(append([]byte{0}, entry.LeafInput...))),
				append(inputs, entry.LeafInput)
		}
	}
	return hashes, inputs
}

func (f *fixture) reads(call string, into any) *httptest.ResponseRecorder {
	f.t.Helper()
	w := f.get("/ct/v1/" + call)
	if w.Code != 200 || json.Unmarshal(w.Body.Bytes(), into) != nil {
		f.t.Fatalf("%s: %d %s", call, w.Code, w.Body)
	}
	return w
}

// sizesOf returns some sizes of trees, up to a size.
func sizesOf(size int) (sizes []int) {
	for _, n := range []int{1, 2, 3, 7, 255, 256, 257, 300, size - 1, size} {
		if 0 < n && n <= size {
			sizes = append(sizes, n)
		}
	}
	return sizes
}

// TestProofs compares all three calls with the recursions of RFC 6962 over all leaves, also for sizes that no head had.
func TestProofs(t *testing.T) {
	f := newFixture(t, 0, nil)
	size := 0
	for _, more := range []int{1, 3, 252, 1, 300} {
		f.fill(more)
		size += more
		leaves, inputs := f.leaves()
		for _, n := range sizesOf(size) {
			for _, m := range append(sizesOf(n), 0) {
				var reply struct{ Consistency [][]byte }
				w := f.reads(fmt.Sprintf("get-sth-consistency?first=%d&second=%d", m, n), &reply)
				want := [][]byte{}
				if m > 0 {
					want = proofOf(m, leaves[:n], true)
				}
				if !reflect.DeepEqual(reply.Consistency, want) || w.Header().Get("Cache-Control") != forEver {
					t.Fatalf("from %d to %d: %x, not %x", m, n, reply.Consistency, want)
				}
			}
			for _, index := range []int{0, 1, 254, 255, 256, n / 2, n - 1} {
				if index >= n {
					continue
				}
				want := pathOf(index, leaves[:n])
				var found struct {
					Index uint64   `json:"leaf_index"`
					Path  [][]byte `json:"audit_path"`
				}
				f.reads(fmt.Sprintf("get-proof-by-hash?tree_size=%d&hash=%s", n,
					url.QueryEscape(base64.StdEncoding.EncodeToString(leaves[index][:]))), &found)
				if found.Index != uint64(index) || !reflect.DeepEqual(found.Path, want) {
					t.Fatalf("leaf %d of %d: at %d %x, not %x", index, n, found.Index, found.Path, want)
				}
				var entry struct {
					LeafInput []byte   `json:"leaf_input"`
					ExtraData []byte   `json:"extra_data"`
					Path      [][]byte `json:"audit_path"`
				}
				f.reads(fmt.Sprintf("get-entry-and-proof?leaf_index=%d&tree_size=%d", index, n), &entry)
				if string(entry.LeafInput) != string(inputs[index]) || len(entry.ExtraData) == 0 ||
					!reflect.DeepEqual(entry.Path, want) {
					t.Fatalf("entry %d of %d: %+v, not %x", index, n, entry, want)
				}
			}
		}
	}
}

// elsewhere is a log that returns the same index for each leaf.
type elsewhere struct {
	log.Log
	index uint64
}

// withUnusedBits returns a hash in base64 whose last character has bits that belong to no byte (RFC 4648, section 3.5).
func withUnusedBits(hash [32]byte) string {
	const alphabet = "ABCDEFGHIJKLMNOPQRSTUVWXYZabcdefghijklmnopqrstuvwxyz0123456789+/"
	text := base64.StdEncoding.EncodeToString(hash[:])
	return text[:42] + alphabet[strings.IndexByte(alphabet, text[42])+1:][:1] + "="
}

func (e elsewhere) IndexOf(context.Context, [32]byte) (uint64, error) { return e.index, nil }

func TestRefusesProofs(t *testing.T) {
	f := newFixture(t, 0, nil)
	f.fill(5)
	leaves, _ := f.leaves()
	hash := func(leaf [32]byte) string { return url.QueryEscape(base64.StdEncoding.EncodeToString(leaf[:])) }
	for _, bad := range []string{
		"get-sth-consistency", "get-sth-consistency?first=1", "get-sth-consistency?second=1",
		"get-sth-consistency?first=2&second=1", "get-sth-consistency?first=1&second=6",
		"get-sth-consistency?first=1&first=2&second=3", "get-sth-consistency?first=-1&second=3",
		"get-sth-consistency?first=01&second=3", "get-sth-consistency?first=1&second=18446744073709551616",
		"get-proof-by-hash?tree_size=5", "get-proof-by-hash?hash=" + hash(leaves[1]),
		"get-proof-by-hash?tree_size=6&hash=" + hash(leaves[1]), "get-proof-by-hash?tree_size=5&hash=AA==",
		"get-proof-by-hash?tree_size=5&hash=%", "get-proof-by-hash?tree_size=5&hash=" + hash(leaves[1]) + "&hash=" +
			hash(leaves[1]), "get-proof-by-hash?tree_size=5&hash=" + hash(leaves[1]) + "A",
		"get-proof-by-hash?tree_size=5&hash=" + url.QueryEscape(withUnusedBits(leaves[1])),
		"get-entry-and-proof?leaf_index=0", "get-entry-and-proof?tree_size=1",
		"get-entry-and-proof?leaf_index=1&tree_size=1", "get-entry-and-proof?leaf_index=1&tree_size=6",
	} {
		refused(t, bad, f.get("/ct/v1/"+bad), 400, "bad-parameter")
	}
	of := "/ct/v1/get-proof-by-hash?tree_size=3&hash="
	refused(t, "a leaf after the end of the tree", f.get(of+hash(leaves[3])), 404, "no-such-leaf")
	refused(t, "no leaf", f.get(of+hash(sha256.Sum256(nil))), 404, "no-such-leaf")
	refused(t, "a tree without leaves", f.get("/ct/v1/get-proof-by-hash?tree_size=0&hash="+hash(leaves[0])), 404,
		"no-such-leaf")
	right := f.front.log
	for _, index := range []uint64{0, 2, 4, blob.MaxNumber} {
		f.front.log = elsewhere{f.log, index}
		refused(t, fmt.Sprint("a leaf with the wrong index ", index), f.get(of+hash(leaves[1])), 404,
			"no-such-leaf")
	}
	f.front.log = right

	calls := []string{"get-sth-consistency?first=2&second=3", "get-proof-by-hash?tree_size=5&hash=" + hash(leaves[1]),
		"get-entry-and-proof?leaf_index=1&tree_size=4"}
	each := func(what string, status int, name string) {
		t.Helper()
		for _, call := range calls {
			refused(t, what+": "+call, f.get("/ct/v1/"+call), status, name)
		}
	}
	content, err := f.log.Object(context.Background(), "tile/0/000.p/5", blob.MaxObject)
	if err != nil {
		t.Fatal(err)
	}
	for place := range leaves {
		damaged := append([]byte{}, content...)
		damaged[32*place+7] ^= 1
		f.log.Change("tile/0/000.p/5", damaged)
		for i, call := range calls {
			// A leaf is unknown if its tile has another hash at its index.
			if i == 1 && place == 1 {
				refused(t, call, f.get("/ct/v1/"+call), 404, "no-such-leaf")
				continue
			}
			refused(t, fmt.Sprintf("tile damaged at %d: %s", place, call), f.get("/ct/v1/"+call), 503, "store")
		}
	}
	f.log.Change("tile/0/000.p/5", content[:len(content)-1])
	each("a short tile", 503, "store")
	f.log.Change("tile/0/000.p/5", nil)
	each("no tile", 503, "store")
	f.log.Change("tile/0/000.p/5", content)
	for _, call := range calls {
		f.reads(call, &struct{}{})
	}
	f.front.reader = tiles.NewProver(f.log.Object, 0)
	each("no room for a proof", 503, "busy")
	outOfMemory := tiles.ProvedFunctions()
	outOfMemory.PathOfTiles = func(uint64, uint64, [][]byte) ([][32]byte, error) { return nil, wagtenib.ErrMemory }
	outOfMemory.ProofOf = outOfMemory.PathOfTiles
	f.front.reader = tiles.ProverOver(outOfMemory, f.log.Object, 1)
	each("no memory", 503, "busy")
	f.log.SetFault(errors.New("the disk"))
	if w := f.get("/ct/v1/" + calls[0]); w.Code < 500 || strings.Contains(w.Body.String(), "disk") {
		t.Errorf("a log that fails: %d %s", w.Code, w.Body)
	}
}

// TestProofsByAddress checks that one address may have only some of the proofs that are made at once, and keeps no
// other address waiting.
func TestProofsByAddress(t *testing.T) {
	f := newFixture(t, 0, func(o *Options) { o.Limits.ProofsByAddress = 2 })
	f.fill(3)
	const call = "/ct/v1/get-sth-consistency?first=1&second=2"
	from := func(peer string) *httptest.ResponseRecorder {
		w, r := httptest.NewRecorder(), httptest.NewRequest("GET", call, nil)
		r.RemoteAddr = peer
		f.front.ServeHTTP(w, r)
		return w
	}
	release := make(chan struct{})
	f.front.reader = tiles.NewProver(func(ctx context.Context, name string, maxBytes int64) ([]byte, error) {
		<-release
		return f.log.Object(ctx, name, maxBytes)
	}, 64)
	answers := make(chan int, 3)
	ask := func(peer string) { answers <- from(peer).Code }
	for i := 0; i < 2; i++ {
		go ask("192.0.2.1:7")
	}
	asked := func(peer string) int {
		f.front.uses.proofsByClient.mutex.Lock()
		defer f.front.uses.proofsByClient.mutex.Unlock()
		return f.front.uses.proofsByClient.byGroup[netip.MustParsePrefix(peer+"/32")]
	}
	for asked("192.0.2.1") != 2 {
		time.Sleep(time.Millisecond)
	}
	refused(t, "one more", from("192.0.2.1:8"), 429, "too-many-requests")
	go ask("192.0.2.2:7")
	for asked("192.0.2.2") != 1 {
		time.Sleep(time.Millisecond)
	}
	close(release)
	for i := 0; i < 3; i++ {
		if code := <-answers; code != 200 {
			t.Errorf("a proof within the bound: %d", code)
		}
	}
}

// TestLateProofKeepsItsSlot checks that a client that waits too long gets an error, and that the read keeps its slot
// until it ends.
func TestLateProofKeepsItsSlot(t *testing.T) {
	f := newFixture(t, 0, func(o *Options) { o.Limits.Reading = 20 * time.Millisecond })
	f.fill(3)
	release := make(chan struct{})
	f.holdReads(release)
	f.waitUntilHeld()
	refused(t, "another proof at the same time", f.waitUntilHeld(), 503, "busy")
	close(release)
}

// holdReads makes the front make one proof at a time, and holds each read of an object until release is closed.
func (f *fixture) holdReads(release chan struct{}) {
	f.front.reader = tiles.NewProver(func(ctx context.Context, name string, maxBytes int64) ([]byte, error) {
		<-release
		return f.log.Object(ctx, name, maxBytes)
	}, 1)
}

// waitUntilHeld asks for proofs, each of which is late, until one is being made. It returns the refusal of another
// proof at that time.
func (f *fixture) waitUntilHeld() (w *httptest.ResponseRecorder) {
	f.t.Helper()
	eventually(f.t, "a proof is being made", func() bool {
		w = f.get("/ct/v1/get-sth-consistency?first=1&second=2")
		if w.Code == 503 && strings.Contains(w.Body.String(), `"busy"`) {
			return true
		}
		refused(f.t, "late", w, 503, "late")
		return false
	})
	return w
}

// TestProofAfterPartialTileWasDeleted checks that a partial tile that was deleted after the head was read is no fault
// if a newer head has the full tile.
func TestProofAfterPartialTileWasDeleted(t *testing.T) {
	f := newFixture(t, 0, nil)
	f.fill(3)
	head, _ := f.log.Checkpoint(context.Background())
	f.fill(257)
	f.front.log = &late{f.log, head, 1}
	var reply struct{ Consistency [][]byte }
	f.reads("get-sth-consistency?first=1&second=3", &reply)
	f.front.log = &late{f.log, head, 2}
	refused(t, "a partial tile that is missing twice", f.get("/ct/v1/get-sth-consistency?first=1&second=3"), 503, "store")
}

// TestFreesSlotOfAbandonedProof checks that, if a client leaves while a proof waits for a tile, its slot is free after
// the proof was made.
func TestFreesSlotOfAbandonedProof(t *testing.T) {
	f := newFixture(t, 0, func(o *Options) { o.Limits.Reading = 100 * time.Millisecond })
	f.fill(3)
	release := make(chan struct{})
	f.holdReads(release)
	f.waitUntilHeld()
	close(release)
	f.front.limits.Reading = testkit.Longest
	eventually(t, "a proof is made again", func() bool {
		return f.get(
			"/ct/v1/get-sth-consistency?first=1&second=2").Code == 200
	})
}
