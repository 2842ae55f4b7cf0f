package signer

import (
	"context"
	"crypto/ecdsa"
	"crypto/elliptic"
	"crypto/rand"
	"encoding/base64"
	"errors"
	"fmt"
	"os"
	"path/filepath"
	"testing"
	"time"

	"golang.org/x/mod/sumdb/tlog"

	"wagtenib/internal/blob"
	"wagtenib/internal/ct"
	"wagtenib/internal/testkit"
)

var must, wantError = testkit.Must, testkit.WantError

// wantRefusal checks that an error is the refusal of this name.
func wantRefusal(t testing.TB, name string, err error) {
	t.Helper()
	var refusal Refusal
	if !errors.As(err, &refusal) || refusal.Name != name {
		t.Errorf("%v, and not the refusal %s", err, name)
	}
}

// none is the text of the state before the first head.
const none = `{"guard":1,"last":null}`

// textOf returns the text of a guard's state, as existing locks contain it.
func textOf(last *ct.TreeHead) string {
	if last == nil {
		return none
	}
	return fmt.Sprintf(`{"guard":1,"last":{"sha256_root_hash":"%s","timestamp":%d,"tree_size":%d}}`,
		base64.StdEncoding.EncodeToString(last.Root[:]), last.Timestamp, last.TreeSize)
}

// lockText returns the text in the lock of a guard's state.
func lockText(t *testing.T, g *Guarded) string {
	t.Helper()
	text, err := g.guard.State.Read(limited(t))
	must(t, err)
	return text
}

func limited(t testing.TB) context.Context { return testkit.Limited(t, testkit.Longest) }

func newKey(t testing.TB) *Key {
	private, err := ecdsa.GenerateKey(elliptic.P256(), rand.Reader)
	must(t, err)
	key, err := FromKey(private)
	must(t, err)
	return key
}

func lock(t testing.TB, folder string) blob.Lock {
	r, err := blob.OpenFile(filepath.Join(folder, "guard"))
	must(t, err)
	return r
}

// leaf returns a MerkleTreeLeaf of a certificate (RFC 6962, section 3.4).
func leaf(text string) []byte {
	bytes := append([]byte{0, 0}, make([]byte, 10)...)
	bytes[9] = 7
	bytes = append(bytes, 0, 0, byte(len(text)))
	return append(append(bytes, text...), 0, 0)
}

// list is a list of leaves, with the hashes of its tree as x/mod keeps them.
type list struct {
	leaves [][]byte
	hashes []tlog.Hash
}

func (l *list) ReadHashes(indexes []int64) (found []tlog.Hash, err error) {
	for _, i := range indexes {
		found = append(found, l.hashes[i])
	}
	return found, nil
}

func (l *list) add(t testing.TB, text string) { l.put(t, leaf(text)) }

// put adds a leaf by its bytes.
func (l *list) put(t testing.TB, leaf []byte) {
	more, err := tlog.StoredHashes(int64(len(l.leaves)), leaf, l)
	must(t, err)
	l.leaves, l.hashes = append(l.leaves, leaf), append(l.hashes, more...)
}

// leafNaming returns a leaf whose only extension names an index (leaf_index, C2SP static-ct-api).
func leafNaming(text string, index byte) []byte {
	bytes := leaf(text)
	return append(bytes[:len(bytes)-2], 0, 8, 0, 0, 5, 0, 0, 0, 0, index)
}

// listOf returns a list of leaves. All lists have the same leaves up to the index same. The leaves after that are those
// of a fork.
func listOf(t testing.TB, size, same int) *list {
	l := &list{}
	for i := 0; i < size; i++ {
		text := fmt.Sprint("leaf ", i)
		if i >= same {
			text = fmt.Sprint("other ", i)
		}
		l.add(t, text)
	}
	return l
}

func (l *list) head(t testing.TB, size int, timestamp uint64) ct.TreeHead {
	root, err := tlog.TreeHash(int64(size), l)
	must(t, err)
	if size == 0 {
		// MTH of no leaves is SHA-256 of nothing (RFC 6962, section 2.1), which tlog leaves out.
		root, err = tlog.ParseHash("47DEQpj8HBSa+/TImW+5JCeuQeRkm5NMpJWZG3hSuFU=")
		must(t, err)
	}
	return ct.TreeHead{TreeSize: uint64(size), Timestamp: timestamp, Root: root}
}

func (l *list) proof(t testing.TB, from, to int) (proof [][32]byte) {
	if from == 0 || from == to {
		return nil
	}
	hashes, err := tlog.ProveTree(int64(to), int64(from), l)
	must(t, err)
	for _, hash := range hashes {
		proof = append(proof, hash)
	}
	return proof
}

func (l *list) receipt(t testing.TB, index, size int) Receipt {
	hashes, err := tlog.ProveRecord(int64(size), int64(index), l)
	must(t, err)
	r := Receipt{Leaf: l.leaves[index], Index: uint64(index)}
	for _, hash := range hashes {
		r.Path = append(r.Path, hash)
	}
	return r
}

// guardedIn returns a key with the proved guard, whose state is in a folder.
func guardedIn(t testing.TB, key *Key, folder string) *Guarded {
	t.Helper()
	g, err := NewGuarded(limited(t), key, Guard{State: lock(t, folder), Create: true})
	must(t, err)
	return g
}

// inBothProcesses runs a test of a signer with a guard twice: in this process, and through a socket.
func inBothProcesses(t *testing.T, test func(t *testing.T, s Signer, key *Key)) {
	t.Run("here", func(t *testing.T) {
		key := newKey(t)
		test(t, guardedIn(t, key, t.TempDir()), key)
	})
	t.Run("at a socket", func(t *testing.T) {
		folder, key := t.TempDir(), newKey(t)
		path, ctx := filepath.Join(folder, "socket"), limited(t)
		g := guardedIn(t, key, folder)
		go func() { _ = Listen(ctx, g, Socket{Path: path}) }()
		for i := 0; ; i++ {
			if info, err := os.Stat(path); err == nil {
				if info.Mode().Perm() != 0o660 {
					t.Errorf("the socket has the mode %v", info.Mode())
				}
				break
			}
			time.Sleep(time.Millisecond)
		}
		c, err := NewClient(ctx, func(ctx context.Context) (*Peer, error) { return Dial(ctx, path) }, testkit.Longest)
		must(t, err)
		t.Cleanup(func() { c.Close() })
		test(t, c, key)
	})
}

// socketClient returns a client of a signer at a socket, as a node uses it.
func socketClient(ctx context.Context, t *testing.T, s Signer) *Client {
	t.Helper()
	path := filepath.Join(t.TempDir(), "socket")
	listener, err := listenAt(Socket{Path: path})
	must(t, err)
	t.Cleanup(func() { listener.Close() })
	go func() { _ = newServer().serve(ctx, s, listener) }()
	c, err := NewClient(ctx, func(ctx context.Context) (*Peer, error) { return Dial(ctx, path) }, testkit.Longest)
	must(t, err)
	t.Cleanup(func() { c.Close() })
	return c
}
