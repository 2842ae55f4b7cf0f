package wagtenib_test

import (
	"bytes"
	"crypto/sha256"
	"encoding/binary"
	"errors"
	"math"
	"math/rand"
	"testing"

	"golang.org/x/mod/sumdb/tlog"

	"wagtenib/bindings/go/wagtenib"
)

const hour = 3_600_000 // milliseconds

// madeLog is a generated log: its leaves, and the tree that x/mod's tlog computes of them.
type madeLog struct {
	leaves [][]byte
	stored storedHashes
}

func (l *madeLog) append(t testing.TB, leaf []byte) {
	t.Helper()
	more, err := tlog.StoredHashes(int64(len(l.leaves)), leaf, l.stored)
	if err != nil {
		t.Fatal(err)
	}
	l.leaves, l.stored = append(l.leaves, leaf), append(l.stored, more...)
}

func (l *madeLog) root(t testing.TB, size uint64) wagtenib.Hash {
	t.Helper()
	if size == 0 {
		return sha256.Sum256(nil)
	}
	root, err := tlog.TreeHash(int64(size), l.stored)
	if err != nil {
		t.Fatal(err)
	}
	return wagtenib.Hash(root)
}

// proof returns tlog's consistency proof, or nil if there is none.
func (l *madeLog) proof(t testing.TB, first, second uint64) []wagtenib.Hash {
	t.Helper()
	if first == 0 || first >= second {
		return nil
	}
	proof, err := tlog.ProveTree(int64(second), int64(first), l.stored)
	if err != nil {
		t.Fatal(err)
	}
	return ofTlog(proof)
}

// path returns tlog's audit path, or nil if there is none.
func (l *madeLog) path(t testing.TB, index, size uint64) []wagtenib.Hash {
	t.Helper()
	if index >= size {
		return nil
	}
	path, err := tlog.ProveRecord(int64(size), int64(index), l.stored)
	if err != nil {
		t.Fatal(err)
	}
	return ofTlog(path)
}

// signedBytes returns the TreeHeadSignature of a head, by RFC 6962, section 3.5.
func signedBytes(head wagtenib.TreeHead) (signed wagtenib.SignedBytes) {
	signed[1] = 1
	binary.BigEndian.PutUint64(signed[2:], head.Timestamp)
	binary.BigEndian.PutUint64(signed[10:], head.TreeSize)
	copy(signed[18:], head.Root[:])
	return signed
}

// left returns the largest power of two below n, which is the size of the left part of a tree (RFC 6962, section 2.1).
func left(n uint64) uint64 {
	k := uint64(1)
	for 2*k < n {
		k *= 2
	}
	return k
}

func nodeHash(left, right wagtenib.Hash) wagtenib.Hash {
	return sha256.Sum256(append(append([]byte{1}, left[:]...), right[:]...))
}

// rootsByProof returns the first and the second root to which SUBPROOF(m, D[n], whole) of RFC 6962, section 2.1.2,
// leads. ok is false if the proof has another length.
func rootsByProof(m, n uint64, known wagtenib.Hash, proof []wagtenib.Hash,
	whole bool) (first, second wagtenib.Hash, ok bool) {
	if m == n && whole {
		return known, known, len(proof) == 0
	}
	if len(proof) == 0 || m == n && len(proof) > 1 {
		return first, second, false
	}
	last, rest := proof[len(proof)-1], proof[:len(proof)-1]
	if m == n {
		return last, last, true
	}
	k := left(n)
	if m <= k {
		first, second, ok = rootsByProof(m, k, known, rest, whole)
		return first, nodeHash(second, last), ok
	}
	first, second, ok = rootsByProof(m-k, n-k, known, rest, false)
	return nodeHash(last, first), nodeHash(last, second), ok
}

// rootByPath returns the root to which PATH(m, D[n]) of RFC 6962, section 2.1.1, leads from a leaf hash. ok is false if
// the path has another length.
func rootByPath(m, n uint64, hash wagtenib.Hash, path []wagtenib.Hash) (root wagtenib.Hash, ok bool) {
	if n == 1 || len(path) == 0 {
		return hash, n == 1 && len(path) == 0
	}
	k, last, rest := left(n), path[len(path)-1], path[:len(path)-1]
	if m < k {
		root, ok = rootByPath(m, k, hash, rest)
		return nodeHash(root, last), ok
	}
	root, ok = rootByPath(m-k, n-k, hash, rest)
	return nodeHash(last, root), ok
}

// longOrShort returns the expected error of a proof with a wrong length.
func longOrShort(got, due int) error {
	if got > due {
		return wagtenib.ErrPathTooLong
	}
	return wagtenib.ErrPathTooShort
}

// proofFault returns the expected error of a consistency proof between two sizes.
func (l *madeLog) proofFault(t *testing.T, last, head wagtenib.TreeHead, proof []wagtenib.Hash) error {
	t.Helper()
	if len(proof) == 0 {
		return wagtenib.ErrEmptyPath
	}
	first, second, ok := rootsByProof(last.TreeSize, head.TreeSize, last.Root, proof, true)
	switch {
	case !ok:
		return longOrShort(len(proof), len(l.proof(t, last.TreeSize, head.TreeSize)))
	case first != last.Root:
		return wagtenib.ErrFirstMismatch
	case second != head.Root:
		return wagtenib.ErrRootMismatch
	}
	return nil
}

// headFault returns the expected error if a head may not be signed after the last one.
func (l *madeLog) headFault(t *testing.T, last, head wagtenib.TreeHead, proof []wagtenib.Hash, maxAhead uint64) error {
	t.Helper()
	switch {
	case head.Timestamp > last.Timestamp && head.Timestamp-last.Timestamp > maxAhead:
		return wagtenib.ErrTimestampTooFar
	case head == last:
		return nil
	case head.TreeSize < last.TreeSize:
		return wagtenib.ErrSizeFalls
	case head.Timestamp <= last.Timestamp:
		return wagtenib.ErrTimestampNotLater
	case head.TreeSize == last.TreeSize && head.Root != last.Root:
		return wagtenib.ErrFork
	case head.TreeSize == last.TreeSize || last.TreeSize == 0:
		return nil
	}
	return l.proofFault(t, last, head, proof)
}

// extensionsOf returns the extensions of a leaf that holds a certificate (RFC 6962, section 3.4).
func extensionsOf(leaf []byte) []byte {
	certificate := int(leaf[12])<<16 | int(leaf[13])<<8 | int(leaf[14])
	return leaf[15+certificate+2:]
}

// indexExtension returns the extension that contains a leaf's index in 40 bits (C2SP static-ct-api).
func indexExtension(index uint64) []byte {
	return append([]byte{0, 0, 5}, binary.BigEndian.AppendUint64(nil, index)[3:]...)
}

// receiptFault returns the expected error if an SCT of a well-formed leaf may not be signed after the last head.
func (l *madeLog) receiptFault(t *testing.T, last wagtenib.TreeHead, leaf []byte, index uint64,
	path []wagtenib.Hash) error {
	t.Helper()
	if index >= last.TreeSize {
		return wagtenib.ErrIndexOutOfRange
	}
	root, ok := rootByPath(index, last.TreeSize, sha256.Sum256(append([]byte{0}, leaf...)), path)
	switch extensions := extensionsOf(leaf); {
	case !ok:
		return longOrShort(len(path), len(l.path(t, index, last.TreeSize)))
	case root != last.Root:
		return wagtenib.ErrRootMismatch
	case binary.BigEndian.Uint64(leaf[2:]) > last.Timestamp:
		return wagtenib.ErrLaterLeaf
	case len(extensions) > 0 && !bytes.Equal(extensions, indexExtension(index)):
		return wagtenib.ErrOtherIndex
	}
	return nil
}

// wantsSigned fails the test unless a call returned the expected bytes, or the expected error and no bytes.
func wantsSigned(t *testing.T, what string, head wagtenib.TreeHead, signed wagtenib.SignedBytes, err, due error) {
	t.Helper()
	if !errors.Is(err, due) {
		t.Fatalf("%s: %v, but %v is due", what, err, due)
	}
	if due == nil && signed != signedBytes(head) || due != nil && signed != (wagtenib.SignedBytes{}) {
		t.Fatalf("%s: with %v it gave the bytes %x", what, err, signed)
	}
}

// guarded is a history of calls of the guard for one log and a fork of it.
type guarded struct {
	chance    *rand.Rand
	log, fork madeLog
	last      wagtenib.TreeHead
	seen      map[error]int
}

const guardedSize = 60

func newGuarded(t *testing.T, seed int64) *guarded {
	t.Helper()
	g := &guarded{chance: rand.New(rand.NewSource(seed)), seen: map[error]int{}}
	for i := range uint64(guardedSize) {
		leaf := g.leaf(i)
		g.log.append(t, leaf)
		if i >= 7 {
			leaf = g.leaf(i)
		}
		g.fork.append(t, leaf)
	}
	g.last.Root = g.log.root(t, 0)
	return g
}

func (g *guarded) leaf(index uint64) []byte {
	certificate, extensions := make([]byte, 1+g.chance.Intn(20)), []byte{}
	g.chance.Read(certificate)
	if g.chance.Intn(3) == 0 {
		extensions = indexExtension(index + uint64(g.chance.Intn(2)))
	}
	return leafOf(uint64(g.chance.Intn(2000)), 0, opaque(3, certificate), extensions)
}

// damaged returns the hashes unchanged, or changed in one way.
func (g *guarded) damaged(hashes []wagtenib.Hash) []wagtenib.Hash {
	hashes = append([]wagtenib.Hash(nil), hashes...)
	switch how := g.chance.Intn(9); {
	case how == 0:
		return append(hashes, flipped(wagtenib.Hash{}))
	case how == 1:
		return nil
	case how == 2 && len(hashes) > 0:
		return hashes[1:]
	case how == 3 && len(hashes) > 0:
		at := g.chance.Intn(len(hashes))
		hashes[at] = flipped(hashes[at])
	}
	return hashes
}

// state returns the guard's state, or bytes that are not a state.
func (g *guarded) state() (state []byte, isOne bool) {
	signed := signedBytes(g.last)
	wrong := bytes.Clone(signed[:])
	wrong[g.chance.Intn(2)] ^= 1
	none := [][]byte{nil, signed[:49], append(signed[:50:50], '\n'), wrong, bytes.ToUpper([]byte("state"))}
	if g.chance.Intn(10) == 0 {
		return none[g.chance.Intn(len(none))], false
	}
	return signed[:], true
}

func (g *guarded) headCall(t *testing.T) {
	t.Helper()
	log := []*madeLog{&g.log, &g.log, &g.log, &g.fork}[g.chance.Intn(4)]
	size := []uint64{g.last.TreeSize, g.last.TreeSize, uint64(g.chance.Intn(guardedSize)),
		uint64(g.chance.Intn(8))}[g.chance.Intn(4)]
	later := []uint64{0, 1, 1, 100, hour, hour + 1, math.MaxUint64}[g.chance.Intn(7)]
	head := wagtenib.TreeHead{TreeSize: size, Timestamp: g.last.Timestamp + later, Root: log.root(t, size)}
	if g.chance.Intn(10) == 0 {
		head = g.last
	}
	maxAhead := []uint64{hour, hour, 0, math.MaxUint64}[g.chance.Intn(4)]
	proof := g.damaged(log.proof(t, g.last.TreeSize, head.TreeSize))
	state, isOne := g.state()
	due := error(wagtenib.ErrState)
	if isOne {
		due = log.headFault(t, g.last, head, proof, maxAhead)
	}
	signed, err := wagtenib.GuardHead(state, head, proof, maxAhead)
	wantsSigned(t, "GuardHead", head, signed, err, due)
	g.seen[due]++
	if due == nil {
		g.last = head
	}
	// A log has few leaves, so the history begins again at random.
	if g.chance.Intn(30) == 0 {
		size := uint64(g.chance.Intn(4))
		g.last = wagtenib.TreeHead{TreeSize: size, Timestamp: 900, Root: g.log.root(t, size)}
	}
}

func (g *guarded) receiptCall(t *testing.T) {
	t.Helper()
	log := []*madeLog{&g.log, &g.log, &g.fork}[g.chance.Intn(3)]
	index := uint64(g.chance.Intn(int(min(g.last.TreeSize+2, guardedSize))))
	leaf, path := log.leaves[index], g.damaged(log.path(t, index, g.last.TreeSize))
	state, isOne := g.state()
	due := error(wagtenib.ErrState)
	if isOne {
		due = log.receiptFault(t, g.last, leaf, index, path)
	}
	if isOne && g.chance.Intn(10) == 0 {
		leaf, due = append(leaf[:len(leaf):len(leaf)], 0), wagtenib.ErrTrailing
	}
	if err := wagtenib.GuardReceipt(state, leaf, index, path); !errors.Is(err, due) {
		t.Fatalf("GuardReceipt: %v, but %v is due", err, due)
	}
	g.seen[due]++
}

func (g *guarded) stateCall(t *testing.T) {
	t.Helper()
	state, isOne := g.state()
	before := g.last
	before.TreeSize += uint64(g.chance.Intn(2))
	before.Timestamp -= uint64(g.chance.Intn(2)) * min(before.Timestamp, 1)
	seen, due := signedBytes(before), error(nil)
	switch {
	case !isOne:
		due = wagtenib.ErrState
	case g.last != before && (before.TreeSize > g.last.TreeSize || before.Timestamp >= g.last.Timestamp):
		due = wagtenib.ErrStateRolledBack
	}
	head, err := wagtenib.GuardState(seen[:], state)
	if !errors.Is(err, due) || due == nil && head != g.last {
		t.Fatalf("GuardState: %v and %v, but %v is due", head, err, due)
	}
	g.seen[due]++
}

// TestGuardAgreesWithAModel lets the guard judge random histories of heads, receipts and states, and compares each call
// with a model.
func TestGuardAgreesWithAModel(t *testing.T) {
	seen := map[error]int{}
	for seed := range int64(8) {
		g := newGuarded(t, seed)
		for range 2000 {
			[]func(*testing.T){g.headCall, g.headCall, g.receiptCall, g.receiptCall, g.stateCall}[g.chance.Intn(5)](t)
		}
		for fault, count := range g.seen {
			seen[fault] += count
		}
	}
	for _, due := range []error{
		nil, wagtenib.ErrState, wagtenib.ErrTimestampTooFar, wagtenib.ErrSizeFalls, wagtenib.ErrTimestampNotLater,
		wagtenib.ErrFork, wagtenib.ErrEmptyPath, wagtenib.ErrPathTooLong, wagtenib.ErrPathTooShort, wagtenib.ErrFirstMismatch,
		wagtenib.ErrRootMismatch, wagtenib.ErrIndexOutOfRange, wagtenib.ErrLaterLeaf, wagtenib.ErrOtherIndex,
		wagtenib.ErrTrailing, wagtenib.ErrStateRolledBack,
	} {
		if seen[due] == 0 {
			t.Errorf("no call of the histories came to %v", due)
		}
	}
}

func TestGuardsTheFirstHead(t *testing.T) {
	empty := wagtenib.TreeHead{Timestamp: 7, Root: sha256.Sum256(nil)}
	other := wagtenib.TreeHead{TreeSize: 9, Timestamp: 7, Root: sha256.Sum256([]byte("a root"))}
	later, larger, wrong := other, other, empty
	later.Timestamp++
	larger.TreeSize++
	wrong.Root = wagtenib.Hash{}
	for name, one := range map[string]struct {
		head, named wagtenib.TreeHead
		due         error
	}{
		"the empty tree":                       {empty, wagtenib.TreeHead{}, nil},
		"the empty tree, with another named":   {empty, other, nil},
		"the named head":                       {other, other, nil},
		"a head that nobody named":             {other, wagtenib.TreeHead{}, wagtenib.ErrNotFirst},
		"the named head at another timestamp":  {later, other, wagtenib.ErrNotFirst},
		"a head of another size than the name": {larger, other, wagtenib.ErrNotFirst},
		"no leaves and another root":           {wrong, wagtenib.TreeHead{}, wagtenib.ErrNotFirst},
		"no leaves and another root, named":    {wrong, wrong, wagtenib.ErrNotFirst},
	} {
		signed, err := wagtenib.GuardFirstHead(one.head, one.named)
		wantsSigned(t, name, one.head, signed, err, one.due)
	}
}
