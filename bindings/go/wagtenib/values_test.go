package wagtenib_test

import (
	"bytes"
	"crypto/sha256"
	"encoding/binary"
	"encoding/hex"
	"errors"
	"math/rand"
	"testing"

	"golang.org/x/mod/sumdb/tlog"

	"wagtenib/bindings/go/wagtenib"
)

// These are published vectors of Certificate Transparency's reference tree: its eight leaves, and the root of the first
// n for each n.
var referenceLeaves = []string{"", "00", "10", "2021", "3031", "40414243", "5051525354555657",
	"606162636465666768696a6b6c6d6e6f"}

var referenceRoots = []string{
	"e3b0c44298fc1c149afbf4c8996fb92427ae41e4649b934ca495991b7852b855",
	"6e340b9cffb37a989ca544e6bb780a2c78901d3fb33738768511a30617afa01d",
	"fac54203e7cc696cf0dfcb42c92a1d9dbaf70ad9e621f4bd8d98662f00e3c125",
	"aeb6bcfe274b70a14fb067a5e5578264db0fa9b51af5e0ba159158f329e06e77",
	"d37ee418976dd95753c1c73862b9398fa2a2cf9b4ff0fdfe8b30cd95209614b7",
	"4e3bbb1f7b478dcfe71fb631631519a3bca12c9aefca1612bfce4c13a86264d4",
	"76e67dadbcdf1e10e1b74ddc608abd2f98dfb16fbce75277b5232a127f2087ef",
	"ddb89be403809e325750d3d263cd78929c2942b7942a34b77e122c9594a74c8c",
	"5dc9da79a70659a9ad559cb701ded9a2ab9d823aad2f4960cfe370eff4604328",
}

// The reference tree's published audit path of leaf 5 in the tree of all eight leaves, and its consistency proof from 6
// leaves to all eight.
var (
	referencePath = []string{
		"bc1a0643b12e4d2d7c77918f44e0f4f79a838b6cf9ec5b5c283e1f4d88599e6b",
		"ca854ea128ed050b41b35ffc1b87b8eb2bde461e9e3b5596ece6b9d5975a0ae0",
		"d37ee418976dd95753c1c73862b9398fa2a2cf9b4ff0fdfe8b30cd95209614b7",
	}
	referenceProof = []string{
		"0ebc5d3437fbe2db158b9f126a1d118e308181031d0a949f8dededebc558ef6a",
		"ca854ea128ed050b41b35ffc1b87b8eb2bde461e9e3b5596ece6b9d5975a0ae0",
		"d37ee418976dd95753c1c73862b9398fa2a2cf9b4ff0fdfe8b30cd95209614b7",
	}
)

func unhex(t *testing.T, text string) []byte {
	t.Helper()
	found, err := hex.DecodeString(text)
	if err != nil {
		t.Fatal(err)
	}
	return found
}

func unhexed(t *testing.T, texts []string) (found []wagtenib.Hash) {
	t.Helper()
	for _, text := range texts {
		found = append(found, wagtenib.Hash(unhex(t, text)))
	}
	return found
}

// referenceHashes returns the hashes of the reference tree's leaves.
func referenceHashes(t *testing.T) (found []wagtenib.Hash) {
	t.Helper()
	for _, leaf := range referenceLeaves {
		found = append(found, wagtenib.LeafHash(unhex(t, leaf)))
	}
	return found
}

func TestRootsAreThoseOfTheReferenceTree(t *testing.T) {
	hashes := referenceHashes(t)
	var subtrees []wagtenib.Hash
	for size, text := range referenceRoots {
		root, err := wagtenib.Root(hashes[:size])
		if err != nil || hex.EncodeToString(root[:]) != text {
			t.Errorf("the root of %d leaves is %x, with %v, but %s was published", size, root, err, text)
		}
		if root := wagtenib.SubtreesRoot(subtrees); hex.EncodeToString(root[:]) != text {
			t.Errorf("the root of the subtrees of %d leaves is %x, but %s was published", size, root, text)
		}
		if size < len(hashes) {
			subtrees = wagtenib.Push(uint64(size), subtrees, hashes[size])
		}
	}
}

func TestAcceptsTheProofsOfTheReferenceTree(t *testing.T) {
	hashes, roots := referenceHashes(t), unhexed(t, referenceRoots)
	if err := wagtenib.VerifyInclusion(hashes[5], 5, 8, unhexed(t, referencePath), roots[8]); err != nil {
		t.Errorf("the audit path of leaf 5 in 8: %v", err)
	}
	if err := wagtenib.VerifyConsistency(6, 8, roots[6], roots[8], unhexed(t, referenceProof)); err != nil {
		t.Errorf("the consistency proof of 6 and 8 leaves: %v", err)
	}
}

// flipped returns a hash with one bit changed.
func flipped(hash wagtenib.Hash) wagtenib.Hash {
	hash[7] ^= 4
	return hash
}

func TestRefusesAuditPathsByTheFirstFault(t *testing.T) {
	leaf, path, root := referenceHashes(t)[5], unhexed(t, referencePath), unhexed(t, referenceRoots)[8]
	for name, one := range map[string]struct {
		due  error
		leaf wagtenib.Hash
		at   uint64
		path []wagtenib.Hash
		root wagtenib.Hash
	}{
		"an index above the tree": {wagtenib.ErrIndexOutOfRange, leaf, 8, path, root},
		"the largest index":       {wagtenib.ErrIndexOutOfRange, leaf, 1<<64 - 1, path, root},
		"one hash more":           {wagtenib.ErrPathTooLong, leaf, 5, append(path[:3:3], root), root},
		"one hash less":           {wagtenib.ErrPathTooShort, leaf, 5, path[:2], root},
		"no hash":                 {wagtenib.ErrPathTooShort, leaf, 5, nil, root},
		"another root":            {wagtenib.ErrRootMismatch, leaf, 5, path, flipped(root)},
		"another leaf":            {wagtenib.ErrRootMismatch, flipped(leaf), 5, path, root},
		"another index":           {wagtenib.ErrRootMismatch, leaf, 4, path, root},
		"another hash on the path": {wagtenib.ErrRootMismatch, leaf, 5, []wagtenib.Hash{path[0], flipped(path[1]), path[2]},
			root},
	} {
		if err := wagtenib.VerifyInclusion(one.leaf, one.at, 8, one.path, one.root); !errors.Is(err, one.due) {
			t.Errorf("%s: %v, but %v is due", name, err, one.due)
		}
	}
}

func TestRefusesConsistencyProofsByTheFirstFault(t *testing.T) {
	roots, proof := unhexed(t, referenceRoots), unhexed(t, referenceProof)
	for name, one := range map[string]struct {
		due           error
		first, second uint64
		old, new      wagtenib.Hash
		proof         []wagtenib.Hash
	}{
		"no first leaf":      {wagtenib.ErrSizesOutOfRange, 0, 8, roots[6], roots[8], proof},
		"equal sizes":        {wagtenib.ErrSizesOutOfRange, 8, 8, roots[8], roots[8], proof},
		"a tree that shrank": {wagtenib.ErrSizesOutOfRange, 8, 6, roots[8], roots[6], proof},
		"no hashes":          {wagtenib.ErrEmptyPath, 6, 8, roots[6], roots[8], nil},
		"one hash more":      {wagtenib.ErrPathTooLong, 6, 8, roots[6], roots[8], append(proof[:3:3], roots[6])},
		"one hash less":      {wagtenib.ErrPathTooShort, 6, 8, roots[6], roots[8], proof[:2]},
		"another first root": {wagtenib.ErrFirstMismatch, 6, 8, flipped(roots[6]), roots[8], proof},
		"another root":       {wagtenib.ErrRootMismatch, 6, 8, roots[6], flipped(roots[8]), proof},
	} {
		if err := wagtenib.VerifyConsistency(one.first, one.second, one.old, one.new, one.proof); !errors.Is(err, one.due) {
			t.Errorf("%s: %v, but %v is due", name, err, one.due)
		}
	}
}

// storedHashes is a tree of x/mod's tlog: the hashes that tlog stores, in its order.
type storedHashes []tlog.Hash

func (s storedHashes) ReadHashes(indexes []int64) (found []tlog.Hash, err error) {
	for _, index := range indexes {
		found = append(found, s[index])
	}
	return found, nil
}

func ofTlog(hashes []tlog.Hash) (found []wagtenib.Hash) {
	for _, hash := range hashes {
		found = append(found, wagtenib.Hash(hash))
	}
	return found
}

// TestAgreesWithTlog compares roots and proofs of random trees with those of x/mod's tlog.
func TestAgreesWithTlog(t *testing.T) {
	chance := rand.New(rand.NewSource(1))
	for range 20 {
		var stored storedHashes
		var hashes, subtrees, roots []wagtenib.Hash
		size := int64(1 + chance.Intn(600))
		for n := range size {
			leaf := make([]byte, chance.Intn(100))
			chance.Read(leaf)
			more, err := tlog.StoredHashes(n, leaf, stored)
			if err != nil {
				t.Fatal(err)
			}
			stored = append(stored, more...)
			hashes = append(hashes, wagtenib.LeafHash(leaf))
			subtrees = wagtenib.Push(uint64(n), subtrees, hashes[n])
			root, err := tlog.TreeHash(n+1, stored)
			if err != nil {
				t.Fatal(err)
			}
			roots = append(roots, wagtenib.Hash(root))
			if got := wagtenib.SubtreesRoot(subtrees); got != roots[n] {
				t.Fatalf("the root of the subtrees of %d leaves is %x, but tlog's is %x", n+1, got, root)
			}
		}
		if root, err := wagtenib.Root(hashes); err != nil || root != roots[size-1] {
			t.Errorf("the root of %d leaves is %x, with %v, but tlog's is %x", size, root, err, roots[size-1])
		}
		comparesProofs(t, chance, stored, hashes, roots)
	}
}

// comparesProofs checks proofs of tlog for a tree by the library.
func comparesProofs(t *testing.T, chance *rand.Rand, stored storedHashes, hashes, roots []wagtenib.Hash) {
	t.Helper()
	for range 50 {
		second := 1 + chance.Int63n(int64(len(roots)))
		index := chance.Int63n(second)
		path, err := tlog.ProveRecord(second, index, stored)
		if err != nil {
			t.Fatal(err)
		}
		if err := wagtenib.VerifyInclusion(hashes[index], uint64(index), uint64(second), ofTlog(path),
			roots[second-1]); err != nil {
			t.Errorf("tlog's path of %d in %d: %v", index, second, err)
		}
		if index == 0 {
			continue
		}
		proof, err := tlog.ProveTree(second, index, stored)
		if err != nil {
			t.Fatal(err)
		}
		if err := wagtenib.VerifyConsistency(uint64(index), uint64(second), roots[index-1], roots[second-1],
			ofTlog(proof)); err != nil {
			t.Errorf("tlog's proof of %d and %d: %v", index, second, err)
		}
	}
}

// opaque returns a vector after its length in this number of bytes (RFC 5246, section 4.3).
func opaque(lengthBytes int, bytes []byte) []byte {
	length := binary.BigEndian.AppendUint64(nil, uint64(len(bytes)))
	return append(length[8-lengthBytes:], bytes...)
}

// leafOf returns a MerkleTreeLeaf by RFC 6962, section 3.4.
func leafOf(timestamp uint64, entryType uint16, entry, extensions []byte) []byte {
	leaf := binary.BigEndian.AppendUint64([]byte{0, 0}, timestamp)
	leaf = binary.BigEndian.AppendUint16(leaf, entryType)
	return append(append(leaf, entry...), opaque(2, extensions)...)
}

func TestDecodesLeaves(t *testing.T) {
	certificate, extensions, keyHash := []byte("a certificate"), []byte("some extensions"), sha256.Sum256([]byte("a key"))
	for name, one := range map[string]struct {
		leaf []byte
		due  wagtenib.Leaf
	}{
		"a certificate": {
			leafOf(1_700_000_000_123, 0, opaque(3, certificate), extensions),
			wagtenib.Leaf{Timestamp: 1_700_000_000_123, EntryType: wagtenib.X509Entry, Certificate: certificate,
				Extensions: extensions},
		},
		"a precertificate": {
			leafOf(1<<64-1, 1, append(keyHash[:], opaque(3, certificate)...), nil),
			wagtenib.Leaf{Timestamp: 1<<64 - 1, EntryType: wagtenib.PrecertEntry, IssuerKeyHash: keyHash[:],
				Certificate: certificate},
		},
	} {
		got, err := wagtenib.DecodeLeaf(one.leaf)
		if err != nil || got.Timestamp != one.due.Timestamp || got.EntryType != one.due.EntryType ||
			!bytes.Equal(got.IssuerKeyHash, one.due.IssuerKeyHash) || !bytes.Equal(got.Certificate, one.due.Certificate) ||
			!bytes.Equal(got.Extensions, one.due.Extensions) {
			t.Errorf("%s: %v, with %v, but %v is due", name, got, err, one.due)
		}
	}
}

func TestRefusesLeavesByTheFirstFault(t *testing.T) {
	whole := leafOf(5, 0, opaque(3, []byte("a certificate")), nil)
	changed := func(at int, to byte) []byte {
		leaf := bytes.Clone(whole)
		leaf[at] = to
		return leaf
	}
	for name, one := range map[string]struct {
		leaf []byte
		due  error
	}{
		"nothing":             {nil, wagtenib.ErrTruncated},
		"a byte less":         {whole[:len(whole)-1], wagtenib.ErrTruncated},
		"a byte more":         {append(bytes.Clone(whole), 0), wagtenib.ErrTrailing},
		"version 1":           {changed(0, 1), wagtenib.ErrBadVersion},
		"leaf type 1":         {changed(1, 1), wagtenib.ErrBadLeafType},
		"entry type 2":        {changed(11, 2), wagtenib.ErrBadEntryType},
		"an empty entry":      {leafOf(5, 0, opaque(3, nil), nil), wagtenib.ErrEmptyVector},
		"two faults, in turn": {append(changed(1, 1), 0), wagtenib.ErrBadLeafType},
	} {
		if got, err := wagtenib.DecodeLeaf(one.leaf); !errors.Is(err, one.due) || got.Certificate != nil {
			t.Errorf("%s: %v, with %v, but %v is due", name, got, err, one.due)
		}
	}
}
