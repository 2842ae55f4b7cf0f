package wagtenib_test

import (
	"bytes"
	"crypto/sha256"
	"encoding/binary"
	"errors"
	"math/bits"
	"slices"
	"testing"

	"golang.org/x/crypto/cryptobyte"

	"wagtenib/bindings/go/wagtenib"
)

// subtreesOf has the perfect subtrees in a state: a number of leaves, and the roots, largest first.
type subtreesOf struct {
	size  uint64
	roots []wagtenib.Hash
}

// root returns the root of the tree of these subtrees (RFC 6962, section 2.1).
func (s subtreesOf) root() wagtenib.Hash {
	if len(s.roots) == 0 {
		return sha256.Sum256(nil)
	}
	found := s.roots[len(s.roots)-1]
	for _, left := range slices.Backward(s.roots[:len(s.roots)-1]) {
		found = sha256.Sum256(slices.Concat([]byte{1}, left[:], found[:]))
	}
	return found
}

// readHead reads a head that may be missing: the byte 0, or the byte 1, the size, the timestamp and the root.
func readHead(s *cryptobyte.String) (head *wagtenib.TreeHead, ok bool) {
	var mark uint8
	if !s.ReadUint8(&mark) || mark > 1 {
		return nil, false
	}
	if mark == 0 {
		return nil, true
	}
	head = &wagtenib.TreeHead{}
	return head, s.ReadUint64(&head.TreeSize) && s.ReadUint64(&head.Timestamp) && s.CopyBytes(head.Root[:])
}

// readSubtrees reads a number of leaves, and the roots as bytes after their length in 8 bytes.
func readSubtrees(s *cryptobyte.String) (found subtreesOf, ok bool) {
	var length uint64
	var text []byte
	if !s.ReadUint64(&found.size) || !s.ReadUint64(&length) || length > uint64(len(*s)) || length%32 != 0 {
		return found, false
	}
	if !s.ReadBytes(&text, int(length)) {
		return found, false
	}
	for root := range slices.Chunk(text, 32) {
		found.roots = append(found.roots, wagtenib.Hash(root))
	}
	return found, len(found.roots) == bits.OnesCount64(found.size)
}

// isState reports whether these bytes and their hash are a monitor's state: they have the version 1 or 2, two heads, two
// newest timestamps in the version 2, and two lists of subtrees, and these are consistent with each other. It returns
// the bytes in the version 2.
func isState(parts []byte) (inVersion2 []byte, is bool) {
	s := cryptobyte.String(parts)
	var version uint8
	if !s.ReadUint8(&version) || version != 1 && version != 2 {
		return nil, false
	}
	accepted, first := readHead(&s)
	if !first {
		return nil, false
	}
	waiting, second := readHead(&s)
	if !second {
		return nil, false
	}
	var newest [2]uint64
	if inVersion2 = parts; version == 1 {
		for i, head := range []*wagtenib.TreeHead{accepted, waiting} {
			if head != nil {
				newest[i] = head.Timestamp
			}
		}
		heads := len(parts) - len(s)
		inVersion2 = slices.Concat([]byte{2}, parts[1:heads], binary.BigEndian.AppendUint64(nil, newest[0]),
			binary.BigEndian.AppendUint64(nil, newest[1]), s)
	} else if !s.ReadUint64(&newest[0]) || !s.ReadUint64(&newest[1]) {
		return nil, false
	}
	return inVersion2, isConsistent(&s, accepted, waiting, newest)
}

// isConsistent reads the subtrees of a state, and reports whether all its parts are consistent with each other.
func isConsistent(s *cryptobyte.String, accepted, waiting *wagtenib.TreeHead, newest [2]uint64) bool {
	for i, head := range []*wagtenib.TreeHead{accepted, waiting} {
		if head != nil && newest[i] < head.Timestamp {
			return false
		}
	}
	sure, third := readSubtrees(s)
	if !third {
		return false
	}
	all, fourth := readSubtrees(s)
	if !fourth || !s.Empty() {
		return false
	}
	if accepted == nil && sure.size != 0 {
		return false
	}
	if accepted != nil && (accepted.TreeSize != sure.size || accepted.Root != sure.root()) {
		return false
	}
	same := sure.size == all.size && slices.Equal(sure.roots, all.roots)
	if waiting == nil {
		return same
	}
	later := accepted == nil || accepted.TreeSize < waiting.TreeSize && newest[0] < waiting.Timestamp
	return later && all.size < waiting.TreeSize && (sure.size < all.size || same)
}

// FuzzMonitorState reads the bytes of a state with their correct hash. A state must be written again as it was read, in
// the version 2, and everything else must be refused.
func FuzzMonitorState(f *testing.F) {
	log := &madeLog{}
	for i := range 9 {
		log.append(f, leafAt(uint64(10*i), "a certificate"))
	}
	add := func(state []byte, err error) []byte {
		if err != nil {
			f.Fatal(err)
		}
		f.Add(state[:len(state)-sha256.Size])
		return state
	}
	state := add(wagtenib.MonitorBegin())
	_, next, err := wagtenib.MonitorHead(state, wagtenib.TreeHead{TreeSize: 9, Timestamp: 99, Root: log.root(f, 9)})
	state = add(next, err)
	_, _, next, err = wagtenib.MonitorEntries(state, 0, log.leaves[:7])
	state = add(next, err)
	_, _, next, err = wagtenib.MonitorEntries(state, 7, log.leaves[7:])
	add(next, err)
	f.Add(binary.BigEndian.AppendUint64([]byte{1, 0, 0}, 0))
	f.Add(append([]byte{1, 0, 0}, make([]byte, 32)...))
	f.Fuzz(func(t *testing.T, parts []byte) {
		sum := sha256.Sum256(parts)
		state := append(bytes.Clone(parts), sum[:]...)
		found, next, err := wagtenib.MonitorProof(state, nil)
		inVersion2, is := isState(parts)
		if !is {
			if !errors.Is(err, wagtenib.ErrState) {
				t.Fatalf("%x: %v, but it is no state", parts, err)
			}
			return
		}
		sum = sha256.Sum256(inVersion2)
		if err != nil || !bytes.Equal(next, append(bytes.Clone(inVersion2), sum[:]...)) {
			t.Fatalf("%x: %v, and the state %x", parts, err, next)
		}
		if found.Verdict != wagtenib.VerdictGap && found.Verdict != wagtenib.VerdictInconsistent {
			t.Fatalf("%x: an empty proof has the verdict %v", parts, found.Verdict)
		}
		if _, _, err := wagtenib.MonitorProof(parts, nil); !errors.Is(err, wagtenib.ErrState) {
			t.Fatalf("%x is read without its hash: %v", parts, err)
		}
	})
}
