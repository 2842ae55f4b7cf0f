package judge

import (
	"bytes"
	"crypto/sha256"
	"encoding/binary"
	"encoding/json"
	"fmt"
)

// inclusion is the content of proof.json for an entry: the audit path of a leaf hash in the tree of head-2.
type inclusion struct {
	Index    uint64   `json:"leaf_index"`
	Size     uint64   `json:"tree_size"`
	LeafHash []byte   `json:"leaf_hash"`
	Path     [][]byte `json:"audit_path"`
}

// included returns head-2, and the audit path, which leads from a leaf hash to the root of head-2. The caller must
// compare the leaf hash.
func (e *evidence) included() (second head, of inclusion, err error) {
	if second, err = e.head("head-2"); err != nil {
		return second, of, err
	}
	if len(e.files["proof.json"]) == 0 {
		return second, of, notShown("there is no proof.json, so it must be believed that the leaf is in the log")
	}
	if err := json.Unmarshal(e.files["proof.json"], &of); err != nil || len(of.LeafHash) != sha256.Size {
		return second, of, notShown("proof.json is not an audit path")
	}
	root, ok := rootBy(of.Index, second.size, hash(of.LeafHash), of.Path)
	if of.Size != second.size || !ok || root != second.root {
		return second, of, notShown("the path does not lead to the root of head-2")
	}
	return second, of, nil
}

// entry returns head-2 and the index of the file leaf. The audit path shows that the leaf is in the tree of head-2.
func (e *evidence) entry() (second head, index uint64, err error) {
	second, of, err := e.included()
	if err != nil {
		return second, 0, err
	}
	if leaf := sha256.Sum256(append([]byte{0}, e.files["leaf"]...)); !bytes.Equal(leaf[:], of.LeafHash) {
		return second, 0, notShown("the path belongs to another leaf")
	}
	return second, of.Index, nil
}

// logged shows that the log has an entry, which is not a fault.
func (e *evidence) logged() (string, error) {
	second, index, err := e.entry()
	if err != nil {
		return "", err
	}
	return fmt.Sprintf("the log signed a tree of %d leaves at %d, and its leaf %d is the file leaf. Nothing else must be "+
		"believed", second.size, second.timestamp, index), nil
}

// timestampOf returns the timestamp of a MerkleTreeLeaf, and the extensions after its entry (RFC 6962, section 3.4).
func timestampOf(leaf []byte) (timestamp uint64, extensions []byte, ok bool) {
	const header = 12
	if len(leaf) < header || leaf[0] != 0 || leaf[1] != 0 || leaf[10] != 0 || leaf[11] > 1 {
		return 0, nil, false
	}
	rest := leaf[header:]
	if leaf[11] == 1 {
		if len(rest) < sha256.Size {
			return 0, nil, false
		}
		rest = rest[sha256.Size:]
	}
	for _, length := range []int{3, 2} {
		if len(rest) < length {
			return 0, nil, false
		}
		size := int(binary.BigEndian.Uint32(append(make([]byte, 4-length), rest[:length]...)))
		if size > len(rest)-length || size == 0 && length == 3 {
			return 0, nil, false
		}
		extensions, rest = rest[length:length+size], rest[length+size:]
	}
	return binary.BigEndian.Uint64(leaf[2:]), extensions, len(rest) == 0
}

func (e *evidence) lateMerge() (string, error) {
	first, err := e.head("head-1")
	if err != nil {
		return "", err
	}
	_, index, err := e.entry()
	if err != nil {
		return "", err
	}
	timestamp, _, ok := timestampOf(e.files["leaf"])
	if !ok || index < first.size || first.timestamp < timestamp || first.timestamp-timestamp <= e.MaxMergeDelay {
		return "", notShown("entry %d of %d, and a head of %d leaves at %d", index, timestamp, first.size,
			first.timestamp)
	}
	return fmt.Sprintf("entry %d has the timestamp %d, and the head of %d leaves that the log signed at %d does not "+
		"cover it. It must be believed that the maximum merge delay is %d ms",
		index, timestamp, first.size, first.timestamp, e.MaxMergeDelay), nil
}

func (e *evidence) laterEntry() (string, error) {
	second, index, err := e.entry()
	if err != nil {
		return "", err
	}
	if timestamp, _, ok := timestampOf(e.files["leaf"]); !ok || timestamp <= second.timestamp {
		return "", notShown("entry %d has the timestamp %d, and the head has %d", index, timestamp, second.timestamp)
	}
	return fmt.Sprintf("entry %d is later than the head of %d leaves that covers it. Nothing else must be believed",
		index, second.size), nil
}

func (e *evidence) wrongIndex() (string, error) {
	_, index, err := e.entry()
	if err != nil {
		return "", err
	}
	expected := append([]byte{0, 0, 5}, binary.BigEndian.AppendUint64(nil, index)[3:]...)
	if _, extensions, ok := timestampOf(e.files["leaf"]); !ok || bytes.Equal(extensions, expected) {
		return "", notShown("entry %d names its own index", index)
	}
	return fmt.Sprintf("entry %d does not name its own index only. It must be believed that the log is a tiled one",
		index), nil
}

func (e *evidence) noLeaf() (string, error) {
	_, index, err := e.entry()
	if err != nil {
		return "", err
	}
	if _, _, ok := timestampOf(e.files["leaf"]); ok {
		return "", notShown("entry %d is a leaf", index)
	}
	return fmt.Sprintf("entry %d is not a MerkleTreeLeaf. Nothing else must be believed", index), nil
}

func (e *evidence) damagedTile() (string, error) {
	second, of, err := e.included()
	if err != nil {
		return "", err
	}
	leaves, err := leavesOf(e.files["tile"])
	if err != nil {
		return "", err
	}
	position := of.Index % 256
	if position >= uint64(len(leaves)) {
		return "", notShown("the tile has %d entries", len(leaves))
	}
	if given := sha256.Sum256(append([]byte{0}, leaves[position].merkle...)); bytes.Equal(given[:], of.LeafHash) {
		return "", notShown("entry %d of the tile is the log's", of.Index)
	}
	return fmt.Sprintf("the tree of %d leaves that the log signed has another entry %d than the tile. It must be "+
		"believed that the log gave this tile", second.size, of.Index), nil
}

// brokenPromise judges a timestamp that the log signed over an entry (the files leaf and sct), and a head that the log
// signed after the entry's maximum merge delay. If proof.json shows another leaf at the index in the timestamp, nothing
// else must be believed.
func (e *evidence) brokenPromise() (string, error) {
	timestamp, extensions, err := e.promised()
	if err != nil {
		return "", err
	}
	if len(e.files["proof.json"]) == 0 {
		second, err := e.head("head-2")
		if err != nil {
			return "", err
		}
		if second.timestamp < timestamp || second.timestamp-timestamp <= e.MaxMergeDelay {
			return "", notShown("the timestamp is %d, and the head was signed at %d", timestamp, second.timestamp)
		}
		return fmt.Sprintf("the log promised an entry at %d. It must be believed that its maximum merge delay is %d "+
			"ms, and that "+
			"the %d leaves of its head of %d lack it: ask for it by its hash",
			timestamp, e.MaxMergeDelay, second.size, second.timestamp), nil
	}
	_, of, err := e.included()
	if err != nil {
		return "", err
	}
	expected := append([]byte{0, 0, 5}, binary.BigEndian.AppendUint64(nil, of.Index)[3:]...)
	leaf := sha256.Sum256(append([]byte{0}, e.files["leaf"]...))
	if !bytes.Equal(extensions, expected) || bytes.Equal(leaf[:], of.LeafHash) {
		return "", notShown("the leaf is at the index that the timestamp names, or it names another one")
	}
	return fmt.Sprintf("the log promised an entry at the index %d, and another one is there. Nothing else must be "+
		"believed", of.Index), nil
}

// promised returns the timestamp and the extensions of the files leaf and sct, which the log's key signed.
func (e *evidence) promised() (timestamp uint64, extensions []byte, err error) {
	timestamp, extensions, ok := timestampOf(e.files["leaf"])
	sct := e.files["sct"]
	at := 1 + sha256.Size + 8 + 2 + len(extensions)
	if !ok || len(sct) < at || !e.verify(e.files["leaf"], sct[at:]) {
		return 0, nil, notShown("the log's key did not sign the timestamp over the leaf")
	}
	return timestamp, extensions, nil
}

// futurePromise judges a timestamp that the log signed over an entry before its time.
func (e *evidence) futurePromise() (string, error) {
	timestamp, _, err := e.promised()
	if err != nil {
		return "", err
	}
	seen, err := e.seen()
	if err != nil {
		return "", err
	}
	if timestamp <= seen {
		return "", notShown("the timestamp is %d, and it was seen at %d", timestamp, seen)
	}
	return fmt.Sprintf("the log signed the timestamp %d. It must be believed that it was seen at %s, before its time",
		timestamp, e.Time), nil
}

// overduePromise judges a promise whose deadline is over, beside the newest head that the log showed, which is older
// than the maximum merge delay.
func (e *evidence) overduePromise() (string, error) {
	timestamp, _, err := e.promised()
	if err != nil {
		return "", err
	}
	second, err := e.head("head-2")
	if err != nil {
		return "", err
	}
	seen, err := e.seen()
	if err != nil {
		return "", err
	}
	if last := max(timestamp, second.timestamp); seen < last || seen-last <= e.MaxMergeDelay {
		return "", notShown("the timestamp is %d, the head was signed at %d, and both were seen at %d", timestamp,
			second.timestamp, seen)
	}
	return fmt.Sprintf("the log promised an entry at %d, and signed a head of %d leaves at %d. It must be believed that this "+
		"was its newest head at %s, that its leaves lack the entry, and that its maximum merge delay is %d ms", timestamp,
		second.size, second.timestamp, e.Time, e.MaxMergeDelay), nil
}

// rootBy returns the root to which an audit path leads from a leaf hash (RFC 6962, section 2.1.1). ok is false if the
// path has another length.
func rootBy(index, size uint64, at hash, path [][]byte) (root hash, ok bool) {
	if index >= size {
		return root, false
	}
	if size == 1 {
		return at, len(path) == 0
	}
	if len(path) == 0 || len(path[len(path)-1]) != sha256.Size {
		return root, false
	}
	half, last, rest := leftOf(size), hash(path[len(path)-1]), path[:len(path)-1]
	if index < half {
		root, ok = rootBy(index, half, at, rest)
		return node(root, last), ok
	}
	root, ok = rootBy(index-half, size-half, at, rest)
	return node(last, root), ok
}

// leftOf returns the largest power of two below a size.
func leftOf(size uint64) uint64 {
	half := uint64(1)
	for half < size-half {
		half *= 2
	}
	return half
}

// leads reports whether a consistency proof leads from one head to the next (RFC 6962, section 2.1.2).
func leads(first, second head, proof [][]byte) bool {
	old, all, ok := rootsBy(first.size, second.size, first.root, proof, true)
	return ok && old == first.root && all == second.root
}

func rootsBy(first, second uint64, known hash, proof [][]byte, whole bool) (old, all hash, ok bool) {
	if first == second && whole {
		return known, known, len(proof) == 0
	}
	if len(proof) == 0 || len(proof[len(proof)-1]) != sha256.Size {
		return old, all, false
	}
	last, rest := hash(proof[len(proof)-1]), proof[:len(proof)-1]
	if first == second {
		return last, last, len(rest) == 0
	}
	half := leftOf(second)
	if first <= half {
		old, all, ok = rootsBy(first, half, known, rest, whole)
		return old, node(all, last), ok
	}
	old, all, ok = rootsBy(first-half, second-half, known, rest, false)
	return node(last, old), node(last, all), ok
}
