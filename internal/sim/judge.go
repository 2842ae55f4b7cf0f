package sim

import (
	"bytes"
	"crypto/sha256"
	"encoding/base64"
	"encoding/binary"
	"encoding/hex"
	"errors"
	"fmt"
	"strconv"
	"strings"
	"time"

	"github.com/transparency-dev/merkle/compact"
	"github.com/transparency-dev/merkle/rfc6962"

	"wagtenib/internal/blob"
	"wagtenib/internal/ct"
	"wagtenib/internal/log/node"
	"wagtenib/internal/log/signer"
)

// judge checks each object when it is put, each head when it is signed, and each answer when it is given. It has one
// list of leaves, which only grows. It uses none of the code that it judges.
type judge struct {
	w         *world
	violation *Violation
	// knownList is the list of leaves under the largest head that was put.
	knownList
	// newest is the newest head that was put. raised is how far the log was published at most. tiles holds the contents
	// that were put of each tile.
	newest, checkpoint ct.TreeHead
	raised             blob.Published
	tiles              map[string]*puts
	// standing holds all heads that were put, in the order in which they were put.
	standing []standing
	counts   [kinds]int
	stats    Stats
}

// allows reports whether an identity may get a second entry, because the index has lost its place or has a wrong one
// since the last entry.
func (e *excuses) allows(identity [32]byte) bool {
	if e.again[identity] {
		delete(e.again, identity)
		return true
	}
	return e.repeats
}

// Stats holds the numbers of a history.
type Stats struct {
	Calls, Switches, Starts int
	Published
	// Answers is the number of all answers to clients, and Repeats that of answers from the index. Reads is the number of
	// heads that readers got.
	Answers, Repeats, Reads int
	Tidied
	Contended
}

// Published counts what was published.
type Published struct{ Heads, Cosigned, Entries, Checkpoints int }

// Contended counts how nodes met. Lost counts lost swaps, and Unknown those that did not say whether they were done.
// Remembered counts swaps that a node made from a text that it had put there itself and had not read since, and
// Overtaken those of them that were lost. Late counts heads that were put after the lock had got a later text.
type Contended struct{ Lost, Unknown, Remembered, Overtaken, Late int }

// Tidied counts the objects that the janitors deleted and read again.
type Tidied struct{ Deleted, Partials, OldHeads, Staged, Reread int }

// leaf is an entry of the list.
type leaf struct {
	// tile is the entry's TileLeaf, merkle its MerkleTreeLeaf, and hash the hash of the MerkleTreeLeaf.
	tile, merkle, hash []byte
	identity           [32]byte
	timestamp          uint64
}

// knownList is a growing list of leaves, with the root of each size up to its own.
type knownList struct {
	leaves     []leaf
	roots      [][32]byte
	tree       *compact.Range
	identities map[[32]byte]int
}

func newJudge(w *world) *judge {
	empty := rfc6962.DefaultHasher.EmptyRoot()
	list := knownList{identities: map[[32]byte]int{}, roots: [][32]byte{[32]byte(empty)},
		tree: ranges.NewEmptyRange(0)}
	return &judge{w: w, knownList: list, tiles: map[string]*puts{}}
}

// breaks records a violation of a rule. Only the first one is kept.
func (j *judge) breaks(rule, what string, of ...any) {
	if j.violation == nil {
		j.violation = &Violation{Rule: rule, Text: fmt.Sprintf(what, of...), At: j.w.now}
	}
}

// put judges an object that is put.
func (j *judge) put(name string, content []byte) {
	switch {
	case strings.HasPrefix(name, "tile/"):
		if before, ok := j.tiles[name]; ok && !bytes.Equal(before.last(), content) && !j.w.excuses.tiles {
			j.breaks("a tile has one content", "%s gets a second content", name)
		}
		j.keepTile(name, content)
	case strings.HasPrefix(name, "heads/"):
		j.putHead(name, string(content))
	case !strings.HasPrefix(name, "staging/"):
		j.breaks("names", "%s is put, which is no name of a log's object", name)
	}
}

// putHead judges a head that is put: it is signed by the key, it has its name's size and timestamp, all of its tree is
// in the store, and the tree's leaves begin with the list.
func (j *judge) putHead(name, note string) {
	head, err := readNote(note)
	if err != nil {
		j.breaks("a head is signed", "%s: %v", name, err)
		return
	}
	if want := headName(head); name != want {
		j.breaks("a head has its name", "%s has the head %s", name, want)
	}
	added, ok := j.treeOf(head, name)
	if !ok {
		return
	}
	j.witnessed(name, note)
	j.grow(added, name)
	if root := j.roots[head.TreeSize]; root != head.Root {
		j.breaks("a head is the list's", "%s has the root %x and not %x", name, head.Root[:4], root[:4])
	}
	j.judgeTime(head, name)
	j.isNext(head, name)
	if head.Timestamp > j.newest.Timestamp {
		j.newest = head
	}
	if now := cells(j.w.stores.text); now != nil && head.Timestamp < now.timestamp {
		j.stats.Late++
	}
	j.standing = append(j.standing, standing{head.TreeSize, head.Timestamp, j.w.now})
	j.stats.Heads++
}

// isNext judges whether a head that is put may follow the newest one.
func (j *judge) isNext(head ct.TreeHead, name string) {
	// Witnesses remember trees, but not their timestamps. If everything else was rolled back to an earlier head of a tree
	// that they saw, the timestamp of a head with more entries may be that of a head of this tree, or earlier.
	isSmaller := head.Timestamp > j.newest.Timestamp && head.TreeSize < j.newest.TreeSize
	isEarlier := head.Timestamp <= j.newest.Timestamp && head.TreeSize > j.newest.TreeSize
	isExcused := isEarlier && j.w.excuses.signed
	if head.Timestamp == j.newest.Timestamp && head != j.newest && !isExcused {
		j.breaks("one head a timestamp", "%s and the head of %d entries have one timestamp", name, j.newest.TreeSize)
	}
	if isSmaller || isEarlier && !isExcused {
		j.breaks("heads do not go back", "%s is put after the head of %d entries at %d ms", name, j.newest.TreeSize,
			j.newest.Timestamp)
	}
}

// putCheckpoint judges a checkpoint that is put: it is a signed head of the list, all of its tree is in the store, and
// it is later than any before it.
func (j *judge) putCheckpoint(name string, content []byte) {
	j.stats.Checkpoints++
	head, err := readNote(string(content))
	if name != "checkpoint" || err != nil {
		j.breaks("a head is signed", "%s: %v", name, err)
		return
	}
	before := j.checkpoint
	if j.w.excuses.missing {
		// It may have been rolled back with the other objects. If there is none, there was no head before.
		before, _ = readNote(string(j.w.stores.checkpoint))
	}
	if head.TreeSize < before.TreeSize || head.Timestamp <= before.Timestamp {
		j.breaks("the checkpoint does not go back", "it gets the head of %d entries at %d ms after that of %d at %d ms",
			head.TreeSize, head.Timestamp, before.TreeSize, before.Timestamp)
	}
	j.checkpoint = head
	j.isLists(head, fmt.Sprintf("the checkpoint of %d entries at %d ms", head.TreeSize, head.Timestamp),
		"a checkpoint is the list's")
}

// judgeTime judges a head's timestamp by the true time.
func (j *judge) judgeTime(head ct.TreeHead, name string) {
	now := epoch.Add(j.w.now)
	if ahead := time.UnixMilli(int64(head.Timestamp)).Sub(now); ahead > maxSkew && !j.w.excuses.ahead {
		j.breaks("no timestamp of the future", "%s is %v ahead of the true time", name, ahead)
	}
}

// signs judges a head that a machine has the key sign. All of its tree must be in the store by then.
func (j *judge) signs(m *machine, head ct.TreeHead) {
	if j.w.excuses.unput[m] {
		j.w.excuses.theirs[head] = true
		return
	}
	added, ok := j.isLists(head, fmt.Sprintf("a signed head of %d entries at %d ms", head.TreeSize, head.Timestamp),
		"a signed head is the list's")
	if ok {
		j.continues(m, head, added)
	}
}

// swaps judges a step when the lock decides it: the step is made from the text before, whose head is published, and its
// staged batch is in the store.
func (j *judge) swaps(by *process, old, new string) {
	before, after := cells(old), cells(new)
	if before == nil || after == nil {
		j.breaks("a step is staged", "the lock gets the text %.60q", new)
		return
	}
	if digest := sha256.Sum256([]byte(before.line)); after.before != hex.EncodeToString(digest[:]) {
		j.breaks("a step is made of the lock's state", "the text of %d entries names another one before", after.size)
	}
	staged, ok := j.w.stores.objects["staging/"+after.name]
	if digest := sha256.Sum256(staged); !j.w.excuses.missing && (!ok || hex.EncodeToString(digest[:]) != after.bundle) {
		j.breaks("a step is staged", "the lock gets the text of %d entries, whose staged batch %s is not in the store",
			after.size, after.name)
	}
	if _, ok := j.w.stores.objects[fmt.Sprintf("heads/%020d-%020d", before.size, before.timestamp)]; !ok &&
		!before.isBegin() && !j.w.excuses.missing {
		j.breaks("a step is made of a published state",
			"the lock gets the text of %d entries, and the state before has no head", after.size)
	}
	if of := (blob.Published{Size: before.size, Timestamp: before.timestamp}); j.raised.Before(of) && !before.isBegin() {
		j.breaks("a step is made of a published state",
			"the lock gets the text of %d entries, and never said that the state before is published", after.size)
	}
	j.takes(by, before, after)
}

// takes judges whether the process that swaps the lock may make a step. A node that started after the log was rolled
// back with its machines may not, because the witnesses saw more.
func (j *judge) takes(by *process, before, after *cell) {
	if j.w.excuses.signed && !by.dead && !before.isBegin() && before.size < j.newest.TreeSize {
		j.breaks("an old log takes nothing", "the lock gets the text of %d entries, and a head of %d was published",
			after.size, j.newest.TreeSize)
	}
	if after.size == before.size && j.w.edge.isBent(&j.w.stores) {
		// A node that has the tile in its memory makes a step without entries. The newest staged batch then no longer has the
		// tile, so a node that must read it cannot continue until a step has entries.
		j.w.excuses.loss = true
	}
}

// cell is a text of the lock, read by its digits (docs/NODE.md).
type cell struct {
	line, before, bundle, name string
	size, timestamp            uint64
}

func (c *cell) isBegin() bool { return c.bundle == strings.Repeat("0", 64) }

func cells(text string) *cell {
	lines := strings.Split(text, "\n")
	if len(lines) != 4 {
		return nil
	}
	digits, salt := strings.TrimPrefix(lines[0], "growth "), strings.TrimPrefix(lines[2], "salt ")
	if len(digits) != 32+4*64 || len(salt) != 32 {
		return nil
	}
	c := &cell{line: lines[0], bundle: digits[32+64 : 32+128], before: digits[32+192:], name: digits[16:32] + salt}
	var failed [2]error
	c.size, failed[0] = strconv.ParseUint(digits[:16], 16, 64)
	c.timestamp, failed[1] = strconv.ParseUint(digits[16:32], 16, 64)
	if errors.Join(failed[:]...) != nil {
		return nil
	}
	return c
}

// raises judges a change of how far the log is published according to the lock: the head is in the store, and the
// checkpoint is that head or a later one.
func (j *judge) raises(p blob.Published) {
	if j.raised.Before(p) {
		j.raised = p
	}
	name := headName(ct.TreeHead{TreeSize: p.Size, Timestamp: p.Timestamp})
	if _, ok := j.w.stores.objects[name]; !ok && !j.w.excuses.missing {
		j.breaks("a published size has a head", "%s is published and not in the store", name)
	}
	checkpoint := blob.Published{Size: j.checkpoint.TreeSize, Timestamp: j.checkpoint.Timestamp}
	if j.w.plan.Public && !j.w.excuses.missing && checkpoint.Before(p) {
		j.breaks("a published head is at the checkpoint", "%s is published, and the checkpoint is of %d entries at %d ms",
			name, checkpoint.Size, checkpoint.Timestamp)
	}
}

// shows judges a head that a machine says to be published: its node put that head, or read it.
func (j *judge) shows(m *machine, p blob.Published) {
	if name := headName(ct.TreeHead{TreeSize: p.Size, Timestamp: p.Timestamp}); !m.process.known.seen[name] {
		j.breaks("a published head was seen", "%s says that %s is published, and neither put nor read it", m.name, name)
	}
}

// creates judges a lock that a machine creates: the machine must not have found the lock gone while the log had heads.
func (j *judge) creates(m *machine, isGone bool) {
	if isGone {
		j.breaks("a lock that is gone is not made again", "%s makes one, and the store had heads when it found none", m.name)
	}
}

// answered judges a timestamp that a client gets, when it gets it.
func (j *judge) answered(m *machine, number int, index, timestamp uint64, signed []byte) {
	j.stats.Answers++
	what := fmt.Sprintf("%s answers entry %d with index %d at %d ms", m.name, number, index, timestamp)
	if index >= uint64(len(j.leaves)) {
		j.breaks("a promise is under a published head", "%s, and %d entries are under a head", what, len(j.leaves))
		return
	}
	at := j.leaves[index]
	if at.identity != identityOf(number) || at.timestamp != timestamp {
		j.breaks("a promise is kept", "%s, and another entry is there", what)
	}
	if !isSigned(at.merkle, signed) {
		j.breaks("a promise is signed", "%s, and the signature is not the key's over that entry", what)
	}
	if !j.w.excuses.loss && j.w.stores.published.Size <= index {
		j.breaks("a promise is under a published head", "%s, and %d entries are published", what,
			j.w.stores.published.Size)
	}
}

// alarms judges the reason why a node does not start, or refuses a submission. The node must not say that the log lost
// something, or was rolled back, if no store lost anything and no witness gives a wrong answer. It must not say that
// the signer refused a timestamp if the guard's state has not changed since the submission.
func (j *judge) alarms(m *machine, err error, isStill bool) {
	if j.w.excuses.loss || j.w.excuses.missing || j.counts[WitnessSays]+j.counts[StepLost] > 0 {
		return
	}
	of := []error{node.ErrRolledBack, node.ErrDamaged, node.ErrIndex, signer.ErrState}
	if isStill {
		of = append(of, signer.ErrRefused)
	}
	for _, of := range of {
		if errors.Is(err, of) {
			j.breaks("no false alarm", "%s says: %v", m.name, err)
		}
	}
}

// read judges a head that a reader sees.
func (j *judge) read(m *machine, head ct.TreeHead, note string, before ct.TreeHead) {
	j.stats.Reads++
	what := fmt.Sprintf("%s shows the head of %d entries at %d ms", m.name, head.TreeSize, head.Timestamp)
	j.witnessed(what, note)
	read, err := readNote(note)
	switch {
	case err != nil || read != head:
		j.breaks("a head is signed", "%s: %v", what, err)
	case head.TreeSize >= uint64(len(j.roots)) || j.roots[head.TreeSize] != head.Root:
		j.breaks("a reader sees the list", "%s, which is not the list's", what)
	case head.TreeSize < before.TreeSize || head.Timestamp < before.Timestamp:
		j.breaks("a reader sees no older head", "%s after one of %d entries at %d ms", what, before.TreeSize,
			before.Timestamp)
	case !j.w.excuses.loss && j.w.stores.published.Before(blob.Published{Size: head.TreeSize, Timestamp: head.Timestamp}):
		j.breaks("a reader sees published heads", "%s, which is not published", what)
	}
}

// readNote reads a signed head: its text has three lines, and its signature is of type 5 (C2SP static-ct-api,
// tlog-checkpoint).
func readNote(note string) (head ct.TreeHead, err error) {
	text, signatures, ok := strings.Cut(note, "\n\n")
	lines := strings.Split(text, "\n")
	if !ok || len(lines) != 3 || lines[0] != Origin {
		return head, fmt.Errorf("no note of %s", Origin)
	}
	root, err := base64.StdEncoding.DecodeString(lines[2])
	if err != nil || len(root) != 32 {
		return head, fmt.Errorf("no root: %v", err)
	}
	if head.TreeSize, err = strconv.ParseUint(lines[1], 10, 64); err != nil {
		return head, err
	}
	head.Root = [32]byte(root)
	first, _, _ := strings.Cut(signatures, "\n")
	blob, err := base64.StdEncoding.DecodeString(strings.TrimPrefix(first, "— "+Origin+" "))
	if err != nil || len(blob) < 12 {
		return head, fmt.Errorf("no signature: %v", err)
	}
	head.Timestamp = binary.BigEndian.Uint64(blob[4:12])
	id := sha256.Sum256(keyDER)
	if want := sha256.Sum256(append([]byte(Origin+"\n\x05"), id[:]...)); !bytes.Equal(blob[:4], want[:4]) {
		return head, fmt.Errorf("a signature of another key")
	}
	if !isSigned(headMessage(head), blob[12:]) {
		return head, fmt.Errorf("the signature is not the key's")
	}
	return head, nil
}

// readTile reads a data tile of certificates (C2SP static-ct-api, "Log Entries").
func readTile(content []byte) (leaves []leaf, err error) {
	for rest := content; len(rest) > 0; {
		whole := rest
		// The timestamp, the type 0, and a length of three bytes.
		if len(rest) < 13 || rest[8] != 0 || rest[9] != 0 {
			return nil, fmt.Errorf("entry %d is not a certificate's", len(leaves))
		}
		length := int(rest[10])<<16 | int(rest[11])<<8 | int(rest[12])
		end := 13 + length
		if len(rest) < end+2 {
			return nil, fmt.Errorf("entry %d is cut off", len(leaves))
		}
		extensions := int(binary.BigEndian.Uint16(rest[end:]))
		entry := end + 2 + extensions
		if len(rest) < entry+2 {
			return nil, fmt.Errorf("entry %d is cut off", len(leaves))
		}
		chain := int(binary.BigEndian.Uint16(rest[entry:]))
		if len(rest) < entry+2+chain {
			return nil, fmt.Errorf("entry %d is cut off", len(leaves))
		}
		merkle := append([]byte{0, 0}, whole[:entry]...)
		leaves = append(leaves, leaf{
			tile: whole[:entry+2+chain], merkle: merkle, hash: rfc6962.DefaultHasher.HashLeaf(merkle),
			identity: sha256.Sum256(append([]byte{0, 0}, rest[13:end]...)), timestamp: binary.BigEndian.Uint64(rest),
		})
		rest = rest[entry+2+chain:]
	}
	return leaves, nil
}
