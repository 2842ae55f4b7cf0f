package sim

import (
	"bytes"
	"crypto/sha256"
	"encoding/base64"
	"fmt"
	"slices"
	"sort"
	"strings"
	"time"

	"wagtenib/internal/blob"
	"wagtenib/internal/ct"
	"wagtenib/internal/log/signer"
)

// befalls lets a fault happen at a call of a machine. It returns the fault if the fault decides the outcome of this
// call. Any other fault changes the world before the call.
func (w *world) befalls(m *machine, f Fault, store string) *Fault {
	if store == "memory" && (f.Kind == CallHangs || f.Kind == DoneLate || f.Kind == AnswersLate) {
		// The machine's own disk either works or fails.
		f.Kind = CallFails
	}
	if f.Kind <= KilledAfter {
		w.judge.counts[f.Kind]++
		return &f
	}
	if w.happens(m, f) {
		w.judge.counts[f.Kind]++
		w.log("world", f.String(), "", "")
	}
	return nil
}

// happens lets a fault happen that does not concern only one call. It reports whether the fault changed something.
func (w *world) happens(m *machine, f Fault) bool {
	switch f.Kind {
	case Paused:
		m.process.pausedUntil = w.now + f.Long
	case Away:
		m.away = w.now + f.Long
	case StoreFull:
		w.stores.fullUntil = w.now + f.Long
	case ReadOnly:
		w.stores.readOnlyUntil = w.now + f.Long
	case ClockForward:
		m.offset += f.Long
		w.excuses.clock = true
	case ClockBack:
		m.offset -= f.Long
		w.excuses.clock = true
	case WitnessSays:
		if len(w.observers) == 0 {
			return false
		}
		o := w.observers[f.Count%len(w.observers)]
		o.says, o.which = 1+f.Count%4, f.Count
	case WitnessRolledBack:
		return w.mayRoll() && w.observers[f.Count%len(w.observers)].rollBack(1+f.Count/2)
	default:
		return w.loses(m, f)
	}
	return true
}

// loses lets a store lose something that it acknowledged. It reports whether there was something to lose.
func (w *world) loses(m *machine, f Fault) bool {
	happened := false
	switch f.Kind {
	case PutLost:
		// It is counted when the put happens.
		w.events.losesNext, w.excuses.loss = true, true
	case NewestLost:
		happened = w.losesNewest()
		w.bentAt = w.now
	case ObjectBent:
		happened = w.bends(f.Count)
	case HeadForged:
		happened = w.forgesHead(f.Count)
		if happened && w.isPublished() {
			// The newest staged batch has what is signed, so the log must continue.
			return true
		}
	case HeadSwapped:
		happened = w.swapsHead(f.Count)
	case EdgeBent:
		// The newest staged batch has the right tile, so the log must continue.
		return w.bendsEdge()
	case IndexLost:
		happened = w.losesPlaces(w.events.calls - 10*f.Count)
	case IndexWrong:
		happened = w.misplaces(f.Count)
	case MemoryLost:
		happened = m.remembered != nil
		m.disk = disk{}
		m.process.dead = true
		return happened
	case LockGone:
		happened = w.losesLock(f.Count)
	case StepLost:
		// The newest staged batch has all of it, so the log must continue.
		return w.losesStep()
	default:
		happened = w.rollsBack(f)
	}
	w.excuses.loss = w.excuses.loss || happened
	return happened
}

// losesNewest removes the object that was put last.
func (w *world) losesNewest() bool {
	changes := w.stores.changes[objectsPart]
	for i := len(changes) - 1; i >= 0; i-- {
		if _, ok := w.stores.objects[changes[i].name]; ok {
			delete(w.stores.objects, changes[i].name)
			w.excuses.missing = true
			return true
		}
	}
	return false
}

// losesLock removes the lock's text. Half of the engines also forget that there was a lock.
func (w *world) losesLock(which int) bool {
	s := &w.stores
	happened := s.text != ""
	s.text, s.published, s.created = "", blob.Published{}, s.created && which%2 == 0
	return happened
}

// losesStep simulates a power failure, if the newest state is published and its staged batch is in the store. All nodes
// are killed, and the store loses the tiles and heads that were put since the state was decided.
func (w *world) losesStep() bool {
	k := cells(w.stores.text)
	if k == nil || !w.isPublished() || w.judge.newest.Timestamp != k.timestamp || w.judge.newest.TreeSize != k.size ||
		w.stores.objects["staging/"+k.name] == nil {
		return false
	}
	left := slices.Clone(w.stores.changes[objectsPart])
	for i := len(left) - 1; i >= 0 && left[i].call > w.stores.decided; i-- {
		if strings.HasPrefix(left[i].name, "tile/") || strings.HasPrefix(left[i].name, "heads/") {
			left[i].undo()
			left = slices.Delete(left, i, i+1)
		}
	}
	w.stores.changes[objectsPart] = left
	w.killsAll()
	return true
}

// bends changes a byte of a tile or a staged batch.
func (w *world) bends(which int) bool {
	names := append(w.stores.list("tile/", ""), w.stores.list("staging/", "")...)
	if len(names) == 0 {
		return false
	}
	name := names[len(names)-1-(which-1)%len(names)]
	at := len(w.stores.objects[name]) - 4
	if at < 0 {
		return false
	}
	w.bendsByte(name, at)
	return true
}

// bendsByte changes a byte of an object.
func (w *world) bendsByte(name string, at int) {
	content := bytes.Clone(w.stores.objects[name])
	content[at] ^= 1
	w.stores.objects[name] = content
	w.excuses.missing, w.bentAt = true, w.now
}

// forgesHead replaces the newest head of the store with one that the log's key never signed, in one of three ways.
func (w *world) forgesHead(which int) bool {
	names := w.stores.list("heads/", "")
	if len(names) < 2 {
		// A store in which another key signed all heads is the store of another log.
		return false
	}
	name := names[len(names)-1]
	content := string(w.stores.objects[name])
	text, signatures, _ := strings.Cut(content, "\n\n")
	first, others, _ := strings.Cut(signatures, "\n")
	switch which % 3 {
	case 0:
		w.bendsByte(name, len(text)+2+len(first)-11)
		return true
	case 1:
		lines := strings.Split(text, "\n")
		root := sha256.Sum256([]byte(lines[2]))
		lines[2] = base64.StdEncoding.EncodeToString(root[:])
		text = strings.Join(lines, "\n")
	default:
		blob, err := base64.StdEncoding.DecodeString(strings.TrimPrefix(first, "— "+Origin+" "))
		if err != nil {
			return false
		}
		// This changes the key's ID, and all of the signature except the timestamp.
		for i := range blob {
			if i < 4 || i >= 12 {
				blob[i] ^= 1
			}
		}
		first = "— " + Origin + " " + base64.StdEncoding.EncodeToString(blob)
	}
	w.stores.objects[name] = []byte(text + "\n\n" + first + "\n" + others)
	w.excuses.missing, w.bentAt = true, w.now
	return true
}

// swapsHead replaces the content of the newest head with that of an older one.
func (w *world) swapsHead(which int) bool {
	names := w.stores.list("heads/", "")
	if len(names) < 2 {
		return false
	}
	newest, older := names[len(names)-1], names[max(0, len(names)-1-which)]
	if older == newest {
		older = names[0]
	}
	w.stores.objects[newest] = bytes.Clone(w.stores.objects[older])
	w.excuses.missing, w.bentAt = true, w.now
	return true
}

// bendsEdge changes a byte of a partial tile of the newest head's tree.
func (w *world) bendsEdge() bool {
	size := w.judge.newest.TreeSize
	if !w.isPublished() {
		return false
	}
	name := fmt.Sprintf("tile/data/%03d.p/%d", size/256, size%256)
	content, ok := w.stores.objects[name]
	k := cells(w.stores.text)
	if !ok || len(content) < 4 || k == nil || !bytes.Contains(w.stores.objects["staging/"+k.name], content) {
		// The newest step had no entries, so its staged batch does not have the tile.
		return false
	}
	w.edge = bentEdge{name, content}
	w.bendsByte(name, len(content)-4)
	return true
}

// isPublished reports whether the newest head is published according to the lock. A node may not replace the content of
// an object of an unpublished state, because the lock may have been rolled back.
func (w *world) isPublished() bool {
	newest := blob.Published{Size: w.judge.newest.TreeSize, Timestamp: w.judge.newest.Timestamp}
	return w.stores.published == newest
}

// bentEdge holds the name of a partial tile that the store damaged, and its right content.
type bentEdge struct {
	name    string
	content []byte
}

// isBent reports whether the tile in the store is still damaged.
func (b bentEdge) isBent(s *memory) bool {
	return b.name != "" && !bytes.Equal(s.objects[b.name], b.content)
}

// losesPlaces rolls back only the index. An identity whose place is lost may get one more entry.
func (w *world) losesPlaces(call int) bool {
	for _, c := range w.stores.changes[indexPart] {
		if c.call > call {
			w.excuses.again[[32]byte([]byte(c.name))] = true
		}
	}
	return w.stores.rollBack(indexPart, call)
}

// misplaces replaces the place of an identity with that of another entry.
func (w *world) misplaces(which int) bool {
	ids := make([]blob.Identity, 0, len(w.stores.index))
	for id := range w.stores.index {
		ids = append(ids, id)
	}
	if len(ids) < 2 {
		return false
	}
	sort.Slice(ids, func(i, j int) bool { return bytes.Compare(ids[i][:], ids[j][:]) < 0 })
	id := ids[which%len(ids)]
	place := w.stores.index[id]
	place.Index = (place.Index + 1) % uint64(len(ids))
	w.stores.index[id] = place
	w.excuses.again[id] = true
	return true
}

// rollsBack rolls parts of the stores back by the same number of calls.
func (w *world) rollsBack(f Fault) bool {
	of := map[Kind][]part{
		ObjectsRolledBack: {objectsPart}, LockRolledBack: {lockPart}, GuardRolledBack: {guardPart},
		LockAndGuardRolledBack:   {lockPart, guardPart},
		ObjectsAndLockRolledBack: {objectsPart, lockPart}, ObjectsAndGuardRolledBack: {objectsPart, guardPart},
		AllRolledBack: {objectsPart, lockPart, guardPart, indexPart},
	}[f.Kind]
	if f.Kind == AllRolledBack && !w.allRemember() && len(w.observers) == 0 {
		// A machine that did not accept the newest head could not see that all stores are old (OPERATING.md, "Backup").
		return false
	}
	unput := w.unputHead()
	waits := f.Kind == LockAndGuardRolledBack && unput != nil
	if waits && len(w.observers) == 0 {
		// A node that did not see that head would put a head of another list (OPERATING.md, "Backup").
		return false
	}
	happened := false
	for _, one := range of {
		happened = w.stores.rollBack(one, w.events.calls-10*f.Count) || happened
	}
	if f.Kind == AllRolledBack {
		w.stopsAll()
	}
	switch f.Kind {
	case LockRolledBack, LockAndGuardRolledBack, ObjectsAndLockRolledBack, AllRolledBack:
		w.excuses.tiles, w.excuses.repeats = true, true
	}
	for _, m := range w.machines {
		if seen := m.remembered; waits && (seen == nil || seen.Timestamp < unput.Timestamp) {
			w.excuses.unput[m] = true
		}
	}
	w.excuses.missing, w.bentAt = true, w.now
	return happened
}

// stopsAll ends all nodes, as an operator does before the stores are restored. If the log has witnesses, the machines
// lose their memories too, so that only the witnesses show the rollback.
func (w *world) stopsAll() {
	isWitnessed := len(w.observers) > 0
	w.killsAll()
	for _, m := range w.machines {
		if isWitnessed {
			m.disk = disk{}
		}
	}
	w.excuses.signed = w.excuses.signed || isWitnessed
}

// killsAll ends all nodes.
func (w *world) killsAll() {
	for _, m := range w.machines {
		if m.process != nil {
			m.process.dead = true
		}
	}
}

// listedWithin is the maximum time between a node's listing of the heads and the end of its swap (maxUnlisted in
// internal/log/node).
const listedWithin = 100 * time.Millisecond

// unputHead returns the head that the guard approved last if it is not in the store, or was put so late that a node
// that swaps may have listed the heads before. Otherwise it returns nil.
func (w *world) unputHead() *ct.TreeHead {
	guard, err := signer.ReadState(w.stores.guard)
	if err != nil || guard.Last() == nil {
		return nil
	}
	last := guard.Last()
	_, isPut := w.stores.objects[headName(*last)]
	if put := w.judge.standing; isPut && (len(put) == 0 || put[len(put)-1].at < w.now-listedWithin) {
		return nil
	}
	return last
}

// allRemember reports whether the memories of all machines have the newest head: the newest one that was put, or one
// that is signed and may be put late.
func (w *world) allRemember() bool {
	newest := w.judge.newest.Timestamp
	if unput := w.unputHead(); unput != nil {
		newest = max(newest, unput.Timestamp)
	}
	for _, m := range w.machines {
		if m.remembered == nil || m.remembered.TreeSize < uint64(len(w.judge.leaves)) || m.remembered.Timestamp < newest {
			return false
		}
	}
	return true
}
