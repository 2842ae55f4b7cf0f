package sim

import (
	"bytes"
	"fmt"
	"strconv"
	"strings"
	"time"

	"wagtenib/internal/log/node/janitor"
)

// keep holds the times for which janitors keep objects that are no longer needed.
var keep = janitor.Keep{
	Every: 500 * time.Millisecond, Tiles: 2 * time.Second, Heads: 8 * time.Second, Staged: 3 * time.Second,
	Thin: time.Second, Apart: 500 * time.Millisecond, Reread: 5 * time.Second, Call: 2 * time.Second,
}

// tidyWithin is the maximum time, after all faults have ended, until the janitors have deleted all garbage.
const tidyWithin = 90 * time.Second

// readWithin is the maximum time from a janitor's reading of a full tile to its deletion of the last partial one.
const readWithin = 10 * time.Second

// tidies runs the janitor of a machine's node in the node's process.
func (m *machine) tidies() {
	w, n := m.w, m.node
	j, err := janitor.New(janitor.Config{
		Objects: objects{m}, Clock: clock{m}, Decider: w.proved.Decider, Keep: keep,
		Newest: func() (janitor.Newest, bool) {
			s := n.Snapshot()
			if s == nil || n.Fault() != nil {
				return janitor.Newest{}, false
			}
			return janitor.Newest{Head: s.TreeHead, Stepping: n.Stepping()}, true
		},
		Random: func() (uint64, error) { return w.random.Uint64(), nil },
	})
	if err != nil {
		w.judge.breaks("no panic", "%v", err)
		return
	}
	m.janitor = j
	w.spawn(m.process, func() { _ = j.Run(w.background()) })
}

// standing holds the size and timestamp of a head that was put, and when it was put.
type standing struct {
	size, timestamp uint64
	at              time.Duration
}

// deletes judges a deletion. Only these may be deleted: a staged batch that is not that of the newest state, an object
// with a wrong content, a partial tile whose full one is in the store, or a head after which a later one was put.
func (j *judge) deletes(name string) {
	j.stats.Deleted++
	if strings.HasPrefix(name, "staging/") {
		if now := cells(j.w.stores.text); now != nil && name == "staging/"+now.name && !j.w.excuses.tiles {
			j.breaks("the newest staged batch stays", "%s is deleted", name)
		}
		return
	}
	full, _, isPartial := strings.Cut(name, ".p/")
	isHead := strings.HasPrefix(name, "heads/")
	if isPartial {
		j.stats.Partials++
		j.leavesRest(name, full)
	} else if isHead {
		j.stats.OldHeads++
	}
	stored, isThere := j.w.stores.objects[name]
	if put, ok := j.tiles[name]; j.w.excuses.missing || ok && isThere && !bytes.Equal(put.last(), stored) || !isThere {
		return
	}
	why := "it is no partial tile and no head"
	if isHead {
		why = j.keepsHead(name)
	} else if isPartial {
		why = j.keepsPartial(name)
	}
	if why != "" {
		j.breaks("published objects stay", "%s is deleted: %s", name, why)
	}
}

// leavesRest judges a partial tile that is deleted: its full one must not be missing or damaged.
func (j *judge) leavesRest(name, full string) {
	put, ok := j.tiles[full]
	_, isThere := j.w.stores.objects[name]
	if ok && isThere && !j.w.excuses.tiles && j.w.now >= j.w.bentAt+readWithin &&
		!bytes.Equal(put.last(), j.w.stores.objects[full]) {
		j.breaks("what is left of a damaged tile stays", "%s is deleted, and %s is missing or bent", name, full)
	}
}

// keepsHead returns the reason why a head must stay, or "".
func (j *judge) keepsHead(name string) string {
	var size, timestamp uint64
	if _, err := fmt.Sscanf(name, "heads/%020d-%020d", &size, &timestamp); err != nil {
		return err.Error()
	}
	why := "no later head stood long enough"
	for _, later := range j.standing {
		if later.timestamp <= timestamp {
			continue
		}
		if later.at <= j.w.now-keep.Heads {
			return ""
		}
		if later.at <= j.w.now-keep.Thin && j.hasNeighbour(timestamp) {
			why = ""
		}
	}
	return why
}

// hasNeighbour reports whether the store has a head whose timestamp is less than keep.Apart before a timestamp.
func (j *judge) hasNeighbour(timestamp uint64) bool {
	for _, before := range j.standing {
		if before.timestamp < timestamp && timestamp < before.timestamp+uint64(keep.Apart.Milliseconds()) {
			if _, ok := j.w.stores.objects[fmt.Sprintf("heads/%020d-%020d", before.size, before.timestamp)]; ok {
				return true
			}
		}
	}
	return false
}

// keepsPartial returns the reason why a partial tile must stay, or "".
func (j *judge) keepsPartial(name string) string {
	full, _, _ := strings.Cut(name, ".p/")
	content, ok := j.w.stores.objects[full]
	if !ok || !bytes.HasPrefix(content, j.w.stores.objects[name]) {
		return full + " does not begin with it"
	}
	of := strings.Split(strings.TrimPrefix(full, "tile/"), "/")
	level, err := strconv.Atoi(strings.Replace(of[0], "data", "0", 1))
	number, failed := strconv.Atoi(of[len(of)-1])
	if err != nil || failed != nil {
		return "it is no tile of a small log"
	}
	for _, head := range j.standing {
		if head.size>>(8*(level+1)) > uint64(number) && head.at <= j.w.now-keep.Tiles {
			return ""
		}
	}
	return "no head with the full tile stood long enough"
}

// garbage returns the name of an object that is no longer needed, or "".
func (j *judge) garbage() string {
	newest, isWhole := cells(j.w.stores.text), j.hasFullTiles()
	for _, name := range j.w.stores.list("", "") {
		full, _, isPartial := strings.Cut(name, ".p/")
		_, hasFull := j.w.stores.objects[full]
		switch {
		case isPartial && hasFull && isWhole:
			return name
		case strings.HasPrefix(name, "heads/") && j.isOld(name):
			return name
		case strings.HasPrefix(name, "staging/"):
			// A swap may still need a batch that was made from the newest state. The newest state's own batch may be needed
			// too, and the next step or listing deletes the one before it.
			if parts := name[len("staging/"):]; newest != nil && parts != newest.name &&
				parts[16:32] != newest.name[:16] {
				return name
			}
		}
	}
	return ""
}

// hasFullTiles reports whether the store has each full tile that was put. If it does not, the partial tiles may be the
// only rest of one: a data tile cannot be read without the tile of its hashes.
func (j *judge) hasFullTiles() bool {
	for name, put := range j.tiles {
		if !strings.Contains(name, ".p/") && !bytes.Equal(put.last(), j.w.stores.objects[name]) {
			return false
		}
	}
	return true
}

// isOld reports whether a head must have been deleted by now, because a later one was put more than twice keep.Heads
// and some passes ago.
func (j *judge) isOld(name string) bool {
	for _, later := range j.standing {
		if later.at <= j.w.now-2*keep.Heads-10*keep.Every &&
			name < fmt.Sprintf("heads/%020d-%020d", later.size, later.timestamp) {
			return true
		}
	}
	return false
}

// tidied judges whether the janitors delete all garbage after all faults have ended.
func (w *world) tidied() {
	left := ""
	if !w.wait(tidyWithin, func() bool {
		left = w.judge.garbage()
		return left == ""
	}) {
		w.judge.breaks("garbage is deleted", "%s is left after %v", left, tidyWithin)
	}
}
