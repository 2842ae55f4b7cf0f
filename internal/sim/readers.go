package sim

import (
	"fmt"
	"strings"
	"time"

	"wagtenib/internal/blob"
	"wagtenib/internal/ct"
	"wagtenib/internal/log/node"
)

// reading holds what readers saw of one run of a node.
type reading struct {
	of *process
	// shown is the head that the node showed last. newest is the newest head that it returned to a reader.
	shown, newest ct.TreeHead
	// asked is the number of readers that now ask the node for the newest head.
	asked int
}

// Normally, a reader asks a machine for the newest head at one of askedEach looks, and only one reader asks at a time.
// If readers are in haste, one asks at each look, and up to maxAsked of them at a time.
const (
	askedEach = 6
	maxAsked  = 3
)

// reader reads the heads that the machines show at random times, and asks some machines for the newest head.
func (w *world) reader() {
	last := make([]*reading, len(w.machines))
	each, most, looks := askedEach, 1, 400
	if w.plan.Haste != "" {
		each, most, looks = 1, maxAsked, 40
	}
	for {
		w.wait(time.Duration(20+w.random.Intn(looks))*time.Millisecond, nil)
		for i, m := range w.machines {
			if last[i] == nil || m.process != last[i].of {
				last[i] = &reading{of: m.process}
			}
			if m.node == nil || m.process.dead {
				continue
			}
			if last[i].asked < most && w.random.Intn(each) == 0 {
				w.asksNewest(m, last[i])
			}
			if now := m.node.Snapshot(); now != nil {
				w.looksAt(m, *now, last[i])
			}
		}
	}
}

// looksAt judges the head that a machine shows.
func (w *world) looksAt(m *machine, now node.Snapshot, last *reading) {
	w.judgeTree(m, now.TreeHead)
	if now.TreeHead == last.shown {
		return
	}
	if line := cells(now.Line + "\nnode -\nsalt " + strings.Repeat("0", 32) + "\n"); line == nil ||
		line.size != now.TreeSize || line.timestamp != now.Timestamp {
		w.judge.breaks("a reader sees a head with its state", "%s shows the head of %d entries at %d ms with another state",
			m.name, now.TreeSize, now.Timestamp)
	}
	w.judge.read(m, now.TreeHead, string(now.Signed), last.shown)
	last.shown = now.TreeHead
}

// asksNewest asks a machine for the newest head, as a reader of the checkpoint over HTTP does, and judges the answer.
// The answer must not be older than one that the machine gave before. It may be older than the published head only if a
// fault happened meanwhile.
func (w *world) asksNewest(m *machine, last *reading) {
	n, before := m.node, last.newest
	last.asked++
	w.spawn(m.process, func() {
		ctx, cancel := within(w.background(), requestWithin)
		defer cancel()
		published, counts, isAway := w.stores.published, w.judge.counts, m.away > w.now
		head, err := n.Newest(ctx)
		last.asked--
		if err != nil {
			return
		}
		w.judgeTree(m, head.TreeHead)
		w.judge.read(m, head.TreeHead, string(head.Signed), before)
		if head.Timestamp > last.newest.Timestamp {
			last.newest = head.TreeHead
		}
		isCalm := counts == w.judge.counts && !isAway && !w.excuses.loss
		if isCalm && (blob.Published{Size: head.TreeSize, Timestamp: head.Timestamp}).Before(published) {
			w.judge.breaks("a reader gets the newest head", "%s returns the head of %d entries at %d ms, and that of %d at "+
				"%d ms was published", m.name, head.TreeSize, head.Timestamp, published.Size, published.Timestamp)
		}
	})
}

// judgeTree judges whether the tree of a head that a reader gets is in the store, although janitors delete objects.
func (w *world) judgeTree(m *machine, head ct.TreeHead) {
	if w.plan.Janitors && !w.excuses.missing {
		// A reader may still read a head that it saw before.
		w.judge.treeOf(head, fmt.Sprintf("%s shows a head whose tree is not whole", m.name))
	}
}
