package sim

import (
	"errors"
	"fmt"
	"strings"
	"time"

	"wagtenib/internal/log/node"
)

// known holds what one run of a node must know about the lock.
type known struct {
	// old is a text that the node must know to be old, and why says from what it knows this.
	old, why string
	// newest is the newest text that the node read.
	newest *cell
	// heard is the time of the last answer to the node from the lock, or of the last listing of the heads.
	heard time.Duration
	// seen holds the names of the heads that the node put or read.
	seen map[string]bool
	// isGone is set if the node found no lock when it last found none, and the store had heads at that time.
	isGone bool
}

// sees records that the node saw a head, if an object is a head with its right name.
func (of *known) sees(name string, content []byte) {
	if !strings.HasPrefix(name, "heads/") {
		return
	}
	if head, err := readNote(string(content)); err == nil && name == headName(head) {
		if of.seen == nil {
			of.seen = map[string]bool{}
		}
		of.seen[name] = true
	}
}

// lookBack is the maximum time without an answer from the lock. After a longer time, a node must look for heads that
// are later than the text that it reads.
const lookBack = 3 * time.Second

// begins is called before the machine's node reads the lock. A node that refuses the newest text may continue from an
// earlier one, if the lock has that again.
func (m *machine) begins() {
	if n := m.node; n != nil && errors.Is(n.Fault(), node.ErrRolledBack) {
		m.process.known.newest = nil
	}
}

// finds returns the reason why a node that reads a text of the lock now must know that the text is old, or "". If the
// store has a later head than the text, a node that got no answer from the lock for a while must see this.
func (m *machine) finds(text string) string {
	k, listed := cells(text), m.w.listed()
	if k == nil || m.node == nil || m.w.now-m.process.known.heard <= lookBack ||
		!k.isBefore(listed.TreeSize, listed.Timestamp) {
		return ""
	}
	return "the store had a later head when it read that after a while"
}

// read records the newest text that was read. If there is a reason, it also records that the node must know that the
// text is old.
func (of *known) read(text, why string) {
	if why != "" {
		of.old, of.why = text, why
	}
	if k := cells(text); k != nil && (of.newest == nil || of.newest.isBefore(k.size, k.timestamp)) {
		of.newest = k
	}
}

// isBefore reports whether a state has fewer entries than a size, or is earlier than a timestamp.
func (c *cell) isBefore(size, timestamp uint64) bool { return c.size < size || c.timestamp < timestamp }

// isOld returns the reason why the process must know that a text of the lock is old, or "".
func (of *known) isOld(text string) string {
	if text == of.old {
		return of.why
	}
	if k := cells(text); k != nil && of.newest != nil && k.isBefore(of.newest.size, of.newest.timestamp) {
		return fmt.Sprintf("it read one of %d entries at %d ms", of.newest.size, of.newest.timestamp)
	}
	return ""
}
