package sim

import (
	"fmt"
	"strings"

	"wagtenib/internal/blob"
	"wagtenib/internal/ct"
	"wagtenib/internal/log/signer"
)

// refuses returns the reason why a machine's node must not start with the current stores, or "". It reads the stores
// without the node's code.
func (w *world) refuses(m *machine) string {
	k := cells(w.stores.text)
	if k == nil || w.stores.text == "" {
		return ""
	}
	if why := w.isBehindGuard(k); why != "" {
		return why
	}
	of := fmt.Sprintf("the lock has %d entries at %d ms", k.size, k.timestamp)
	ahead := func(size, timestamp uint64) bool { return size > k.size || timestamp > k.timestamp }
	listed, published, seen := w.listed(), w.stores.published, m.remembered
	switch {
	case ahead(listed.TreeSize, listed.Timestamp):
		return fmt.Sprintf("%s, and the store has a head of %d at %d ms", of, listed.TreeSize, listed.Timestamp)
	case ahead(published.Size, published.Timestamp):
		return fmt.Sprintf("%s, and %d at %d ms are published", of, published.Size, published.Timestamp)
	case seen != nil && ahead(seen.TreeSize, seen.Timestamp):
		return fmt.Sprintf("%s, and the machine remembers %d at %d ms", of, seen.TreeSize, seen.Timestamp)
	case w.lacksNewest(k, published):
		return fmt.Sprintf("the index lacks the newest entry, %d", k.size-1)
	}
	return ""
}

// headName returns the name of a head's object.
func headName(head ct.TreeHead) string {
	return fmt.Sprintf("heads/%020d-%020d", head.TreeSize, head.Timestamp)
}

// listed returns the size and the timestamp of the newest head in the store, by its name.
func (w *world) listed() (head ct.TreeHead) {
	if heads := w.stores.list("heads/", ""); len(heads) > 0 {
		// A name that cannot be read is not the name of a head, so both stay 0.
		_, _ = fmt.Sscanf(heads[len(heads)-1], "heads/%020d-%020d", &head.TreeSize, &head.Timestamp)
	}
	return head
}

// isBehindGuard returns a text if the lock is older than the guard's state, or if the guard's state is older than the
// heads in the store. Otherwise it returns "".
func (w *world) isBehindGuard(k *cell) string {
	guard, err := signer.ReadState(w.stores.guard)
	if err != nil {
		return ""
	}
	last, listed := ct.TreeHead{}, w.listed()
	if signed := guard.Last(); signed != nil {
		last = *signed
	}
	switch {
	case last.TreeSize > k.size || last.Timestamp > k.timestamp:
		return fmt.Sprintf("the lock has %d entries at %d ms, and %d at %d ms were signed", k.size, k.timestamp, last.TreeSize,
			last.Timestamp)
	case last.TreeSize < listed.TreeSize || last.Timestamp < listed.Timestamp:
		return fmt.Sprintf("the guard is older than the head of %d entries at %d ms", listed.TreeSize, listed.Timestamp)
	}
	return ""
}

// lacksNewest reports whether the index lacks the newest entry of a published state whose tiles are whole.
func (w *world) lacksNewest(k *cell, published blob.Published) bool {
	if k.size == 0 || k.size > uint64(len(w.judge.leaves)) || w.excuses.missing ||
		published != (blob.Published{Size: k.size, Timestamp: k.timestamp}) {
		return false
	}
	_, ok := w.stores.index[blob.Identity(w.judge.leaves[k.size-1].identity)]
	return !ok
}

// remembers judges a head with entries that a node puts: its machine must remember the state already, so that a start
// from older stores is refused.
func (j *judge) remembers(m *machine, name string) {
	if !strings.HasPrefix(name, "heads/") || strings.HasPrefix(name, fmt.Sprintf("heads/%020d-", 0)) {
		return
	}
	if seen := m.remembered; seen == nil || headName(*seen) < name {
		j.breaks("a head that is put is remembered", "%s puts %s, and does not remember it", m.name, name)
	}
}
