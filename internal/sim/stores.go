package sim

import (
	"bytes"
	"context"
	"errors"
	"fmt"
	"sort"
	"strings"
	"time"

	"wagtenib/internal/blob"
	"wagtenib/internal/log/signer"
)

// part is a part of the stores that can be rolled back independently.
type part int

const (
	objectsPart part = iota
	lockPart
	guardPart
	indexPart
	parts
)

// memory holds the contents of all simulated stores.
type memory struct {
	objects map[string][]byte
	// checkpoint is the object that readers follow if they do not ask a node.
	checkpoint []byte
	lockState
	guardState
	// index holds the places by identities, and leaves holds them by the hashes of leaves.
	index, leaves map[blob.Identity]blob.Place
	// call is the number of the newest call. changes holds the changes of each part, in their order, so that the newest
	// ones can be undone.
	call    int
	changes [parts][]change
	denied
}

// lockState holds the state of the lock's engine: the text, whether it was ever created, and how far the log is
// published. decided is the number of the call that put the text there.
type lockState struct {
	text      string
	created   bool
	published blob.Published
	decided   int
}

// guardState holds the text of the guard's state, which is another cell of the lock's engine, and the number of
// signatures that the key made.
type guardState struct {
	guard      string
	signatures uint64
}

// denied holds the times until which the stores are full, and until which they are read-only and do not even delete.
type denied struct{ fullUntil, readOnlyUntil time.Duration }

// change is a change of a part: the number of its call, the object's name, and the function that undoes it.
type change struct {
	call int
	name string
	undo func()
}

func newMemory() memory {
	return memory{objects: map[string][]byte{}, index: map[blob.Identity]blob.Place{},
		leaves: map[blob.Identity]blob.Place{}, guardState: guardState{guard: signer.NoHead}}
}

// set sets the content of an object, or removes the object if the content is nil.
func (s *memory) set(name string, content []byte) {
	before, was := s.objects[name]
	s.changes[objectsPart] = append(s.changes[objectsPart], change{s.call, name, func() {
		if was {
			s.objects[name] = before
		} else {
			delete(s.objects, name)
		}
	}})
	if content == nil {
		delete(s.objects, name)
		return
	}
	s.objects[name] = content
}

// setCheckpoint replaces the checkpoint.
func (s *memory) setCheckpoint(content []byte) {
	before := s.checkpoint
	s.changes[objectsPart] = append(s.changes[objectsPart], change{s.call, "checkpoint", func() { s.checkpoint = before }})
	s.checkpoint = content
}

// setLock sets the lock's text and how far the log is published.
func (s *memory) setLock(text string, published blob.Published) {
	before, was := s.text, s.published
	s.changes[lockPart] = append(s.changes[lockPart], change{call: s.call,
		undo: func() { s.text, s.published = before, was }})
	s.text, s.published = text, published
}

func (s *memory) setGuard(text string) {
	before := s.guard
	s.changes[guardPart] = append(s.changes[guardPart], change{call: s.call, undo: func() { s.guard = before }})
	s.guard = text
}

func (s *memory) setIndex(id blob.Identity, place blob.Place) {
	before, was := s.index[id]
	s.changes[indexPart] = append(s.changes[indexPart], change{call: s.call, name: string(id[:]), undo: func() {
		if was {
			s.index[id] = before
		} else {
			delete(s.index, id)
		}
	}})
	s.index[id] = place
}

// rollBack undoes the changes of a part that were made after a call, and reports whether there were any.
func (s *memory) rollBack(of part, call int) bool {
	all := s.changes[of]
	left := len(all)
	for left > 0 && all[left-1].call > call {
		left--
		all[left].undo()
	}
	s.changes[of] = all[:left]
	return left < len(all)
}

// objects implements the object store for a machine's node.
type objects struct{ m *machine }

func (o objects) Put(ctx context.Context, name string, content []byte) error {
	w := o.m.w
	content = bytes.Clone(content)
	w.judge.remembers(o.m, name)
	err := o.m.call(ctx, "objects", fmt.Sprintf("put %s (%d bytes)", name, len(content)), true, func() error {
		if stored, ok := w.stores.objects[name]; ok && !bytes.Equal(stored, content) {
			return blob.ErrOther
		}
		w.judge.put(name, content)
		w.stores.set(name, content)
		return nil
	})
	if err == nil {
		o.m.process.known.sees(name, content)
	}
	return err
}

func (o objects) Get(ctx context.Context, name string, max int64) (content []byte, err error) {
	err = o.m.call(ctx, "objects", "get "+name, false, func() error {
		stored, ok := o.m.w.stores.objects[name]
		if name == "checkpoint" {
			stored, ok = o.m.w.stores.checkpoint, o.m.w.stores.checkpoint != nil
		}
		if !ok {
			return blob.ErrAbsent
		}
		if int64(len(stored)) > max {
			return blob.TooLong{Length: int64(len(stored))}
		}
		content = bytes.Clone(stored)
		if strings.HasPrefix(name, "heads/") {
			return o.m.dawdle(ctx, lateHeads)
		}
		return nil
	})
	if err != nil {
		return nil, err
	}
	o.m.process.known.sees(name, content)
	return content, nil
}

// current implements the store of the checkpoint for a machine's node.
type current struct{ m *machine }

func (c current) Swap(ctx context.Context, name string, old, new []byte) error {
	w := c.m.w
	old, new = bytes.Clone(old), bytes.Clone(new)
	return c.m.call(ctx, "objects", fmt.Sprintf("swap %s (%d bytes)", name, len(new)), true, func() error {
		switch before := w.stores.checkpoint; {
		case bytes.Equal(before, new):
			return nil
		case !bytes.Equal(before, old):
			return blob.ErrLost
		}
		w.judge.putCheckpoint(name, new)
		w.stores.setCheckpoint(new)
		return nil
	})
}

func (o objects) List(ctx context.Context, prefix, after string, max int) (names []string, err error) {
	err = o.m.call(ctx, "objects", fmt.Sprintf("list %s after %q", prefix, after), false, func() error {
		names = o.m.w.stores.list(prefix, after)
		names = names[:min(len(names), max)]
		return nil
	})
	if err != nil {
		return nil, err
	}
	if prefix == "heads/" {
		o.m.process.known.heard = o.m.w.now
	}
	return names, nil
}

// list returns the names of objects that have a prefix and come after a name, in the order of their bytes.
func (s *memory) list(prefix, after string) []string {
	var names []string
	for name := range s.objects {
		if strings.HasPrefix(name, prefix) && name > after {
			names = append(names, name)
		}
	}
	sort.Strings(names)
	return names
}

func (o objects) Delete(ctx context.Context, name string) error {
	return o.m.call(ctx, "objects", "delete "+name, true, func() error {
		o.m.w.judge.deletes(name)
		if _, ok := o.m.w.stores.objects[name]; ok {
			o.m.w.stores.set(name, nil)
		}
		return nil
	})
}

// lock implements the lock for a machine's node.
type lock struct{ m *machine }

func (l lock) Create(ctx context.Context, text string) error {
	s := &l.m.w.stores
	// The call may take effect late, after the node has read the lock again.
	isGone := l.m.process.known.isGone
	return l.m.call(ctx, "lock", "create "+short(text), true, func() error {
		if s.created {
			return blob.ErrExists
		}
		l.m.w.judge.creates(l.m, isGone)
		s.created = true
		s.setLock(text, blob.Published{})
		return nil
	})
}

func (l lock) Read(ctx context.Context) (text string, err error) {
	l.m.begins()
	why := ""
	err = l.m.call(ctx, "lock", "read", false, func() error {
		if text = l.m.w.stores.text; text == "" {
			l.m.process.known.isGone = len(l.m.w.stores.list("heads/", "")) > 0
			return blob.ErrAbsent
		}
		why = l.m.finds(text)
		return nil
	})
	// If the reading was done too late, the node learned nothing from it.
	if err != nil {
		return "", err
	}
	l.m.process.unread = ""
	l.m.process.known.read(text, why)
	l.m.process.known.heard = l.m.w.now
	return text, nil
}

func (l lock) Swap(ctx context.Context, old, new string) error {
	s, by := &l.m.w.stores, l.m.process
	if why := by.known.isOld(old); why != "" {
		l.m.w.judge.breaks("no step from an old text", "%s makes one from %s: %s", l.m.name, short(old), why)
	}
	err := l.m.call(ctx, "lock", "swap "+short(old)+" for "+short(new), true, func() error {
		switch s.text {
		case "":
			return blob.ErrAbsent
		case new:
			return nil
		case old:
			l.m.w.judge.swaps(by, old, new)
			s.setLock(new, s.published)
			s.decided = s.call
			return nil
		}
		return blob.ErrLost
	})
	l.m.w.judge.stats.meet(by, old, new, err)
	switch {
	case err == nil:
		by.known.read(new, "")
		by.known.heard = l.m.w.now
	case errors.Is(err, blob.ErrLost):
		by.known.old, by.known.why = old, "it saw that text replaced"
	}
	return err
}

// meet counts a swap of the lock by its outcome.
func (c *Contended) meet(by *process, old, new string, err error) {
	isUnread := by.unread == old
	if isUnread {
		c.Remembered++
	}
	by.unread = ""
	switch {
	case err == nil:
		by.unread = new
	case errors.Is(err, blob.ErrLost):
		c.Lost++
		if isUnread {
			c.Overtaken++
		}
	case errors.Is(err, blob.ErrUnknown):
		c.Unknown++
	}
}

func (l lock) Published(ctx context.Context) (published blob.Published, err error) {
	err = l.m.call(ctx, "lock", "published", false, func() error {
		published = l.m.w.stores.published
		return nil
	})
	if err != nil {
		return blob.Published{}, err
	}
	l.m.process.known.heard = l.m.w.now
	return published, nil
}

func (l lock) Raise(ctx context.Context, published blob.Published) error {
	s := &l.m.w.stores
	l.m.w.judge.shows(l.m, published)
	return l.m.call(ctx, "lock", fmt.Sprintf("raise %d %d", published.Size, published.Timestamp), true, func() error {
		if s.text == "" {
			return blob.ErrAbsent
		}
		if s.published.Before(published) {
			l.m.w.judge.raises(published)
			s.setLock(s.text, published)
		}
		return nil
	})
}

// short returns a text of the lock for a line of a history: its size, its timestamp and the end of its salt.
func short(text string) string {
	if len(text) < 60 {
		return "?"
	}
	return text[len("growth "):len("growth ")+32] + ".." + text[len(text)-5:len(text)-1]
}

// index implements the deduplication index for a machine's node.
type index struct{ m *machine }

func (i index) Find(ctx context.Context, identities []blob.Identity) (map[blob.Identity]blob.Place, error) {
	return i.find(ctx, fmt.Sprintf("find %d", len(identities)), i.m.w.stores.index, identities)
}

func (i index) FindLeaves(ctx context.Context, hashes []blob.Identity) (map[blob.Identity]blob.Place, error) {
	return i.find(ctx, fmt.Sprintf("find %d leaves", len(hashes)), i.m.w.stores.leaves, hashes)
}

func (i index) find(ctx context.Context, what string, in map[blob.Identity]blob.Place,
	keys []blob.Identity) (found map[blob.Identity]blob.Place, err error) {
	err = i.m.call(ctx, "index", what, false, func() error {
		found = map[blob.Identity]blob.Place{}
		for _, key := range keys {
			if place, ok := in[key]; ok {
				found[key] = place
			}
		}
		return i.m.dawdle(ctx, lateLookups)
	})
	if err != nil {
		return nil, err
	}
	return found, nil
}

// lateAnswers is the delay of late answers, if the plan asks for them: answers of the index, or those of the object
// store to a request for a head.
const lateAnswers = 300 * time.Millisecond

// dawdle delays half of the answers to such calls, if the plan asks for it. Meanwhile, the store may get more.
func (m *machine) dawdle(ctx context.Context, calls string) error {
	w := m.w
	if w.plan.Haste != calls || w.events.calm || w.random.Intn(2) == 0 {
		return nil
	}
	if err := w.sleep(ctx.(*simulated), lateAnswers); err != nil {
		return unknown(err)
	}
	return nil
}

func (i index) Add(ctx context.Context, rows []blob.Row) error {
	return i.change(ctx, "add", rows, false)
}

func (i index) Replace(ctx context.Context, rows []blob.Row) error {
	return i.change(ctx, "replace", rows, true)
}

func (i index) change(ctx context.Context, what string, rows []blob.Row, replaces bool) error {
	return i.m.call(ctx, "index", fmt.Sprintf("%s %d", what, len(rows)), true, func() error {
		of := &i.m.w.stores
		for _, row := range rows {
			if _, ok := of.index[row.Identity]; !ok || replaces {
				of.setIndex(row.Identity, row.Place)
			}
			if _, ok := of.leaves[row.Leaf]; !ok || replaces {
				of.leaves[row.Leaf] = row.Place
			}
		}
		return nil
	})
}
