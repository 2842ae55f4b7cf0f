package node

import (
	"context"
	"errors"
	"fmt"

	"wagtenib/internal/blob"
	"wagtenib/internal/ct"
	"wagtenib/internal/log/node/decider"
	"wagtenib/internal/log/signer"
)

// Start looks at the lock, the stores, the signer and the machine's memory, and returns a node if the node may continue
// from there. The caller must then call Run of the loop in one goroutine. Otherwise it refuses with ErrRolledBack,
// ErrDamaged, ErrIndex or signer.ErrState.
func Start(ctx context.Context, config Config) (*Node, *Loop, error) {
	if err := config.check(); err != nil {
		return nil, nil, err
	}
	n := newNode(config)
	l := &Loop{Node: n, edge: map[string][]byte{}, witnessed: make([]uint64, len(config.Witnesses.All)),
		clock: newTimekeeper(config.Machine, config.Pace.MaxSkew)}
	remembered, err := config.Machine.Memory.Load(ctx)
	if err != nil {
		return nil, nil, fmt.Errorf("node: the memory: %w", err)
	}
	if remembered != nil {
		l.seen.accepted.TreeHead = *remembered
	}
	for range startOver {
		started, err := l.tryStart(ctx, remembered)
		if err != nil {
			return nil, nil, err
		}
		if started {
			return n, l, nil
		}
	}
	return nil, nil, fmt.Errorf("%w: in %d tries it did not stay the same (start again)", ErrRolledBack, startOver)
}

// found is what a start finds of a log: in the decider's form, and as it was read.
type found struct {
	decider.Found
	// k is the state of the lock's text, or nil if there is none.
	k         *state
	published blob.Published
}

// tryStart looks once at everything. It reports false if another node went on meanwhile, or if the lock was created just
// now.
func (l *Loop) tryStart(ctx context.Context, remembered *ct.TreeHead) (bool, error) {
	f, err := l.find(ctx, remembered)
	if err != nil {
		return false, err
	}
	creates, err := l.config.Proved.Decider.Start(f.Found)
	var refusal decider.Refusal
	if errors.As(err, &refusal) {
		if moved, err := l.movedSince(ctx, f); err != nil || moved {
			return false, err
		}
		return false, refused(refusal, f)
	}
	if err != nil {
		return false, fmt.Errorf("node: %w", err)
	}
	if creates {
		return false, l.create(ctx)
	}
	l.hears(f.k, l.config.Machine.Clock.Elapsed())
	if !f.published.Before(publishedBy(f.k.TreeHead)) {
		if err := l.knowsNewest(ctx, f.k); err != nil {
			return false, err
		}
	}
	return true, l.showNewest(ctx, f)
}

// find reads the lock, and after that everything that may be ahead of it.
func (l *Loop) find(ctx context.Context, remembered *ct.TreeHead) (f found, err error) {
	f.Creates, f.Guarded, f.Seen = l.config.Create, l.config.Signer.IsGuarded(), remembered
	var exists bool
	if f.Lock, exists, err = l.lockText(ctx); err != nil {
		return f, err
	}
	f.IsEmptied = exists && f.Lock == ""
	if f.Lock != "" {
		if f.k, err = l.read(f.Lock); err != nil {
			return f, err
		}
		if err = l.continues(f.k); err != nil {
			return f, err
		}
		l.seen.newest = f.k
	} else if f.HasObject, err = l.hasLog(ctx); err != nil {
		return f, err
	}
	f.published, err = l.config.Stores.Lock.Published(ctx)
	if err != nil && !errors.Is(err, blob.ErrAbsent) {
		return f, fmt.Errorf("node: the lock: %w", err)
	}
	if f.published != (blob.Published{}) {
		f.Published = &ct.TreeHead{TreeSize: f.published.Size, Timestamp: f.published.Timestamp}
	}
	if f.Signed, err = l.config.Signer.Last(ctx); err != nil {
		return f, fmt.Errorf("node: the signer: %w", err)
	}
	if f.Listed, err = l.newestListed(ctx, f); err != nil {
		return f, err
	}
	return f, l.addRoots(ctx, f)
}

// addRoots adds the root of the stored head to the published and to the listed head that have the size and the
// timestamp of the lock's head. The decider compares no other root.
func (l *Loop) addRoots(ctx context.Context, f found) error {
	if f.k == nil {
		return nil
	}
	root, isRead := f.k.Root, false
	for _, of := range []*ct.TreeHead{f.Published, f.Listed} {
		if of == nil || of.TreeSize != f.k.TreeSize || of.Timestamp != f.k.Timestamp {
			continue
		}
		if !isRead {
			head, err := l.readHead(ctx, headName(f.k.TreeSize, f.k.Timestamp))
			switch {
			case err == nil:
				root = head.Root
			case errors.Is(err, blob.ErrAbsent) || errors.Is(err, ErrDamaged):
				// There is no head to compare with. What reads it later says what is wrong with it.
			default:
				return fmt.Errorf("node: the head of the lock's state: %w", err)
			}
			isRead = true
		}
		of.Root = root
	}
	return nil
}

// lockText reads the lock's text, and reports whether there is a lock.
func (l *Loop) lockText(ctx context.Context) (text string, exists bool, err error) {
	text, err = l.config.Stores.Lock.Read(ctx)
	if errors.Is(err, blob.ErrAbsent) {
		return "", false, nil
	}
	if err != nil {
		return "", false, fmt.Errorf("node: the lock: %w", err)
	}
	return text, true, nil
}

// hasLog reports whether the store has any object of a log.
func (l *Loop) hasLog(ctx context.Context) (bool, error) {
	for _, prefix := range []string{headsPrefix, ct.TilePrefix, stagingPrefix} {
		names, err := l.config.Stores.Objects.List(ctx, prefix, "", 1)
		if err != nil {
			return false, fmt.Errorf("node: the objects: %w", err)
		}
		if len(names) > 0 {
			return true, nil
		}
	}
	return false, nil
}

// newestListed returns the newest head in the store that is after the lock's or after the signer's last one, or nil.
func (l *Loop) newestListed(ctx context.Context, f found) (*ct.TreeHead, error) {
	after := ""
	switch {
	case f.k != nil && f.Signed != nil:
		after = min(headName(f.k.TreeSize, f.k.Timestamp), headName(f.Signed.TreeSize, f.Signed.Timestamp))
	case f.k != nil && !f.Guarded:
		after = headName(f.k.TreeSize, f.k.Timestamp)
	}
	newest, err := l.newestHead(ctx, after)
	if err != nil || newest == "" {
		return nil, err
	}
	size, timestamp, err := headNamed(newest)
	return &ct.TreeHead{TreeSize: size, Timestamp: timestamp}, err
}

// newestHead returns the name of the newest head in the store after a name, or nothing.
func (l *Loop) newestHead(ctx context.Context, after string) (newest string, err error) {
	for {
		names, err := l.config.Stores.Objects.List(ctx, headsPrefix, after, blob.MaxListed)
		if err != nil {
			return "", fmt.Errorf("node: the heads: %w", err)
		}
		if len(names) == 0 {
			return newest, nil
		}
		after = names[len(names)-1]
		newest = after
	}
}

// movedSince reports whether another node set the lock, or had a head signed, since this was found.
func (l *Loop) movedSince(ctx context.Context, f found) (bool, error) {
	text, _, err := l.lockText(ctx)
	if err != nil {
		return false, err
	}
	if text != f.Lock {
		l.keepLater(text)
		return true, nil
	}
	last, err := l.config.Signer.Last(ctx)
	if err != nil {
		return false, fmt.Errorf("node: the signer: %w", err)
	}
	if last == nil || f.Signed == nil {
		return (last == nil) != (f.Signed == nil), nil
	}
	return *last != *f.Signed, nil
}

// refused returns why the node does not continue.
func refused(refusal decider.Refusal, f found) error {
	if f.k == nil {
		return fmt.Errorf("%w: %s: there is no lock, and this is no new log (see \"Backup\" in OPERATING.md)",
			ErrRolledBack, refusal)
	}
	of := fmt.Sprintf("the lock has %d entries at %d ms", f.k.TreeSize, f.k.Timestamp)
	switch refusal {
	case decider.TwoRoots:
		return fmt.Errorf("%w: %s, and the signer approved another root of these", ErrDamaged, of)
	case decider.GuardBehind:
		return fmt.Errorf("%w: it is older than the log, whose store has a head of %d entries at %d ms (see "+
			"\"Backup\" in OPERATING.md)", signer.ErrState, f.Listed.TreeSize, f.Listed.Timestamp)
	case decider.BehindGuard:
		return fmt.Errorf("%w: %s, and the signer approved %d at %d ms", ErrRolledBack, of, f.Signed.TreeSize,
			f.Signed.Timestamp)
	case decider.BehindSeen:
		return fmt.Errorf("%w: %s, and this machine accepted %d at %d ms, or another root", ErrRolledBack, of,
			f.Seen.TreeSize, f.Seen.Timestamp)
	case decider.BehindListed:
		return fmt.Errorf("%w: %s, and the store has a head of %d at %d ms, or another root", ErrRolledBack, of,
			f.Listed.TreeSize, f.Listed.Timestamp)
	case decider.BehindPublished:
		return fmt.Errorf("%w: %s, and %d at %d ms are published, or another root", ErrRolledBack, of, f.published.Size,
			f.published.Timestamp)
	}
	return fmt.Errorf("%w: %s: %s", ErrRolledBack, refusal, of)
}

// create makes the lock of a new log.
func (l *Loop) create(ctx context.Context) error {
	now, _, err := l.clock.timestamp(0)
	if err != nil {
		return err
	}
	line, err := l.config.Proved.Steps.Begin(now)
	if err != nil {
		return fmt.Errorf("node: %w", err)
	}
	salt, err := l.config.Machine.Random()
	if err != nil {
		return fmt.Errorf("node: %w", err)
	}
	text := fmt.Sprintf("%s\n%s%s\n%s%016x%016x\n", line, nodePrefix, l.config.where(), saltPrefix, 0, salt)
	err = l.config.Stores.Lock.Create(ctx, text)
	if errors.Is(err, blob.ErrExists) {
		// Another node created it; or its text is gone, and the engine still knows that it was created.
		text, err := l.config.Stores.Lock.Read(ctx)
		if errors.Is(err, blob.ErrAbsent) {
			return fmt.Errorf("%w: its text is gone (see \"Backup\" in OPERATING.md)", ErrRolledBack)
		}
		if err == nil {
			l.keepLater(text)
		}
		// After another error the next try reads it.
		return nil
	}
	if err != nil && !errors.Is(err, blob.ErrUnknown) {
		return fmt.Errorf("node: the lock: %w", err)
	}
	return nil
}

// showNewest shows readers the head of the lock's state if the store has it, so that they need not wait for the first
// round.
func (l *Loop) showNewest(ctx context.Context, f found) error {
	if f.k.IsBegin() || f.published.Before(publishedBy(f.k.TreeHead)) {
		return nil
	}
	head, err := l.headOf(ctx, f.k)
	if errors.Is(err, errForeign) && !l.isOurs(ctx) {
		return fmt.Errorf("%w: the store has heads, and none that was read is this log's: %v (correct --origin or "+
			"--signing-key)", ErrConfig, err)
	}
	if errors.Is(err, blob.ErrAbsent) || errors.Is(err, ErrDamaged) {
		// It is not served. The loop makes it again, or says why it cannot.
		return nil
	}
	if err != nil {
		return err
	}
	if err := l.vouch(ctx, f.k); errors.Is(err, ErrRolledBack) {
		return err
	}
	// If the witnesses do not answer, readers see the head, and the loop takes nothing until they do.
	l.show(head, f.k.line)
	return nil
}

// maxOld is how many of the oldest heads are read if the newest is another log's.
const maxOld = 8

// isOurs reports whether one of the store's oldest heads is of this origin and signed by this key.
func (l *Loop) isOurs(ctx context.Context) bool {
	names, err := l.config.Stores.Objects.List(ctx, headsPrefix, "", maxOld)
	if err != nil {
		return false
	}
	for _, name := range names {
		if _, err := l.readHead(ctx, name); err == nil {
			return true
		}
	}
	return false
}

// knowsNewest returns ErrIndex if the index lacks the newest entry of a published state: its node added all places
// before it published the head. If the entry is missing or damaged, the step says so.
func (l *Loop) knowsNewest(ctx context.Context, k *state) error {
	newest, err := l.newestLeaf(ctx, k)
	if newest == nil {
		return err
	}
	id := identity(newest.Type, newest.IssuerKeyHash, newest.Certificate)
	return l.knows(ctx, id, blob.Identity(newest.Hash()), k.TreeSize-1)
}

// knows returns ErrIndex unless the index has an entry of the log by its identity, and its leaf by its hash.
func (l *Loop) knows(ctx context.Context, id, leaf blob.Identity, index uint64) error {
	places, err := l.config.Stores.Index.Find(ctx, []blob.Identity{id})
	if err != nil {
		return fmt.Errorf("node: the index: %w", err)
	}
	leaves, err := l.config.Stores.Index.FindLeaves(ctx, []blob.Identity{leaf})
	if err != nil {
		return fmt.Errorf("node: the index: %w", err)
	}
	at, isKnown := leaves[leaf]
	isKnown = isKnown && at.Index == index && len(places) > 0
	if !isKnown {
		return fmt.Errorf("%w: it lacks the newest entry, %d (all nodes must share one index; build a lost one from "+
			"the tiles again by ctserve index)", ErrIndex, index)
	}
	return nil
}
