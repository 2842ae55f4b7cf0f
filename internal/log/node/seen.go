package node

import (
	"context"
	"errors"
	"fmt"
	"time"

	"wagtenib/bindings/go/wagtenib"
	"wagtenib/internal/blob"
	"wagtenib/internal/ct"
	"wagtenib/internal/log/node/step"
)

// A node continues from no state that is older than what it accepted before, or older than what the store has: a lock
// that was rolled back would make it sign a second history. The newest head that it accepted is kept in a memory of its
// machine's own, since the stores may all be rolled back together.

// seen is what a node saw of the log.
type seen struct {
	// accepted is the newest state that this node accepted. Its line and text are empty if only the memory has it.
	accepted state
	// newest is the state of the text that was read last, or that this node's own swap put there, and heard is when that
	// was, by Elapsed.
	newest *state
	heard  time.Duration
	// left is a text that the lock did not have any more when this node tried to replace it, or empty. No text of the
	// lock comes back.
	left string
	// isVouched says that enough witnesses cosigned the newest head again since this node started, or since it could
	// not read the lock.
	isVouched bool
	// asked is when the witnesses were asked for the time, by Elapsed.
	asked time.Duration
	// isMade says that this node made the newest state, and that it is published and answered.
	isMade bool
	// listed is the list of the heads that was made last beside a swap, or nil.
	listed *listing
}

// maxUnheard is for how long a node may not have read the lock, until it looks for heads that are later than what it
// reads.
const maxUnheard = 3 * time.Second

// isAccepted reports whether a state is the newest that this node accepted, or the one that all logs begin with.
func (l *Loop) isAccepted(k *state) bool { return k.IsBegin() || l.seen.accepted.line == k.line }

// accept checks a state and then keeps it as the newest one. It must be called before anything of the state is
// published or signed, and before a step is made from it. Objects are those of the state that may not be in the store
// yet.
func (l *Loop) accept(ctx context.Context, k *state, objects []step.Object) error {
	if l.isAccepted(k) {
		return nil
	}
	if err := l.descends(ctx, k, objects, l.listHeads); err != nil {
		return err
	}
	return l.keep(ctx, k)
}

// keep has the machine's memory keep a state as the newest one.
func (l *Loop) keep(ctx context.Context, k *state) error {
	if err := l.config.Machine.Memory.Save(ctx, k.TreeHead); err != nil {
		return fmt.Errorf("node: the memory: %w", err)
	}
	l.seen.accepted = *k
	return nil
}

// lister lists the heads after a name.
type lister func(ctx context.Context, after string) ([]string, error)

// listHeads lists the store's heads after a name.
func (l *Loop) listHeads(ctx context.Context, after string) ([]string, error) {
	names, err := l.config.Stores.Objects.List(ctx, headsPrefix, after, blob.MaxListed)
	if err != nil {
		return nil, fmt.Errorf("node: the heads: %w", err)
	}
	return names, nil
}

// newestAccepted returns the name of the newest head that this node accepted, or nothing.
func (l *Loop) newestAccepted() string {
	if accepted := l.seen.accepted.TreeHead; accepted.Timestamp > 0 {
		return headName(accepted.TreeSize, accepted.Timestamp)
	}
	return ""
}

// descends returns ErrRolledBack unless a state continues from the newest that this node accepted, and the store has no
// head of another history.
func (l *Loop) descends(ctx context.Context, k *state, objects []step.Object, heads lister) error {
	err := l.compare(ctx, k, objects, heads)
	if errors.Is(err, ErrRolledBack) && l.seen.accepted.text != "" {
		// The lock must not be held to the state that was refused: it may come back from there.
		accepted := l.seen.accepted
		l.seen.newest = &accepted
	}
	return err
}

func (l *Loop) compare(ctx context.Context, k *state, objects []step.Object, heads lister) error {
	accepted := l.seen.accepted
	isNext := accepted.line != "" && k.Before == step.Digest(accepted.line)
	between, err := l.headsUpTo(ctx, k, isNext, heads)
	if err != nil {
		return err
	}
	if err := l.extends(ctx, k, accepted.TreeHead, objects); err != nil || between == "" {
		return err
	}
	head, err := l.readHead(ctx, between)
	if errors.Is(err, ErrDamaged) || errors.Is(err, blob.ErrAbsent) {
		// A head that the log's key did not sign says nothing, and an old head may be deleted.
		return nil
	}
	if err != nil {
		return err
	}
	return l.extends(ctx, k, head.TreeHead, objects)
}

// headsUpTo compares the names of the store's heads from the newest accepted one on. In one history they are in the
// order of their timestamps and end with the state's, unless other nodes went on meanwhile. If the state is the very
// next, there is none between. The last one before the state's is returned.
func (l *Loop) headsUpTo(ctx context.Context, k *state, isNext bool, heads lister) (last string, err error) {
	after, before, own := l.newestAccepted(), l.seen.accepted.TreeHead, headName(k.TreeSize, k.Timestamp)
	for {
		names, err := heads(ctx, after)
		if err != nil {
			return "", err
		}
		for _, name := range names {
			if name > own {
				return last, l.whyLater(ctx, k, name)
			}
			if name == own {
				continue
			}
			size, timestamp, err := headNamed(name)
			if err != nil {
				return "", err
			}
			if isNext || !follows(size, timestamp, before) ||
				!follows(k.TreeSize, k.Timestamp, ct.TreeHead{TreeSize: size, Timestamp: timestamp}) {
				return "", foreign(k, name)
			}
			last, before = name, ct.TreeHead{TreeSize: size, Timestamp: timestamp}
		}
		if len(names) < blob.MaxListed {
			return last, nil
		}
		after = names[len(names)-1]
	}
}

// foreign is the refusal of a state beside which the store has a head of another history.
func foreign(k *state, name string) error {
	return fmt.Errorf("%w: it has %d entries at %d ms, and the store has %s", ErrRolledBack, k.TreeSize, k.Timestamp, name)
}

// continues returns ErrRolledBack if the state of a text that was read is neither the newest one that this node knows nor
// a later one.
func (l *Loop) continues(k *state) error {
	before := l.seen.newest
	if before == nil || k.TreeHead == before.TreeHead || follows(k.TreeSize, k.Timestamp, before.TreeHead) {
		return nil
	}
	return fmt.Errorf("%w: it had %d entries at %d ms, and has %d at %d ms", ErrRolledBack, before.TreeSize,
		before.Timestamp, k.TreeSize, k.Timestamp)
}

// keepLater keeps the state of a text that was read, if it is later than the newest one that this node knows: a node
// must never take an older text than one that it read. A text that is not a log's is refused when it is read again.
func (l *Loop) keepLater(text string) {
	before := l.seen.newest
	if k, err := l.read(text); err == nil && (before == nil || follows(k.TreeSize, k.Timestamp, before.TreeHead)) {
		l.seen.newest = k
	}
}

// checkCurrent returns errMoves if the lock has another text than a state's by now. If that one is later, it is kept.
func (l *Loop) checkCurrent(ctx context.Context, k *state) error {
	text, err := l.config.Stores.Lock.Read(ctx)
	if err != nil {
		return fmt.Errorf("node: the lock: %w", err)
	}
	if text == k.text {
		return nil
	}
	l.keepLater(text)
	return errMoves
}

// whyLater returns why the store has a later head, of that name, than a state's: errMoves if other nodes went on
// meanwhile, or else ErrRolledBack.
func (l *Loop) whyLater(ctx context.Context, k *state, name string) error {
	if err := l.checkCurrent(ctx, k); err != nil {
		return err
	}
	return foreign(k, name)
}

// extends returns ErrRolledBack unless the proved decision accepts a state's head after another head, by a consistency
// proof (docs/NODE.md, "A lock that falls").
func (l *Loop) extends(ctx context.Context, k *state, head ct.TreeHead, objects []step.Object) error {
	if head == (ct.TreeHead{}) {
		// Nothing was accepted before.
		return nil
	}
	var proof [][32]byte
	if head.TreeSize < k.TreeSize {
		var err error
		if proof, err = l.consistency(ctx, head.TreeSize, k.TreeHead, l.reading(objects)); err != nil {
			return err
		}
	}
	if err := wagtenib.NodeAccept(head, k.TreeHead, proof); err != nil {
		return fmt.Errorf("%w: its %d entries at %d ms do not continue the %d at %d ms that the log had: %v",
			ErrRolledBack, k.TreeSize, k.Timestamp, head.TreeSize, head.Timestamp, err)
	}
	return nil
}

// looksBack checks that neither the store nor the lock knows a later head than the state of the lock's text. This node
// could not read the lock for a while, so it does not know what was decided meanwhile.
func (l *Loop) looksBack(ctx context.Context, k *state) error {
	later, err := l.config.Stores.Objects.List(ctx, headsPrefix, headName(k.TreeSize, k.Timestamp), 1)
	if err != nil {
		return fmt.Errorf("node: the heads: %w", err)
	}
	if len(later) > 0 {
		return l.whyLater(ctx, k, later[0])
	}
	published, err := l.config.Stores.Lock.Published(ctx)
	if err != nil {
		return fmt.Errorf("node: the lock: %w", err)
	}
	if !publishedBy(k.TreeHead).Before(published) {
		return nil
	}
	if err := l.checkCurrent(ctx, k); err != nil {
		return err
	}
	return fmt.Errorf("%w: it has %d entries at %d ms, and %d at %d ms are published", ErrRolledBack, k.TreeSize,
		k.Timestamp, published.Size, published.Timestamp)
}
