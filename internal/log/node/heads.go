package node

import (
	"context"
	"errors"
	"fmt"
	"strings"

	"golang.org/x/mod/sumdb/note"

	"wagtenib/internal/blob"
	"wagtenib/internal/ct"
	"wagtenib/internal/log/node/step"
	"wagtenib/internal/log/signer"
)

// publishedBy returns how far a log is published once it has published a head.
func publishedBy(head ct.TreeHead) blob.Published {
	return blob.Published{Size: head.TreeSize, Timestamp: head.Timestamp}
}

// isBefore reports whether a head comes before another one of the same history.
func isBefore(head, other ct.SignedHead) bool {
	return publishedBy(head.TreeHead).Before(publishedBy(other.TreeHead))
}

var (
	// errOtherHead: the object under a head's name is not that head.
	errOtherHead = errors.New("node: a head's object is not that head")
	errNote      = errors.New("it is not a signed head of this log")
	// errForeign: a note is another log's, or another key signed it.
	errForeign = errors.New("it is a head of another log")
)

// isPublished reports whether a state's head is published. Then all of the state is.
func (l *Loop) isPublished(ctx context.Context, k *state) (bool, error) {
	if k.IsBegin() || l.last.published == k.line {
		return true, nil
	}
	published, err := l.config.Stores.Lock.Published(ctx)
	if err != nil {
		return false, fmt.Errorf("node: the lock: %w", err)
	}
	if published.Size < k.TreeSize {
		return false, nil
	}
	head, err := l.headOf(ctx, k)
	if !published.Before(publishedBy(k.TreeHead)) && (errors.Is(err, blob.ErrAbsent) || errors.Is(err, errOtherHead)) {
		// It was published, so all of the state was in the store.
		restored, failed := l.restore(ctx, k)
		if !errors.Is(failed, errNoBatch) {
			head, err = restored, failed
		}
	}
	if errors.Is(err, blob.ErrAbsent) {
		return false, nil
	}
	if err != nil {
		return false, err
	}
	if err := l.accept(ctx, k, nil); err != nil {
		return false, err
	}
	if err := l.knowsNewest(ctx, k); err != nil {
		return false, err
	}
	if err := l.raise(ctx, published, head, k.line); err != nil {
		return false, err
	}
	l.last.published = k.line
	return true, nil
}

// headOf reads the head of a state. A head that is not the state's is an error.
func (l *Loop) headOf(ctx context.Context, k *state) (ct.SignedHead, error) {
	head, err := l.readHead(ctx, headName(k.TreeSize, k.Timestamp))
	if err != nil {
		return ct.SignedHead{}, err
	}
	return head, matches(head, k)
}

// matches returns an error unless a head is a state's.
func matches(head ct.SignedHead, k *state) error {
	name := headName(k.TreeSize, k.Timestamp)
	if head.TreeSize != k.TreeSize || head.Timestamp != k.Timestamp {
		return fmt.Errorf("%w: %w: %s has the head of %d entries at %d ms", ErrDamaged, errOtherHead, name, head.TreeSize,
			head.Timestamp)
	}
	if head.Root != k.Root {
		return fmt.Errorf("%w: the lock's text has another root than the signed head %s", ErrDamaged, name)
	}
	return nil
}

// raise says that a head is published, all of which is in the store, and shows it to readers. The checkpoint comes
// first: a head that is published is one that readers without a node can fetch.
func (l *Loop) raise(ctx context.Context, published blob.Published, head ct.SignedHead, line string) error {
	if err := l.putCheckpoint(ctx, head); err != nil {
		return err
	}
	if published.Before(publishedBy(head.TreeHead)) {
		if err := l.config.Stores.Lock.Raise(ctx, publishedBy(head.TreeHead)); err != nil {
			return fmt.Errorf("node: the lock: %w", err)
		}
	}
	l.show(head, line)
	return nil
}

// restore repairs the newest state as far as its staged batch allows: it puts objects that are missing or have another
// content, and the state's head.
func (l *Loop) restore(ctx context.Context, k *state) (ct.SignedHead, error) {
	newest, err := l.learn(ctx)
	if err != nil {
		return ct.SignedHead{}, err
	}
	if newest.text != k.text {
		return ct.SignedHead{}, errMoves
	}
	l.edge = map[string][]byte{}
	resumed, err := l.resume(ctx, k)
	if err != nil {
		return ct.SignedHead{}, err
	}
	if err := l.accept(ctx, k, resumed.Objects); err != nil {
		return ct.SignedHead{}, err
	}
	for _, object := range resumed.Objects {
		if err := l.putRight(ctx, object.Name, object.Content); err != nil {
			return ct.SignedHead{}, fmt.Errorf("node: %w", err)
		}
	}
	head, err := l.headOf(ctx, k)
	if !errors.Is(err, blob.ErrAbsent) && !errors.Is(err, errOtherHead) {
		return head, err
	}
	head, err = l.signedHead(ctx, k, resumed.Checkpoint, resumed.Objects)
	if errors.Is(err, signer.ErrRefused) {
		err = l.whyRefused(ctx, k, err)
	}
	if err != nil {
		return ct.SignedHead{}, err
	}
	if err := l.cosign(ctx, k, &head, resumed.Objects); err != nil {
		return ct.SignedHead{}, err
	}
	if head, err = l.putRestored(ctx, k, head); err != nil {
		return ct.SignedHead{}, fmt.Errorf("node: %w", err)
	}
	return head, nil
}

// putHead has a state's head signed, and puts it while another function runs. If another node has put the head, that one
// is used: the signatures of one head differ. The signer refuses a head that is older than its last one. Then the other
// node's head is in the store, or a later one.
func (l *Loop) putHead(
	ctx context.Context, k *state, checkpoint string, objects []step.Object, beside func(context.Context) error,
) (ct.SignedHead, error) {
	made, err := l.signedHead(ctx, k, checkpoint, objects)
	if errors.Is(err, signer.ErrRefused) {
		if stored, absent := l.headOf(ctx, k); absent == nil {
			return stored, nil
		}
		err = l.whyRefused(ctx, k, err)
	}
	if err != nil {
		return ct.SignedHead{}, err
	}
	if err := l.cosign(ctx, k, &made, objects); err != nil {
		return ct.SignedHead{}, err
	}
	put := func(ctx context.Context) error {
		return l.config.Stores.Objects.Put(ctx, headName(k.TreeSize, k.Timestamp), made.Signed)
	}
	err = l.config.Machine.Parallel(ctx, put, beside)
	if errors.Is(err, blob.ErrOther) {
		return l.headOf(ctx, k)
	}
	if err != nil {
		return ct.SignedHead{}, fmt.Errorf("node: the head: %w", err)
	}
	return made, nil
}

// whyRefused returns what the signer's refusal of a state's head means. The refusal counts only if the lock still has
// the state. If it has another one, other nodes went on, and if it cannot be read, they may have.
func (l *Loop) whyRefused(ctx context.Context, k *state, refused error) error {
	newest, err := l.learn(ctx)
	if err != nil {
		return err
	}
	if newest.text != k.text {
		return errMoves
	}
	return refused
}

// putRestored puts a state's head over anything else under its name, but not over one that another node restored
// meanwhile. The signatures of one head differ, so its object may have several contents, and no right one is deleted.
func (l *Loop) putRestored(ctx context.Context, k *state, head ct.SignedHead) (ct.SignedHead, error) {
	name := headName(k.TreeSize, k.Timestamp)
	err := l.config.Stores.Objects.Put(ctx, name, head.Signed)
	if errors.Is(err, blob.ErrOther) {
		stored, wrong := l.headOf(ctx, k)
		if !errors.Is(wrong, errOtherHead) {
			return stored, wrong
		}
		if err = l.config.Stores.Objects.Delete(ctx, name); err == nil {
			err = l.config.Stores.Objects.Put(ctx, name, head.Signed)
		}
	}
	if err == nil {
		l.config.Machine.Observer.Repaired(name)
	}
	return head, err
}

// maxAsked is how often the signer is asked again, since another node had it approve a head meanwhile.
const maxAsked = 5

// signedHead has a state's head signed, over a proof from the signer's last head. That is the one that this node had it
// sign before, unless the signer refuses: only then it is asked, since another node may have had a later one signed.
func (l *Loop) signedHead(ctx context.Context, k *state, checkpoint string, objects []step.Object) (ct.SignedHead, error) {
	lastHead, isRemembered, signed := l.last.signed, l.last.signed != nil, []byte(nil)
	// If the signer does not answer, it may have approved the head.
	l.last.signed = nil
	for try := 0; ; try++ {
		var err error
		if lastHead == nil {
			if lastHead, err = l.config.Signer.Last(ctx); err != nil {
				return ct.SignedHead{}, fmt.Errorf("node: the signer: %w", err)
			}
		}
		var proof [][32]byte
		if lastHead != nil && lastHead.TreeSize < k.TreeSize {
			if proof, err = l.consistency(ctx, lastHead.TreeSize, k.TreeHead, l.reading(objects)); err != nil {
				return ct.SignedHead{}, err
			}
		}
		if signed, err = l.config.Signer.SignHead(ctx, k.TreeHead, proof); err == nil {
			break
		}
		// A refusal over a head that was not asked for says nothing.
		isOlder := isRemembered && errors.Is(err, signer.ErrRefused)
		if try+1 == maxAsked || !isOlder && !l.moved(ctx, lastHead, err) {
			return ct.SignedHead{}, fmt.Errorf("node: the signer: a head of %d entries at %d ms: %w", k.TreeSize, k.Timestamp, err)
		}
		lastHead, isRemembered = nil, false
	}
	if head := k.TreeHead; l.config.Signer.IsGuarded() {
		l.last.signed = &head
	}
	made, err := l.parseNote([]byte(checkpoint + "\n" + ct.SignatureLine(l.verifier, k.Timestamp, signed)))
	if err != nil || matches(made, k) != nil {
		return ct.SignedHead{}, fmt.Errorf("node: the step's note is not one of %s: %w", l.config.Origin, errNote)
	}
	return made, nil
}

// moved reports whether the signer refused since its last head is another one by now.
func (n *Node) moved(ctx context.Context, last *ct.TreeHead, err error) bool {
	if errors.Is(err, signer.ErrMoved) {
		return true
	}
	if !errors.Is(err, signer.ErrRefused) {
		return false
	}
	now, err := n.config.Signer.Last(ctx)
	return err == nil && now != nil && (last == nil || *now != *last)
}

// readHead reads a head and checks its signature.
func (n *Node) readHead(ctx context.Context, name string) (ct.SignedHead, error) {
	content, err := n.config.Stores.Objects.Get(ctx, name, maxNote)
	if err != nil {
		return ct.SignedHead{}, fmt.Errorf("node: %s: %w", name, err)
	}
	head, err := n.parseNote(content)
	if err != nil {
		return ct.SignedHead{}, fmt.Errorf("%w: %w: %s: %w", ErrDamaged, errOtherHead, name, err)
	}
	return head, nil
}

// foreign returns why a note could not be verified: errForeign if it has another origin than the settings or another key
// signed it, and errNote if its first signature is not its origin's. It returns nil after any other error, or none.
func (n *Node) foreign(err error) error {
	var of *note.UnverifiedNoteError
	if !errors.As(err, &of) {
		return nil
	}
	origin, _, _ := strings.Cut(of.Note.Text, "\n")
	switch {
	case of.Note.UnverifiedSigs[0].Name != origin:
		return errNote
	case origin != n.config.Origin:
		return fmt.Errorf("%w: it has the origin %.80q, and the settings have %q", errForeign, origin, n.config.Origin)
	}
	return fmt.Errorf("%w: another key than the settings' signed it", errForeign)
}

// parseNote reads a head's note. The first signature must be the log's, and it must be right.
func (n *Node) parseNote(content []byte) (ct.SignedHead, error) {
	head, err := ct.OpenNote(content, n.verifier)
	if foreign := n.foreign(err); foreign != nil {
		return ct.SignedHead{}, foreign
	}
	_, lines, _ := strings.Cut(string(content), "\n\n")
	if err != nil || !strings.HasPrefix(lines, "— "+n.config.Origin+" ") {
		return ct.SignedHead{}, errNote
	}
	return head, nil
}
