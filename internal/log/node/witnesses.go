package node

import (
	"bytes"
	"context"
	"errors"
	"fmt"
	"net/http"
	"strconv"
	"strings"
	"sync"
	"time"

	"golang.org/x/mod/sumdb/note"

	"wagtenib/internal/ct"
	"wagtenib/internal/log/node/step"
	"wagtenib/internal/witness"
)

// If all stores of a log are rolled back together, its nodes cannot see that, but its witnesses saw more. A head is
// signed, then cosigned by enough witnesses, then published. Before a node takes anything, enough witnesses must cosign
// the newest head again, and none may say that it saw more (docs/WITNESS.md).

// Witness is one witness of the log (C2SP tlog-witness). witness.Client is one over HTTP.
type Witness interface {
	// Verifier is the key of its cosignatures (witness.OfCosigner).
	Verifier() note.Verifier
	// AddCheckpoint posts the body of an add-checkpoint request, and returns the status and the body of the answer.
	AddCheckpoint(ctx context.Context, body []byte) (status int, answer string, err error)
}

// Witnesses are all witnesses of the log, and how many of them must cosign. Without witnesses, heads are published by
// the log's signature only.
type Witnesses struct {
	All     []Witness
	Quorums witness.Quorums
}

// check returns ErrConfig unless any two heads that enough witnesses cosigned are of one list.
func (w Witnesses) check(cosign time.Duration) error {
	if len(w.All) == 0 {
		return nil
	}
	if err := w.Quorums.Check(len(w.All)); err != nil {
		return fmt.Errorf("%w: %w", ErrConfig, err)
	}
	names := map[string]bool{}
	for _, one := range w.All {
		if names[one.Verifier().Name()] {
			return fmt.Errorf("%w: two witnesses have the name %s", ErrConfig, one.Verifier().Name())
		}
		names[one.Verifier().Name()] = true
	}
	if cosign <= 0 {
		return fmt.Errorf("%w: Cosign of Pace is not above 0", ErrConfig)
	}
	return nil
}

// maxUnvouched is for how long a node may not have read the lock, until the newest head must be cosigned again before
// anything is taken.
const maxUnvouched = time.Minute

var (
	// ErrWitnessAhead: a witness cosigned a later head than the one that it is shown, or another one of its size.
	ErrWitnessAhead = errors.New("node: a witness saw more")
	// errEnough ends the calls to the other witnesses.
	errEnough = errors.New("node: enough witnesses cosigned")
)

// cosign adds the lines of enough cosignatures to a head that the log signed. No head may be put before that. The first
// head of a node that is not vouched is also the one with which it starts. It may be the first one of a log that begins
// again from nothing, of which the witnesses saw more.
func (l *Loop) cosign(ctx context.Context, k *state, head *ct.SignedHead, objects []step.Object) error {
	if len(l.config.Witnesses.All) == 0 {
		return nil
	}
	quorums := l.config.Witnesses.Quorums
	a := &asking{k: k, note: head.Signed, objects: objects, min: quorums.Publish}
	if !l.seen.isVouched {
		a.min, a.isWhole = max(quorums.Publish, quorums.Start), true
	}
	lines, err := l.gather(ctx, a)
	if err != nil {
		return err
	}
	l.seen.isVouched = true
	head.Signed = append(bytes.Clone(head.Signed), lines...)
	return nil
}

// vouch has enough witnesses cosign the newest published head again, before anything is taken.
func (l *Loop) vouch(ctx context.Context, k *state) error {
	if len(l.config.Witnesses.All) == 0 || l.seen.isVouched || k.IsBegin() {
		return nil
	}
	head, err := l.headOf(ctx, k)
	if err != nil {
		// The next round looks for the head again, and makes it if it is missing.
		l.last.published = ""
		return err
	}
	if _, err := l.gather(ctx, &asking{k: k, note: ownNote(head.Signed),
		min: l.config.Witnesses.Quorums.Start, isWhole: true}); err != nil {
		return err
	}
	l.seen.isVouched = true
	return nil
}

// askTime has the witnesses cosign the newest head again now and then, while the clock is wrong: their cosignatures say
// what time it is. What keeps them from it is reported once the clock is right.
func (l *Loop) askTime(ctx context.Context, k *state) {
	now := l.config.Machine.Clock.Elapsed()
	if len(l.config.Witnesses.All) == 0 || l.config.Machine.Sources == nil || now-l.seen.asked < maxUnvouched {
		return
	}
	l.seen.asked, l.seen.isVouched = now, false
	// An error keeps isVouched false, so the next round that takes something asks again.
	_ = l.vouch(ctx, k)
}

// ownNote returns a note with its first line of a signature only, which is the log's.
func ownNote(signed []byte) []byte {
	text := bytes.Index(signed, []byte("\n\n")) + 2
	return signed[:text+bytes.IndexByte(signed[text:], '\n')+1]
}

// asking is one head for which all witnesses are asked, and what they answered.
type asking struct {
	k       *state
	note    []byte
	objects []step.Object
	// min is how many must cosign. isWhole says that all are waited for, and that none may have seen more.
	min     int
	isWhole bool

	mu sync.Mutex
	// lines are the cosignatures, and given is how many they are.
	lines []byte
	given int
	// ahead is the error of a witness that saw more, and other the error of one that did not cosign for another reason.
	ahead, other error
}

// keep keeps the outcome of asking one witness, and returns errEnough if no other one needs to be waited for.
func (a *asking) keep(line string, err error) error {
	a.mu.Lock()
	defer a.mu.Unlock()
	switch {
	case !a.isWhole && a.given >= a.min:
		return errEnough
	case errors.Is(err, ErrWitnessAhead):
		a.ahead = err
	case err != nil:
		a.other = err
	default:
		a.given++
		a.lines = append(a.lines, line...)
	}
	if !a.isWhole && a.given >= a.min {
		return errEnough
	}
	return nil
}

// gather asks all witnesses at once, and returns the lines of those that cosigned. Unless all are waited for, the calls
// to the others end with the last cosignature that is needed.
func (l *Loop) gather(ctx context.Context, a *asking) ([]byte, error) {
	all := l.config.Witnesses.All
	calls := make([]func(context.Context) error, len(all))
	for i := range all {
		calls[i] = func(ctx context.Context) error {
			line, err := l.cosignature(ctx, i, a)
			l.config.Machine.Observer.Cosigned(all[i].Verifier().Name(), err)
			return a.keep(line, err)
		}
	}
	if err := l.config.Machine.Parallel(ctx, calls...); err != nil && !errors.Is(err, errEnough) {
		return nil, fmt.Errorf("node: the witnesses: %w", err)
	}
	switch {
	case a.given >= a.min && (a.ahead == nil || !a.isWhole):
		return a.lines, nil
	case a.ahead != nil:
		return nil, l.whyAhead(ctx, a)
	}
	return nil, fmt.Errorf("%w: of %d entries at %d ms: %d of %d did, and %d are needed: %w", ErrWitnesses, a.k.TreeSize,
		a.k.Timestamp, a.given, len(all), a.min, a.other)
}

// whyAhead returns why a witness saw more: errMoves if other nodes went on meanwhile, or else ErrRolledBack.
func (l *Loop) whyAhead(ctx context.Context, a *asking) error {
	if err := l.checkCurrent(ctx, a.k); err != nil {
		return err
	}
	return fmt.Errorf("%w: it has %d entries at %d ms: %v", ErrRolledBack, a.k.TreeSize, a.k.Timestamp, a.ahead)
}

// cosignature has one witness cosign a head. It is asked from the size that it is known to have cosigned last, and then
// from the one that it says. Only the goroutine that asks this witness uses its number in witnessed.
func (l *Loop) cosignature(ctx context.Context, which int, a *asking) (line string, err error) {
	ctx, cancel := l.config.Machine.Clock.Within(ctx, l.config.Pace.Cosign)
	defer cancel()
	one, old := l.config.Witnesses.All[which], l.witnessed[which]
	name := one.Verifier().Name()
	for range maxAsked {
		r := witness.Request{Old: min(old, a.k.TreeSize), Note: a.note}
		if r.Old < a.k.TreeSize {
			if r.Proof, err = l.consistency(ctx, r.Old, a.k.TreeHead, l.reading(a.objects)); err != nil {
				return "", err
			}
		}
		status, answer, err := one.AddCheckpoint(ctx, r.Body())
		if err != nil {
			return "", fmt.Errorf("node: the witness %s: %w", name, err)
		}
		switch status {
		case http.StatusOK:
			if line, err = cosignedLine(one.Verifier(), a.note, answer); err == nil {
				l.witnessed[which] = a.k.TreeSize
			}
			return line, err
		case http.StatusConflict:
			if old, err = lastSize(answer, r.Old, a.k.TreeSize); err != nil {
				return "", fmt.Errorf("node: the witness %s: %w", name, err)
			}
			l.witnessed[which] = old
		case http.StatusUnprocessableEntity:
			return "", fmt.Errorf("%w: %s refuses the proof from %d entries to %d: %.80q", ErrWitnessAhead, name, r.Old,
				a.k.TreeSize, answer)
		default:
			return "", fmt.Errorf("node: the witness %s answers %d: %.80q", name, status, answer)
		}
	}
	return "", fmt.Errorf("node: the witness %s says another size each time", name)
}

// lastSize reads the size of the tree that a witness says that it cosigned last. It was asked from the size old.
func lastSize(answer string, old, size uint64) (last uint64, err error) {
	last, err = strconv.ParseUint(strings.TrimSuffix(answer, "\n"), 10, 63)
	switch {
	case err != nil:
		return 0, fmt.Errorf("it answers no size: %.80q", answer)
	case last > size:
		return 0, fmt.Errorf("%w: it has seen %d entries, and the head has %d", ErrWitnessAhead, last, size)
	case last == size && old == size:
		return 0, fmt.Errorf("%w: another root of %d entries", ErrWitnessAhead, size)
	}
	return last, nil
}

// cosignedLine returns the line of a witness's own cosignature of a note.
func cosignedLine(of note.Verifier, signed []byte, answer string) (string, error) {
	text := string(signed[:bytes.Index(signed, []byte("\n\n"))+1])
	opened, err := note.Open([]byte(text+"\n"+answer), note.VerifierList(of))
	if err != nil || opened.Text != text || len(opened.Sigs) != 1 {
		return "", fmt.Errorf("node: the witness %s answers no cosignature of its key", of.Name())
	}
	return "— " + of.Name() + " " + opened.Sigs[0].Base64 + "\n", nil
}
