package node

import (
	"bytes"
	"context"
	"errors"
	"fmt"

	"wagtenib/internal/blob"
	"wagtenib/internal/log/node/decider"
	"wagtenib/internal/log/node/step"
)

// errNoBatch: the newest state's staged batch is missing.
var errNoBatch = errors.New("node: no staged batch")

// resume reads the staged batch of a state.
func (l *Loop) resume(ctx context.Context, k *state) (*step.Resumed, error) {
	name := k.look.Seen.Batch
	content, err := l.config.Stores.Objects.Get(ctx, name, blob.MaxObject)
	if errors.Is(err, blob.ErrAbsent) {
		return nil, fmt.Errorf("%w: %s: %w (put it back from a backup)", ErrDamaged, name, errNoBatch)
	}
	if err != nil {
		return nil, fmt.Errorf("node: the staged batch: %w", err)
	}
	resumed, err := l.config.Proved.Steps.Resume(k.line, content)
	var refusal step.Refusal
	if errors.As(err, &refusal) {
		return nil, fmt.Errorf("%w: %s: %v (put it back from a backup)", ErrDamaged, name, err)
	}
	if err != nil {
		return nil, fmt.Errorf("node: %w", err)
	}
	return resumed, nil
}

// putRight puts an object whose only content is known over anything else under its name.
func (l *Loop) putRight(ctx context.Context, name string, content []byte) error {
	stored, err := l.config.Stores.Objects.Get(ctx, name, blob.MaxObject)
	if err == nil && bytes.Equal(stored, content) {
		return nil
	}
	if err != nil && !errors.Is(err, blob.ErrAbsent) && !errors.Is(err, blob.ErrTooLong) {
		return err
	}
	if !errors.Is(err, blob.ErrAbsent) {
		if err := l.config.Stores.Objects.Delete(ctx, name); err != nil {
			return err
		}
	}
	if err := l.config.Stores.Objects.Put(ctx, name, content); err != nil {
		return err
	}
	l.config.Machine.Observer.Repaired(name)
	return nil
}

// findDeletable asks the decider which of the unneeded staged batches no node needs any more, and moves these to the
// deletable ones. It asks at the step that may come next. They may be deleted at any time after that, since a command
// may be carried out late (docs/NODE.md, "The machine").
func (l *Loop) findDeletable() error {
	for _, name := range l.last.unneeded {
		next, err := l.config.Proved.Decider.Next(l.last.stepping, decider.BatchListed(name))
		if err != nil {
			return fmt.Errorf("node: %w", err)
		}
		if next.Do == decider.Delete {
			l.last.deletable = append(l.last.deletable, next.Batch)
		}
	}
	l.last.unneeded = nil
	return nil
}

// deletions returns calls that delete deletable staged batches, at most so many.
func (l *Loop) deletions(most int) (calls []func(context.Context) error) {
	count := min(most, len(l.last.deletable))
	for _, name := range l.last.deletable[:count] {
		calls = append(calls, func(ctx context.Context) error {
			defer l.took(decider.Delete, l.config.Machine.Clock.Elapsed())
			// An object that stays takes room only, so the outcome does not matter.
			_ = l.config.Stores.Objects.Delete(ctx, name)
			return nil
		})
	}
	l.last.deletable = l.last.deletable[count:]
	return calls
}

// deleteStaged deletes all deletable staged batches.
func (l *Loop) deleteStaged(ctx context.Context) {
	if calls := l.deletions(len(l.last.deletable)); len(calls) > 0 {
		// These calls return no error.
		_ = l.config.Machine.Parallel(ctx, calls...)
	}
}

// references names objects for the decider.
func references(objects []step.Object) []string {
	named := make([]string, len(objects))
	for i, object := range objects {
		named[i] = reference(object)
	}
	return named
}
