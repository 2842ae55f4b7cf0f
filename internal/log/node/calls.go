package node

import (
	"context"
	"time"

	"wagtenib/internal/blob"
)

// limited gives each call to a store a time limit. A node calls its stores only through it, so no call can hold the node
// for ever.
type limited struct {
	clock Clock
	long  time.Duration
	of    Stores
}

func limit(config Config) Stores {
	l := &limited{config.Machine.Clock, config.Pace.Call, config.Stores}
	all := Stores{Objects: limitedObjects{l}, Lock: limitedLock{l}, Index: limitedIndex{l}}
	if config.Stores.Current != nil {
		all.Current = limitedCurrent{l}
	}
	return all
}

// within calls a function with the time limit.
func within[T any](ctx context.Context, l *limited, call func(context.Context) (T, error)) (T, error) {
	ctx, cancel := l.clock.Within(ctx, l.long)
	defer cancel()
	return call(ctx)
}

// nothing is the result of a call that only succeeds or fails.
type nothing struct{}

// done calls a function that has no result with the time limit.
func done(ctx context.Context, l *limited, call func(context.Context) error) error {
	_, err := within(ctx, l, func(ctx context.Context) (nothing, error) { return nothing{}, call(ctx) })
	return err
}

type limitedObjects struct{ *limited }

func (o limitedObjects) Put(ctx context.Context, name string, content []byte) error {
	return done(ctx, o.limited, func(ctx context.Context) error { return o.of.Objects.Put(ctx, name, content) })
}

func (o limitedObjects) Get(ctx context.Context, name string, max int64) ([]byte, error) {
	return within(ctx, o.limited, func(ctx context.Context) ([]byte, error) { return o.of.Objects.Get(ctx, name, max) })
}

func (o limitedObjects) List(ctx context.Context, prefix, after string, max int) ([]string, error) {
	return within(ctx, o.limited, func(ctx context.Context) ([]string, error) {
		return o.of.Objects.List(ctx,
			prefix, after, max)
	})
}

func (o limitedObjects) Delete(ctx context.Context, name string) error {
	return done(ctx, o.limited, func(ctx context.Context) error { return o.of.Objects.Delete(ctx, name) })
}

type limitedCurrent struct{ *limited }

func (c limitedCurrent) Swap(ctx context.Context, name string, old, new []byte) error {
	return done(ctx, c.limited, func(ctx context.Context) error { return c.of.Current.Swap(ctx, name, old, new) })
}

type limitedLock struct{ *limited }

func (l limitedLock) Create(ctx context.Context, text string) error {
	return done(ctx, l.limited, func(ctx context.Context) error { return l.of.Lock.Create(ctx, text) })
}

func (l limitedLock) Read(ctx context.Context) (string, error) {
	return within(ctx, l.limited, l.of.Lock.Read)
}

func (l limitedLock) Swap(ctx context.Context, old, new string) error {
	return done(ctx, l.limited, func(ctx context.Context) error { return l.of.Lock.Swap(ctx, old, new) })
}

func (l limitedLock) Published(ctx context.Context) (blob.Published, error) {
	return within(ctx, l.limited, l.of.Lock.Published)
}

func (l limitedLock) Raise(ctx context.Context, published blob.Published) error {
	return done(ctx, l.limited, func(ctx context.Context) error { return l.of.Lock.Raise(ctx, published) })
}

type limitedIndex struct{ *limited }

func (i limitedIndex) Find(ctx context.Context,
	identities []blob.Identity) (map[blob.Identity]blob.Place, error) {
	return within(ctx, i.limited, func(ctx context.Context) (map[blob.Identity]blob.Place, error) {
		return i.of.Index.Find(ctx, identities)
	})
}

func (i limitedIndex) FindLeaves(ctx context.Context,
	hashes []blob.Identity) (map[blob.Identity]blob.Place, error) {
	return within(ctx, i.limited, func(ctx context.Context) (map[blob.Identity]blob.Place, error) {
		return i.of.Index.FindLeaves(ctx, hashes)
	})
}

func (i limitedIndex) Add(ctx context.Context, rows []blob.Row) error {
	return done(ctx, i.limited, func(ctx context.Context) error { return i.of.Index.Add(ctx, rows) })
}

func (i limitedIndex) Replace(ctx context.Context, rows []blob.Row) error {
	return done(ctx, i.limited, func(ctx context.Context) error { return i.of.Index.Replace(ctx, rows) })
}
