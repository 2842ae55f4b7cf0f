// Package unknownoutcome contains a lock that does not know the outcome of some of its swaps, for tests of its users.
package unknownoutcome

import (
	"context"
	"fmt"

	"wagtenib/internal/blob"
)

// Lock returns ErrUnknown for two of every Every swaps: it does not make the first one, and makes the second one. Every
// must be at least three. As long as Fails is an error, Create and Swap do nothing and return it.
type Lock struct {
	blob.Lock
	Every int
	Fails error
	swaps int
}

func (r *Lock) Create(ctx context.Context, text string) error {
	if r.Fails != nil {
		return r.Fails
	}
	return r.Lock.Create(ctx, text)
}

func (r *Lock) Swap(ctx context.Context, old, new string) error {
	r.swaps++
	if r.Fails != nil {
		return r.Fails
	}
	switch r.swaps % r.Every {
	case 1:
		return fmt.Errorf("%w: it was not done", blob.ErrUnknown)
	case 2:
		if err := r.Lock.Swap(ctx, old, new); err != nil {
			return err
		}
		return fmt.Errorf("%w: it was done", blob.ErrUnknown)
	}
	return r.Lock.Swap(ctx, old, new)
}
