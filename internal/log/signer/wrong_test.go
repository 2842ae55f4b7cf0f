package signer

import (
	"context"
	"errors"
	"testing"
	"wagtenib/internal/ct"
)

// changingSigner is a signer whose signatures are changed.
type changingSigner struct {
	Signer
	change func(signed [][]byte) [][]byte
}

func (w changingSigner) SignHead(ctx context.Context, head ct.TreeHead, consistency [][32]byte) ([]byte, error) {
	signed, err := w.Signer.SignHead(ctx, head, consistency)
	if err != nil {
		return nil, err
	}
	return w.change([][]byte{signed})[0], nil
}

func (w changingSigner) SignTimestamps(ctx context.Context, receipts []Receipt) ([][]byte, error) {
	signed, err := w.Signer.SignTimestamps(ctx, receipts)
	if err != nil {
		return nil, err
	}
	return w.change(signed), nil
}

func (w changingSigner) SignStep(ctx context.Context, step Step) ([][]byte, error) {
	signed, err := w.Signer.SignStep(ctx, step)
	if err != nil {
		return nil, err
	}
	return w.change(signed), nil
}

// TestWrongSigner asks a signer in another process that returns wrong signatures, or too few. The client returns none
// of them.
func TestWrongSigner(t *testing.T) {
	t.Parallel()
	ctx, key, l := limited(t), newKey(t), listOf(t, 3, 3)
	head, other := l.head(t, 3, 5), l.head(t, 3, 6)
	receipts := []Receipt{l.receipt(t, 0, 3), l.receipt(t, 1, 3)}
	foreign, err := newKey(t).SignHead(ctx, head, nil)
	must(t, err)
	later, err := key.SignHead(ctx, other, nil)
	must(t, err)
	for what, wrong := range map[string]struct {
		change          func(signed [][]byte) [][]byte
		heads, receipts bool
	}{
		"unchanged": {func(signed [][]byte) [][]byte { return signed }, true, true},
		"without the last one": {func(signed [][]byte) [][]byte {
			return append(signed[:len(signed)-1:len(signed)-1],
				nil)
		}, false, false},
		"of another key": {func(signed [][]byte) [][]byte {
			return append([][]byte{foreign},
				signed[1:]...)
		}, false, false},
		"of another head": {func(signed [][]byte) [][]byte {
			return append([][]byte{later},
				signed[1:]...)
		}, false, false},
		"in reverse order": {func(signed [][]byte) [][]byte {
			return [][]byte{signed[len(signed)-1],
				signed[0]}
		}, true, false},
		"one less": {func(signed [][]byte) [][]byte { return signed[:1] }, true, false},
		"one more": {func(signed [][]byte) [][]byte { return append(signed, signed[0]) }, true, false},
	} {
		c := socketClient(ctx, t, changingSigner{key, wrong.change})
		signed, err := c.SignHead(ctx, head, nil)
		if (err == nil) != wrong.heads || err != nil && !errors.Is(err, ErrReply) || err == nil &&
			CheckHead(key.Key(), head, signed) != nil {
			t.Errorf("%s: a head: %v", what, err)
		}
		all, err := c.SignTimestamps(ctx, receipts)
		if (err == nil) != wrong.receipts || err != nil && (!errors.Is(err, ErrReply) || all != nil) {
			t.Errorf("%s: timestamps: %v", what, err)
		}
		all, err = c.SignStep(ctx, l.step(t, 1, 3))
		if (err == nil) != wrong.receipts || err != nil && (!errors.Is(err, ErrReply) || all != nil) {
			t.Errorf("%s: timestamps of a step: %v", what, err)
		}
	}
}
