package signer

import (
	"sync/atomic"
	"testing"
	"time"

	"wagtenib/internal/testkit"
)

// erringClient returns a client of a signer whose signatures have these indexes wrong in each reply, from first to last.
// The test may change both.
func erringClient(t *testing.T) (c *Client, first, last *atomic.Int64) {
	t.Helper()
	first, last = &atomic.Int64{}, &atomic.Int64{}
	last.Store(-1)
	foreign, err := newKey(t).sign([]byte("another message"))
	must(t, err)
	return socketClient(limited(t), t, changingSigner{newKey(t), func(signed [][]byte) [][]byte {
		for at := first.Load(); at <= min(last.Load(), int64(len(signed))-1); at++ {
			signed[at] = foreign
		}
		return signed
	}}), first, last
}

// receiptsOf returns so many receipts of a list with three leaves.
func receiptsOf(t *testing.T, count int) (receipts []Receipt) {
	t.Helper()
	l := listOf(t, 3, 3)
	for i := range count {
		receipts = append(receipts, l.receipt(t, i%3, 3))
	}
	return receipts
}

// TestVerifiesTimestamps asks a signer that returned many correct signatures, and then one wrong signature in each
// reply. The client finds it, wherever it is.
func TestVerifiesTimestamps(t *testing.T) {
	t.Parallel()
	ctx := limited(t)
	c, first, last := erringClient(t)
	receipts := receiptsOf(t, 128)
	for range 3 {
		_, err := c.SignTimestamps(ctx, receipts)
		must(t, err)
	}
	for wrong := range int64(17) {
		at := 127 - wrong
		first.Store(at)
		last.Store(at)
		signed, err := c.SignTimestamps(ctx, receipts)
		wantError(t, err, ErrReply)
		wantError(t, err, ErrSignature)
		if signed != nil || c.WrongSignatures() != uint64(wrong)+1 {
			t.Errorf("the wrong signature %d: %d were returned, and %d replies were wrong", at, len(signed),
				c.WrongSignatures())
		}
	}
	last.Store(-1)
	_, err := c.SignTimestamps(ctx, receipts)
	must(t, err)
	if verified, unverified := c.Timestamps(); verified != 4*128 || unverified != 0 {
		t.Errorf("%d were verified, and %d were not", verified, unverified)
	}
}

// TestSamplesTimestampsAboveLoad asks for more timestamps than the client may verify. It verifies one of each reply,
// until a signature is wrong. After that it verifies all of them. It verifies each head.
func TestSamplesTimestampsAboveLoad(t *testing.T) {
	t.Parallel()
	ctx, l := limited(t), listOf(t, 3, 3)
	receipts := receiptsOf(t, 128)
	for what, sign := range map[string]func(c *Client) error{
		"timestamps": func(c *Client) error {
			_, err := c.SignTimestamps(ctx, receipts)
			return err
		},
		"a head": func(c *Client) error {
			_, err := c.SignHead(ctx, l.head(t, 3, 5), nil)
			return err
		},
	} {
		c, first, last := erringClient(t)
		c.budget = budget{perSecond: 1}
		for range 3 {
			_, err := c.SignTimestamps(ctx, receipts)
			must(t, err)
		}
		if verified, unverified := c.Timestamps(); verified != 3 || unverified != 3*127 {
			t.Errorf("%d were verified, and %d were not", verified, unverified)
		}
		last.Store(127)
		if wantError(t, sign(c), ErrSignature); c.WrongSignatures() != 1 {
			t.Errorf("%s: %d replies were wrong", what, c.WrongSignatures())
		}
		for at := range int64(10) {
			first.Store(at)
			last.Store(at)
			_, err := c.SignTimestamps(ctx, receipts)
			wantError(t, err, ErrSignature)
		}
		last.Store(-1)
		_, err := c.SignTimestamps(ctx, receipts)
		must(t, err)
		if verified, unverified := c.Timestamps(); verified != 3+128 || unverified != 3*127 {
			t.Errorf("%s: after a wrong signature %d were verified, and %d were not", what, verified, unverified)
		}
	}
}

// TestPageSaysBounds checks that docs/GUARD.md states how many timestamps a node verifies.
func TestPageSaysBounds(t *testing.T) {
	t.Parallel()
	testkit.Says(t, testkit.Page(t, "../../../docs/GUARD.md"), map[string]bool{
		"- It verifies all SCTs, up to 1,024 a second for each processor.": maxVerified == 1024,
	})
}

// TestBudget takes from a budget of ten a second.
func TestBudget(t *testing.T) {
	t.Parallel()
	began := time.Now()
	b := budget{perSecond: 10}
	for i, step := range []struct {
		after       time.Duration
		count, want int
	}{
		{0, 4, 4}, {0, 4, 4}, {0, 4, 2}, {0, 4, 0},
		// In half a second, half of it comes back. It never has more than a second gives.
		{500 * time.Millisecond, 7, 5}, {time.Hour, 25, 10}, {time.Hour + 100*time.Millisecond, 25, 1},
		{time.Hour + 199*time.Millisecond, 25, 0}, {time.Hour + 210*time.Millisecond, 25, 1}, {2 * time.Hour, 0, 0},
	} {
		if took := b.take(step.count, began.Add(step.after)); took != step.want {
			t.Errorf("%d: it gave %d of %d after %v, and not %d", i, took, step.count, step.after, step.want)
		}
	}
}
