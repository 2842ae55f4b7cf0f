package signer

import (
	"context"
	"encoding/json"
	"errors"
	"fmt"
	"math/rand/v2"
	"runtime"
	"sync/atomic"
	"time"
	"wagtenib/internal/ct"
)

// maxVerified is how many timestamps a node verifies in a second, for each processor. Verifying one takes about 0.1 ms,
// so this takes about a tenth of the processors' time.
const maxVerified = 1024

// Client is a Signer that asks a signer in another process.
type Client struct {
	asker   *asker
	key     []byte
	guarded bool
	// wrong counts the replies that had a wrong signature.
	wrong atomic.Uint64
	// verified and unverified count the timestamps that the node got.
	verified, unverified atomic.Uint64
	// budget bounds how many timestamps are verified. Only the goroutine that has the asker's turn may use it.
	budget budget
}

// NewClient returns a client of the signer that open (Start or Dial) finds. If the signer is opened again later, it
// must have the same key. The timeout is for one request.
func NewClient(ctx context.Context, open func(context.Context) (*Peer, error), timeout time.Duration) (*Client, error) {
	c := &Client{budget: budget{perSecond: maxVerified * float64(runtime.GOMAXPROCS(0))}}
	c.asker = newAsker(func(ctx context.Context) (*Peer, error) {
		peer, err := open(ctx)
		if err != nil {
			return nil, err
		}
		return c.accept(ctx, peer, timeout)
	}, timeout)
	// The first request opens the signer, so the key is known after it.
	if _, err := c.Last(ctx); err != nil {
		c.Close()
		return nil, err
	}
	return c, nil
}

// accept returns the peer if it has a key, and the key is the same as before. Otherwise it closes the peer.
func (c *Client) accept(ctx context.Context, peer *Peer, timeout time.Duration) (*Peer, error) {
	text, err := peer.exchange(ctx, timeout, []byte("{\"open\":true}\n"))
	if err != nil {
		return nil, err
	}
	var opened reply
	err = json.Unmarshal(text, &opened)
	switch {
	case opened.BadState:
		err = fmt.Errorf("%w: %s", ErrState, opened.Failed)
	case err != nil || len(opened.Key) == 0:
		err = fmt.Errorf("%w: it has no key: %.200q", ErrReply, text)
	case c.key != nil && string(c.key) != string(opened.Key):
		err = fmt.Errorf("%w: the signer has another key than before", ErrKey)
	case c.key != nil && c.guarded != opened.Guarded:
		err = fmt.Errorf("%w: the signer has a guard and had none before, or the other way round", ErrKey)
	}
	if err != nil {
		peer.Close()
		return nil, err
	}
	if c.key == nil {
		c.key, c.guarded = opened.Key, opened.Guarded
	}
	return peer, nil
}

// Close ends the process, or closes the connection.
func (c *Client) Close() error {
	c.asker.close()
	return nil
}

// Starts returns how many times the signer was started, or connected to.
func (c *Client) Starts() uint64 { return c.asker.opens.Load() }

// Waiting returns how long the signer has not replied to the request that it has. It is 0 if it has none.
func (c *Client) Waiting() time.Duration { return c.asker.waiting() }

// WrongSignatures returns how many replies of the signer had a wrong signature.
func (c *Client) WrongSignatures() uint64 { return c.wrong.Load() }

// Timestamps returns how many signatures of timestamps the signer returned that were used. The verified ones were
// verified before that.
func (c *Client) Timestamps() (verified, unverified uint64) {
	return c.verified.Load(), c.unverified.Load()
}

// exchange sends a request, and calls check with its reply.
func (c *Client) exchange(ctx context.Context, req request, check func(reply) error) error {
	line, err := json.Marshal(req)
	if err != nil {
		return fmt.Errorf("signer: %w", err)
	}
	return c.exchangeLine(ctx, line, check)
}

// exchangeLine sends a request's line, which is given without its line end, and calls check with the reply.
func (c *Client) exchangeLine(ctx context.Context, line []byte, check func(reply) error) error {
	if len(line) >= MaxLine {
		return fmt.Errorf("%w: the request has %d bytes, more than %d", ErrReply, len(line), MaxLine-1)
	}
	return c.asker.ask(ctx, append(line, '\n'), func(text []byte) error {
		rep, err := readReply(text)
		switch {
		case err != nil:
			return fmt.Errorf("%w: %v", ErrReply, err)
		case rep.Refused != "":
			return Refusal{rep.Refused, rep.Fault}
		case rep.Moved:
			return ErrMoved
		case rep.BadState:
			return fmt.Errorf("%w: %s", ErrState, rep.Failed)
		case rep.Failed != "":
			return fmt.Errorf("%w: %s", ErrGone, rep.Failed)
		}
		return check(rep)
	})
}

// Key returns the log's public key, as Signer says.
func (c *Client) Key() []byte { return append([]byte{}, c.key...) }

// IsGuarded reports whether the signer has a guard.
func (c *Client) IsGuarded() bool { return c.guarded }

// Last returns the head that the guard approved last, as Signer says.
func (c *Client) Last(ctx context.Context) (*ct.TreeHead, error) {
	var last *ct.TreeHead
	err := c.exchange(ctx, request{Last: true}, func(rep reply) (err error) {
		if last, err = rep.Last.Head(); err != nil {
			return fmt.Errorf("%w: %v", ErrReply, err)
		}
		return nil
	})
	if err != nil {
		return nil, err
	}
	return last, nil
}

// SignHead returns the signature of a head, as Signer says.
func (c *Client) SignHead(ctx context.Context, head ct.TreeHead, consistency [][32]byte) ([]byte, error) {
	var signature []byte
	req := request{Head: ct.NewHeadJSON(&head), Consistency: hashBytes(consistency)}
	err := c.exchange(ctx, req, func(rep reply) error {
		if err := c.verify(ctx, rep.Signatures, [][]byte{messageOf(head)}, []int{0}); err != nil {
			return err
		}
		signature = rep.Signatures[0]
		return nil
	})
	if err != nil {
		return nil, err
	}
	return signature, nil
}

// verify returns an error unless there are as many signatures as messages, and the signatures at the given indexes are
// the key's. The other process is not trusted.
func (c *Client) verify(ctx context.Context, signatures, messages [][]byte, indexes []int) error {
	if len(signatures) != len(messages) {
		return fmt.Errorf("%w: it has %d signatures instead of %d", ErrReply, len(signatures), len(messages))
	}
	public, err := parsePublicKey(c.key)
	if err != nil {
		return err
	}
	err = inParallel(ctx, len(indexes), func(i int) error {
		if err := check(public, messages[indexes[i]], signatures[indexes[i]]); err != nil {
			return fmt.Errorf("%w: %w", ErrReply, err)
		}
		return nil
	})
	if errors.Is(err, ErrSignature) {
		c.wrong.Add(1)
	}
	return err
}

// sample returns the indexes of the timestamps that must be verified among the next count ones: as many as the budget
// has, at random, and at least one. After a wrong signature they are all verified, because the signer may err again.
func (c *Client) sample(count int) []int {
	indexes := rand.Perm(count)
	if c.wrong.Load() > 0 {
		return indexes
	}
	return indexes[:min(count, max(1, c.budget.take(count, time.Now())))]
}

// SignStep returns the signatures of a step's timestamps, as Signer says.
func (c *Client) SignStep(ctx context.Context, step Step) ([][]byte, error) {
	return c.signTimestamps(ctx, appendStep(nil, step), step.Leaves)
}

// signTimestamps sends a request's line, and returns a signature of each message.
func (c *Client) signTimestamps(ctx context.Context, line []byte, messages [][]byte) (signatures [][]byte, err error) {
	err = c.exchangeLine(ctx, line, func(rep reply) error {
		signatures = rep.Signatures
		indexes := c.sample(len(messages))
		if err := c.verify(ctx, signatures, messages, indexes); err != nil {
			return err
		}
		c.verified.Add(uint64(len(indexes)))
		c.unverified.Add(uint64(len(messages) - len(indexes)))
		return nil
	})
	if err != nil {
		return nil, err
	}
	return signatures, nil
}

// SignTimestamps returns the signatures of timestamps, as Signer says. It asks for at most MaxReceipts at once.
func (c *Client) SignTimestamps(ctx context.Context, receipts []Receipt) (signatures [][]byte, err error) {
	for len(receipts) > 0 {
		part := receipts[:min(len(receipts), MaxReceipts)]
		receipts = receipts[len(part):]
		req, messages := request{}, [][]byte{}
		for _, receipt := range part {
			req.Receipts = append(req.Receipts, receiptLine{hashBytes(receipt.Path), receipt.Index, receipt.Leaf})
			messages = append(messages, receipt.Leaf)
		}
		line, err := json.Marshal(req)
		if err != nil {
			return nil, fmt.Errorf("signer: %w", err)
		}
		signed, err := c.signTimestamps(ctx, line, messages)
		if err != nil {
			return nil, err
		}
		signatures = append(signatures, signed...)
	}
	return signatures, nil
}
