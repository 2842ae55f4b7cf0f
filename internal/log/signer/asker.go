package signer

import (
	"context"
	"errors"
	"fmt"
	"sync"
	"sync/atomic"
	"time"
)

// asker holds one peer, for one exchange at a time, and opens it again if it has ended. Its methods may be called
// concurrently.
type asker struct {
	open  func(context.Context) (*Peer, error)
	limit time.Duration
	opens atomic.Uint64
	// turn holds the peer, or nil if none is open. The goroutine that has received from it may ask.
	turn chan *Peer
	mu   sync.Mutex
	// stop ends the running exchange. It is nil before the first exchange.
	stop context.CancelFunc
	// began is the time at which the running exchange began, or the zero time if none is running.
	began time.Time
}

// newAsker returns an asker of the peer that open returns. The first exchange opens it. limit is the timeout of an
// exchange.
func newAsker(open func(context.Context) (*Peer, error), limit time.Duration) *asker {
	c := &asker{open: open, limit: limit, turn: make(chan *Peer, 1)}
	c.turn <- nil
	return c
}

// close closes the peer. It interrupts a running exchange.
func (c *asker) close() {
	c.mu.Lock()
	if c.stop != nil {
		c.stop()
	}
	c.mu.Unlock()
	if peer := <-c.turn; peer != nil {
		peer.Close()
	}
	c.turn <- nil
}

// ask sends a line to the peer, calls read with the reply, and returns read's error. It opens the peer first if none is
// open. If the error is an ErrReply, the peer is closed before the next exchange.
//
// ask returns if the context ends, but the exchange continues until its reply or its limit: other callers share the
// peer, so a caller that leaves must not close it. Until then the line may still be read, and read may be called. So if
// ask returns an error, a caller must not use anything that read sets.
func (c *asker) ask(ctx context.Context, line []byte, read func(reply []byte) error) error {
	var peer *Peer
	select {
	case peer = <-c.turn:
	case <-ctx.Done():
		return fmt.Errorf("%w: %v", ErrGone, ctx.Err())
	}
	// select may have received the turn although the context has ended.
	if ctx.Err() != nil {
		c.turn <- peer
		return fmt.Errorf("%w: %v", ErrGone, ctx.Err())
	}
	exchanging, stop := context.WithCancel(context.Background())
	c.mu.Lock()
	c.stop, c.began = stop, time.Now()
	c.mu.Unlock()
	done := make(chan error, 1)
	go func() {
		defer stop()
		left, err := c.askInTurn(exchanging, peer, line, read)
		c.mu.Lock()
		c.began = time.Time{}
		c.mu.Unlock()
		c.turn <- left
		done <- err
	}()
	select {
	case err := <-done:
		return err
	case <-ctx.Done():
		return fmt.Errorf("%w: %v", ErrGone, ctx.Err())
	}
}

// waiting returns the time since the running exchange began, or 0 if none is running.
func (c *asker) waiting() time.Duration {
	c.mu.Lock()
	defer c.mu.Unlock()
	if c.began.IsZero() {
		return 0
	}
	return time.Since(c.began)
}

// askInTurn asks while this goroutine has the turn. It returns the peer for the next exchange, or nil.
func (c *asker) askInTurn(ctx context.Context, peer *Peer, line []byte,
	read func([]byte) error) (left *Peer, err error) {
	if peer != nil && peer.hasUnread() {
		// No request has been sent yet, so a new peer can take this one's place.
		peer.Close()
		peer = nil
	}
	if peer == nil {
		if peer, err = c.open(ctx); err != nil {
			return nil, err
		}
		c.opens.Add(1)
	}
	reply, err := peer.exchange(ctx, c.limit, line)
	if err != nil {
		return nil, err
	}
	if err = read(reply); errors.Is(err, ErrReply) {
		peer.Close()
		return nil, err
	}
	return peer, err
}
