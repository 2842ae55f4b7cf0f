package logclient

import (
	"context"
	"errors"
	"sync"
)

// buffer counts the bytes that are free for answers that are read ahead.
type buffer struct {
	mutex sync.Mutex
	free  int64
}

// reservation has the number of bytes that one answer has reserved, and the order in which the answer is needed.
type reservation struct {
	buffer *buffer
	bytes  int64
	order  uint64
}

// reserve reserves n more bytes. It returns false if they are not free.
func (h *reservation) reserve(n int) bool {
	h.buffer.mutex.Lock()
	defer h.buffer.mutex.Unlock()
	if h.buffer.free < int64(n) {
		return false
	}
	h.buffer.free -= int64(n)
	h.bytes += int64(n)
	return true
}

// release releases all reserved bytes.
func (h *reservation) release() {
	h.buffer.mutex.Lock()
	defer h.buffer.mutex.Unlock()
	h.buffer.free += h.bytes
	h.bytes = 0
}

// piece is a part of a log that is fetched at once: the entries from start on, before end.
type piece struct{ start, end uint64 }

// outcome is the result of fetching a piece.
type outcome[T any] struct {
	value T
	err   error
	ahead *reservation
}

// fetching is a piece that is being fetched, and the channel that receives its outcome.
type fetching[T any] struct {
	piece
	outcomes chan outcome[T]
}

// maxOutstanding is the maximum number of pieces that are being fetched or wait, for each request in flight. A piece
// whose request was refused waits without a slot, and the pieces after it are read meanwhile.
const maxOutstanding = 16

// aheadOf returns how many pieces of this number of bytes are fetched before the first of them is used. A piece that
// would not fit into the buffer is not fetched ahead.
func (c *Client) aheadOf(bytes int64) int {
	if bytes == 0 {
		return c.limits.InFlight // No piece has been read yet.
	}
	return int(max(1, min(c.limits.Buffer/bytes, int64(maxOutstanding*c.limits.InFlight))))
}

// inOrder fetches several pieces at once, and calls use for one after the other. more is true if the next piece has
// already been fetched. The memory is limited by the client's buffer and one answer. A piece that is read ahead and
// does not fit into the buffer is fetched again when it is the next one.
func inOrder[T any](ctx context.Context, c *Client, next func() (piece, bool),
	fetch func(context.Context, piece, *reservation) (T, error), use func(value T, more bool) error) error {
	ctx, cancel := context.WithCancel(ctx)
	var running sync.WaitGroup
	defer running.Wait()
	defer cancel()
	var queue []fetching[T]
	begin := func() bool {
		one, ok := next()
		if !ok {
			return false
		}
		outcomes := make(chan outcome[T], 1)
		queue = append(queue, fetching[T]{one, outcomes})
		running.Add(1)
		go func() {
			defer running.Done()
			ahead := &reservation{buffer: c.buffer, order: one.start}
			value, err := fetch(ctx, one, ahead)
			outcomes <- outcome[T]{value, err, ahead}
		}()
		return true
	}
	expected := int64(0)
	for open := true; ; {
		for open && len(queue) < c.aheadOf(expected) {
			open = begin()
		}
		if len(queue) == 0 {
			return nil
		}
		first := queue[0]
		queue = queue[1:]
		result := <-first.outcomes
		expected = max(result.ahead.bytes, expected-expected/8)
		switch {
		case errors.Is(result.err, errNoRoom):
			expected = max(2*expected, c.limits.Buffer/int64(len(queue)+1))
			result.value, result.err = fetch(ctx, first.piece, nil)
		case errors.Is(result.err, ErrTooSlow) && len(queue) > 0:
			// The connection may be too slow for so many pieces at once. From now on each is read by itself.
			expected = c.limits.Buffer
			result.value, result.err = fetch(ctx, first.piece, nil)
		}
		if result.err == nil {
			result.err = use(result.value, len(queue) > 0 && len(queue[0].outcomes) > 0)
		}
		result.ahead.release()
		if result.err != nil {
			// The bytes that later pieces have reserved are released after these have ended.
			cancel()
			for _, later := range queue {
				(<-later.outcomes).ahead.release()
			}
			return result.err
		}
	}
}
