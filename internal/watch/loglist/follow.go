package loglist

import (
	"context"
	"errors"
	"fmt"
	"io"
	"os"
	"strings"
	"time"

	"wagtenib/internal/logclient"
)

// maxList is the maximum number of bytes of a list, and maxSignature that of its signature.
const (
	maxList      = 32 << 20
	maxSignature = 4096
)

// Source describes where a log list is, and how it is read.
type Source struct {
	Place  string // a file, or an address with http:// or https://
	Key    []byte // PEM: the public key that must have signed the list; nil if no signature is checked
	Client logclient.Options
}

// Read reads the list. If there is a key, it also reads the signature, from the place with the ending .sig instead of
// .json (or with .sig appended, if the place does not end with .json). The error wraps ErrForm, ErrSignature or ErrKey,
// or is one of package logclient or of the file system.
func (s Source) Read(ctx context.Context) (List, error) {
	content, err := s.content(ctx, s.Place, maxList)
	if err != nil {
		return List{}, err
	}
	if len(s.Key) > 0 {
		signed, err := s.content(ctx, signaturePlace(s.Place), maxSignature)
		if err != nil {
			return List{}, err
		}
		if err := CheckSignature(content, signed, s.Key); err != nil {
			return List{}, fmt.Errorf("%s: %w", s.Place, err)
		}
	}
	list, err := Parse(content)
	if err != nil {
		return List{}, fmt.Errorf("%s: %w", s.Place, err)
	}
	return list, nil
}

// signaturePlace returns the place of a list's signature.
func signaturePlace(place string) string { return strings.TrimSuffix(place, ".json") + ".sig" }

// content returns the bytes at a place, of which there are at most maxBytes.
func (s Source) content(ctx context.Context, place string, maxBytes int64) ([]byte, error) {
	if strings.HasPrefix(place, "https://") || strings.HasPrefix(place, "http://") {
		return logclient.Get(ctx, place, maxBytes, s.Client)
	}
	file, err := os.Open(place)
	if err != nil {
		return nil, fmt.Errorf("loglist: %w", err)
	}
	defer file.Close()
	content, err := io.ReadAll(io.LimitReader(file, maxBytes+1))
	if err != nil {
		return nil, fmt.Errorf("loglist: %w", err)
	}
	if int64(len(content)) > maxBytes {
		return nil, fmt.Errorf("loglist: %s: %w: more than %d", place, logclient.ErrTooLarge, maxBytes)
	}
	return content, nil
}

// The pause after the first failed reading of a list, and the longest pause. A program without a list watches no log,
// and one with an old list misses logs, so it must not wait as long as between two lists.
const (
	minRetry = time.Second
	maxRetry = 3 * time.Minute
)

// Follow reads the list now and after each pause, and calls `changed` with it, until the context ends. If the list
// cannot be read, is refused, or is older than the last one, Follow calls `failed` with the reason and the time until
// the next reading. The pauses after failures are shorter: they double from 1 second to 3 minutes. A server may ask for
// a longer one, up to `pause`. Follow returns the error of the context.
func (s Source) Follow(ctx context.Context, pause time.Duration, changed func(List),
	failed func(err error, next time.Duration)) error {
	clock := s.Client.Clock
	if clock == nil {
		clock = logclient.MachineClock{}
	}
	// Follow makes the pauses between attempts. Those of a client would begin with short ones again in each reading.
	source := s
	source.Client.Limits.Attempts = 1
	retry := minRetry
	var last time.Time
	for {
		list, err := source.Read(ctx)
		if err == nil && list.Time.Before(last) {
			err = fmt.Errorf("%s: %w: it is of %s, and that was of %s", s.Place, ErrOlder, list.Time.Format(time.RFC3339),
				last.Format(time.RFC3339))
		}
		next := pause
		switch {
		case err == nil:
			retry = minRetry
			last = list.Time
			changed(list)
		case ctx.Err() != nil && errors.Is(err, ctx.Err()):
		default:
			next = min(max(retry, requestedWait(err, clock.Now())), pause)
			retry = min(2*retry, maxRetry)
			failed(err, next)
		}
		if err := clock.Wait(ctx, next); err != nil {
			return err
		}
	}
}

// requestedWait returns the time for which a server that refused a request asked to wait, or 0 if it did not.
func requestedWait(err error, now time.Time) time.Duration {
	var busy *logclient.BusyError
	if !errors.As(err, &busy) {
		return 0
	}
	return busy.Until.Sub(now)
}
