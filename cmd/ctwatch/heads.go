package main

import (
	"context"
	"fmt"
	"os"
	"strings"
	"sync"
	"time"

	"wagtenib/internal/audit"
	"wagtenib/internal/command/eventlog"
	"wagtenib/internal/logclient"
)

// othersHeads reads the signed heads that others saw, from a file, a folder or a URL. All logs use the same reading,
// which is repeated after a pause.
type othersHeads struct {
	place  string
	pause  time.Duration
	client logclient.Options
	lines  *eventlog.Lines
	mutex  sync.Mutex
	read   time.Time
	heads  [][]byte
}

// newOthersHeads returns a function that returns the heads at a place, or nil if there is no place. If they cannot be
// read, it logs this, and the function returns the heads of the last reading. The error says that a file does not exist.
func newOthersHeads(settings logSettings, client logclient.Options,
	lines *eventlog.Lines) (func(context.Context) [][]byte, error) {
	place := settings.policy.heads
	if place == "" {
		return nil, nil
	}
	if !strings.HasPrefix(place, "https://") && !strings.HasPrefix(place, "http://") {
		if _, err := os.Stat(place); err != nil {
			return nil, fmt.Errorf("%w: --heads: %w (write a file, a folder or a URL with signed heads)", errUsage, err)
		}
	}
	o := &othersHeads{place: place, pause: settings.pause, client: client, lines: lines}
	return o.newest, nil
}

// newest returns the heads of the newest reading.
func (o *othersHeads) newest(ctx context.Context) [][]byte {
	o.mutex.Lock()
	defer o.mutex.Unlock()
	if now := time.Now(); o.read.IsZero() || now.Sub(o.read) >= o.pause {
		o.read = now
		found, err := audit.ReadHeads(ctx, o.place, o.client)
		if err != nil {
			o.lines.Error("heads", "place", o.place, "fault", err, "next", triedAgain)
			return o.heads
		}
		o.heads = nil
		for _, heads := range found {
			o.heads = append(o.heads, heads...)
		}
	}
	return o.heads
}
