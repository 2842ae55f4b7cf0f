package alert

import (
	"context"
	"errors"
	"fmt"
	"time"
)

// Queue holds the alerts that each output must still get, in their order.
type Queue interface {
	// Next returns the next alerts for an output, at most limit. Again is set in those that Begin named before.
	Next(output string, limit int) ([]Alert, error)
	// Begin stores that the alerts up to this one are about to be sent.
	Begin(output string, last int64) error
	// Done stores that the alerts up to this one were sent.
	Done(output string, last int64) error
	// Failed stores why an output failed, and that the alerts after this one were not tried: they do not get Again.
	Failed(output string, last int64, fault error) error
}

// Output is a destination of alerts.
type Output interface {
	// Name returns the name of this output. No other output has it, and it is the same after a restart.
	Name() string
	// Batch returns the maximum number of alerts in one call of Send.
	Batch() int
	// Send sends alerts, of which there is at least one. The first `sent` of them were sent, and err is the error of the
	// next one. The first `tried` of them may have arrived, although only those that were sent count.
	Send(ctx context.Context, alerts []Alert) (sent, tried int, err error)
}

// Deliver sends all waiting alerts to an output. It returns at the first alert that cannot be sent. This alert and all
// later ones stay in the queue.
func Deliver(ctx context.Context, queue Queue, output Output) error {
	for ctx.Err() == nil {
		alerts, err := queue.Next(output.Name(), output.Batch())
		if err != nil || len(alerts) == 0 {
			return err
		}
		if err := queue.Begin(output.Name(), alerts[len(alerts)-1].ID); err != nil {
			return err
		}
		sent, tried, err := output.Send(ctx, alerts)
		if sent > 0 {
			// The alerts that were sent must be marked, even if a later one failed.
			if err := queue.Done(output.Name(), alerts[sent-1].ID); err != nil {
				return err
			}
		}
		if err != nil {
			err = fmt.Errorf("%s: alert %d could not be sent, and stays in the queue: %w", output.Name(),
				alerts[sent].ID, err)
			// Only the alerts that were tried may have Again set later.
			return errors.Join(err, queue.Failed(output.Name(), alerts[max(tried, 1)-1].ID, err))
		}
	}
	return ctx.Err()
}

// The pauses before the next attempt after a failure of an output.
const (
	minPause = time.Second
	maxPause = 5 * time.Minute
)

// Run delivers alerts to an output until the context ends: at once, each time that wake gets a value, and after a pause
// if the last delivery failed. It calls report after each delivery, with its error or nil.
func Run(ctx context.Context, queue Queue, output Output, wake <-chan struct{}, report func(error)) {
	pause := minPause
	for {
		err := Deliver(ctx, queue, output)
		if ctx.Err() != nil {
			return
		}
		report(err)
		if err != nil {
			wait(ctx, pause)
			pause = min(2*pause, maxPause)
			continue
		}
		pause = minPause
		select {
		case <-wake:
		case <-ctx.Done():
			return
		}
	}
}

// wait returns after a pause, or when the context ends.
func wait(ctx context.Context, pause time.Duration) {
	timer := time.NewTimer(pause)
	defer timer.Stop()
	select {
	case <-timer.C:
	case <-ctx.Done():
	}
}
