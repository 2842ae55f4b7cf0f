package service

import (
	"context"
	"time"

	"golang.org/x/sys/unix"
)

// Clock is the clock of a machine (node.Clock), which also reports whether it is synchronized.
type Clock interface {
	Now() time.Time
	Elapsed() time.Duration
	Within(ctx context.Context, long time.Duration) (context.Context, context.CancelFunc)
	Wait(ctx context.Context, long time.Duration, wake <-chan struct{}) error
	// Synchronized reports whether the time of day is synchronized, as far as the kernel knows. If the kernel does not
	// answer, isKnown is false.
	Synchronized() (isSynchronized, isKnown bool)
}

// machine is the clock of this machine.
type machine struct{ began time.Time }

// Machine returns the clock of this machine.
func Machine() Clock { return machine{time.Now()} }

// Now returns the time of day without a monotonic clock reading, because the two clocks are compared.
func (m machine) Now() time.Time { return time.Now().Round(0) }

// Elapsed returns the time since boot, including suspend.
func (m machine) Elapsed() time.Duration {
	var at unix.Timespec
	if err := unix.ClockGettime(unix.CLOCK_BOOTTIME, &at); err != nil {
		return time.Since(m.began)
	}
	return time.Duration(at.Nano())
}

func (m machine) Within(ctx context.Context, long time.Duration) (context.Context, context.CancelFunc) {
	return context.WithTimeout(ctx, long)
}

func (m machine) Wait(ctx context.Context, long time.Duration, wake <-chan struct{}) error {
	timer := time.NewTimer(long)
	defer timer.Stop()
	select {
	case <-timer.C:
	case <-wake:
	case <-ctx.Done():
		return ctx.Err()
	}
	return nil
}

// unsynchronized is STA_UNSYNC of linux/timex.h.
const unsynchronized = 0x40

func (m machine) Synchronized() (isSynchronized, isKnown bool) {
	var status unix.Timex
	state, err := unix.Adjtimex(&status)
	return state != unix.TIME_ERROR && status.Status&unsynchronized == 0, err == nil
}
