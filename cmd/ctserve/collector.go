package main

import (
	"os"
	"runtime"
	"runtime/debug"
	"runtime/metrics"
)

const (
	// collectsAt is the size of a process's heap in bytes, with live objects and garbage, at which it collects garbage.
	// It does not depend on the size of the live objects. So if the index of a large log keeps more objects alive, the
	// heap does not grow.
	collectsAt = 128 << 20
	// minPercent and maxPercent bound the garbage, in percent of the live objects. The time of a collection grows with
	// the live objects. So a process with many of them must collect less often, and one with few may collect more
	// often.
	minPercent, maxPercent = 100, 400
	// maxMemory is the memory in bytes above which a process collects more often. The systemd unit allows 2 GB for
	// ctserve and its signer together.
	maxMemory = 768 << 20
)

// setCollectorLimits sets the limits of the garbage collector, unless the environment sets them (GOGC, GOMEMLIMIT).
func setCollectorLimits() {
	if os.Getenv("GOGC") == "" {
		boundGarbage()
	}
	if os.Getenv("GOMEMLIMIT") == "" {
		debug.SetMemoryLimit(maxMemory)
	}
}

// sentinel is a value that nothing refers to, so that the next collection finalizes it. It has a pointer, because
// values without one share their memory with others, and may be kept alive by them.
type sentinel struct{ _ *sentinel }

// boundGarbage sets the heap size of the next collection by the live objects after the last one. Each collection calls
// it again.
func boundGarbage() {
	samples := []metrics.Sample{{Name: "/gc/heap/live:bytes"}}
	metrics.Read(samples)
	live := max(int(samples[0].Value.Uint64()), 1)
	debug.SetGCPercent(min(max(100*(collectsAt-live)/live, minPercent), maxPercent))
	runtime.SetFinalizer(new(sentinel), func(*sentinel) { boundGarbage() })
}
