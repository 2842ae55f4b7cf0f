package main

import (
	"fmt"
	"math"
	"os"
	"os/exec"
	"runtime"
	"runtime/debug"
	"runtime/metrics"
	"testing"

	"wagtenib/internal/testkit"
)

// collectorKey is an environment variable that is set in a process of its own, because all tests of a process share the
// garbage collector.
const collectorKey = "CTSERVE_TEST_COLLECTOR"

// TestCollector checks that garbage is collected when the heap has collectsAt bytes, whatever the size of the live
// objects is. But garbage may always be minPercent and never above maxPercent of the live objects. There is a memory
// limit. The environment replaces both.
func TestCollector(t *testing.T) {
	t.Parallel()
	for _, c := range []struct{ percent, held string }{{"", ""}, {"50", ""}, {"", "5GiB"}} {
		command := exec.Command(os.Args[0], "-test.run=^TestCollectorOfProcess$")
		command.Env = append(os.Environ(), collectorKey+"=1", "GOGC="+c.percent, "GOMEMLIMIT="+c.held)
		if output, err := command.CombinedOutput(); err != nil {
			t.Errorf("%q, %q: %v: %s", c.percent, c.held, err, output)
		}
	}
}

// TestCollectorOfProcess runs in the process that TestCollector starts.
func TestCollectorOfProcess(t *testing.T) {
	if os.Getenv(collectorKey) == "" {
		t.Skip("TestCollector starts it")
	}
	setCollectorLimits()
	wantHeld := int64(maxMemory)
	if os.Getenv("GOMEMLIMIT") != "" {
		wantHeld = 5 << 30
	}
	if held := debug.SetMemoryLimit(-1); held != wantHeld {
		t.Errorf("the memory limit is %d bytes, and not %d", held, wantHeld)
	}
	const mib = 1 << 20
	for _, c := range []struct{ held, want int }{{8 * mib, 8 * mib * maxPercent / 100}, {40 * mib, collectsAt - 40*mib},
		{60 * mib, collectsAt - 60*mib}, {200 * mib, 200 * mib * minPercent / 100}, {40 * mib, collectsAt - 40*mib}} {
		if os.Getenv("GOGC") != "" {
			c.want = c.held / 2
		}
		holds := make([]byte, c.held)
		runtime.GC()
		// The test itself has some live objects, too.
		testkit.Eventually(t, fmt.Sprintf("the garbage with %d live bytes is %d", c.held, c.want), func() bool {
			return math.Abs(garbage()-float64(c.want)) < float64(c.want)/5+4*mib
		})
		runtime.KeepAlive(holds)
	}
}

// garbage returns the number of bytes of garbage at which the next collection begins.
func garbage() float64 {
	samples := []metrics.Sample{{Name: "/gc/heap/goal:bytes"}, {Name: "/gc/heap/live:bytes"}}
	metrics.Read(samples)
	return float64(samples[0].Value.Uint64()) - float64(samples[1].Value.Uint64())
}
