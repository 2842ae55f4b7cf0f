// Command calls measures calls of bindings/go/wagtenib, and equal work by the Go libraries.
//
// It prints a line for each: the name, the nanoseconds of processor time of one call, and the median of its nanoseconds
// by the clock. bench/calls.py runs it in turns.
package main

import (
	"fmt"
	"os"
	"slices"
	"syscall"
	"time"

	"wagtenib/bindings/go/wagtenib"
)

// minDuration is the minimum time for which each work is repeated, and minRepeats the minimum number of repetitions.
const (
	minDuration = 40 * time.Millisecond
	minRepeats  = 3
)

// work is a function that is measured. An error ends the program.
type work struct {
	name string
	do   func() error
}

func stop(err error) {
	if err != nil {
		fmt.Fprintln(os.Stderr, "calls:", err)
		os.Exit(1)
	}
}

// processorTime returns the processor time of this process.
func processorTime() time.Duration {
	var usage syscall.Rusage
	stop(syscall.Getrusage(syscall.RUSAGE_SELF, &usage))
	return time.Duration(usage.Utime.Nano() + usage.Stime.Nano())
}

// measure does a work repeatedly. It returns the processor time of one repetition, and the median of the time by the
// clock.
func measure(w work) (processor, clock time.Duration) {
	stop(w.do())
	var each []time.Duration
	before := processorTime()
	for start := time.Now(); len(each) < minRepeats || time.Since(start) < minDuration; {
		begin := time.Now()
		stop(w.do())
		each = append(each, time.Since(begin))
	}
	processor = (processorTime() - before) / time.Duration(len(each))
	slices.Sort(each)
	return processor, each[len(each)/2]
}

func main() {
	if len(os.Args) == 2 && os.Args[1] == "--has-sha-instructions" {
		fmt.Println(wagtenib.HasSHAInstructions())
		return
	}
	log := newLog()
	works := append(log.steps(16), log.steps(1024)...)
	works = append(works, log.guard()...)
	works = append(works, node(), leafHash()[0], leafHash()[1])
	works = append(works, certificates()...)
	for _, w := range works {
		processor, clock := measure(w)
		fmt.Printf("%s\t%d\t%d\n", w.name, processor.Nanoseconds(), clock.Nanoseconds())
	}
}
