package watchstore_test

import (
	"bytes"
	"context"
	"fmt"
	"sync"
	"syscall"
	"testing"
	"time"

	"wagtenib/internal/testkit"
	"wagtenib/internal/watch"
	"wagtenib/internal/watch/alert"
	"wagtenib/internal/watch/watchstore"
)

// The load: the number of issuances in each of three logs, the entries in one call of Keep, and the maximum processor
// time. Elapsed time would include other work of the machine.
const (
	manyIssuances    = 10_000
	loadBatch        = 512
	maxProcessorTime = time.Minute
)

// TestReportsManyFindingsFromThreeLogs stores 10,000 issuances, each as a precertificate and as a certificate, from
// three logs at once. There is one alert for each issuance, with its host name. All of it takes less than a minute of
// processor time.
func TestReportsManyFindingsFromThreeLogs(t *testing.T) {
	authority := testkit.NewAuthority("Test CA 1")
	var entries []watch.Entry
	for i := range manyIssuances {
		entries = append(entries, entriesOf(authority.Issue(fmt.Sprintf("h%d.example.org", i)), uint64(2*i))...)
	}
	store := open(t, t.TempDir(), watchstore.Options{Searcher: searcher("example.org")})
	must(t, store.UseOutputs([]string{"terminal"}))
	began := processorTime(t)
	var reading sync.WaitGroup
	for number := range byte(3) {
		reading.Add(1)
		go func() {
			defer reading.Done()
			for first := 0; first < len(entries); first += loadBatch {
				batch := entries[first:min(first+loadBatch, len(entries))]
				if err := store.Keep(logOf(number), watch.State{Read: uint64(first + len(batch))}, batch); err != nil {
					t.Error(err)
				}
			}
		}()
	}
	reading.Wait()
	var out bytes.Buffer
	must(t, alert.Deliver(context.Background(), store, alert.NewTerminal(&out)))
	used := processorTime(t) - began
	seen := map[string]int{}
	for _, line := range bytes.Split(bytes.TrimSpace(out.Bytes()), []byte("\n")) {
		var host string
		if _, err := fmt.Sscanf(string(line), "FOUND example.org: %s (1 name)", &host); err != nil {
			t.Fatalf("%q: %v", line, err)
		}
		seen[host]++
	}
	for i := range manyIssuances {
		if host := fmt.Sprintf("h%d.example.org", i); seen[host] != 1 {
			t.Errorf("%d alerts for %s", seen[host], host)
		}
	}
	if used > maxProcessorTime {
		t.Errorf("the test used %v of processor time, and the maximum is %v", used, maxProcessorTime)
	}
	t.Logf("%d entries were stored and %d alerts sent in %v of processor time", 3*len(entries), manyIssuances, used)
}

// processorTime returns the processor time that this process has used.
func processorTime(t *testing.T) time.Duration {
	t.Helper()
	var usage syscall.Rusage
	must(t, syscall.Getrusage(syscall.RUSAGE_SELF, &usage))
	return time.Duration(usage.Utime.Nano() + usage.Stime.Nano())
}
