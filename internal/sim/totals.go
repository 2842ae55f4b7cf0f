package sim

import (
	"fmt"
	"regexp"
	"sort"
	"strings"
)

// Totals holds the numbers of many histories.
type Totals struct {
	Histories, Stopped int
	Stats              Stats
	// happened holds how often each kind of fault happened, in holds in how many histories, and wentOn how many of these
	// histories continued afterwards.
	happened, in, wentOn [kinds]int
	// reasons holds how often the log stopped, by the beginning of the reason.
	reasons map[string]int
}

// Add adds a history that broke no rule.
func (t *Totals) Add(r Result) {
	t.Histories++
	s := &t.Stats
	s.Calls += r.Stats.Calls
	s.Switches += r.Stats.Switches
	s.Heads += r.Stats.Heads
	s.Cosigned += r.Stats.Cosigned
	s.Deleted += r.Stats.Deleted
	s.Partials += r.Stats.Partials
	s.OldHeads += r.Stats.OldHeads
	s.Staged += r.Stats.Staged
	s.Reread += r.Stats.Reread
	s.Entries += r.Stats.Entries
	s.Answers += r.Stats.Answers
	s.Repeats += r.Stats.Repeats
	s.Reads += r.Stats.Reads
	s.Starts += r.Stats.Starts
	s.Checkpoints += r.Stats.Checkpoints
	s.Lost += r.Stats.Lost
	s.Unknown += r.Stats.Unknown
	s.Remembered += r.Stats.Remembered
	s.Overtaken += r.Stats.Overtaken
	s.Late += r.Stats.Late
	for kind, times := range r.Counts {
		t.happened[kind] += times
		if times > 0 {
			t.in[kind]++
			if r.Stopped == nil {
				t.wentOn[kind]++
			}
		}
	}
	if r.Stopped != nil {
		t.Stopped++
		if t.reasons == nil {
			t.reasons = map[string]int{}
		}
		why := numbers.ReplaceAllString(r.Stopped.Error(), "#")
		t.reasons[why[:min(len(why), 100)]]++
	}
}

// numbers matches the numbers in a reason, which differ between two reasons of one kind.
var numbers = regexp.MustCompile(`-?[0-9][0-9a-fhms.]*`)

// Missing returns the kinds of faults that never happened.
func (t *Totals) Missing() (kinds []string) {
	for kind, times := range t.happened {
		if times == 0 {
			kinds = append(kinds, Kind(kind).String())
		}
	}
	return kinds
}

// String returns the totals as a table.
func (t *Totals) String() string {
	var text strings.Builder
	fmt.Fprintf(&text, "%d histories, of which %d stopped and said why: %+v\n", t.Histories, t.Stopped, t.Stats)
	fmt.Fprintf(&text, "%-26s %8s %13s %8s\n", "fault", "happened", "in histories", "went on")
	for kind := range t.happened {
		fmt.Fprintf(&text, "%-26s %8d %13d %8d\n", Kind(kind), t.happened[kind], t.in[kind], t.wentOn[kind])
	}
	reasons := make([]string, 0, len(t.reasons))
	for why := range t.reasons {
		reasons = append(reasons, why)
	}
	sort.Strings(reasons)
	for _, why := range reasons {
		fmt.Fprintf(&text, "%5d stopped: %s\n", t.reasons[why], why)
	}
	return text.String()
}
