package service

import (
	"math"
	"os"
	"regexp"
	"strconv"
	"testing"
	"time"

	"wagtenib/internal/blob"
	"wagtenib/internal/ct"
	"wagtenib/internal/log/chain"
	"wagtenib/internal/log/httpd"
	"wagtenib/internal/log/node"
	"wagtenib/internal/log/node/step"
	"wagtenib/internal/testkit"
)

// These are the defaults of ctserve's settings that the pages state.
const (
	maxWritten, maxSkew = 16 << 20, 10 * time.Second
	keepTiles, scrub    = 5 * time.Minute, time.Second
)

// TestPageSaysBounds checks that docs/SERVICE.md and docs/OPERATING.md state the bounds of this package for a node.
func TestPageSaysBounds(t *testing.T) {
	t.Parallel()
	week := 7 * 24 * time.Hour
	// 16 is the maximum number of tiles that one pass of the janitor reads again.
	const again = 16
	testkit.Says(t, testkit.Page(t, "../../../docs/SERVICE.md"), map[string]bool{
		"no more than 16 MiB a second are written (`max-write-rate`)":                           maxWritten == 16<<20,
		"| a partial tile | five minutes after its full tile came, if the full tile is whole |": keepTiles == 5*time.Minute,
		"| a tree head less than five seconds after another one that stays | " +
			"ten seconds after a later head came |": thinAfter == 10*time.Second && thinApart == 5*time.Second,
		"does not answer within ten seconds, or answers with 500 or " +
			"more, and for two seconds after that": forwardWithin == 10*time.Second && awayFor == 2*time.Second,
		"as long as the step took, at most 15 ms":         node.MaxBack == 15*time.Millisecond,
		"- The tiles of 32 duplicates are read at once.":  maxLookups == 32,
		"- an entry above 128 KiB.":                       MaxEntry == 128<<10,
		"Waiting clients get an error after five seconds": patience == 5*time.Second,
		"If too few witnesses answer (5 s each)":          cosignWithin == 5*time.Second,
		"one data tile a second is enough for 1.5 x 10^8 entries, and " +
			"16 (the maximum) for 2.5 x 10^9": scrub == time.Second && week/time.Second*ct.TileWidth/1e7 == 15 &&
			week/time.Second*ct.TileWidth*again/1e8 == 24,
	})
	// overhead is the number of bytes of a leaf in a data tile besides those that count for MaxEntry, and largest the
	// size of a tile of the largest entries.
	const overhead = 10 + 32 + 2*3 + 2 + 8 + 2 + 32*chain.MaxCertificates
	largest, answers := int64(ct.TileWidth*(MaxEntry+overhead)), httpd.DefaultLimits().AnswerBytes
	ofOne := max(answers/8, blob.MaxObject+1<<20)
	// Half of the written bytes are partial tiles. They may stay for twice the time for which they must stay.
	partials := float64(maxWritten) / 2 * 2 * keepTiles.Seconds()
	testkit.Says(t, testkit.Page(t, "../../../docs/SERVICE.md"), map[string]bool{
		"An entry has at most 128 KiB because a step holds 255 of them, in the partial data tile, beside 12 MiB of " +
			"new ones": MaxEntry == 128<<10 && ct.TileWidth-1 == 255 && MaxBatchBytes == 12<<20,
		"So a data tile has at most 34 MB. Answers hold at most 15 of " +
			"these at once, and two for one address": math.Round(float64(largest)/1e6) == 34 && largest < blob.MaxObject &&
			answers/largest == 15 && ofOne/largest == 2,
		"which stay for five to ten minutes until they are deleted: up to 5 GB": partials >= 5e9 && partials < 5.1e9,
		"| the tree | 2^40 entries: `full` |":                                   step.MaxLeaves == 1<<40,
	})
	testkit.Says(t, testkit.Page(t, "../../../docs/OPERATING.md"), map[string]bool{
		"(the last name in FOLDER/objects/heads is SIZE-TIMESTAMP)": true,
		"Partial tiles take up to 5 GB at `max-write-rate` (16 MiB a second)": maxWritten == 16<<20 &&
			partials >= 5e9 && partials < 5.1e9,
		"off by more than `max-clock-skew` (10 s), either way": maxSkew == 10*time.Second,
	})
}

// alertAt returns the number above which, or below which, an alert fires, as release/prometheus/ctserve.rules.yml has
// it.
func alertAt(t *testing.T, expression string) float64 {
	t.Helper()
	rules, err := os.ReadFile("../../../release/prometheus/ctserve.rules.yml")
	testkit.Must(t, err)
	found := regexp.MustCompile(`(?m)^    expr: ` + expression + ` (-?\d+)(?: \* (\d+))?$`).FindSubmatch(rules)
	if found == nil {
		t.Fatalf("no alert has %s and a number", expression)
	}
	number, err := strconv.ParseFloat(string(found[1]), 64)
	testkit.Must(t, err)
	if len(found[2]) > 0 {
		times, err := strconv.ParseFloat(string(found[2]), 64)
		testkit.Must(t, err)
		number *= times
	}
	return number
}

// TestAlertsFitTheBounds checks that no alert fires for what a log does in normal operation, and that each fires before
// the log refuses submissions for the same reason.
func TestAlertsFitTheBounds(t *testing.T) {
	t.Parallel()
	if ahead := alertAt(t, "ctserve_head_age_seconds <"); ahead >= 0 || -ahead > maxSkew.Seconds() {
		t.Errorf("the alert for a head in the future fires at %v s, and a clock may be ahead by %v", ahead, maxSkew)
	}
	// The longest pause after a round that failed is 5 s.
	const pause = 5 * time.Second
	if old := alertAt(t, "ctserve_round_age_seconds >"); old < (roundWithin + pause + lookInterval).Seconds() {
		t.Errorf("the alert fires %v s after a round, and a round may take %v and begin %v after the one before", old,
			roundWithin, pause)
	}
	// Each failed pass of the janitor counts.
	if failed := alertAt(t,
		`increase\(ctserve_janitor_failures_total\[1h\]\) >`); failed >= time.Hour.Seconds()/scrub.Seconds() ||
		failed < 1 {
		t.Errorf("an alert fires after %v failures in an hour, and a pass is made each %v", failed, scrub)
	}
}
