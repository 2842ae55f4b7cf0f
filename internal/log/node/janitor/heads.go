package janitor

import (
	"context"
	"fmt"
	"strconv"
	"strings"
	"time"

	"wagtenib/internal/blob"
	"wagtenib/internal/ct"
)

// thinning is what is known for thinning the heads: one that was published for Keep.Thin, the marks in the order of
// their times, and when the heads are listed again.
type thinning struct {
	crowded settled
	marks   []mark
	due     time.Duration
}

// mark is the name of the newest head in the store, and a time before the store was asked, by Elapsed.
type mark struct {
	name string
	at   time.Duration
}

// deleteHeads deletes the heads before the newest one that is older than Keep.Heads. Of those before the newest one
// that is older than Keep.Thin it keeps the first one of each Keep.Apart, by their timestamps. A node needs the newest
// head, and otherwise checks only whether there is a later one.
func (j *Janitor) deleteHeads(ctx context.Context, newest Newest) error {
	now := j.config.Clock.Elapsed()
	if now < j.thin.due {
		return nil
	}
	if err := j.mark(ctx, newest.Head); err != nil || j.thin.crowded.head == (ct.TreeHead{}) {
		return err
	}
	names, err := j.list(ctx, headsPrefix, "")
	if err != nil {
		return err
	}
	old, crowded := headName(j.heads.head), headName(j.thin.crowded.head)
	first, left := "", maxDeleted
	for _, name := range names {
		if _, ok := timestampOf(name); !ok {
			continue
		}
		isThin := j.areTogether(first, name)
		if !isThin {
			first = name
		}
		if name >= old && !(isThin && name < crowded && j.stays(first)) {
			continue
		}
		if left--; left < 0 {
			return nil
		}
		if err := j.remove(ctx, name, &j.report.Heads); err != nil {
			return err
		}
	}
	if len(names) < blob.MaxListed {
		j.thin.due = now + j.config.Keep.Thin
	}
	return nil
}

// areTogether reports whether the timestamps of two heads are in the same Keep.Apart.
func (j *Janitor) areTogether(first, other string) bool {
	apart := uint64(j.config.Keep.Apart.Milliseconds())
	one, isHead := timestampOf(first)
	two, isOther := timestampOf(other)
	return isHead && isOther && apart > 0 && one/apart == two/apart
}

// thinWindow returns for how long after a mark heads may be thinned. The deletion that begins last ends before any head
// that was put after the mark is older than Keep.Heads.
func (j *Janitor) thinWindow() time.Duration { return j.config.Keep.Heads - j.config.Keep.Call }

// maxMarks is how many marks are kept.
const maxMarks = 5

// mark keeps the name of the newest head in the store, now and then. What the node knows may be old, if its process was
// paused, so the store is asked.
func (j *Janitor) mark(ctx context.Context, known ct.TreeHead) error {
	at := j.config.Clock.Elapsed()
	j.unmark(at)
	last := len(j.thin.marks) - 1
	if j.thinWindow() <= 0 || last >= 0 && at-j.thin.marks[last].at < j.thinWindow()/maxMarks {
		return nil
	}
	newest := headName(known)
	later, err := j.list(ctx, headsPrefix, newest)
	if err != nil || len(later) == blob.MaxListed {
		return err
	}
	if len(later) > 0 {
		newest = later[len(later)-1]
	}
	j.thin.marks = append(j.thin.marks, mark{newest, at})
	return nil
}

// stays reports whether no janitor deletes a head until a deletion that begins now has ended. The head is the first one
// of its Keep.Apart in the store. If it stays, others may be deleted for it.
//
// A janitor deletes a head as an old one only after a later one was published for Keep.Heads. All heads after a mark
// were put after it, and less than Keep.Heads has passed since. A janitor thins a head only for one before it of the
// same Keep.Apart, which stays for the same reason. So no janitor thins the first one, or an earlier one came back,
// which stays.
//
// The process may be paused between two deletions, so the time is looked at before each of them. Two things are not
// covered. The process may be paused after this look, and may send the deletion all the same after Keep.Call is over.
// A store may carry a deletion out after its caller gave up. In both cases, no head of a Keep.Apart may be left. The
// newest head always stays.
func (j *Janitor) stays(name string) bool {
	j.unmark(j.config.Clock.Elapsed())
	return len(j.thin.marks) > 0 && name >= j.thin.marks[0].name
}

// unmark drops the marks after which no head may be thinned any more.
func (j *Janitor) unmark(now time.Duration) {
	for len(j.thin.marks) > 0 && now-j.thin.marks[0].at >= j.thinWindow() {
		j.thin.marks = j.thin.marks[1:]
	}
}

// headName returns the name of a head's object. Names are in the order of states.
func headName(head ct.TreeHead) string {
	return fmt.Sprintf("%s%020d-%020d", headsPrefix, head.TreeSize, head.Timestamp)
}

// timestampOf reads the timestamp in a head's name, and reports false for any other name.
func timestampOf(name string) (timestamp uint64, ok bool) {
	digits, ok := strings.CutPrefix(name, headsPrefix)
	if !ok || len(digits) != 41 || digits[20] != '-' {
		return 0, false
	}
	_, wrong := strconv.ParseUint(digits[:20], 10, 64)
	timestamp, err := strconv.ParseUint(digits[21:], 10, 64)
	return timestamp, wrong == nil && err == nil
}
