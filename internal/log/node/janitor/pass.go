package janitor

import (
	"context"
	"errors"
	"fmt"
	"regexp"
	"time"

	"golang.org/x/mod/sumdb/tlog"

	"wagtenib/internal/blob"
	"wagtenib/internal/ct"
	"wagtenib/internal/log/node/decider"
	"wagtenib/internal/tiles"
)

const (
	headsPrefix   = "heads/"
	stagingPrefix = "staging/"
	// maxDeleted is how many objects of a kind one pass deletes. maxFull is of how many full tiles it deletes the partial
	// ones, and maxReread how many tiles it reads again.
	maxDeleted = 256
	maxFull    = 16
	maxReread  = 16
	// maxDamaged is how many damaged tiles are remembered.
	maxDamaged = 1024
	// maxBefore is how many full tiles of a level, before the newest one, a janitor looks at when it starts. It deletes the
	// partial ones of earlier tiles when it reads these again.
	maxBefore = 256
	// levels are those of the tiles of a log: data, and hashes of at most 2^40 entries.
	levels = 6
)

// partial is how far partial tiles are deleted.
type partial struct {
	// next is the number of the full tile, for each level, whose partial ones are deleted next. The data tiles are first.
	next   [levels]uint64
	begun  bool
	failed int
}

// reread is the next data tile to be read again.
type reread struct {
	next  uint64
	begun bool
	// owed is the time for which reading is due, and last when that was counted.
	owed, last time.Duration
	failed     int
}

// pass does a part of each kind of work. If a part fails, a later pass does it.
func (j *Janitor) pass(ctx context.Context) {
	newest, ok := j.config.Newest()
	if !ok {
		return
	}
	now, keep := j.config.Clock.Elapsed(), j.config.Keep
	j.tiles.look(newest.Head, now, keep.Tiles)
	j.heads.look(newest.Head, now, keep.Heads)
	j.thin.crowded.look(newest.Head, now, keep.Thin)
	for _, part := range []struct {
		what string
		do   func(context.Context, Newest) error
	}{
		{"partial tiles", j.deletePartialTiles}, {"heads", j.deleteHeads}, {"staged batches", j.deleteStaged},
		{"damaged tiles", j.readDamaged}, {"old tiles", j.readAgain},
		{"issuers", j.readIssuers},
	} {
		if err := part.do(ctx, newest); err != nil && ctx.Err() == nil {
			j.report.Lock()
			j.report.Failures++
			j.report.Failed = fmt.Errorf("janitor: %s: %w", part.what, err)
			j.report.Unlock()
		}
	}
	j.report.Lock()
	defer j.report.Unlock()
	j.report.DeletedTo, j.report.Next = j.partial.next[0]*ct.TileWidth, j.reread.next
}

// call calls a function with the time limit of one call.
func (j *Janitor) call(ctx context.Context, do func(context.Context) error) error {
	ctx, cancel := j.config.Clock.Within(ctx, j.config.Keep.Call)
	defer cancel()
	return do(ctx)
}

// read reads an object. One that is missing is tiles.ErrDamaged.
func (j *Janitor) read(ctx context.Context, name string) ([]byte, error) {
	return tiles.Stored(func(ctx context.Context, name string) (content []byte, err error) {
		err = j.call(ctx, func(ctx context.Context) (err error) {
			content, err = j.config.Objects.Get(ctx, name, blob.MaxObject)
			return err
		})
		return content, err
	})(ctx, name)
}

// list lists names after a name.
func (j *Janitor) list(ctx context.Context, prefix, after string) (names []string, err error) {
	err = j.call(ctx, func(ctx context.Context) (err error) {
		names, err = j.config.Objects.List(ctx, prefix, after, blob.MaxListed)
		return err
	})
	return names, err
}

// remove deletes an object, and counts it.
func (j *Janitor) remove(ctx context.Context, name string, count *uint64) error {
	if err := j.call(ctx, func(ctx context.Context) error { return j.config.Objects.Delete(ctx, name) }); err != nil {
		return err
	}
	j.report.Lock()
	defer j.report.Unlock()
	*count++
	return nil
}

// deletePartialTiles deletes the partial tiles of full ones that a head has had for Keep.Tiles.
func (j *Janitor) deletePartialTiles(ctx context.Context, newest Newest) error {
	if j.tiles.head.TreeSize == 0 {
		return nil
	}
	if !j.partial.begun {
		j.partial.begun = true
		for at := range j.partial.next {
			full := tiles.Count(at-1, j.tiles.head.TreeSize)
			j.partial.next[at] = full - min(full, maxBefore)
		}
	}
	left := maxFull
	for at := range j.partial.next {
		for full := tiles.Count(at-1, j.tiles.head.TreeSize); left > 0 && j.partial.next[at] < full; left-- {
			if err := j.deletePartials(ctx, at-1, j.partial.next[at], newest.Head); err != nil {
				// A tile that fails again and again does not stop the others. Its partial tiles are deleted when it is
				// read again.
				if j.partial.failed++; j.partial.failed < maxFailed {
					return err
				}
			}
			j.partial.failed = 0
			j.partial.next[at]++
		}
	}
	return nil
}

// maxFailed is how often in a row one tile may fail until the janitor continues after it.
const maxFailed = 3

// deletePartials deletes the partial tiles of a full one, if the full one is whole.
func (j *Janitor) deletePartials(ctx context.Context, level int, number uint64, newest ct.TreeHead) error {
	full := ct.FullTile(level, number)
	partials, err := j.list(ctx, ct.TileName(full)+ct.PartialTile, "")
	if err != nil || len(partials) == 0 {
		return err
	}
	// As long as the full tile is not whole, the partial ones are what is left of it.
	if err := j.whole(ctx, full, newest); err != nil {
		return err
	}
	for _, name := range partials {
		if err := j.remove(ctx, name, &j.report.Tiles); err != nil {
			return err
		}
	}
	return nil
}

// whole returns tiles.ErrDamaged unless a full tile is the one of a head's tree.
func (j *Janitor) whole(ctx context.Context, full tlog.Tile, newest ct.TreeHead) error {
	if full.L < 0 {
		_, err := tiles.LeavesOf(ctx, full, newest, j.read)
		return err
	}
	return tiles.CheckFull(ctx, full, newest, j.read)
}

// batchName matches the names of staged batches. The janitor leaves an object with any other name: no node put it.
var batchName = regexp.MustCompile("^" + stagingPrefix + "[0-9a-f]{48}$")

// deleteStaged lists the staged batches, and deletes those that the decider says no step needs any more.
func (j *Janitor) deleteStaged(ctx context.Context, newest Newest) error {
	now := j.config.Clock.Elapsed()
	if newest.Stepping == nil || now < j.staged.due {
		return nil
	}
	names, err := j.list(ctx, stagingPrefix, j.staged.after)
	if err != nil {
		return err
	}
	listed := uint64(len(names))
	for _, name := range names {
		if !batchName.MatchString(name) {
			continue
		}
		next, err := j.config.Decider.Next(newest.Stepping, decider.BatchListed(name))
		if err != nil {
			return err
		}
		if next.Do != decider.Delete || next.Batch != name {
			continue
		}
		if err := j.remove(ctx, name, &j.report.Staged); err != nil {
			return err
		}
		listed--
	}
	j.report.Lock()
	j.report.Listed = listed
	j.report.Unlock()
	if j.staged.after = ""; len(names) == blob.MaxListed {
		j.staged.after = names[len(names)-1]
		return nil
	}
	j.staged.due = now + j.config.Keep.Staged
	return nil
}

// readAgain reads so many old data tiles again, with the hash tiles from their leaves to the root, that all are read
// within Keep.Reread. It begins at a random one, so that a log that is started often is read all the same. It deletes
// the partial tiles of each full one that is whole.
func (j *Janitor) readAgain(ctx context.Context, newest Newest) error {
	full := tiles.Count(-1, newest.Head.TreeSize)
	if full == 0 || j.tiles.head.TreeSize == 0 {
		return nil
	}
	if r := &j.reread; !r.begun {
		number, err := j.config.Random()
		if err != nil {
			return err
		}
		r.begun, r.next, r.last = true, number%full, j.config.Clock.Elapsed()
	}
	j.reread.owed += j.config.Clock.Elapsed() - j.reread.last
	j.reread.last = j.config.Clock.Elapsed()
	each := max(j.config.Keep.Reread/time.Duration(full), 1)
	for left := maxReread; left > 0 && j.reread.owed >= each; left-- {
		if j.reread.next >= full {
			j.reread.next = 0
		}
		if err := j.readTile(ctx, j.reread.next, newest); err != nil {
			if j.reread.failed++; j.reread.failed < maxFailed {
				return err
			}
			j.damaged(j.reread.next, err)
		}
		j.reread.failed = 0
		j.reread.owed -= each
		j.reread.next++
	}
	// What one pass could not read is dropped: the store is too slow for it.
	j.reread.owed = min(j.reread.owed, each)
	return nil
}

// damaged keeps why a data tile is damaged; nil says that it is whole.
func (j *Janitor) damaged(number uint64, err error) {
	j.report.Lock()
	defer j.report.Unlock()
	if err == nil {
		j.report.Reread++
		delete(j.report.Damaged, number)
	} else if _, known := j.report.Damaged[number]; known || len(j.report.Damaged) < maxDamaged {
		j.report.Damaged[number] = err
	}
}

// readTile reads one data tile again, and keeps whether it is damaged. An error says that this is not known.
func (j *Janitor) readTile(ctx context.Context, number uint64, newest Newest) error {
	leaves, err := tiles.LeavesOf(ctx, ct.DataTile(number*ct.TileWidth, newest.Head.TreeSize), newest.Head, j.read)
	if err != nil && !errors.Is(err, tiles.ErrDamaged) {
		return err
	}
	if j.damaged(number, err); err != nil {
		return nil
	}
	j.readIssuersOf(ctx, leaves)
	for level := -1; level < levels-1; level++ {
		// The tile of each level that the data tile is under, when its last one is read.
		above := number >> uint(8*max(level, 0))
		if above >= tiles.Count(level, j.tiles.head.TreeSize) || number+1 != (above+1)<<uint(8*max(level, 0)) {
			continue
		}
		if err := j.deletePartials(ctx, level, above, newest.Head); err != nil {
			return err
		}
	}
	return nil
}
