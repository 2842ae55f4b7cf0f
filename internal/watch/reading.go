package watch

import (
	"context"
	"encoding/json"
	"errors"
	"fmt"
	"time"

	"golang.org/x/mod/sumdb/tlog"

	"wagtenib/bindings/go/wagtenib"
	"wagtenib/internal/ct"
)

// The maximum size of a batch. The Keeper stores each batch in one step. Larger batches are read faster, and the
// entries of smaller ones are searched sooner. A batch has more than one tile or page only if the next ones have
// arrived already.
const (
	maxBatch      = 4096     // entries
	maxBatchBytes = 16 << 20 // bytes
)

// minProofEntries is the minimum number of new entries for which a consistency proof is requested before they are read.
// Fewer entries can be read as fast as a proof.
const minProofEntries = 1024

// readWaiting reads the entries up to the waiting head.
func (f *Follower) readWaiting(ctx context.Context) error {
	if err := f.judgeProof(ctx); err != nil {
		return err
	}
	before := f.state.Read
	var pending batch
	var batchErr error // of processBatch, and not of the source
	flush := func() error {
		if len(pending.entries) == 0 {
			return nil
		}
		full := pending
		pending = batch{}
		batchErr = f.processBatch(ctx, full)
		return batchErr
	}
	err := f.source.entries(ctx, f.state.Read, f.state.Waiting.TreeSize, func(b batch, more bool) error {
		pending.add(b)
		if more && len(pending.entries) < maxBatch && pending.bytes < maxBatchBytes {
			return nil
		}
		return flush()
	})
	if batchErr == nil {
		// The entries that arrived before a failure are stored.
		if err := flush(); err != nil {
			return err
		}
	}
	switch {
	case batchErr != nil:
		return batchErr
	case err == nil && f.isWaiting():
		err = fmt.Errorf("%w: the log gave %d entries, and its head has %d", errDamaged, f.state.Read,
			f.state.Waiting.TreeSize)
	}
	if err == nil {
		return nil
	}
	err = fmt.Errorf("watch: %s: %w", f.log.Name, err)
	if ctx.Err() != nil || f.state.Read > before {
		return err
	}
	return f.judgeWithheld(err)
}

// judgeWithheld accuses a log that has not handed out the next entry of the waiting head within its maximum merge delay,
// since it was first asked for it and since it signed the head. Otherwise, it returns why the entry could not be read.
// The first failure is stored, so that a restart does not begin a new delay.
func (f *Follower) judgeWithheld(why error) error {
	now, isKnown := f.options.times.Passed(f.log.ID, f.clock.Now())
	if f.log.MaxMergeDelay <= 0 || !isKnown {
		return why
	}
	now = now.Truncate(time.Second) // as in evidence
	if f.state.Withheld.IsZero() {
		next := *f.state
		next.Withheld = now
		return errors.Join(why, f.keep(next, nil))
	}
	head := f.state.Waiting.earliest()
	if now.Sub(f.state.Withheld) <= f.log.MaxMergeDelay || now.Sub(timeOf(head.Timestamp)) <= f.log.MaxMergeDelay {
		return why
	}
	text := fmt.Sprintf("the log signed a head of %d leaves at %s, and gave no entry from %d on since %s (%v)", head.TreeSize,
		timeOf(head.Timestamp).UTC().Format(time.RFC3339), f.state.Read, f.state.Withheld.UTC().Format(time.RFC3339), why)
	return f.accuse(*f.state, VerdictWithheld, text, map[string][]byte{FileHead: head.Signed})
}

// judgeProof judges a consistency proof from the accepted head to the waiting one. The proof shows a rewritten history
// before the entries are read. A wrong proof accuses the log only if it shows such a history.
func (f *Follower) judgeProof(ctx context.Context) error {
	first, second := f.state.Accepted.Head, f.state.Waiting.Head
	if first.TreeSize == 0 || f.state.Read != first.TreeSize || second.TreeSize-first.TreeSize < minProofEntries {
		return nil
	}
	proof, err := f.source.consistency(ctx, first.TreeSize, second.TreeSize)
	if err != nil {
		// A log must not prevent the search of its entries by giving no proof. The entries decide without it.
		return ctx.Err()
	}
	found, _, err := wagtenib.MonitorProof(f.state.Monitor, proof)
	if err != nil {
		return f.stateError(err)
	}
	if found.Verdict != wagtenib.VerdictInconsistent {
		return nil
	}
	shown := otherHistory(ctx, f.source, first, second, proof)
	if shown == nil {
		if shown, err = notProved(first, second, proof, found.Fault); err != nil {
			return err
		}
	}
	var accused *AccusedError
	if err := f.accuse(*f.state, shown.Verdict, shown.Text, shown.Files); !errors.As(err, &accused) {
		return err
	}
	// The entries decide. If the history was rewritten, their root differs too.
	return nil
}

// stage gives a batch's tiles to the mirror. It returns no error, because a full disk of the mirror must not prevent
// the search of entries. Mirror.Accept reads a tile again if it is not staged, and returns the error if it persists.
func (f *Follower) stage(b batch) {
	if f.mirror == nil {
		return
	}
	for _, tile := range b.tiles {
		if f.mirror.Stage(tile) != nil {
			return
		}
	}
}

// processBatch judges entries, and stores them with the next state. It stores evidence against the log before the
// entries. If that fails, the entries are read again.
func (f *Follower) processBatch(ctx context.Context, b batch) error {
	if f.comparesTiles {
		if err := f.compare(ctx, b); err != nil {
			return err
		}
	}
	found, report, monitor, err := wagtenib.MonitorEntries(f.state.Monitor, b.start, b.leaves())
	if err != nil {
		return f.stateError(err)
	}
	if found.Verdict == wagtenib.VerdictGap {
		return fmt.Errorf("watch: %s: %w: entries from %d on, and %d is next", f.log.Name, errDamaged, b.start, f.state.Read)
	}
	if err := f.judgeEntries(ctx, b, report); err != nil {
		return err
	}
	f.stage(b)
	next := *f.state
	next.Monitor, next.Read, next.Withheld = monitor, found.Read, time.Time{}
	switch found.Verdict {
	case wagtenib.VerdictPending:
		return f.keep(next, b.entries)
	case wagtenib.VerdictAccepted:
		next.Accepted, next.Waiting = f.state.Waiting, Tree{}
		if err := f.keep(next, b.entries); err != nil {
			return err
		}
		f.comparesTiles = false
		return nil
	}
	// The leaves have another root. The Keeper still searches them: a log must not hide an entry in this way. The next
	// reading begins at the accepted head.
	if err := f.keep(*f.state, b.entries); err != nil {
		return err
	}
	f.comparesTiles = f.log.IsTiled()
	next.Waiting = Tree{}
	waiting := f.state.Waiting
	text := fmt.Sprintf("the %d leaves that were read have the root %x, and the log signed %x", waiting.TreeSize,
		found.Root, waiting.Root)
	files := map[string][]byte{FileHead: waiting.Signed}
	if len(f.state.Accepted.Signed) > 0 {
		files[FileFirst] = f.state.Accepted.Signed
	}
	return f.accuse(next, VerdictOtherRoot, text, files)
}

// judgeEntries accuses the log of entries that it must not have. It accuses at most once of each kind in a batch.
func (f *Follower) judgeEntries(ctx context.Context, b batch, report wagtenib.EntryReport) error {
	if report.Later != nil {
		text := fmt.Sprintf("entry %d has the timestamp %d, and the head that covers it has %d", report.Later.Index,
			report.Later.Timestamp, report.HeadTimestamp)
		if err := f.accuseEntry(ctx, b, report.Later.Index, VerdictLaterEntry, text); err != nil {
			return err
		}
	}
	if report.Faulty != nil {
		text := fmt.Sprintf("entry %d is no leaf: %v", report.Faulty.Index, report.Faulty.Fault)
		if err := f.accuseEntry(ctx, b, report.Faulty.Index, VerdictNoLeaf, text); err != nil {
			return err
		}
	}
	if b.otherIndex != nil {
		text := fmt.Sprintf("entry %d does not name its own index only", *b.otherIndex)
		if err := f.accuseEntry(ctx, b, *b.otherIndex, VerdictWrongIndex, text); err != nil {
			return err
		}
	}
	if index, ok := f.firstLate(b); ok {
		entry := b.entries[index-b.start]
		text := fmt.Sprintf("entry %d has the timestamp %d, and is not among the %d leaves of the head that was signed at "+
			"%d, past the maximum merge delay of %v",
			index, entry.Timestamp, f.state.Accepted.TreeSize, f.state.Accepted.Timestamp, f.log.MaxMergeDelay)
		return f.accuseEntry(ctx, b, index, VerdictLateMerge, text)
	}
	return nil
}

// firstLate returns the index of the first entry that the accepted head must cover, but does not. That head was signed
// after the entry's maximum merge delay.
func (f *Follower) firstLate(b batch) (index uint64, ok bool) {
	delay, head := uint64(f.log.MaxMergeDelay.Milliseconds()), f.state.Accepted
	if delay == 0 || len(head.Signed) == 0 {
		return 0, false
	}
	for _, entry := range b.entries {
		if entry.Fault == nil && entry.Index < f.state.Waiting.TreeSize && entry.Timestamp < head.Timestamp &&
			head.Timestamp-entry.Timestamp > delay {
			return entry.Index, true
		}
	}
	return 0, false
}

// accuseEntry accuses the log of an entry. The evidence has the entry's audit path if the log gives one that leads to
// the waiting head. The state stays the same. It returns nil after it has accused the log, so that reading continues.
func (f *Follower) accuseEntry(ctx context.Context, b batch, index uint64, verdict, text string) error {
	if f.memory.count[verdict] >= maxAccusations {
		return nil
	}
	leaf, head := b.entries[index-b.start].Leaf, f.state.Waiting.Head
	if verdict == VerdictLaterEntry {
		head = f.state.Waiting.earliest()
	}
	files := map[string][]byte{FileHead: head.Signed, FileLeaf: leaf}
	if verdict == VerdictLateMerge {
		files[FileFirst] = f.state.Accepted.Signed
	}
	hash := wagtenib.LeafHash(leaf)
	path, err := f.source.inclusion(ctx, index, head.TreeSize, hash)
	if err == nil {
		err = wagtenib.VerifyInclusion(hash, index, head.TreeSize, path, head.Root)
	}
	if err != nil {
		text += fmt.Sprintf(" (there is no audit path: %v)", err)
	} else if files[FileProof], err = json.Marshal(Inclusion{index, head.TreeSize, hash[:], bytesOf(path)}); err != nil {
		return err
	}
	var accused *AccusedError
	if err := f.accuse(*f.state, verdict, text, files); !errors.As(err, &accused) {
		return err
	}
	return nil
}

// compare compares each leaf of a batch with the log's hash tiles, which are compared with the root of the head. It is
// called after the leaves of a reading had another root, and finds the wrong data tile.
func (f *Follower) compare(ctx context.Context, b batch) error {
	log, ok := f.source.(*tiles)
	if !ok {
		return nil
	}
	head := f.state.Waiting
	indexes := make([]int64, len(b.entries))
	for i := range indexes {
		indexes[i] = tlog.StoredHashIndex(0, int64(b.start)+int64(i))
	}
	hashes, err := log.hashes(ctx, head.TreeHead).ReadHashes(indexes)
	if err != nil {
		// Without hash tiles that lead to the root, the wrong data tile cannot be found. All entries are still read: a log
		// must not prevent the search of its entries.
		f.comparesTiles = false
		return ctx.Err()
	}
	for i, entry := range b.entries {
		if wagtenib.LeafHash(entry.Leaf) == wagtenib.Hash(hashes[i]) {
			continue
		}
		return f.accuseTile(ctx, log, b, entry, wagtenib.Hash(hashes[i]))
	}
	return nil
}

// accuseTile accuses the log of a data tile with an entry whose hash differs from the hash in the log's tree.
func (f *Follower) accuseTile(ctx context.Context, log *tiles, b batch, entry Entry, hash wagtenib.Hash) error {
	head := f.state.Waiting
	path, err := log.inclusion(ctx, entry.Index, head.TreeSize, hash)
	if err != nil {
		return fmt.Errorf("watch: %s: %w", f.log.Name, err)
	}
	proof, err := json.Marshal(Inclusion{entry.Index, head.TreeSize, hash[:], bytesOf(path)})
	if err != nil {
		return err
	}
	files := map[string][]byte{FileHead: head.Signed, FileProof: proof, FileLeaf: entry.Leaf}
	for _, tile := range b.tiles {
		if tile.Index == entry.Index/ct.TileWidth {
			files[FileTile] = tile.Bytes
		}
	}
	// The Keeper searches the leaves although they are not those of the log's tree: they can show what the log hides. The
	// next reading does not compare tiles, so it reaches the end, and then a newer head is judged.
	f.comparesTiles = false
	if err := f.keep(*f.state, b.entries); err != nil {
		return err
	}
	text := fmt.Sprintf("entry %d of a data tile is not the one of the tree of %d leaves that the log signed",
		entry.Index, head.TreeSize)
	return f.accuse(*f.state, VerdictDamagedTile, text, files)
}
