package audit

import (
	"context"
	"encoding/json"
	"errors"
	"fmt"
	"sync"
	"time"

	"wagtenib/bindings/go/wagtenib"
	"wagtenib/internal/ct"
	"wagtenib/internal/watch"
)

// promise holds a timestamp that a log signed, the leaf that it promises, and the log's newest head.
type promise struct {
	reader *watch.Reader
	sct    ct.SCT
	leaf   []byte
	head   watch.Head
}

// judgement is the outcome of the audit of a promise. If the log did wrong, and this can be shown to others, it has the
// verdict and the files of evidence.
type judgement struct {
	outcome Outcome
	index   uint64 // of the leaf
	text    string
	verdict string
	files   map[string][]byte
}

// judge decides by the log's tree whether the log keeps its promise.
func (p promise) judge(ctx context.Context) judgement {
	named, isNamed := p.sct.Index()
	if p.reader.Log.IsTiled() && !isNamed {
		return judgement{outcome: Never, text: "the timestamp of a tiled log names no index (leaf_index)"}
	}
	hash := wagtenib.LeafHash(p.leaf)
	index, path, err := p.reader.FindLeaf(ctx, p.head, hash, named)
	switch {
	case errors.Is(err, watch.ErrAbsent):
		if p.head.Timestamp <= p.sct.Timestamp || p.head.Timestamp-p.sct.Timestamp <= p.delay() {
			return judgement{outcome: NotYet, text: fmt.Sprintf("the leaf is not among %d", p.head.TreeSize)}
		}
		return judgement{outcome: Never, verdict: watch.VerdictPromise, files: p.files(), text: fmt.Sprintf("the leaf is not "+
			"among the %d of the head of %d, past the maximum merge delay of %v", p.head.TreeSize, p.head.Timestamp,
			p.reader.Log.MaxMergeDelay)}
	case err != nil:
		return judgement{outcome: NoAnswer, text: err.Error()}
	}
	if err := wagtenib.VerifyInclusion(hash, index, p.head.TreeSize, path, p.head.Root); err != nil {
		return p.judgeOther(ctx, index, err)
	}
	if isNamed && index != named {
		return judgement{outcome: Never, index: index, text: fmt.Sprintf("the leaf is at %d, and the timestamp names %d",
			index, named)}
	}
	if p.sct.Timestamp > p.head.Timestamp {
		return p.laterEntry(index, path)
	}
	return judgement{outcome: Included, index: index, text: fmt.Sprintf("the leaf is at %d of %d", index,
		p.head.TreeSize)}
}

// delay returns the log's maximum merge delay in milliseconds.
func (p promise) delay() uint64 { return uint64(p.reader.Log.MaxMergeDelay.Milliseconds()) }

// laterEntry accuses the log of an entry that is later than the head that covers it (RFC 6962, section 3.5).
func (p promise) laterEntry(index uint64, path []wagtenib.Hash) judgement {
	found := judgement{outcome: LaterEntry, index: index, verdict: watch.VerdictLaterEntry,
		text: fmt.Sprintf("the leaf is at %d of %d, and has the timestamp %d, which is later than that of the head, %d", index,
			p.head.TreeSize, p.sct.Timestamp, p.head.Timestamp)}
	proof, err := inclusion(index, p.head.TreeSize, wagtenib.LeafHash(p.leaf), path)
	if err != nil {
		return judgement{outcome: NoAnswer, index: index, text: err.Error()}
	}
	found.files = map[string][]byte{watch.FileHead: p.head.Signed, watch.FileLeaf: p.leaf, watch.FileProof: proof}
	return found
}

// inclusion returns the bytes of proof.json for the audit path of a leaf.
func inclusion(index, size uint64, leafHash wagtenib.Hash, path []wagtenib.Hash) ([]byte, error) {
	proof := watch.Inclusion{LeafIndex: index, TreeSize: size, LeafHash: leafHash[:], AuditPath: [][]byte{}}
	for i := range path {
		proof.AuditPath = append(proof.AuditPath, path[i][:])
	}
	return json.Marshal(proof)
}

// judgeOther judges a promise after the log's path did not lead from the leaf to the root. For a tiled log, its files
// show that another leaf is at the index.
func (p promise) judgeOther(ctx context.Context, index uint64, why error) judgement {
	if !p.reader.Log.IsTiled() {
		return judgement{outcome: Never, index: index, text: fmt.Sprintf("the log's path does not lead from the leaf at %d to "+
			"the root of %d: %v", index, p.head.TreeSize, why)}
	}
	other, err := p.reader.LeafHash(ctx, p.head, index)
	if err != nil {
		return judgement{outcome: NoAnswer, index: index, text: err.Error()}
	}
	_, path, err := p.reader.FindLeaf(ctx, p.head, other, index)
	if err != nil {
		return judgement{outcome: NoAnswer, index: index, text: err.Error()}
	}
	files := p.files()
	if files[watch.FileProof], err = inclusion(index, p.head.TreeSize, other, path); err != nil {
		return judgement{outcome: NoAnswer, index: index, text: err.Error()}
	}
	return judgement{outcome: Never, index: index, verdict: watch.VerdictPromise, files: files,
		text: fmt.Sprintf("another leaf is at %d of %d", index, p.head.TreeSize)}
}

func (p promise) files() map[string][]byte {
	return map[string][]byte{watch.FileLeaf: p.leaf, watch.FileSCT: p.sct.Bytes(), watch.FileHead: p.head.Signed}
}

// maxClockError is the difference between two clocks that is no fault of a log.
const maxClockError = 5 * time.Minute

// headTimeout is the time limit for reading the heads of all logs, with which the machine's clock is compared.
const headTimeout = time.Minute

// judgeTime judges the timestamp of a promise by the time, after the tree showed no fault. Before it accuses a log, it
// compares the machine's clock with the newest heads of all other logs. If the clock accuses the log and the heads do
// not, the outcome stays the same and its text says so.
func (a *Auditor) judgeTime(ctx context.Context, p promise, found judgement) judgement {
	// The time in evidence has whole seconds.
	log, now := p.reader.Log, a.options.Clock.Now().Truncate(time.Second)
	signed, head := milliseconds(p.sct.Timestamp), milliseconds(p.head.Timestamp)
	if signed.Sub(now) > maxClockError {
		reached := a.timesOfLogs(ctx).Reached(log.ID, now)
		if ahead := signed.Sub(reached); ahead > maxClockError {
			files := p.files()
			delete(files, watch.FileHead)
			return judgement{outcome: Future, index: found.index, verdict: watch.VerdictFuture, files: files,
				text: fmt.Sprintf("the timestamp is %v later than this machine's clock and the heads of other logs",
					ahead.Round(time.Second))}
		}
		found.text += fmt.Sprintf(" (this machine's clock says %s, and a log signed a head at %s: the time was not judged)",
			text(now), text(reached))
		return found
	}
	delay := log.MaxMergeDelay
	if found.outcome != NotYet || now.Sub(signed) <= delay {
		return found
	}
	passed, isKnown := a.timesOfLogs(ctx).Passed(log.ID, now)
	switch {
	case !isKnown || passed.Sub(signed) <= delay:
		found.text += fmt.Sprintf(" (this machine's clock says %s, and the heads of the other logs do not confirm that the "+
			"deadline is over)", text(now))
	case passed.Sub(head) <= delay:
		found.text += fmt.Sprintf(" (the deadline was %s, and the newest head, of %s, is from before it: a log may sign a head "+
			"only once in %v)", text(signed.Add(delay)), text(head), delay)
	default:
		return judgement{outcome: Overdue, verdict: watch.VerdictOverdue, files: p.files(), text: fmt.Sprintf("the deadline "+
			"was %s, and the leaf is not among the %d of the newest head, of %s, which is older than %v",
			text(signed.Add(delay)), p.head.TreeSize, text(head), delay)}
	}
	return found
}

// timesOfLogs returns the times of the newest heads of all logs. The first call reads the heads.
func (a *Auditor) timesOfLogs(ctx context.Context) *watch.Times {
	a.readTimes.Do(func() {
		ctx, cancel := context.WithTimeout(ctx, headTimeout)
		defer cancel()
		options := a.options
		options.Limits.Attempts = 1
		var running sync.WaitGroup
		for _, log := range a.logs {
			running.Add(1)
			go func() {
				defer running.Done()
				reader, err := watch.NewReader(log, options)
				if err != nil {
					return
				}
				if head, err := reader.Head(ctx); err == nil {
					a.times.Add(log.ID, head.Timestamp)
				}
			}()
		}
		running.Wait()
	})
	return a.times
}

// milliseconds returns the time of a timestamp. A timestamp that is beyond every clock is cut.
func milliseconds(timestamp uint64) time.Time { return time.UnixMilli(int64(min(timestamp, 1<<53))) }

// text returns a time as it is printed.
func text(at time.Time) string { return at.UTC().Format(time.RFC3339) }
