package probe

import (
	"bytes"
	"context"
	"crypto/sha256"
	"errors"
	"slices"
	"time"

	"wagtenib/bindings/go/wagtenib"
	"wagtenib/internal/ct"
	"wagtenib/internal/logclient"
	"wagtenib/internal/watch"
)

// promise holds an SCT, the entry that it promises, and which of its checks are done.
type promise struct {
	submission Submission
	sct        ct.SCT
	index      uint64
	until      time.Time // the end of the merge delay
	leaf       []byte
	hash       wagtenib.Hash
	done       map[string]bool // the checks that are done
}

// promiseChecks holds the checks of a promise, in their order.
var promiseChecks = []string{CheckSCTRepeat, CheckInclusionByTiles, CheckDataTile, CheckIssuers, CheckInclusionByHash,
	CheckGetEntries, CheckMergeDelay}

func (p *promise) keep(leaf []byte) {
	p.leaf, p.hash, p.done = leaf, wagtenib.LeafHash(leaf), map[string]bool{}
}

func (p *promise) evidence() map[string][]byte {
	return map[string][]byte{"sct": p.sct.Bytes(), "certificate": p.submission.Chain[0], "leaf": p.leaf}
}

// isOver reports whether all checks are done.
func (p *promise) isOver() bool { return len(p.done) >= len(promiseChecks) }

// end marks all checks of a promise as done, after a failure that makes the others fail too.
func (p *promise) end() {
	for _, name := range promiseChecks {
		p.done[name] = true
	}
}

// graceAfterDelay is the time after the merge delay for which the probe still waits for an answer that shows an entry.
// It is longer than a restart of a log.
const graceAfterDelay = 30 * time.Second

// isWaiting reports whether the probe still waits for the entry of an SCT.
func (r *run) isWaiting() bool {
	now := r.clock.Now()
	return slices.ContainsFunc(r.promises, func(p *promise) bool { return now.Before(p.until.Add(graceAfterDelay)) })
}

// follow looks for each promised entry in the newest heads.
func (r *run) follow(ctx context.Context) {
	for _, p := range r.promises {
		if !p.done[CheckSCTRepeat] {
			r.repeat(ctx, p)
		}
		tiles, calls := r.endpoints[0], r.endpoints[1]
		if !tiles.received.IsZero() {
			r.followTiles(ctx, p, tiles)
		}
		if !calls.received.IsZero() {
			r.followCalls(ctx, p, calls)
		}
		for _, e := range r.endpoints {
			r.judgeDelay(p, e)
		}
	}
	r.promises = slices.DeleteFunc(r.promises, (*promise).isOver)
}

// repeat submits a chain again, and compares the second SCT with the first.
func (r *run) repeat(ctx context.Context, p *promise) {
	again, ok := r.submit(ctx, p.submission)
	if !ok {
		return
	}
	p.done[CheckSCTRepeat] = true
	second := &promise{submission: p.submission}
	if !r.judgeSignature(second, &again) {
		return
	}
	if again.Timestamp != p.sct.Timestamp || !bytes.Equal(again.Extensions, p.sct.Extensions) {
		evidence := p.evidence()
		evidence["sct-2"] = again.Bytes()
		r.recorder.fail(CheckSCTRepeat, evidence, "the second SCT of one chain is of %s with the extensions %x, "+
			"and the first one is of %s with %x",
			timeOf(again.Timestamp), again.Extensions, timeOf(p.sct.Timestamp), p.sct.Extensions)
		return
	}
	r.recorder.pass(CheckSCTRepeat, "entry %d, twice of %s", p.index, timeOf(again.Timestamp))
}

// followTiles looks for an entry in the tiles of a checkpoint.
func (r *run) followTiles(ctx context.Context, p *promise, e *endpoint) {
	head := e.last
	if p.index >= head.TreeSize || p.done[CheckInclusionByTiles] && p.done[CheckDataTile] && p.done[CheckIssuers] {
		return
	}
	entry, entryErr := e.reader.Entry(ctx, head, p.index)
	if !p.done[CheckInclusionByTiles] {
		_, path, err := e.reader.FindLeaf(ctx, head, p.hash, p.index)
		if err != nil {
			r.recordNonsense(p, CheckInclusionByTiles, err)
			return
		}
		fault := wagtenib.VerifyInclusion(p.hash, p.index, head.TreeSize, path, head.Root)
		switch {
		case fault == nil:
			p.done[CheckInclusionByTiles] = true
			r.recorder.pass(CheckInclusionByTiles, "entry %d of %d", p.index, head.TreeSize)
			r.recorder.pass(CheckSCTIndex, "entry %d", p.index)
		case entryErr != nil:
			return // Only with the entry can the probe decide which of the two checks failed.
		case !bytes.Equal(entry.Leaf, p.leaf):
			r.recorder.fail(CheckSCTIndex, p.evidence(), "the SCT names the index %d, and another entry is there",
				p.index)
			p.end()
			return
		default:
			p.done[CheckInclusionByTiles] = true
			r.recorder.fail(CheckInclusionByTiles, map[string][]byte{"head": head.Signed, "leaf": p.leaf},
				"the tiles do not lead from entry %d to the root of %d leaves, %x: %v", p.index, head.TreeSize,
				head.Root, fault)
		}
	}
	if entryErr != nil {
		r.recordNonsense(p, CheckDataTile, entryErr)
		return
	}
	r.judgeDataTile(ctx, p, entry)
}

// recordNonsense records a failure for an answer of the wrong form. If there was no answer, it does nothing, because
// the probe asks again.
func (r *run) recordNonsense(p *promise, name string, err error) {
	for _, kind := range []error{logclient.ErrUnreachable, logclient.ErrBusy, logclient.ErrStatus, logclient.ErrTooSlow,
		logclient.ErrNotFound, context.Canceled, context.DeadlineExceeded} {
		if errors.Is(err, kind) {
			return
		}
	}
	p.done[name] = true
	r.recorder.fail(name, p.evidence(), "entry %d: %v", p.index, err)
}

// judgeDataTile compares an entry of a data tile with the submission, and fetches its issuers.
func (r *run) judgeDataTile(ctx context.Context, p *promise, entry watch.Entry) {
	if !p.done[CheckDataTile] {
		p.done[CheckDataTile] = true
		if !bytes.Equal(entry.Leaf, p.leaf) {
			r.recorder.fail(CheckDataTile, map[string][]byte{"leaf": p.leaf, "leaf-in-tile": entry.Leaf},
				"the data tile has another entry at %d "+
					"than the one that the hash tiles have", p.index)
		} else {
			r.recorder.pass(CheckDataTile, "entry %d", p.index)
		}
	}
	if p.done[CheckIssuers] {
		return
	}
	for i, issuer := range p.submission.Chain[1:] {
		if fingerprint := sha256.Sum256(issuer); i >= len(entry.Fingerprints) || entry.Fingerprints[i] != fingerprint {
			p.done[CheckIssuers] = true
			r.recorder.fail(CheckIssuers, p.evidence(), "entry %d does not name the issuer with SHA-256 %x", p.index,
				fingerprint)
			return
		}
	}
	for _, fingerprint := range entry.Fingerprints {
		_, err := r.reads.Issuer(ctx, fingerprint)
		if errors.Is(err, logclient.ErrNotFound) || errors.Is(err, logclient.ErrNonsense) {
			p.done[CheckIssuers] = true
			r.recorder.fail(CheckIssuers, p.evidence(), "entry %d: %v", p.index, err)
			return
		}
		if err != nil {
			return
		}
	}
	p.done[CheckIssuers] = true
	r.recorder.pass(CheckIssuers, "entry %d: %d issuers", p.index, len(entry.Fingerprints))
}

// followCalls looks for an entry with the calls of RFC 6962.
func (r *run) followCalls(ctx context.Context, p *promise, e *endpoint) {
	head := e.last
	if p.index >= head.TreeSize {
		return
	}
	if !p.done[CheckInclusionByHash] {
		index, path, err := e.reader.FindLeaf(ctx, head, p.hash, p.index)
		if err != nil {
			if !errors.Is(err, watch.ErrAbsent) { // An absent entry may still be added until the merge delay ends.
				r.recordNonsense(p, CheckInclusionByHash, err)
			}
			return
		}
		p.done[CheckInclusionByHash] = true
		fault := wagtenib.VerifyInclusion(p.hash, index, head.TreeSize, path, head.Root)
		switch {
		case fault != nil:
			r.recorder.fail(CheckInclusionByHash, map[string][]byte{"head": head.Signed, "leaf": p.leaf},
				"the path of entry %d does not lead to the "+
					"root of %d leaves: %v", index, head.TreeSize, fault)
		case index != p.index:
			r.recorder.fail(CheckInclusionByHash, p.evidence(), "the entry is at %d, and its SCT names %d", index,
				p.index)
		default:
			r.recorder.pass(CheckInclusionByHash, "entry %d of %d", index, head.TreeSize)
		}
	}
	if p.done[CheckGetEntries] {
		return
	}
	entry, err := e.reader.Entry(ctx, head, p.index)
	if err != nil {
		r.recordNonsense(p, CheckGetEntries, err)
		return
	}
	p.done[CheckGetEntries] = true
	if !bytes.Equal(entry.Leaf, p.leaf) {
		r.recorder.fail(CheckGetEntries, map[string][]byte{"leaf": p.leaf, "leaf-in-answer": entry.Leaf},
			"get-entries has another entry at %d",
			p.index)
		return
	}
	r.recorder.pass(CheckGetEntries, "entry %d", p.index)
}

// judgeDelay judges whether a head that is later than an SCT by more than the merge delay covers its entry.
func (r *run) judgeDelay(p *promise, e *endpoint) {
	if p.done[CheckMergeDelay] || e.received.IsZero() {
		return
	}
	head := e.last
	switch isLate := timeOf(head.Timestamp).After(p.until); {
	case isLate && p.index >= head.TreeSize:
		evidence := p.evidence()
		evidence["head"] = head.Signed
		r.recorder.fail(CheckMergeDelay, evidence, "%s of %s has %d leaves, and lacks entry %d, whose SCT is of %s",
			e.name,
			timeOf(head.Timestamp), head.TreeSize, p.index, timeOf(p.sct.Timestamp))
		p.end()
	case p.done[CheckInclusionByTiles] || p.done[CheckInclusionByHash]:
		p.done[CheckMergeDelay] = true
		r.recorder.pass(CheckMergeDelay, "entry %d, seen %v after its SCT", p.index,
			r.clock.Now().Sub(timeOf(p.sct.Timestamp)).Round(time.Millisecond))
	}
}

// giveUp records a failure for each check of a promise that is not done.
func (r *run) giveUp(p *promise) {
	for _, name := range promiseChecks {
		if !p.done[name] {
			r.recorder.fail(name, p.evidence(), "entry %d, whose SCT is of %s: no answer showed it until the end",
				p.index,
				timeOf(p.sct.Timestamp))
		}
	}
}
