package janitor

import (
	"context"

	"wagtenib/internal/ct"
)

// maxLooked is how many issuers are remembered as read.
const maxLooked = 4096

// issuers are those that were read since reading began at the first tile.
type issuers struct {
	looked map[[32]byte]bool
	// again is the number after the damaged tile that was read last.
	again uint64
}

// nextDamaged returns a damaged tile, each in its turn, and false if there is none.
func (j *Janitor) nextDamaged() (number uint64, ok bool) {
	j.report.Lock()
	defer j.report.Unlock()
	first, next, isFirst := uint64(0), uint64(0), false
	for of := range j.report.Damaged {
		if of >= j.issuers.again && (!ok || of < next) {
			next, ok = of, true
		}
		if !isFirst || of < first {
			first, isFirst = of, true
		}
	}
	if !ok {
		return first, isFirst
	}
	return next, true
}

// readDamaged reads one damaged tile again, which may have been put back.
func (j *Janitor) readDamaged(ctx context.Context, newest Newest) error {
	number, ok := j.nextDamaged()
	if !ok || number*ct.TileWidth >= newest.Head.TreeSize {
		return nil
	}
	j.issuers.again = number + 1
	// An error leaves the recorded state of the tile as it was.
	_ = j.readTile(ctx, number, newest)
	return nil
}

// readIssuers reads those issuers again that are worth a look.
func (j *Janitor) readIssuers(ctx context.Context, _ Newest) error {
	if j.config.Issuers == nil {
		return nil
	}
	for _, fingerprint := range j.config.Issuers.Next() {
		// One that is not read now is read by a later pass.
		_ = j.look(ctx, fingerprint)
	}
	return nil
}

func (j *Janitor) look(ctx context.Context, fingerprint [32]byte) error {
	return j.call(ctx, func(ctx context.Context) error { return j.config.Issuers.Look(ctx, fingerprint) })
}

// readIssuersOf reads the issuers of entries again that were not read yet.
func (j *Janitor) readIssuersOf(ctx context.Context, leaves []ct.Leaf) {
	if j.config.Issuers == nil {
		return
	}
	for i := range leaves {
		for chain := leaves[i].Chain; len(chain) >= 32; chain = chain[32:] {
			fingerprint := [32]byte(chain[:32])
			if j.issuers.looked[fingerprint] {
				continue
			}
			if j.look(ctx, fingerprint) != nil {
				// The store does not answer now, so a later pass reads them.
				return
			}
			if len(j.issuers.looked) >= maxLooked {
				j.issuers.looked = map[[32]byte]bool{}
			}
			j.issuers.looked[fingerprint] = true
		}
	}
}
