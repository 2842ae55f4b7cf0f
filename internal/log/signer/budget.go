package signer

import "time"

// budget bounds how often something is done in a second. It is full at first, and holds as much as a second gives it.
type budget struct {
	// perSecond is the bound, and used is how much of a full budget was taken and did not come back until at.
	perSecond, used float64
	at              time.Time
}

// take takes count out of the budget, or as much as it has, and returns how much it took.
func (b *budget) take(count int, now time.Time) int {
	b.used = max(0, b.used-b.perSecond*now.Sub(b.at).Seconds())
	b.at = now
	taken := min(count, int(b.perSecond-b.used))
	b.used += float64(taken)
	return taken
}
