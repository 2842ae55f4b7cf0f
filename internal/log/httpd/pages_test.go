package httpd

import (
	"net/netip"
	"testing"
	"time"

	"wagtenib/internal/blob"
	"wagtenib/internal/command/eventlog"
	"wagtenib/internal/testkit"
)

// inSecond returns the maximum number of submissions of one address that are answered in a second if tree heads have
// this interval.
func inSecond(limits Limits, interval time.Duration) int {
	return limits.ConnectionsByAddress * int(time.Second/interval)
}

// TestPageSaysBounds checks that docs/SERVICE.md and docs/OPERATING.md state the bounds of this package for requests
// and answers.
func TestPageSaysBounds(t *testing.T) {
	limits, page := DefaultLimits(), testkit.Page(t, "../../../docs/SERVICE.md")
	group, bound := (&counts{max: limits.ConnectionsByAddress}).groupOf(netip.MustParseAddr("2001:db8::7"))
	testkit.Says(t, page, map[string]bool{
		"| connections of clients | 4,096 | 64 |": limits.Connections == 4096 &&
			bound == 64,
		"Addresses of IPv6 count together if they are in the same /64": group.Bits() == 64,
		"| connections of operators | 64 | | | connections of other nodes | 4,096 | |": maxOperatorConnections == 64 &&
			maxNodeConnections == 4096,
		"| headers of a request | 16 KiB | | | body of a request | 1 MiB | |": MaxHeader == 16<<10 &&
			MaxBody == 1<<20,
		"| proofs that are made at once | 64 | a quarter |": limits.ProofsByAddress == 64/4,
		"| bodies of submissions together | 64 MiB | an eighth |": limits.WaitingBytes == 64<<20 &&
			byAddress(limits.WaitingBytes, MaxBody) == 8<<20,
		"| objects that are read or sent, together | 512 MiB | an eighth |": limits.AnswerBytes == 512<<20 &&
			byAddress(limits.AnswerBytes, 1) == 64<<20,
		"One address may always have 65 MiB: one object of 64 MiB, and 1 MiB beside it": blob.MaxObject == 64<<20 &&
			byAddress(0, blob.MaxObject+likelyEntries) == 65<<20,
		"up to the end of the data tile, at most 256 entries and at most 1,000,000 bytes before base64, but always " +
			"at least one entry": MaxEntries == 256 && MaxEntryBytes == 1000000,
		"Caches may keep a full tile or an issuer for ever, a partial tile for a minute, and a checkpoint for a " +
			"second": forEver == "public, max-age=31536000, immutable" &&
			forAWhile == "public, max-age=60" && forASecond == "public, max-age=1",
		"is counted with status 499": statusGone == 499,
		"At most 50 lines a second are logged for one event, except for lines of level `error`": eventlog.MaxLines == 50,
	})
	testkit.Says(t, testkit.Page(t, "../../../docs/OPERATING.md"), map[string]bool{
		"64 connections at once, or 64 requests at once through nginx " +
			"(`max-connections-per-address`)": limits.ConnectionsByAddress == 64,
		"so an address gets at most 64 SCTs for each tree head": limits.ConnectionsByAddress == 64,
		"| 5 ms, the default of a log on a folder | 12,800 |":   inSecond(limits, 5*time.Millisecond) == 12800,
		"| 50 ms, the default with witnesses and with stores on other machines | 1,280 |": inSecond(limits,
			50*time.Millisecond) == 1280,
		"| 500 ms | 128 |": inSecond(limits, 500*time.Millisecond) == 128,
		"tiles have no rate. An address may use ten seconds of its rate at once. A request above the rate gets 429 " +
			"`too-often`. `submitters` have no rate": burst == 10*time.Second && tileCall.costs == 0 &&
			tooOften.status == 429 && tooOften.name == "too-often",
	})
}
