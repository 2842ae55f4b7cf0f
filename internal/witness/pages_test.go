package witness

import (
	"testing"

	"wagtenib/internal/testkit"
)

// TestPageSaysBounds checks that docs/SERVICE.md states the limits of a witness that the code has.
func TestPageSaysBounds(t *testing.T) {
	testkit.Says(t, testkit.Page(t, "../../docs/SERVICE.md"), map[string]bool{
		"A request, `POST /add-checkpoint`, has at most 64 KiB and 63 hashes": MaxBody == 64<<10 &&
			MaxProof == 63,
		"| 503 `clock` | the clock is more than a minute behind the last timestamp |": maxLag == 60,
	})
}
