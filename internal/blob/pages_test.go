package blob

import (
	"testing"
	"time"

	"wagtenib/internal/testkit"
)

// TestPageSaysBounds: the bounds of stores in docs/SERVICE.md are those of the code.
func TestPageSaysBounds(t *testing.T) {
	testkit.Says(t, testkit.Page(t, "../../docs/SERVICE.md"), map[string]bool{
		"Each call has 1.5 s at one member":               maxCallTime == 1500*time.Millisecond,
		"are left out, and asked again ten seconds later": leftOutFor == 10*time.Second,
	})
}
