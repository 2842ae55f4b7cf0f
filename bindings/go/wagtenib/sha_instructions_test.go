//go:build wagtenib_sha_instructions

package wagtenib_test

import (
	"crypto/sha256"
	"math/rand"
	"os"
	"strconv"
	"testing"

	"wagtenib/bindings/go/wagtenib"
)

// TestSHAInstructionsHashAsGo compares the hashes of leaves of random lengths with those of crypto/sha256. The
// environment variable WAGTENIB_BLOCKS is the number of blocks.
func TestSHAInstructionsHashAsGo(t *testing.T) {
	left := 100_000
	if text := os.Getenv("WAGTENIB_BLOCKS"); text != "" {
		number, err := strconv.Atoi(text)
		if err != nil {
			t.Fatalf("WAGTENIB_BLOCKS=%q: %v (give a number of blocks)", text, err)
		}
		left = number
	}
	chance := rand.New(rand.NewSource(1))
	bytes := make([]byte, 1+16<<10)
	for left > 0 {
		length := 1 + chance.Intn(1+chance.Intn(len(bytes)-1))
		chance.Read(bytes[1:length])
		if got, want := wagtenib.LeafHash(bytes[1:length]), sha256.Sum256(bytes[:length]); got != want {
			t.Fatalf("leaf %x: the hash is %x, and crypto/sha256 has %x", bytes[1:length], got, want)
		}
		// SHA-256 appends a byte and the length in eight bytes to a message.
		left -= (length + 9 + sha256.BlockSize - 1) / sha256.BlockSize
	}
}

// TestSHAInstructionsAreUsed compares what the package reports with the environment variable WAGTENIB_INSTRUCTIONS,
// which says whether the processor has SHA instructions.
func TestSHAInstructionsAreUsed(t *testing.T) {
	due := os.Getenv("WAGTENIB_INSTRUCTIONS")
	if due == "" {
		t.Skip("WAGTENIB_INSTRUCTIONS=yes or =no says whether the processor has SHA instructions")
	}
	if got := wagtenib.HasSHAInstructions(); got != (due == "yes") {
		t.Errorf("HasSHAInstructions returns %t, and WAGTENIB_INSTRUCTIONS=%s", got, due)
	}
}
