package sim_test

import (
	"os"
	"runtime/debug"
	"testing"
)

// TestMain runs the tests with fewer garbage collections: a history allocates much and keeps little.
func TestMain(m *testing.M) {
	if os.Getenv("GOGC") == "" {
		debug.SetGCPercent(800)
	}
	os.Exit(m.Run())
}
