package testkit_test

import (
	"fmt"
	"os"
	"path/filepath"
	"slices"
	"testing"

	"wagtenib/internal/testkit"
)

// recorder is a test that records its errors.
type recorder struct {
	testing.TB
	faults []string
}

func (r *recorder) Helper() {}
func (r *recorder) Errorf(format string, arguments ...any) {
	r.faults = append(r.faults, fmt.Sprintf(format, arguments...))
}

// TestSays: a page must contain each sentence, and each sentence must be true.
func TestSays(t *testing.T) {
	path := filepath.Join(t.TempDir(), "page.md")
	testkit.Must(t, os.WriteFile(path, []byte("# A page\n\nIt has two\nlines.\n"), 0o600))
	for _, test := range []struct {
		sentence string
		isTrue   bool
		faults   []string
	}{
		{"It has two lines.", true, nil},
		{"It has two lines.", false, []string{`the page says "It has two lines.", which is not true of the code`}},
		{"It has three lines.", true, []string{`the page does not say "It has three lines."`}},
	} {
		r := &recorder{TB: t}
		testkit.Says(r, testkit.Page(t, path), map[string]bool{test.sentence: test.isTrue})
		if !slices.Equal(r.faults, test.faults) {
			t.Errorf("%q, %t: %q", test.sentence, test.isTrue, r.faults)
		}
	}
}
