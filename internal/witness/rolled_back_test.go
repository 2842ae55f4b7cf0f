package witness

import (
	"os"
	"path/filepath"
	"testing"

	"wagtenib/internal/blob"
)

// TestRefusesRolledBackStateAfterRefusal checks that a state counts as seen after any request has read it, even if that
// request was refused. If the lock is then rolled back, nothing is cosigned.
func TestRefusesRolledBackStateAfterRefusal(t *testing.T) {
	folder, key, by, one := t.TempDir(), newKey(t), headKey(t, origin), leavesOf(t, "a", "b", "c", "d")
	state, err := blob.OpenFile(folder)
	must(t, err)
	t.Cleanup(func() { must(t, state.Close()) })
	first, second := witnessOver(t, state, key, by), witnessOver(t, state, key, by)
	sign := func(size int64) []byte { return by.sign(checkpoint(origin, size, one.root(t, size))) }
	if w := post(t, first, request(0, nil, sign(2))); w.Code != 200 {
		t.Fatalf("%d %s", w.Code, w.Body)
	}
	path := filepath.Join(folder, "text")
	before, err := os.ReadFile(path)
	must(t, err)
	if w := post(t, first, request(2, one.proof(t, 2, 3), sign(3))); w.Code != 200 {
		t.Fatalf("%d %s", w.Code, w.Body)
	}
	// The second server has the same key, as another process of the witness. It has seen nothing yet. It refuses a
	// request, and answers which size it has seen.
	if w := post(t, second, request(0, nil, sign(4))); w.Code != 409 || w.Body.String() != "3\n" {
		t.Fatalf("%d %s", w.Code, w.Body)
	}
	must(t, os.WriteFile(path, before, 0o600))
	if w := post(t, second, request(2, one.proof(t, 2, 4), sign(4))); w.Code != 503 || w.Body.String() != "state\n" {
		t.Errorf("over a state that was rolled back: %d %s", w.Code, w.Body)
	}
}
