package tiles

import (
	"fmt"
	"testing"
)

// TestRemembersRecentTiles checks that a tile that was used recently is remembered, only with its content, and that the
// tiles stay within the limit.
func TestRemembersRecentTiles(t *testing.T) {
	var r recent
	const pieces = 16
	content := make([]byte, maxRecent/pieces)
	r.remember("asked", content)
	for i := range 3 * pieces {
		r.remember(fmt.Sprint(i), content)
		if !r.contains("asked", content) || !r.contains(fmt.Sprint(i), content) {
			t.Fatalf("forgotten after %d others", i+1)
		}
		if size := (len(r.young) + len(r.aged)) * len(content); size > maxRecent {
			t.Fatalf("%d bytes are remembered, more than %d", size, maxRecent)
		}
	}
	if r.contains("0", content) {
		t.Error("a tile that was not used is remembered")
	}
	other := append([]byte{1}, content[1:]...)
	for _, wrong := range [][]byte{nil, {}, other, content[1:], append(content, 0)} {
		if r.contains("asked", wrong) {
			t.Errorf("another content of %d bytes is accepted as the one that was compared", len(wrong))
		}
	}
}
