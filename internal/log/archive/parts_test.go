package archive_test

import (
	"bytes"
	"fmt"
	"net/http"
	"slices"
	"testing"

	"wagtenib/internal/log/archive"
	"wagtenib/internal/testkit"
)

// TestLargeIssuersEndAPart checks that the bytes of issuers count among those in memory before a part is proved and
// written, so that a tile with large issuers is written by itself.
func TestLargeIssuersEndAPart(t *testing.T) {
	w := newWorld(t, 0)
	for i := range 512 {
		e := testkit.Entry{Timestamp: uint64(1000 + i), Certificate: fmt.Appendf(nil, "certificate %d", i)}
		if i < 256 {
			e.Chain = [][]byte{bytes.Repeat([]byte{byte(i), 1}, 70_000)}
		}
		w.log.Add(e)
	}
	w.log.Publish(512, 2_000_000)
	var parts []uint64
	of := options()
	of.MaxTiles = 0
	of.Progress = func(entries, _ uint64) { parts = append(parts, entries) }
	_, err := archive.Make(testkit.Limited(t, testkit.Longest), w.folder, w.archivedLog(), of)
	testkit.Must(t, err)
	if !slices.Equal(parts, []uint64{256, 512}) {
		t.Errorf("the parts end at %d", parts)
	}
}

// TestForkOfTheArchivedSize checks that a head of the size that the archive has, with another root, is a fork, also
// while a larger head is being archived.
func TestForkOfTheArchivedSize(t *testing.T) {
	w := newWorld(t, 300)
	testkit.Must(t, w.make())
	w.grow(300)
	intercept(w.log, "get-entries", func(rw http.ResponseWriter, _ *http.Request) bool {
		rw.WriteHeader(http.StatusInternalServerError)
		return true
	})
	if err := w.make(); err == nil {
		t.Fatal("it is archived without entries")
	}
	w.fork(t, 10, 300)
	testkit.WantError(t, w.make(), archive.ErrFork)
}
