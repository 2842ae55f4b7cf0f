package service_test

import (
	"context"
	"errors"
	"fmt"
	"os"
	"path/filepath"
	"strings"
	"testing"

	"wagtenib/internal/blob"
	"wagtenib/internal/ct"
	"wagtenib/internal/log/node"
	"wagtenib/internal/log/service"
)

// TestRefusesIndexOfAnotherLog checks that an index of another log is refused because of its id, and that the log's own
// index is accepted.
func TestRefusesIndexOfAnotherLog(t *testing.T) {
	t.Parallel()
	p, got := newPlace(t), &answers{}
	l := started(t, p.config())
	ends(t, l)
	other := newPlace(t)
	l = started(t, other.config())
	ends(t, l)
	config := p.config()
	config.Stores.Index = other.config().Stores.Index
	_, err := service.Open(limited(t), config)
	wants(t, err, node.ErrIndex)
	if names, err := p.config().Stores.Objects.List(limited(t), "places/", "", blob.MaxListed); err != nil ||
		len(names) != 1 {
		t.Errorf("%v %v", names, err)
	}
	l = started(t, p.config())
	got.submit(t, l, 0, 3)
	ends(t, l)
	// The store is as if two nodes, each with an index of its own, made their first start at the same time.
	must(t, p.config().Stores.Objects.Put(limited(t), "places/00000000000000010000000000000002", []byte("another\n")))
	_, err = service.Open(limited(t), p.config())
	wants(t, err, node.ErrIndex)
	if !strings.Contains(err.Error(), "places/00000000000000010000000000000002") || !strings.Contains(err.Error(),
		"delete") {
		t.Errorf("%v does not name what must be deleted", err)
	}
	wants(t, service.RebuildIndex(limited(t), p.config().Stores, func(uint64) {}), node.ErrIndex)
}

// TestRebuildIndex checks that a lost index is built again from the tiles, the newest entries first, and then has each
// entry and each leaf.
func TestRebuildIndex(t *testing.T) {
	t.Parallel()
	p, got := newPlace(t), &answers{}
	l := started(t, p.config())
	got.submit(t, l, 0, 600)
	ends(t, l)
	must(t, os.RemoveAll(p.path("index")))
	_, err := service.Open(limited(t), p.config())
	wants(t, err, node.ErrIndex)
	var reports []uint64
	must(t, service.RebuildIndex(limited(t), p.config().Stores, func(left uint64) { reports = append(reports, left) }))
	if len(reports) != 3 || reports[0] != 512 || reports[1] != 256 || reports[2] != 0 {
		t.Errorf("RebuildIndex reports %v", reports)
	}
	l = started(t, p.config())
	got.submit(t, l, 0, 610)
	if f := l.Metrics(); f.Duplicates != 600 || f.Entries != 610 {
		t.Errorf("%+v", f)
	}
	for _, n := range []int{0, 300, 599} {
		place, err := l.Submit(limited(t), entryOf(n))
		must(t, err)
		if index, err := l.IndexOf(limited(t), leafHash(entryOf(n), place)); err != nil || index != indexOf(place) {
			t.Errorf("%d: %v, %d", n, err, index)
		}
	}
	if leaves := p.checkLog(got); leaves != 610 {
		t.Errorf("%d entries", leaves)
	}
}

// TestRebuildIndexRefusesDamagedTiles checks that no index is built from a damaged tile.
func TestRebuildIndexRefusesDamagedTiles(t *testing.T) {
	t.Parallel()
	p, got := newPlace(t), &answers{}
	l := started(t, p.config())
	got.submit(t, l, 0, 300)
	ends(t, l)
	must(t, damages["changed"](p.object("tile/data/000")))
	wants(t, service.RebuildIndex(limited(t), p.config().Stores, func(uint64) {}), node.ErrDamaged)
}

// TestLogCompletesIndex checks that the log completes an index whose rebuild was stopped. The index has the newest
// entries at once, and the first ones after a while.
func TestLogCompletesIndex(t *testing.T) {
	t.Parallel()
	p, got := newPlace(t), &answers{}
	l := started(t, p.config())
	got.submit(t, l, 0, 600)
	places := map[int]ct.SCT{}
	for _, n := range []int{0, 100, 255, 256, 511, 599} {
		place, err := l.Submit(limited(t), entryOf(n))
		must(t, err)
		places[n] = place
	}
	ends(t, l)
	must(t, os.RemoveAll(p.path("index")))
	ctx, stop := context.WithCancel(limited(t))
	wants(t, service.RebuildIndex(ctx, p.config().Stores, func(left uint64) {
		if left == 512 {
			stop()
		}
	}), context.Canceled)
	l = started(t, p.config())
	eventually(t, "each leaf is found", func() bool {
		for n, place := range places {
			if index, err := l.IndexOf(limited(t), leafHash(entryOf(n), place)); err != nil || index != indexOf(place) {
				return false
			}
		}
		return true
	})
	got.submit(t, l, 0, 610)
	if f := l.Metrics(); f.Duplicates != 600 || f.Entries != 610 {
		t.Errorf("%+v", f)
	}
}

// TestRebuildIndexOfUnpublishedState checks that, if the newest state is not published, the index is built from the
// published head, and the node that starts adds the rest.
func TestRebuildIndexOfUnpublishedState(t *testing.T) {
	t.Parallel()
	p, got := newPlace(t), &answers{}
	l := started(t, p.config())
	got.submit(t, l, 0, 3)
	got.submit(t, l, 3, 5)
	ends(t, l)
	newest, _ := p.newestHead()
	must(t, os.Remove(newest))
	before, _ := p.newestHead()
	var size, timestamp uint64
	if _, err := fmt.Sscanf(filepath.Base(before), "%d-%d", &size, &timestamp); err != nil || size == 0 || size >= 5 {
		t.Fatalf("%s, %v", before, err)
	}
	must(t, os.WriteFile(p.path("register/head"), fmt.Appendf(nil, "%d %d", size, timestamp), 0o644))
	must(t, errors.Join(os.RemoveAll(p.path("index")), os.Remove(p.path("latest-head"))))
	must(t, service.RebuildIndex(limited(t), p.config().Stores, func(uint64) {}))
	l = started(t, p.config())
	got.submit(t, l, 0, 6)
	if f := l.Metrics(); f.Entries != 6 {
		t.Errorf("%+v", f)
	}
	if leaves := p.checkLog(got); leaves != 6 {
		t.Errorf("%d entries", leaves)
	}
}
