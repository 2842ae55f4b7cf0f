package blob

import (
	"context"
	"crypto/sha256"
	"errors"
	"fmt"
	"reflect"
	"testing"
	"time"
)

func identity(i int) Identity { return sha256.Sum256([]byte(fmt.Sprint(i))) }

// leafOf returns the leaf hash that the suite uses for the row of an identity.
func leafOf(id Identity) Identity { return sha256.Sum256(append([]byte("leaf "), id[:]...)) }

func rowOf(id Identity, place Place) Row { return Row{id, leafOf(id), place} }

func rowAt(i int) Row { return rowOf(identity(i), Place{uint64(i), 1767225600000 + uint64(i)}) }

// someOf returns the identities and rows of a range of numbers, and the places that they have if all were added.
func someOf(from, to int) (identities []Identity, all []Row, found map[Identity]Place) {
	found = map[Identity]Place{}
	for i := from; i < to; i++ {
		identities, all = append(identities, identity(i)), append(all, rowAt(i))
		found[identity(i)] = rowAt(i).Place
	}
	return identities, all, found
}

// wantFound looks up identities, and the leaf hashes of their rows. Both must have these places.
func wantFound(t *testing.T, store Index, identities []Identity, want map[Identity]Place) {
	t.Helper()
	if got, err := store.Find(limited(t), identities); err != nil || !reflect.DeepEqual(got, want) {
		t.Errorf("found %d places of %d, %v; %d should be", len(got), len(identities), err, len(want))
	}
	leaves, wanted := make([]Identity, len(identities)), map[Identity]Place{}
	for i, id := range identities {
		leaves[i] = leafOf(id)
	}
	for id, place := range want {
		wanted[leafOf(id)] = place
	}
	if got, err := store.FindLeaves(limited(t), leaves); err != nil || !reflect.DeepEqual(got, wanted) {
		t.Errorf("found %d places of %d leaves, %v; %d should be", len(got), len(leaves), err, len(wanted))
	}
}

func TestRowsAreFound(t *testing.T) {
	eachOf(t, indexes, func(t *testing.T, at tried[Index]) {
		store, ctx := at.opened(t), limited(t)
		asked, all, want := someOf(0, 1200)
		wantFound(t, store, asked, map[Identity]Place{})
		wantFound(t, store, nil, map[Identity]Place{})
		must(t, store.Add(ctx, nil))
		start := time.Now()
		must(t, store.Add(ctx, all))
		logDuration(t, at.name+": added 1200 at once", 1, start)
		must(t, store.Add(ctx, all))
		start = time.Now()
		wantFound(t, store, asked, want)
		logDuration(t, at.name+": found 1200 at once", 1, start)
		more, _, _ := someOf(1200, 1300)
		wantFound(t, store, append(more, append(asked, asked...)...), want)
		wantFound(t, at.opened(t), asked, want)
	})
}

func TestIndexKeepsTheFirst(t *testing.T) {
	eachOf(t, indexes, func(t *testing.T, at tried[Index]) {
		store, ctx := at.opened(t), limited(t)
		first, later := rowOf(identity(0), Place{5, 50}), rowOf(identity(0), Place{9, 90})
		must(t, store.Add(ctx, []Row{first, later, rowAt(1)}))
		must(t, store.Add(ctx, []Row{later, rowAt(2)}))
		asked := []Identity{identity(0), identity(1), identity(2)}
		want := map[Identity]Place{identity(0): first.Place, identity(1): rowAt(1).Place, identity(2): rowAt(2).Place}
		wantFound(t, store, asked, want)
		largest := rowOf(identity(3), Place{MaxNumber, MaxNumber})
		zero := rowOf(Identity{}, Place{0, 0})
		must(t, store.Add(ctx, []Row{largest, zero}))
		wantFound(t, at.opened(t), []Identity{identity(3), {}}, map[Identity]Place{identity(3): largest.Place, {}: {}})
	})
}

// TestRowsAreReplaced: Replace sets a place whatever it was before. If a list has several places for one identity, the
// first one counts. No other place changes.
func TestRowsAreReplaced(t *testing.T) {
	eachOf(t, indexes, func(t *testing.T, at tried[Index]) {
		store, ctx := at.opened(t), limited(t)
		must(t, store.Add(ctx, []Row{rowAt(0), rowAt(1)}))
		must(t, store.Replace(ctx, nil))
		right, later := rowOf(identity(0), Place{9, 90}), rowOf(identity(0), Place{7, 70})
		must(t, store.Replace(ctx, []Row{right, rowAt(2), later}))
		must(t, store.Replace(ctx, []Row{right}))
		want := map[Identity]Place{identity(0): right.Place, identity(1): rowAt(1).Place, identity(2): rowAt(2).Place}
		wantFound(t, at.opened(t), []Identity{identity(0), identity(1), identity(2)}, want)
		must(t, store.Replace(ctx, []Row{rowAt(0)}))
		want[identity(0)] = rowAt(0).Place
		wantFound(t, store, []Identity{identity(0), identity(1), identity(2)}, want)
		_, all, _ := someOf(0, MaxRows+1)
		if err := store.Replace(ctx, all); !errors.Is(err, ErrTooLong) {
			t.Errorf("too many: %v", err)
		}
		if err := store.Replace(ctx, []Row{rowOf(identity(1), Place{MaxNumber + 1, 0})}); !errors.Is(err, ErrNumber) {
			t.Errorf("too large: %v", err)
		}
	})
}

func TestIndexHasBounds(t *testing.T) {
	eachOf(t, indexes, func(t *testing.T, at tried[Index]) {
		store, ctx := at.opened(t), limited(t)
		asked, all, want := someOf(0, MaxRows+1)
		if err := store.Add(ctx, all); !errors.Is(err, ErrTooLong) {
			t.Errorf("Add of too many: %v", err)
		}
		if _, err := store.Find(ctx, asked); !errors.Is(err, ErrTooLong) {
			t.Errorf("Find of too many: %v", err)
		}
		for _, wrong := range []Place{{MaxNumber + 1, 0}, {0, MaxNumber + 1}} {
			if err := store.Add(ctx, []Row{all[0], rowOf(identity(1), wrong)}); !errors.Is(err, ErrNumber) {
				t.Errorf("Add of %v: %v", wrong, err)
			}
		}
		wantFound(t, store, asked[:MaxRows], map[Identity]Place{})
		must(t, store.Add(ctx, all[:MaxRows]))
		delete(want, identity(MaxRows))
		wantFound(t, store, asked[:MaxRows], want)
		ended, cancel := context.WithCancel(ctx)
		cancel()
		if err := store.Add(ended, all[MaxRows:]); err == nil {
			t.Error("Add after the end of its context")
		}
		if _, err := store.Find(ended, asked[:1]); err == nil {
			t.Error("Find after the end of its context")
		}
	})
}

// TestRowsOfManyAtOnce lets 16 goroutines add the same identities with different places, in different orders. Each
// identity keeps one of the added places, and all readers see the same one from the beginning.
func TestRowsOfManyAtOnce(t *testing.T) {
	eachOf(t, indexes, func(t *testing.T, at tried[Index]) {
		stores, ctx := []Index{at.opened(t), at.opened(t)}, limited(t)
		const many = 40
		asked, _, _ := someOf(0, many)
		seen := make([]map[Identity]Place, 16)
		start := time.Now()
		for i, err := range each(16, func(i int) (err error) {
			var mine []Row
			for j := 0; j < many; j++ {
				mine = append(mine, rowOf(identity((j*7+i)%many), Place{uint64(i), uint64(i)}))
			}
			if err := stores[i%2].Add(ctx, mine); err != nil {
				return err
			}
			seen[i], err = stores[(i+1)%2].Find(ctx, asked)
			return err
		}) {
			if err != nil {
				t.Fatalf("%d: %v", i, err)
			}
			if len(seen[i]) != many || !reflect.DeepEqual(seen[i], seen[0]) {
				t.Errorf("%d finds %d places, or other places than the first goroutine", i, len(seen[i]))
			}
		}
		logDuration(t, at.name+": added and found by 16", 16, start)
		for _, place := range seen[0] {
			if place.Index != place.Timestamp || place.Index >= 16 {
				t.Errorf("a place that no goroutine added: %v", place)
			}
		}
	})
}

// TestLogsAreSeparate: an index does not find the rows of another log in the same engine.
func TestLogsAreSeparate(t *testing.T) {
	eachOf(t, indexes, func(t *testing.T, at tried[Index]) {
		if at.folder {
			t.Skip("a folder has one log")
		}
		one, other := at.opened(t), tried[Index]{at.implementation, at.place + "-other"}.opened(t)
		must(t, one.Add(limited(t), []Row{rowAt(1)}))
		wantFound(t, other, []Identity{identity(1)}, map[Identity]Place{})
	})
}

// TestLeavesAreSeparate: the tables of identities and leaves do not share rows, and each keeps its own first place.
func TestLeavesAreSeparate(t *testing.T) {
	eachOf(t, indexes, func(t *testing.T, at tried[Index]) {
		store, ctx := at.opened(t), limited(t)
		one, two, three, leaf := identity(1), identity(2), identity(3), identity(4)
		must(t, store.Add(ctx, []Row{{one, two, Place{5, 50}}, {two, three, Place{6, 60}}}))
		// The identity is known, and its leaf is new. Then the leaf is known, and its identity is new.
		must(t, store.Add(ctx, []Row{{one, leaf, Place{7, 70}}, {three, two, Place{8, 80}}}))
		wantBoth := func(identities, leaves map[Identity]Place) {
			t.Helper()
			store := at.opened(t)
			asked := []Identity{one, two, three, leaf}
			if got, err := store.Find(ctx, asked); err != nil || !reflect.DeepEqual(got, identities) {
				t.Errorf("identities: %v, %v", got, err)
			}
			if got, err := store.FindLeaves(ctx, asked); err != nil || !reflect.DeepEqual(got, leaves) {
				t.Errorf("leaves: %v, %v", got, err)
			}
		}
		wantBoth(map[Identity]Place{one: {5, 50}, two: {6, 60}, three: {8, 80}},
			map[Identity]Place{two: {5, 50}, three: {6, 60}, leaf: {7, 70}})
		must(t, at.opened(t).Replace(ctx, []Row{{one, leaf, Place{9, 90}}}))
		wantBoth(map[Identity]Place{one: {9, 90}, two: {6, 60}, three: {8, 80}},
			map[Identity]Place{two: {5, 50}, three: {6, 60}, leaf: {9, 90}})
	})
}
