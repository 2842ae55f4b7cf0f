package blob

import (
	"bytes"
	"context"
	"errors"
	"fmt"
	"os"
	"path/filepath"
	"reflect"
	"sort"
	"strings"
	"testing"
	"time"
)

const manyBytes = 1 << 20

func TestObjectsHaveOneContent(t *testing.T) {
	eachOf(t, objectStores, func(t *testing.T, at tried[Objects]) {
		store, ctx := at.opened(t), limited(t)
		if _, err := store.Get(ctx, "tile/0/000", manyBytes); !errors.Is(err, ErrAbsent) {
			t.Fatalf("Get before Put: %v", err)
		}
		contents := map[string][]byte{"tile/0/000": {}, "tile/0/000.p/1": {0},
			"staging/x": bytes.Repeat([]byte("0123456789abcdef"), manyBytes/16)}
		for name, content := range contents {
			must(t, store.Put(ctx, name, content))
			must(t, store.Put(ctx, name, content))
			for _, other := range [][]byte{append([]byte{1}, content...),
				append(content[:len(content):len(content)], 1), {9, 9, 9}} {
				if err := store.Put(ctx, name, other); !errors.Is(err, ErrOther) {
					t.Errorf("Put of %d other bytes over %d: %v", len(other), len(content), err)
				}
			}
		}
		for _, store := range []Objects{store, at.opened(t)} {
			for name, content := range contents {
				got, err := store.Get(ctx, name, manyBytes)
				if err != nil || !bytes.Equal(got, content) {
					t.Errorf("Get %s: %d bytes, %v", name, len(got), err)
				}
			}
		}
		if _, err := store.Get(ctx, "staging/x", manyBytes-1); !errors.Is(err, ErrTooLong) {
			t.Errorf("Get of more than the maximum: %v", err)
		}
		if _, err := store.Get(ctx, "tile/0", manyBytes); !errors.Is(err, ErrAbsent) {
			t.Errorf("Get of the beginning of a name: %v", err)
		}
		if err := store.Put(ctx, "long", make([]byte, MaxObject+1)); !errors.Is(err, ErrTooLong) {
			t.Errorf("Put of more than the maximum: %v", err)
		}
		must(t, store.Delete(ctx, "staging/x"))
		must(t, store.Delete(ctx, "staging/x"))
		must(t, store.Delete(ctx, "tile/0"))
		if _, err := store.Get(ctx, "staging/x", manyBytes); !errors.Is(err, ErrAbsent) {
			t.Errorf("Get after Delete: %v", err)
		}
		must(t, store.Put(ctx, "staging/x", []byte("again")))
		if _, err := store.Get(ctx, "tile/0/000", 0); err != nil {
			t.Errorf("Get of an object that was not deleted: %v", err)
		}
	})
}

// wrongNames are refused by every call.
var wrongNames = []string{
	"", "/", ".", "..", "/a", "a/", "a//b", "../a", "a/../b", "a/..", "a/./b", ".a", "a/.b", ".writing/file-1",
	"a\x00b", "a\nb", "a b",
	"a\\b", "a:b", "a%2fb", "a*", "~", "ä", "a\xff", strings.Repeat("a", maxName+1),
	strings.Repeat("a/", maxParts) + "a",
}

func TestObjectsRefuseWrongNames(t *testing.T) {
	eachOf(t, objectStores, func(t *testing.T, at tried[Objects]) {
		store, ctx := at.opened(t), limited(t)
		for _, name := range wrongNames {
			if err := store.Put(ctx, name, []byte("x")); !errors.Is(err, ErrName) {
				t.Errorf("Put %.40q: %v", name, err)
			}
			if _, err := store.Get(ctx, name, manyBytes); !errors.Is(err, ErrName) {
				t.Errorf("Get %.40q: %v", name, err)
			}
			if err := store.Delete(ctx, name); !errors.Is(err, ErrName) {
				t.Errorf("Delete %.40q: %v", name, err)
			}
			if _, err := store.List(ctx, name+"/", "", 1); !errors.Is(err, ErrName) {
				t.Errorf("List %.40q: %v", name, err)
			}
		}
		if _, err := store.List(ctx, "a", "", 1); !errors.Is(err, ErrName) {
			t.Errorf("List of a prefix without a slash: %v", err)
		}
		if at.folder {
			beside, err := os.ReadDir(filepath.Dir(at.place))
			if err != nil || len(beside) != 1 {
				t.Errorf("there is another file beside the store: %v, %v", beside, err)
			}
		}
		longest := strings.Repeat("a/", maxParts-1) + strings.Repeat("b", maxName-2*(maxParts-1))
		must(t, store.Put(ctx, longest, []byte("x")))
		if listed, err := store.List(ctx, "", "", 9); err != nil || len(listed) == 0 || listed[0] != longest {
			t.Errorf("List returns %q, %v", listed, err)
		}
	})
}

func TestObjectsAreListedInOrder(t *testing.T) {
	eachOf(t, objectStores, func(t *testing.T, at tried[Objects]) {
		store, ctx := at.opened(t), limited(t)
		// The order of names differs from that of folders if names contain bytes that are less than a slash.
		names := []string{"h/a-b", "h/a.b", "h/a/c", "h/a/c-d/e", "h/a/d/e", "h/a0", "h/ab/c", "h/A", "h/_", "h/0",
			"h/00", "h/z/z/z/z", "i/a", "g"}
		sort.Strings(names)
		for _, name := range names {
			must(t, store.Put(ctx, name, []byte(name)))
		}
		below := names[1 : len(names)-1]
		afters := append([]string{"", "h/", "h/a", "h/a/", "h/a/d/", "h/a/c/", "h/a-", "zz", "-"}, names...)
		for _, after := range afters {
			var want []string
			for _, name := range below {
				if name > after {
					want = append(want, name)
				}
			}
			for _, maxNames := range []int{1, 2, 5, len(names), MaxListed + 1} {
				got, err := store.List(ctx, "h/", after, maxNames)
				first := want
				if len(first) > maxNames {
					first = first[:maxNames]
				}
				if err != nil || len(got) != len(first) || len(got) > 0 && !reflect.DeepEqual(got, first) {
					t.Errorf("List after %q, %d: %q, %v", after, maxNames, got, err)
				}
			}
		}
		for _, maxNames := range []int{0, -1} {
			if got, err := store.List(ctx, "h/", "", maxNames); len(got) > 0 || err != nil {
				t.Errorf("List of %d: %q, %v", maxNames, got, err)
			}
		}
		for _, after := range []string{"\x00", "h/a\xff", "h/a b", strings.Repeat("h/", maxName)} {
			if _, err := store.List(ctx, "h/", after, 5); !errors.Is(err, ErrName) {
				t.Errorf("List after %.20q: %v", after, err)
			}
		}
		if got, err := store.List(ctx, "none/", "", 5); len(got) > 0 || err != nil {
			t.Errorf("List of nothing: %q, %v", got, err)
		}
	})
}

func TestFolderListsMoreThanABound(t *testing.T) {
	store, err := OpenFolder(t.TempDir())
	must(t, err)
	ctx := limited(t)
	const many = MaxListed + 200
	start := time.Now()
	for i := 0; i < many; i++ {
		must(t, store.Put(ctx, fmt.Sprintf("heads/%06d", i), nil))
	}
	logDuration(t, "folder: puts, one after the other", many, start)
	first, err := store.List(ctx, "heads/", "", many)
	if err != nil || len(first) != MaxListed || first[MaxListed-1] != fmt.Sprintf("heads/%06d", MaxListed-1) {
		t.Errorf("List returns %d, %v", len(first), err)
	}
	rest, err := store.List(ctx, "", first[MaxListed-1], many)
	if err != nil || len(rest) != many-MaxListed || rest[len(rest)-1] != fmt.Sprintf("heads/%06d", many-1) {
		t.Errorf("List returns %d more, %v", len(rest), err)
	}
}

func TestFolderListsAfterEmptyFolders(t *testing.T) {
	root := t.TempDir()
	store, err := OpenFolder(root)
	must(t, err)
	for i := 0; i < 5; i++ {
		must(t, os.MkdirAll(filepath.Join(root, "a", fmt.Sprint(i)), 0o755))
	}
	must(t, store.Put(limited(t), "a/9", nil))
	if got, err := store.List(limited(t), "a/", "", 1); err != nil || len(got) != 1 || got[0] != "a/9" {
		t.Errorf("List returns %q, %v", got, err)
	}
}

func TestObjectsOfManyAtOnce(t *testing.T) {
	eachOf(t, objectStores, func(t *testing.T, at tried[Objects]) {
		stores := []Objects{at.opened(t), at.opened(t)}
		ctx, start := limited(t), time.Now()
		const rounds = 8
		for round := 0; round < rounds; round++ {
			same := fmt.Sprintf("same/%d/a", round)
			for _, err := range each(16, func(i int) error { return stores[i%2].Put(ctx, same, []byte(same)) }) {
				if err != nil {
					t.Errorf("one of 16 puts of one content: %v", err)
				}
			}
			if at.oneWins {
				tryOneWins(t, stores, fmt.Sprintf("other/%d/b", round))
			}
		}
		logDuration(t, at.name+": puts by 16", 16*rounds, start)
	})
}

// tryOneWins puts 16 contents under one name at the same time. Exactly one call succeeds, and the object has its
// content.
func tryOneWins(t *testing.T, stores []Objects, name string) {
	ctx := limited(t)
	content := func(i int) []byte { return bytes.Repeat([]byte{byte(i)}, 1000) }
	winner := -1
	for i, err := range each(16, func(i int) error { return stores[i%2].Put(ctx, name, content(i)) }) {
		switch {
		case err == nil && winner >= 0:
			t.Errorf("both %d and %d win", winner, i)
		case err == nil:
			winner = i
		case !errors.Is(err, ErrOther):
			t.Errorf("a loser gets %v", err)
		}
	}
	got, err := stores[0].Get(ctx, name, manyBytes)
	if winner < 0 || err != nil || !bytes.Equal(got, content(winner)) {
		t.Errorf("%d wins, and the object has %d bytes, %v", winner, len(got), err)
	}
}

func TestObjectsEndWithTheirContext(t *testing.T) {
	eachOf(t, objectStores, func(t *testing.T, at tried[Objects]) {
		store := at.opened(t)
		ended, cancel := context.WithCancel(limited(t))
		cancel()
		if err := store.Put(ended, "a", nil); !errors.Is(err, context.Canceled) {
			t.Errorf("Put: %v", err)
		}
		if _, err := store.Get(ended, "a", 1); !errors.Is(err, context.Canceled) {
			t.Errorf("Get: %v", err)
		}
		if err := store.Delete(ended, "a"); !errors.Is(err, context.Canceled) {
			t.Errorf("Delete: %v", err)
		}
		if _, err := store.List(ended, "", "", 1); !errors.Is(err, context.Canceled) {
			t.Errorf("List: %v", err)
		}
	})
}

func TestFolderRemovesAbandonedFiles(t *testing.T) {
	root := t.TempDir()
	must(t, os.MkdirAll(filepath.Join(root, temporary), 0o755))
	old, young := filepath.Join(root, temporary, "file-1"), filepath.Join(root, temporary, "file-2")
	for _, path := range []string{old, young} {
		must(t, os.WriteFile(path, []byte("half"), 0o644))
	}
	before := time.Now().Add(-2 * abandoned)
	must(t, os.Chtimes(old, before, before))
	if _, err := OpenFolder(root); err != nil {
		t.Fatal(err)
	}
	if _, err := os.Stat(old); !os.IsNotExist(err) {
		t.Errorf("the abandoned file still exists: %v", err)
	}
	if _, err := os.Stat(young); err != nil {
		t.Errorf("a file that may still be written was removed: %v", err)
	}
}
