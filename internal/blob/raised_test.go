package blob

import (
	"errors"
	"os"
	"path/filepath"
	"testing"
)

// TestSyncsUnknownTexts: if a process knows that one text or one head is on the disk, it does not assume this of a text
// that another process set. If a sync failed, it does not assume it of a text that it set or read itself.
func TestSyncsUnknownTexts(t *testing.T) {
	root, ctx := t.TempDir(), limited(t)
	one, err := OpenFile(root)
	must(t, err)
	other, err := OpenFile(root)
	must(t, err)
	must(t, one.Create(ctx, "a"))
	must(t, one.Raise(ctx, Published{5, 1}))
	read := func() error { _, err := other.Read(ctx); return err }
	published := func() error { _, err := other.Published(ctx); return err }
	both := func(when string, want []string) {
		t.Helper()
		wantSynced(t, "Read "+when, syncs(t, root, "none", read), want)
		wantSynced(t, "Published "+when, syncs(t, root, "none", published), want)
	}
	both("at first", []string{"."})
	both("of the same", nil)
	must(t, one.Swap(ctx, "a", "b"))
	must(t, one.Raise(ctx, Published{6, 2}))
	both("of what another process set", []string{"."})
	fault := errors.New("the disk is broken")
	fsync = func(file *os.File) error {
		if info, err := file.Stat(); err != nil || info.IsDir() {
			return fault
		}
		return file.Sync()
	}
	defer func() { fsync = (*os.File).Sync }()
	if err := other.Swap(ctx, "b", "c"); !errors.Is(err, ErrUnknown) {
		t.Errorf("Swap: %v", err)
	}
	if err := other.Raise(ctx, Published{7, 3}); !errors.Is(err, ErrUnknown) {
		t.Errorf("Raise: %v", err)
	}
	for _, time := range []string{"first", "second"} {
		if err := read(); !errors.Is(err, fault) {
			t.Errorf("the %s Read of a text that is not on the disk: %v", time, err)
		}
		if err := published(); !errors.Is(err, fault) {
			t.Errorf("the %s Published of a head that is not on the disk: %v", time, err)
		}
	}
	fsync = (*os.File).Sync
	both("after the disk works again", []string{"."})
	if text, err := other.Read(ctx); err != nil || text != "c" {
		t.Errorf("the text is %q, %v", text, err)
	}
	if at, err := other.Published(ctx); err != nil || at != (Published{7, 3}) {
		t.Errorf("%+v is published, %v", at, err)
	}
}

// TestFailedRaiseChangesNothing: if the disk accepts no file, Raise changes nothing and leaves no temporary file.
func TestFailedRaiseChangesNothing(t *testing.T) {
	root, ctx := t.TempDir(), limited(t)
	lock, err := OpenFile(root)
	must(t, err)
	must(t, lock.Create(ctx, "a"))
	must(t, lock.Raise(ctx, Published{5, 1}))
	fault := errors.New("the disk accepts nothing")
	fsync = func(*os.File) error { return fault }
	defer func() { fsync = (*os.File).Sync }()
	if err := lock.Raise(ctx, Published{6, 2}); !errors.Is(err, fault) || errors.Is(err, ErrUnknown) {
		t.Fatal(err)
	}
	fsync = (*os.File).Sync
	wantPublished(t, lock, Published{5, 1})
	if left, err := os.ReadDir(filepath.Join(root, temporary)); err != nil || len(left) > 0 {
		t.Fatalf("files are left: %v, %v", left, err)
	}
}
