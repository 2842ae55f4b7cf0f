package blob

import (
	"context"
	"errors"
	"fmt"
	"math/rand"
	"os"
	"path/filepath"
	"strings"
	"syscall"
	"testing"
	"time"
)

// allBytes returns a text with each of the 256 bytes.
func allBytes() string {
	var text [256]byte
	for i := range text {
		text[i] = byte(i)
	}
	return string(text[:])
}

// wantLock fails the test unless the lock has this text and a published head of this size.
func wantLock(t *testing.T, lock Lock, text string, published uint64) {
	t.Helper()
	if got, err := lock.Read(limited(t)); err != nil || got != text {
		t.Errorf("the text is %.40q, %v, and should be %.40q", got, err, text)
	}
	wantPublished(t, lock, Published{Size: published})
}

// wantPublished fails the test unless the lock has this published head.
func wantPublished(t *testing.T, lock Lock, published Published) {
	t.Helper()
	if got, err := lock.Published(limited(t)); err != nil || got != published {
		t.Errorf("the published head is %v, %v, and should be %v", got, err, published)
	}
}

func TestLockIsCreatedOnce(t *testing.T) {
	eachOf(t, locks, func(t *testing.T, at tried[Lock]) {
		lock, ctx := at.opened(t), limited(t)
		_, readErr := lock.Read(ctx)
		_, publishedErr := lock.Published(ctx)
		for what, err := range map[string]error{"Read": readErr, "Published": publishedErr,
			"Swap": lock.Swap(ctx, "a", "b"), "Raise": lock.Raise(ctx, Published{Size: 1})} {
			if !errors.Is(err, ErrAbsent) {
				t.Errorf("%s before Create: %v", what, err)
			}
		}
		won := 0
		for _, err := range each(16, func(i int) error { return lock.Create(ctx, "first") }) {
			if err == nil {
				won++
			} else if !errors.Is(err, ErrExists) {
				t.Errorf("Create: %v", err)
			}
		}
		if won != 1 {
			t.Errorf("%d of 16 created it", won)
		}
		wantLock(t, lock, "first", 0)
		must(t, lock.Raise(ctx, Published{Size: 7}))
		if err := lock.Create(ctx, "again"); !errors.Is(err, ErrExists) {
			t.Errorf("a second Create: %v", err)
		}
		wantLock(t, at.opened(t), "first", 7)
	})
}

// TestFileRefusesToCreateALostText: a lost text is not created again, since the log would start from nothing.
func TestFileRefusesToCreateALostText(t *testing.T) {
	root, ctx := t.TempDir(), limited(t)
	lock, err := OpenFile(root)
	must(t, err)
	must(t, lock.Create(ctx, "a"))
	must(t, lock.Raise(ctx, Published{Size: 5}))
	must(t, os.Remove(filepath.Join(root, textFile)))
	if err := lock.Create(ctx, "b"); !errors.Is(err, ErrExists) {
		t.Errorf("Create: %v", err)
	}
	if _, err := lock.Read(ctx); !errors.Is(err, ErrAbsent) {
		t.Errorf("Read: %v", err)
	}
	if _, err := lock.Published(ctx); !errors.Is(err, ErrAbsent) {
		t.Errorf("Published: %v", err)
	}
	if err := lock.Swap(ctx, "a", "b"); !errors.Is(err, ErrAbsent) {
		t.Errorf("Swap: %v", err)
	}
	must(t, os.WriteFile(filepath.Join(root, textFile), []byte("a"), 0o644))
	wantPublished(t, lock, Published{Size: 5})
	for what, damage := range map[string]func() error{
		"a number below 0": func() error { return os.WriteFile(filepath.Join(root, headFile), []byte("-5 1"), 0o644) },
		"only a size":      func() error { return os.WriteFile(filepath.Join(root, headFile), []byte("6"), 0o644) },
		"nothing":          func() error { return os.WriteFile(filepath.Join(root, headFile), nil, 0o644) },
		"no file":          func() error { return os.Remove(filepath.Join(root, headFile)) },
	} {
		must(t, damage())
		err := lock.Raise(ctx, Published{Size: 6})
		if err == nil || errors.Is(err, ErrAbsent) || !strings.Contains(err.Error(), filepath.Join(root, headFile)) {
			t.Errorf("Raise over %s: %v", what, err)
		}
		if _, err := lock.Published(ctx); err == nil || !strings.Contains(err.Error(),
			filepath.Join(root, headFile)) {
			t.Errorf("Published over %s: %v", what, err)
		}
	}
}

// TestReadingWaitsForNobody: neither a lock file that another process has locked nor a read-only file system delays a
// reader, and no other user of the machine can lock the file.
func TestReadingWaitsForNobody(t *testing.T) {
	root, ctx := t.TempDir(), limited(t)
	lock, err := OpenFile(root)
	must(t, err)
	must(t, lock.Create(ctx, "text"))
	must(t, lock.Raise(ctx, Published{Size: 5}))
	path := filepath.Join(root, lockFile)
	info, err := os.Stat(path)
	must(t, err)
	if info.Mode().Perm() != 0o600 {
		t.Errorf("the mode of the lock file is %o", info.Mode().Perm())
	}
	taken, err := os.Open(path)
	must(t, err)
	defer taken.Close()
	must(t, syscall.Flock(int(taken.Fd()), syscall.LOCK_EX))
	defer func() { fsync = (*os.File).Sync }()
	fsync = func(*os.File) error { return syscall.EROFS }
	wantLock(t, lock, "text", 5)
	// The second handle is like another process: it does not know yet what is on the disk.
	fsync = (*os.File).Sync
	other, err := OpenFile(root)
	must(t, err)
	fsync = func(*os.File) error { return syscall.EIO }
	wantLock(t, lock, "text", 5)
	if _, err := other.Read(ctx); !errors.Is(err, syscall.EIO) {
		t.Errorf("a disk that fails: %v", err)
	}
	if _, err := other.Published(ctx); !errors.Is(err, syscall.EIO) {
		t.Errorf("a disk that fails: %v", err)
	}
	fsync = func(*os.File) error { return syscall.EROFS }
	wantLock(t, other, "text", 5)
}

func TestLockSwapsTheTextThatWasRead(t *testing.T) {
	eachOf(t, locks, func(t *testing.T, at tried[Lock]) {
		lock, ctx := at.opened(t), limited(t)
		must(t, lock.Create(ctx, "a"))
		must(t, lock.Swap(ctx, "a", "b"))
		must(t, lock.Swap(ctx, "a", "b"))
		for _, old := range []string{"a", "B", "b ", "bb", allBytes()} {
			if err := lock.Swap(ctx, old, "c"); !errors.Is(err, ErrLost) {
				t.Errorf("Swap over %.20q: %v", old, err)
			}
		}
		wantLock(t, lock, "b", 0)
		longest := strings.Repeat("x", MaxText)
		must(t, lock.Swap(ctx, "b", longest))
		must(t, lock.Swap(ctx, longest, allBytes()))
		wantLock(t, at.opened(t), allBytes(), 0)
		for _, texts := range [][2]string{{allBytes(), longest + "x"}, {longest + "x", "d"}} {
			if err := lock.Swap(ctx, texts[0], texts[1]); !errors.Is(err, ErrTooLong) {
				t.Errorf("Swap of too long a text: %v", err)
			}
		}
		for _, texts := range [][2]string{{allBytes(), ""}, {"", "d"}} {
			if err := lock.Swap(ctx, texts[0], texts[1]); !errors.Is(err, ErrEmpty) {
				t.Errorf("Swap of no text: %v", err)
			}
		}
		wantLock(t, lock, allBytes(), 0)
	})
}

func TestLockLetsOneOfManyWin(t *testing.T) {
	eachOf(t, locks, func(t *testing.T, at tried[Lock]) {
		ctx := limited(t)
		var handles []Lock
		for i := 0; i < 16; i++ {
			handles = append(handles, at.opened(t))
		}
		must(t, handles[0].Create(ctx, "0"))
		const rounds = 20
		start := time.Now()
		for round := 0; round < rounds; round++ {
			old, err := handles[0].Read(ctx)
			must(t, err)
			text := func(i int) string { return fmt.Sprintf("round %d by %d", round, i) }
			winner := -1
			for i, err := range each(16, func(i int) error { return handles[i].Swap(ctx, old, text(i)) }) {
				switch {
				case err == nil && winner >= 0:
					t.Errorf("both %d and %d win", winner, i)
				case err == nil:
					winner = i
				case !errors.Is(err, ErrLost):
					t.Errorf("a loser gets %v", err)
				}
			}
			if winner < 0 {
				t.Fatal("nobody wins")
			}
			wantLock(t, handles[round%16], text(winner), 0)
		}
		logDuration(t, at.name+": swaps by 16", 16*rounds, start)
	})
}

func TestLockHasOneHistory(t *testing.T) {
	eachOf(t, locks, func(t *testing.T, at tried[Lock]) {
		const many, swaps = 16, 5
		ctx, lock := limited(t), at.opened(t)
		must(t, lock.Create(ctx, "start 0"))
		follows := make([]map[string]string, many)
		for i, err := range each(many, func(i int) error {
			follows[i] = map[string]string{}
			for done := 0; done < swaps; {
				old, err := lock.Read(ctx)
				if err != nil {
					return err
				}
				new := fmt.Sprintf("%d's %d: %d", i, done, number(old)+1)
				err = lock.Swap(ctx, old, new)
				if err == nil {
					follows[i][old] = new
					done++
				} else if !errors.Is(err, ErrLost) {
					return err
				}
			}
			return nil
		}) {
			if err != nil {
				t.Fatalf("%d: %v", i, err)
			}
		}
		text, length := "start 0", 0
		for length <= many*swaps {
			next := ""
			for _, mine := range follows {
				if follow, ok := mine[text]; ok && next != "" {
					t.Fatalf("both %q and %q follow %q", next, follow, text)
				} else if ok {
					next = follow
				}
			}
			if next == "" {
				break
			}
			text = next
			length++
		}
		if length != many*swaps {
			t.Errorf("a history of %d swaps, and %d were acknowledged", length, many*swaps)
		}
		wantLock(t, lock, text, 0)
	})
}

func TestPublishedNeverFalls(t *testing.T) {
	eachOf(t, locks, func(t *testing.T, at tried[Lock]) {
		ctx, lock, other := limited(t), at.opened(t), at.opened(t)
		must(t, lock.Create(ctx, "a"))
		const many, raises = 15, 8
		watching := make(chan struct{})
		largest := make([]Published, many)
		errs := each(many+1, func(i int) error {
			if i == many {
				return watch(ctx, other, watching)
			}
			numbers := rand.New(rand.NewSource(int64(i)))
			for done := 0; done < raises; done++ {
				// The numbers differ in their numbers of digits, so that an engine that compares them as texts fails.
				number := func(bits int) uint64 { return uint64(numbers.Int63n(int64(1) << bits)) }
				// There are few sizes, so that many heads have the same one.
				head := Published{number(2) << (20 * numbers.Intn(3)), number(numbers.Intn(60))}
				if err := lock.Raise(ctx, head); err != nil {
					return err
				}
				if largest[i].Before(head) {
					largest[i] = head
				}
				if now, err := other.Published(ctx); err != nil || now.Before(largest[i]) {
					return fmt.Errorf("%v is published, %v, after %v was acknowledged", now, err, largest[i])
				}
			}
			if i == 0 {
				close(watching)
			}
			return nil
		})
		newest := Published{}
		for i, err := range errs {
			if err != nil {
				t.Error(err)
			}
			if i < many && newest.Before(largest[i]) {
				newest = largest[i]
			}
		}
		wantPublished(t, lock, newest)
		must(t, lock.Raise(ctx, Published{MaxNumber, 3}))
		must(t, lock.Raise(ctx, Published{MaxNumber, MaxNumber}))
		must(t, lock.Raise(ctx, Published{3, MaxNumber}))
		for _, head := range []Published{{MaxNumber + 1, 0}, {0, MaxNumber + 1}} {
			if err := lock.Raise(ctx, head); !errors.Is(err, ErrNumber) {
				t.Errorf("Raise to more than the maximum: %v", err)
			}
		}
		wantPublished(t, at.opened(t), Published{MaxNumber, MaxNumber})
	})
}

// watch reads the published head until it is stopped, and returns an error if the head goes back.
func watch(ctx context.Context, lock Lock, until chan struct{}) error {
	for last := (Published{}); ; {
		now, err := lock.Published(ctx)
		if err != nil || now.Before(last) {
			return fmt.Errorf("the published head went back from %v to %v, %v", last, now, err)
		}
		last = now
		select {
		case <-until:
			return nil
		case <-time.After(time.Millisecond):
		}
	}
}

// TestReadDecidesAbandonedSwap makes swaps whose contexts end at random times. Whatever a swap returns, the lock has
// the old text or the new one. It has the new one if the swap returned nil. A swap that has lost is never performed
// later.
func TestReadDecidesAbandonedSwap(t *testing.T) {
	eachOf(t, locks, func(t *testing.T, at tried[Lock]) {
		ctx, lock := limited(t), at.opened(t)
		must(t, lock.Create(ctx, "text 0"))
		start := time.Now()
		must(t, lock.Swap(ctx, "text 0", "text 1"))
		usual := time.Since(start)
		current, outcomes := "text 1", map[string]int{}
		for i := 2; i < 42; i++ {
			short, cancel := context.WithTimeout(ctx, time.Duration(rand.Int63n(int64(3*usual))))
			new := fmt.Sprintf("text %d", i)
			err := lock.Swap(short, current, new)
			cancel()
			read, readErr := lock.Read(ctx)
			must(t, readErr)
			switch {
			case err == nil && read != new:
				t.Fatalf("the text is %q after a swap to %q was acknowledged", read, new)
			case read != new && read != current:
				t.Fatalf("the text is %q after a swap from %q to %q", read, current, new)
			case errors.Is(err, ErrLost) || errors.Is(err, ErrAbsent):
				t.Fatalf("a swap of the current text: %v", err)
			}
			outcomes[fmt.Sprintf("acknowledged %t, done %t", err == nil, read == new)]++
			next := fmt.Sprintf("settled %d", i)
			if err := lock.Swap(ctx, read, next); errors.Is(err, ErrLost) {
				// The abandoned swap was performed after the read.
				must(t, lock.Swap(ctx, new, next))
			} else {
				must(t, err)
			}
			current = next
		}
		wantLock(t, lock, current, 0)
		t.Logf("%s: %v", at.name, outcomes)
	})
}

func TestLockEndsWithItsContext(t *testing.T) {
	eachOf(t, locks, func(t *testing.T, at tried[Lock]) {
		lock := at.opened(t)
		must(t, lock.Create(limited(t), "text"))
		ended, cancel := context.WithCancel(limited(t))
		cancel()
		_, readErr := lock.Read(ended)
		_, publishedErr := lock.Published(ended)
		calls := map[string]error{"Read": readErr, "Published": publishedErr,
			"Raise": lock.Raise(ended, Published{Size: 1}), "Swap": lock.Swap(ended, "text", "other")}
		for what, err := range calls {
			if err == nil || errors.Is(err, ErrLost) || errors.Is(err, ErrAbsent) {
				t.Errorf("%s: %v", what, err)
			}
		}
		wantLock(t, lock, "text", 0)
	})
}

// TestFileWaitsForItsLockFile: a swap waits for another process's lock of the file until its context ends.
func TestFileWaitsForItsLockFile(t *testing.T) {
	root := t.TempDir()
	lock, err := OpenFile(root)
	must(t, err)
	must(t, lock.Create(limited(t), "text"))
	taken, err := os.Open(filepath.Join(root, lockFile))
	must(t, err)
	must(t, syscall.Flock(int(taken.Fd()), syscall.LOCK_EX))
	short, cancel := context.WithTimeout(limited(t), 50*time.Millisecond)
	defer cancel()
	if err := lock.Swap(short, "text", "other"); !errors.Is(err, context.DeadlineExceeded) {
		t.Errorf("Swap while another process has the lock file: %v", err)
	}
	time.AfterFunc(50*time.Millisecond, func() { taken.Close() })
	must(t, lock.Swap(limited(t), "text", "another"))
	wantLock(t, lock, "another", 0)
}
