package blob

import (
	"bytes"
	"context"
	"errors"
	"fmt"
	"io/fs"
	"os"
	"path/filepath"
	"syscall"
	"time"
)

// MaxCurrent is the maximum number of bytes of an object that Swap replaces.
const MaxCurrent = 64 << 10

// Current keeps objects that are replaced: a log's checkpoint, and its entry for a log list. Their names have the form
// that Objects states. They are read by Objects.Get. No other call of Objects may be made for such a name.
//
// The engine must promise that swaps of one name are linearizable. This includes a swap whose caller gave up or was
// killed. So a caller that only replaces contents by later ones can never bring an earlier one back: no content is put
// twice, so a late swap finds another content than the one that it should replace, and changes nothing.
type Current interface {
	// Swap replaces the content old by new. A nil old means that there is no object of this name. If new is there
	// already, Swap returns nil. If another content is there, or none, it returns ErrLost: the swap was not done, or it
	// was done and another one followed. After any other error the swap may have been done, or may still be done as
	// long as old is there.
	Swap(ctx context.Context, name string, old, new []byte) error
}

// checkCurrent checks the name and the contents of a swap.
func checkCurrent(name string, contents ...[]byte) error {
	for _, content := range contents {
		if len(content) > MaxCurrent {
			return fmt.Errorf("%w: object %.80q of %d bytes", ErrTooLong, name, len(content))
		}
	}
	return checkName(name)
}

// SetCurrent replaces the content of a name, whatever it was.
func SetCurrent(ctx context.Context, objects Objects, current Current, name string, content []byte) error {
	for {
		old, err := objects.Get(ctx, name, MaxCurrent)
		if err != nil && !errors.Is(err, ErrAbsent) {
			return err
		}
		if err = current.Swap(ctx, name, old, content); !errors.Is(err, ErrLost) || ctx.Err() != nil {
			return err
		}
	}
}

// swapLock is the file that a swap in a folder locks. No name of an object begins with a point.
const swapLock = temporary + "/.swap"

// Swap implements Current. The lock (flock) ends with its process, so a process that was killed cannot keep it, and
// cannot rename a file later. A process that is paused keeps it, so no other process swaps meanwhile. The rename is
// atomic, so a reader sees one of the two contents as a whole.
func (f *folder) Swap(ctx context.Context, name string, old, new []byte) error {
	if err := checkCurrent(name, old, new); err != nil {
		return err
	}
	unlock, err := lockFor(ctx, filepath.Join(f.disk.root, filepath.FromSlash(swapLock)))
	if err != nil {
		return fmt.Errorf("stores: swap %s: %w", name, err)
	}
	defer unlock()
	stored, err := f.read(name, MaxCurrent)
	isThere := err == nil
	switch {
	case err != nil && !errors.Is(err, ErrAbsent) && !errors.Is(err, ErrTooLong):
		return fmt.Errorf("stores: swap %s: %w", name, err)
	case isThere && bytes.Equal(stored, new):
		// The process that put it may have been killed before its sync.
		return f.disk.sync(filepath.Dir(f.path(name)))
	case errors.Is(err, ErrTooLong), isThere != (old != nil), !bytes.Equal(stored, old):
		return fmt.Errorf("stores: swap %s: %w", name, ErrLost)
	}
	temporaryPath, err := f.disk.write(new, fileMode(name))
	if err != nil {
		return err
	}
	// This removes nothing if the file was renamed.
	defer os.Remove(temporaryPath)
	if err := MakeFolder(filepath.Dir(f.path(name)), folderMode(name)); err != nil {
		return err
	}
	if err := os.Rename(temporaryPath, f.path(name)); err != nil {
		return fmt.Errorf("stores: swap %s: %w", name, err)
	}
	return f.disk.sync(filepath.Dir(f.path(name)))
}

// lockFor locks a file, which it makes if it is not there. It waits for the lock until the context ends.
func lockFor(ctx context.Context, path string) (unlock func(), err error) {
	// Only the owner may open the file, since each user who can open it can keep all others waiting.
	lock, err := os.OpenFile(path, os.O_RDWR|os.O_CREATE, 0o600)
	if errors.Is(err, fs.ErrNotExist) {
		return nil, fmt.Errorf("%w: the folder of %s", ErrAbsent, path)
	}
	if err != nil {
		return nil, err
	}
	for {
		err := syscall.Flock(int(lock.Fd()), syscall.LOCK_EX|syscall.LOCK_NB)
		if err == nil {
			return func() { lock.Close() }, nil
		}
		if !errors.Is(err, syscall.EWOULDBLOCK) && !errors.Is(err, syscall.EINTR) {
			lock.Close()
			return nil, fmt.Errorf("lock: %w", err)
		}
		select {
		case <-ctx.Done():
			lock.Close()
			return nil, fmt.Errorf("lock: %w", ctx.Err())
		case <-time.After(time.Millisecond):
		}
	}
}
