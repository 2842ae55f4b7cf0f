package blob

import (
	"context"
	"errors"
	"fmt"
	"io/fs"
	"os"
	"path/filepath"
	"sync"
	"syscall"
	"time"
)

// The lock's files.
const (
	lockFile = "lock"
	textFile = "text"
	// headFile contains the size and the timestamp of the published head. It is replaced as a whole.
	headFile = "head"
)

// file keeps the lock in a folder. The folder has a file with the text, one with the published head, and one that a
// process locks by flock(2) while it writes. Several processes of one machine may use the folder at once. Reading needs
// no flock. The file system must promise that flock(2) excludes other processes and ends with its process, that
// rename(2) is atomic, and that a file or a folder persists after fsync(2). NFS is not enough, since its flock may
// exclude only processes of the same machine.
type file struct {
	disk *disk
	mu   sync.Mutex
	// text and raised are the text and the published head that this process knows to be on the disk. Knowing them is
	// enough, since no text is set twice and the published head never goes back.
	text   string
	raised Published
}

// OpenFile opens the lock in a folder that only its owner may read. It makes the folder if it does not exist, and does
// not create a lock in it.
func OpenFile(root string) (Lock, error) {
	d, err := openDisk(root, privateFolder)
	if err == nil {
		err = closeFolder(d.root)
	}
	if err != nil {
		return nil, err
	}
	return &file{disk: d}, nil
}

func (f *file) path(name string) string { return filepath.Join(f.disk.root, name) }

// withFlock calls do while this process has locked the lock file by flock(2). It waits for the flock until the context
// ends.
func (f *file) withFlock(ctx context.Context, do func() error) error {
	// Only the owner may open the file, since each user who can open it can keep all others waiting.
	opened, err := os.OpenFile(f.path(lockFile), os.O_RDWR|os.O_CREATE, 0o600)
	if err != nil {
		return fmt.Errorf("stores: lock: %w", err)
	}
	defer opened.Close()
	for {
		err := syscall.Flock(int(opened.Fd()), syscall.LOCK_EX|syscall.LOCK_NB)
		if err == nil {
			break
		}
		if !errors.Is(err, syscall.EWOULDBLOCK) && !errors.Is(err, syscall.EINTR) {
			return fmt.Errorf("stores: lock: flock: %w", err)
		}
		select {
		case <-ctx.Done():
			return fmt.Errorf("stores: lock: flock: %w", ctx.Err())
		case <-time.After(time.Millisecond):
		}
	}
	if err := ctx.Err(); err != nil {
		return fmt.Errorf("stores: lock: %w", err)
	}
	return do()
}

// readUnsynced returns a file's content, which may not be on the disk yet.
func (f *file) readUnsynced(name string) (string, error) {
	content, err := os.ReadFile(f.path(name))
	if errors.Is(err, fs.ErrNotExist) {
		return "", ErrAbsent
	}
	if err != nil {
		return "", fmt.Errorf("stores: lock: %w", err)
	}
	return string(content), nil
}

// sync syncs what was read to the disk, since the process that wrote it may have been killed before its own sync. If
// the file system is read-only, nothing can be lost.
func (f *file) sync() error {
	if err := SyncFolder(f.disk.root); err != nil && !errors.Is(err, syscall.EROFS) {
		return fmt.Errorf("stores: lock: %w", err)
	}
	return nil
}

// readText returns the text after it made sure that the text is on the disk.
func (f *file) readText() (string, error) {
	text, err := f.readUnsynced(textFile)
	if err == nil {
		err = f.syncText(text)
	}
	return text, err
}

// syncText makes sure that a text that was read is on the disk.
func (f *file) syncText(text string) error {
	f.mu.Lock()
	known := f.text == text && text != ""
	f.mu.Unlock()
	if known {
		return nil
	}
	err := f.sync()
	if err == nil {
		f.noteText(text)
	}
	return err
}

// noteText notes that a text is on the disk.
func (f *file) noteText(text string) {
	f.mu.Lock()
	defer f.mu.Unlock()
	f.text = text
}

// syncRaised makes sure that a published head that was read is on the disk.
func (f *file) syncRaised(published Published) error {
	f.mu.Lock()
	known := f.raised == published && published != Published{}
	f.mu.Unlock()
	if known {
		return nil
	}
	err := f.sync()
	if err == nil {
		f.noteRaised(published)
	}
	return err
}

// noteRaised notes that a published head is on the disk.
func (f *file) noteRaised(published Published) {
	f.mu.Lock()
	defer f.mu.Unlock()
	f.raised = published
}

// set replaces the content of a file. The new content is on the disk before the file gets its name. An error after the
// file has its name is ErrUnknown. An error before that is not, and means that nothing was changed.
func (f *file) set(name, content string) error {
	temporaryPath, err := f.disk.write([]byte(content), privateFile)
	if err != nil {
		return err
	}
	// This removes nothing if the file was renamed.
	defer os.Remove(temporaryPath)
	rename := func() error { return os.Rename(temporaryPath, f.path(name)) }
	if err := freeLater(f.path(name), rename); err != nil {
		return fmt.Errorf("stores: lock: %w", err)
	}
	if err := SyncFolder(f.disk.root); err != nil {
		return fmt.Errorf("%w: %v", ErrUnknown, err)
	}
	return nil
}

func (f *file) Create(ctx context.Context, text string) error {
	if err := checkText(text); err != nil {
		return err
	}
	return f.withFlock(ctx, func() error {
		if _, err := f.readText(); err == nil {
			return ErrExists
		} else if !errors.Is(err, ErrAbsent) {
			return err
		}
		// If there is a published head and no text, a process was killed at this point, or the text was lost.
		published, err := f.readHead()
		if err == nil && published != (Published{}) {
			return fmt.Errorf("%w: its text is missing, but %d entries are published", ErrExists, published.Size)
		}
		if err != nil && !errors.Is(err, ErrAbsent) {
			return err
		}
		if err := f.set(headFile, fmt.Sprintf(headForm, 0, 0)); err != nil {
			return err
		}
		return f.set(textFile, text)
	})
}

func (f *file) Read(ctx context.Context) (text string, err error) {
	if err := ctx.Err(); err != nil {
		return "", fmt.Errorf("stores: lock: %w", err)
	}
	return f.readText()
}

func (f *file) Swap(ctx context.Context, old, new string) error {
	if err := checkText(old, new); err != nil {
		return err
	}
	return f.withFlock(ctx, func() error {
		// The text that is replaced need not be on the disk.
		current, err := f.readUnsynced(textFile)
		switch {
		case err != nil:
			return err
		case current == new:
			return f.syncText(new)
		case current != old:
			return ErrLost
		}
		if err := f.set(textFile, new); err != nil {
			return err
		}
		f.noteText(new)
		return nil
	})
}

// readHead returns the published head in headFile, or ErrAbsent if that file does not exist.
func (f *file) readHead() (p Published, err error) {
	head, err := f.readUnsynced(headFile)
	if errors.Is(err, ErrAbsent) {
		return p, fmt.Errorf("stores: lock: %s with the published head is missing: %w", f.path(headFile), err)
	}
	if err != nil {
		return p, err
	}
	n, err := fmt.Sscanf(head, headForm, &p.Size, &p.Timestamp)
	if n != 2 || err != nil || fmt.Sprintf(headForm, p.Size, p.Timestamp) != head {
		return Published{}, fmt.Errorf("stores: lock: %s has %.40q instead of the published head",
			f.path(headFile), head)
	}
	return p, nil
}

// headForm is the format of the size and the timestamp in headFile.
const headForm = "%d %d"

// readPublished returns the published head, or ErrAbsent if the lock was not created. The head may not be on the disk
// yet.
func (f *file) readPublished() (Published, error) {
	if _, err := f.readUnsynced(textFile); err != nil {
		return Published{}, err
	}
	published, err := f.readHead()
	if errors.Is(err, ErrAbsent) {
		// The lock is not absent, since its text is there. So this error is not wrapped.
		return Published{}, fmt.Errorf("%v", err)
	}
	return published, err
}

func (f *file) Published(ctx context.Context) (Published, error) {
	if err := ctx.Err(); err != nil {
		return Published{}, fmt.Errorf("stores: lock: %w", err)
	}
	published, err := f.readPublished()
	if err == nil {
		err = f.syncRaised(published)
	}
	if err != nil {
		return Published{}, err
	}
	return published, nil
}

func (f *file) Raise(ctx context.Context, published Published) error {
	if err := checkNumbers(published.Size, published.Timestamp); err != nil {
		return err
	}
	return f.withFlock(ctx, func() error {
		current, err := f.readPublished()
		if err != nil {
			return err
		}
		if !current.Before(published) {
			return f.syncRaised(current)
		}
		if err := f.set(headFile, fmt.Sprintf(headForm, published.Size, published.Timestamp)); err != nil {
			return err
		}
		f.noteRaised(published)
		return nil
	})
}

func (f *file) Close() error { return nil }
