package blob

import (
	"errors"
	"fmt"
	"io/fs"
	"os"
	"path/filepath"
	"sync"
	"syscall"
	"time"
)

// temporary is the folder of files that are still being written. No name of an object begins with a point.
const temporary = ".writing"

// abandoned is the age at which a temporary file counts as abandoned by its writer. A writer that is still running gets
// an error.
const abandoned = time.Hour

// maxSynced is how many folders are remembered as synced.
const maxSynced = 4096

// fsync calls File.Sync. Tests replace it to see when something is synced, or to let it fail.
var fsync = (*os.File).Sync

// disk writes files below a folder so that a file whose write was acknowledged persists even if power fails. A file is
// written under a temporary name and synced. Then it gets its name, and then the folders on the path to it are synced.
type disk struct {
	root   string
	mu     sync.Mutex
	synced map[string]bool
}

// openDisk makes the folder with a mode if it does not exist, and removes the temporary files that killed writers left.
func openDisk(root string, mode fs.FileMode) (*disk, error) {
	root, err := filepath.Abs(root)
	if err != nil {
		return nil, fmt.Errorf("stores: folder: %w", err)
	}
	d := &disk{root: root, synced: map[string]bool{}}
	if err := MakeFolder(root, mode); err != nil {
		return nil, err
	}
	if err := MakeFolder(filepath.Join(root, temporary), publicFolder); err != nil {
		return nil, err
	}
	if err := SyncFolder(filepath.Dir(root)); err != nil {
		return nil, err
	}
	if err := d.removeAbandoned(); err != nil {
		return nil, err
	}
	return d, SyncFolder(root)
}

// MakeFolder makes a folder with a mode, and the folders above it, if they do not exist. It syncs the names of those
// that it made.
func MakeFolder(path string, mode fs.FileMode) error {
	err := os.Mkdir(path, mode)
	if errors.Is(err, fs.ErrNotExist) {
		if err := MakeFolder(filepath.Dir(path), publicFolder); err != nil {
			return err
		}
		err = os.Mkdir(path, mode)
	}
	if errors.Is(err, fs.ErrExist) {
		return nil
	}
	if err != nil {
		return fmt.Errorf("stores: folder: %w", err)
	}
	return SyncFolder(filepath.Dir(path))
}

// removeAbandoned removes the temporary files of writers that were killed.
func (d *disk) removeAbandoned() error {
	folder := filepath.Join(d.root, temporary)
	entries, err := os.ReadDir(folder)
	if err != nil {
		return fmt.Errorf("stores: folder: %w", err)
	}
	for _, entry := range entries {
		info, err := entry.Info()
		if err != nil || time.Since(info.ModTime()) < abandoned {
			continue
		}
		if err := os.Remove(filepath.Join(folder, entry.Name())); err != nil && !errors.Is(err, fs.ErrNotExist) {
			return fmt.Errorf("stores: folder: %w", err)
		}
	}
	return nil
}

// maxFreeing is how many files are freed at once in the background.
const maxFreeing = 8

var freeing = make(chan struct{}, maxFreeing)

// freeLater calls do, which removes the name of a file or gives it to another file, and returns its error. The file is
// freed in the background. On a disk that is mounted with the option discard, freeing a file takes a millisecond, and a
// step frees five files.
func freeLater(path string, do func() error) error {
	file, absent := os.OpenFile(path, os.O_RDONLY|syscall.O_NONBLOCK, 0)
	err := do()
	if absent != nil {
		return err
	}
	select {
	case freeing <- struct{}{}:
		go func() {
			file.Close()
			<-freeing
		}()
	default:
		file.Close()
	}
	return err
}

// awaiting is held by the goroutine that waits in awaitFreed.
var awaiting sync.Mutex

// awaitFreed waits until all files are freed that are being freed now.
func awaitFreed() {
	awaiting.Lock()
	defer awaiting.Unlock()
	for range maxFreeing {
		freeing <- struct{}{}
	}
	for range maxFreeing {
		<-freeing
	}
}

// write writes the content to a temporary file with a mode, syncs it, and returns its path. If the disk is full, it
// waits for the files that are being freed, and tries once more.
func (d *disk) write(content []byte, mode fs.FileMode) (path string, err error) {
	if path, err = d.writeOnce(content, mode); errors.Is(err, syscall.ENOSPC) {
		awaitFreed()
		path, err = d.writeOnce(content, mode)
	}
	return path, err
}

func (d *disk) writeOnce(content []byte, mode fs.FileMode) (path string, err error) {
	file, err := os.CreateTemp(filepath.Join(d.root, temporary), "file-")
	if err != nil {
		return "", fmt.Errorf("stores: write: %w", err)
	}
	defer func() {
		if closeErr := file.Close(); err == nil && closeErr != nil {
			err = fmt.Errorf("stores: write: %w", closeErr)
		}
		if err != nil {
			os.Remove(file.Name())
		}
	}()
	if _, err := file.Write(content); err != nil {
		return "", fmt.Errorf("stores: write: %w", err)
	}
	if err := file.Chmod(mode); err != nil {
		return "", fmt.Errorf("stores: write: %w", err)
	}
	if err := fsync(file); err != nil {
		return "", fmt.Errorf("stores: write: %w", err)
	}
	return file.Name(), nil
}

// sync syncs a folder below the root, and the names of all folders on the path to it.
func (d *disk) sync(folder string) error {
	if err := SyncFolder(folder); err != nil {
		return err
	}
	var synced []string
	for folder != d.root && !d.isSynced(folder) {
		synced = append(synced, folder)
		folder = filepath.Dir(folder)
		if err := SyncFolder(folder); err != nil {
			return err
		}
	}
	d.setSynced(synced)
	return nil
}

// isSynced reports whether the folder's own name is known to be on the disk. Then the names of all folders above it are
// there, too.
func (d *disk) isSynced(folder string) bool {
	d.mu.Lock()
	defer d.mu.Unlock()
	return d.synced[folder]
}

func (d *disk) setSynced(folders []string) {
	d.mu.Lock()
	defer d.mu.Unlock()
	if len(d.synced)+len(folders) > maxSynced {
		d.synced = map[string]bool{}
	}
	for _, folder := range folders {
		d.synced[folder] = true
	}
}

// forget notes that a folder may have been removed, so that its name is synced again.
func (d *disk) forget(folder string) {
	d.mu.Lock()
	defer d.mu.Unlock()
	delete(d.synced, folder)
}

// SyncFolder syncs the names in a folder to the disk.
func SyncFolder(path string) error {
	folder, err := os.Open(path)
	if err != nil {
		return fmt.Errorf("stores: folder: %w", err)
	}
	err = fsync(folder)
	if closeErr := folder.Close(); err == nil {
		err = closeErr
	}
	if err != nil {
		return fmt.Errorf("stores: folder: %w", err)
	}
	return nil
}
