package blob

import (
	"errors"
	"fmt"
	"io/fs"
	"os"
	"path/filepath"
	"strings"
	"time"
)

// MaxKept is the maximum number of bytes of a file that KeepFile writes.
const MaxKept = 4 << 10

// KeepFile replaces the content of a file of this machine. After a crash the file has either the old content or the new
// one. The new content is on the disk when KeepFile returns. The folder must exist.
func KeepFile(path string, content []byte) error {
	if len(content) > MaxKept {
		return fmt.Errorf("%w: %d bytes for %s", ErrTooLong, len(content), path)
	}
	return keepFile(path, content, 0o600)
}

// ShowFile replaces the content of a file as KeepFile does. The content may have any length, and other users may read
// the file.
func ShowFile(path string, content []byte) error { return keepFile(path, content, 0o644) }

func keepFile(path string, content []byte, mode fs.FileMode) error {
	file, err := os.CreateTemp(filepath.Dir(path), filepath.Base(path)+halfKept+"*")
	if err != nil {
		return fmt.Errorf("stores: keep: %w", err)
	}
	_, err = file.Write(content)
	if err == nil {
		err = file.Chmod(mode)
	}
	if err == nil {
		err = fsync(file)
	}
	if closeErr := file.Close(); err == nil {
		err = closeErr
	}
	if err == nil {
		err = freeLater(path, func() error { return os.Rename(file.Name(), path) })
	}
	if err != nil {
		os.Remove(file.Name())
		return fmt.Errorf("stores: keep: %w", err)
	}
	return SyncFolder(filepath.Dir(path))
}

// halfKept is part of the names of temporary files that KeepFile and ShowFile have not renamed yet.
const halfKept = ".writing-"

// DropHalfKept removes the temporary files that killed writers of KeepFile and ShowFile left beside a file. The caller
// must keep other processes from writing the file.
func DropHalfKept(path string) error {
	left, err := temporaryFilesOf(path)
	for _, file := range left {
		err = errors.Join(err, os.Remove(file))
	}
	if err != nil {
		return fmt.Errorf("stores: keep: %w", err)
	}
	return nil
}

// temporaryFilesOf returns the temporary files beside a file. The path may contain characters that are special in
// patterns.
func temporaryFilesOf(path string) (found []string, err error) {
	folder, name := filepath.Split(path)
	files, err := os.ReadDir(filepath.Clean(folder))
	if errors.Is(err, fs.ErrNotExist) {
		return nil, nil
	}
	for _, file := range files {
		if strings.HasPrefix(file.Name(), name+halfKept) {
			found = append(found, folder+file.Name())
		}
	}
	return found, err
}

// KeptFile returns the content that KeepFile or ShowFile wrote. It returns ErrAbsent if there is no such file. It also
// removes the temporary files that killed writers left beside it, if they are older than abandoned.
func KeptFile(path string) ([]byte, error) {
	// The error is ignored: a folder that cannot be listed may have a file that can be read.
	left, _ := temporaryFilesOf(path)
	for _, file := range left {
		if info, err := os.Stat(file); err == nil && time.Since(info.ModTime()) > abandoned {
			os.Remove(file)
		}
	}
	content, err := os.ReadFile(path)
	if errors.Is(err, fs.ErrNotExist) {
		return nil, fmt.Errorf("%w: %s", ErrAbsent, path)
	}
	if err != nil {
		return nil, fmt.Errorf("stores: keep: %w", err)
	}
	return content, nil
}
