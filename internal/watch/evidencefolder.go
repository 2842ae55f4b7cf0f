package watch

import (
	"errors"
	"fmt"
	"io/fs"
	"os"
	"path/filepath"
)

// ErrNotNew means that a folder for evidence contains files, which are not replaced.
var ErrNotNew = errors.New("the folder is not new (name a new folder)")

// CheckNew returns an error unless a folder for evidence is empty, or does not exist. The error wraps ErrNotNew if it is
// not empty.
func CheckNew(folder string) error {
	found, err := os.ReadDir(folder)
	if errors.Is(err, fs.ErrNotExist) {
		return nil
	}
	if err == nil && len(found) > 0 {
		err = fmt.Errorf("%s: %w", folder, ErrNotNew)
	}
	return err
}

// Write writes the files of evidence into a folder, which must be new or empty.
func (e Evidence) Write(folder string) error {
	if err := CheckNew(folder); err != nil {
		return err
	}
	if err := os.MkdirAll(folder, 0o750); err != nil {
		return err
	}
	root, err := os.OpenRoot(folder)
	if err != nil {
		return err
	}
	for name, content := range e.Files {
		// The name of a file of evidence may contain folders, but must not lead out of this one.
		if err := os.MkdirAll(filepath.Join(folder, filepath.Dir(filepath.Clean("/"+name))), 0o750); err != nil {
			return errors.Join(err, root.Close())
		}
		file, err := root.OpenFile(name, os.O_CREATE|os.O_EXCL|os.O_WRONLY, 0o640)
		if err != nil {
			return errors.Join(err, root.Close())
		}
		if _, err = file.Write(content); err != nil {
			return errors.Join(err, file.Close(), root.Close())
		}
		if err := file.Close(); err != nil {
			return errors.Join(err, root.Close())
		}
	}
	return root.Close()
}
