// Package privatefile reads files with a secret: a key, a PIN, or settings with a password.
package privatefile

import (
	"errors"
	"fmt"
	"io"
	"io/fs"
	"os"
)

// ErrShared: users other than the owner may read or write a file with a secret.
var ErrShared = errors.New("other users may read or write it")

// Check returns ErrShared unless only the owner of an open file may read and write it. secret is what the file has, for
// the error.
func Check(file *os.File, secret string) error {
	info, err := file.Stat()
	if err != nil {
		return err
	}
	return check(info, file.Name(), secret)
}

// CheckPath returns the error of Check for the file of this path. It does not open the file.
func CheckPath(path, secret string) error {
	info, err := os.Stat(path)
	if err != nil {
		return err
	}
	return check(info, path, secret)
}

func check(info fs.FileInfo, path, secret string) error {
	if mode := info.Mode().Perm(); mode&0o077 != 0 {
		return fmt.Errorf("%s has %s and the mode %04o: %w (run chmod 600 %[1]s)", path, secret, mode, ErrShared)
	}
	return nil
}

// Read returns the content of a file that only its owner may read and write, at most maxBytes of it.
func Read(path, secret string, maxBytes int64) ([]byte, error) {
	file, err := os.Open(path)
	if err != nil {
		return nil, err
	}
	defer file.Close()
	if err := Check(file, secret); err != nil {
		return nil, err
	}
	return io.ReadAll(io.LimitReader(file, maxBytes))
}
