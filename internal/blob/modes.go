package blob

import (
	"errors"
	"fmt"
	"io/fs"
	"os"
	"path/filepath"
	"strings"
	"syscall"
)

// The modes of files and folders. Every user who can reach a log's folder may read the objects that readers of the log
// read, so that a web server can serve them. Only the owner may read everything else: staged batches have entries that
// are not published yet.
const (
	publicFile, publicFolder   fs.FileMode = 0o644, 0o755
	privateFile, privateFolder fs.FileMode = 0o600, 0o700
)

// privateObjects are the folders of the objects that readers of a log do not read. Earlier versions let other users
// read them.
var privateObjects = []string{"heads", "places", "staging"}

// isPublic reports whether readers of the log read an object.
func isPublic(name string) bool {
	contentType, _ := headersOf(name)
	return contentType != ""
}

// fileMode returns the mode of the file with an object.
func fileMode(name string) fs.FileMode {
	if isPublic(name) {
		return publicFile
	}
	return privateFile
}

// folderMode returns the mode of the folders on the path to an object.
func folderMode(name string) fs.FileMode {
	if isPublic(name) || !strings.Contains(name, "/") {
		return publicFolder
	}
	return privateFolder
}

// closeFolder keeps all users but the owner out of a folder, if it exists. On a read-only file system it changes
// nothing.
func closeFolder(path string) error {
	info, err := os.Stat(path)
	if errors.Is(err, fs.ErrNotExist) || err == nil && (!info.IsDir() || info.Mode().Perm()&0o077 == 0) {
		return nil
	}
	if err == nil {
		err = os.Chmod(path, info.Mode().Perm()&privateFolder)
	}
	if err != nil && !errors.Is(err, syscall.EROFS) {
		return fmt.Errorf("stores: folder: other users may read %s: %w (run chmod 700 %[1]s as its owner)", path, err)
	}
	return nil
}

// closePrivate closes the folders of objects that readers do not read.
func closePrivate(root string) error {
	for _, name := range privateObjects {
		if err := closeFolder(filepath.Join(root, name)); err != nil {
			return err
		}
	}
	return nil
}
