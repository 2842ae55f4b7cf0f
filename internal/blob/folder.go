package blob

import (
	"bytes"
	"context"
	"errors"
	"fmt"
	"io"
	"io/fs"
	"os"
	"path/filepath"
	"sort"
	"strings"
	"syscall"
)

// folder keeps objects as files below a folder. Several processes of one machine may use it at once. The file system
// must promise that link(2) is atomic and fails if the name exists, and that a file or a folder persists after
// fsync(2).
type folder struct {
	disk *disk
}

// OpenFolder opens the objects below a folder. It makes the folder if it does not exist.
func OpenFolder(root string) (Objects, error) {
	d, err := openDisk(root, publicFolder)
	if err == nil {
		err = closePrivate(d.root)
	}
	if err != nil {
		return nil, err
	}
	return &folder{d}, nil
}

func (f *folder) path(name string) string {
	return filepath.Join(f.disk.root, filepath.FromSlash(name))
}

// maxFolderTries is how often Put tries to make the folder of an object.
const maxFolderTries = 16

func (f *folder) Put(ctx context.Context, name string, content []byte) error {
	if err := checkObject(name, content); err != nil {
		return err
	}
	if err := ctx.Err(); err != nil {
		return fmt.Errorf("stores: put %s: %w", name, err)
	}
	path := f.path(name)
	temporaryPath, err := f.disk.write(content, fileMode(name))
	if err != nil {
		return err
	}
	defer os.Remove(temporaryPath)
	err = os.Link(temporaryPath, path)
	// As long as a new folder is empty, a Delete may remove it again.
	for try := 0; errors.Is(err, fs.ErrNotExist) && try < maxFolderTries; try++ {
		f.disk.forget(filepath.Dir(path))
		// MkdirAll also returns ErrExist if a folder is removed while MkdirAll makes it.
		if err := os.MkdirAll(filepath.Dir(path), folderMode(name)); err != nil && !errors.Is(err, fs.ErrNotExist) &&
			!errors.Is(err, fs.ErrExist) {
			return fmt.Errorf("stores: put %s: %w", name, err)
		}
		err = os.Link(temporaryPath, path)
	}
	if errors.Is(err, fs.ErrExist) {
		err = f.compare(name, content)
	}
	if err != nil {
		return fmt.Errorf("stores: put %s: %w", name, err)
	}
	// This is needed even if another process put the object, since that process may have been killed before its sync.
	return f.disk.sync(filepath.Dir(path))
}

// compare returns ErrOther if the object of a name has another content.
func (f *folder) compare(name string, content []byte) error {
	existing, err := f.read(name, int64(len(content)))
	if errors.Is(err, ErrTooLong) || err == nil && !bytes.Equal(existing, content) {
		return ErrOther
	}
	return err
}

func (f *folder) Get(ctx context.Context, name string, maxBytes int64) ([]byte, error) {
	if err := checkName(name); err != nil {
		return nil, err
	}
	if err := ctx.Err(); err != nil {
		return nil, fmt.Errorf("stores: get %s: %w", name, err)
	}
	content, err := f.read(name, maxBytes)
	if err != nil {
		return nil, fmt.Errorf("stores: get %s: %w", name, err)
	}
	return content, nil
}

// isNoFile reports whether an error means that there is no file of this name. There may be nothing or a folder.
func isNoFile(err error) bool {
	return errors.Is(err, fs.ErrNotExist) || errors.Is(err, syscall.ENOTDIR) || errors.Is(err, syscall.EISDIR)
}

func (f *folder) read(name string, maxBytes int64) ([]byte, error) {
	file, err := os.Open(f.path(name))
	if isNoFile(err) {
		return nil, ErrAbsent
	}
	if err != nil {
		return nil, err
	}
	defer file.Close()
	info, err := file.Stat()
	if err != nil {
		return nil, err
	}
	if info.IsDir() {
		return nil, ErrAbsent
	}
	if info.Size() > maxBytes {
		return nil, TooLong{info.Size()}
	}
	content := make([]byte, info.Size())
	if _, err := io.ReadFull(file, content); err != nil {
		return nil, err
	}
	return content, nil
}

func (f *folder) Delete(ctx context.Context, name string) error {
	if err := checkName(name); err != nil {
		return err
	}
	if err := ctx.Err(); err != nil {
		return fmt.Errorf("stores: delete %s: %w", name, err)
	}
	path := f.path(name)
	if err := freeLater(path, func() error { return syscall.Unlink(path) }); err != nil && !isNoFile(err) {
		return fmt.Errorf("stores: delete %s: %w", name, err)
	}
	f.removeEmpty(filepath.Dir(path))
	return nil
}

// removeEmpty removes a folder if it is empty. It does not remove the root and the folders directly in it. Without
// removeEmpty, each tile that was partial once would leave a folder. A later Put creates the folder again.
func (f *folder) removeEmpty(path string) {
	if path == f.disk.root || filepath.Dir(path) == f.disk.root {
		return
	}
	// Rmdir fails if the folder is not empty.
	if syscall.Rmdir(path) == nil {
		f.disk.forget(path)
	}
}

func (f *folder) Close() error { return nil }

func (f *folder) List(ctx context.Context, prefix, after string, maxNames int) ([]string, error) {
	if err := checkPrefix(prefix); err != nil {
		return nil, err
	}
	if err := checkAfter(after); err != nil {
		return nil, err
	}
	l := listing{ctx: ctx, root: f.disk.root, after: after, maxNames: boundListed(maxNames)}
	if l.maxNames == 0 {
		return nil, nil
	}
	if err := l.addBelow(prefix, 0); err != nil {
		return nil, fmt.Errorf("stores: list %s: %w", prefix, err)
	}
	return l.found, nil
}

// listing is one call of List. It holds at most maxNames entries of each folder on the path to the current one, however
// many entries the folder has.
type listing struct {
	ctx         context.Context
	root, after string
	maxNames    int
	found       []string
}

// addBelow adds the names that begin with the prefix. The prefix is empty, or the name of a folder with a slash at its
// end.
func (l *listing) addBelow(prefix string, depth int) error {
	if depth > maxParts {
		return fmt.Errorf("%w: of more parts than %d", ErrName, maxParts)
	}
	for last := ""; len(l.found) < l.maxNames; {
		entries, err := l.entriesAfter(prefix, last)
		if err != nil {
			return err
		}
		for _, entry := range entries {
			if len(l.found) == l.maxNames {
				return nil
			}
			if !strings.HasSuffix(entry, "/") {
				l.found = append(l.found, prefix+entry)
			} else if err := l.addBelow(prefix+entry, depth+1); err != nil {
				return err
			}
		}
		if len(entries) < l.maxNames {
			return nil
		}
		last = entries[len(entries)-1]
	}
	return nil
}

// entriesAfter returns the first entries of a folder that come after a name, in order. The names of folders have a
// slash at the end.
func (l *listing) entriesAfter(prefix, last string) ([]string, error) {
	opened, err := os.Open(filepath.Join(l.root, filepath.FromSlash(prefix)))
	if isNoFile(err) {
		return nil, nil
	}
	if err != nil {
		return nil, err
	}
	defer opened.Close()
	var first []string
	for {
		if err := l.ctx.Err(); err != nil {
			return nil, err
		}
		entries, err := opened.ReadDir(256)
		for _, entry := range entries {
			name := entry.Name()
			if checkName(name) != nil {
				continue
			}
			if entry.IsDir() {
				name += "/"
			}
			if name > last && l.mayReach(prefix+name) {
				first = insert(first, name, l.maxNames)
			}
		}
		if err == io.EOF || isNoFile(err) {
			return first, nil
		}
		if err != nil {
			return nil, err
		}
	}
}

// mayReach reports whether a name comes after the requested text or, if it is the name of a folder, whether a name in
// the folder may.
func (l *listing) mayReach(name string) bool {
	return name > l.after || strings.HasSuffix(name, "/") && strings.HasPrefix(l.after, name)
}

// insert inserts a text into sorted texts, and returns at most the first maxTexts of them.
func insert(texts []string, text string, maxTexts int) []string {
	at := sort.SearchStrings(texts, text)
	if at == maxTexts {
		return texts
	}
	if len(texts) < maxTexts {
		texts = append(texts, "")
	}
	copy(texts[at+1:], texts[at:])
	texts[at] = text
	return texts
}
