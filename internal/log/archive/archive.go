// Package archive stores a log of RFC 6962 that is closing as tiles in a folder (C2SP tlog-tiles, static-ct-api),
// with the last head that the log signed, and serves them.
//
// The entries are those of the log, byte by byte. Their leaves are not built again, so the tree has the root that the
// log signed. The proved library reads each leaf and each data tile, computes the roots, and checks the consistency
// proofs. Entries are only written after the log has proved that they are the beginning of the signed tree. So nothing
// in the folder must ever be removed, and after any interruption, the next run continues.
package archive

import (
	"bytes"
	"context"
	"encoding/json"
	"errors"
	"fmt"
	"os"
	"path/filepath"
	"strconv"
	"strings"
	"syscall"

	"wagtenib/internal/blob"
	"wagtenib/internal/ct"
)

// These errors are the reasons why nothing more is archived or served. Use errors.Is.
var (
	// ErrFolder means that a folder is the archive of another log, or of none.
	ErrFolder = errors.New("archive: the folder is not an archive of this log")
	// ErrInUse means that another process writes into the folder.
	ErrInUse = errors.New("archive: another process writes into the folder")
	// ErrIncomplete means that the folder has not all entries of a head yet.
	ErrIncomplete = errors.New("archive: the archive is not complete (run ctserve archive until it ends with status 0)")
	// ErrFork means that the log signed two heads that are not of one list of entries. The folder has both.
	ErrFork = errors.New("archive: the log has signed a fork")
	// ErrInconsistent means that the log does not prove that a head which it signed continues the head before. The
	// folder has both.
	ErrInconsistent = errors.New("archive: the log does not prove that its heads are of one history")
	// ErrBehind means that the log answers an older head than the one that is archived.
	ErrBehind = errors.New("archive: the log answers an older head than the one that is archived")
	// ErrEmpty means that the log has no entries.
	ErrEmpty = errors.New("archive: the log has no entries")
	// ErrEntry means that an answer to get-entries contains something that is not an entry of a log.
	ErrEntry = errors.New("archive: not an entry of a log")
	// ErrOther means that the log answers other entries than those whose root it signed.
	ErrOther = errors.New("archive: the log's entries do not have the root that it signed")
	// ErrUnproved means that the log does not prove that its entries are the beginning of the tree that it signed.
	// Either the entries differ, or the proof is wrong or missing.
	ErrUnproved = errors.New("archive: the log does not prove that its entries are those that it signed")
	// ErrDamaged means that the folder does not contain what was written to it.
	ErrDamaged = errors.New("archive: the folder is damaged (put it back from a backup, or make it again)")
)

// Log is the log of an archive.
type Log struct {
	// Origin is the name in the checkpoint. A log of RFC 6962 has none, so the operator of the archive chooses it.
	Origin string `json:"origin"`
	// URL is the base of the log's calls, before ct/v1/.
	URL string `json:"url"`
	// PublicKey is the log's key, a SubjectPublicKeyInfo in DER.
	PublicKey []byte `json:"key"`
}

// The files of an archive. Its tiles and issuers, and its checkpoint, are in the folder objects.
const (
	logName        = "log.json"
	wantedName     = "wanted-head.json" // the answer to get-sth that is being archived
	signedName     = "signed-head.json" // the answer to get-sth of which the archive has all entries
	otherName      = "other-head.json"  // an answer to get-sth that contradicts one of these
	progressName   = "progress"         // the number of entries in the folder
	obsoleteName   = "obsolete"         // partial tiles to delete, a name on each line
	indexName      = "index"
	objectsName    = "objects"
	checkpointName = objectsName + "/checkpoint"
	maxObject      = 64 << 20 // bytes
	maxCheckpoint  = 1 << 20  // bytes
)

// folder is the folder of an archive, opened by the only process that writes to it.
type folder struct {
	path    string
	objects blob.Objects
	index   *leafIndex
	lock    *os.File
	writing func(name string)
}

// openFolder opens the folder of an archive for writing. It creates the folder if it does not exist.
func openFolder(ctx context.Context, path string, of Log, writing func(string)) (*folder, error) {
	if writing == nil {
		writing = func(string) {}
	}
	f := &folder{path: path, writing: writing}
	if err := f.open(ctx, of); err != nil {
		f.close()
		return nil, err
	}
	return f, nil
}

// open opens the files of the folder. After an error some of them are open.
func (f *folder) open(ctx context.Context, of Log) (err error) {
	if err := blob.MakeFolder(f.path, 0o755); err != nil {
		return err
	}
	if f.lock, err = os.Open(f.path); err != nil {
		return fmt.Errorf("archive: %w", err)
	}
	if err := syscall.Flock(int(f.lock.Fd()), syscall.LOCK_EX|syscall.LOCK_NB); err != nil {
		return fmt.Errorf("%w: %s", ErrInUse, f.path)
	}
	for _, name := range []string{logName, wantedName, signedName, otherName, progressName, obsoleteName,
		checkpointName} {
		if err := blob.DropHalfKept(filepath.Join(f.path, filepath.FromSlash(name))); err != nil {
			return fmt.Errorf("archive: %w", err)
		}
	}
	if err := f.checkLog(of); err != nil {
		return err
	}
	if f.objects, err = blob.OpenFolder(filepath.Join(f.path, objectsName)); err != nil {
		return fmt.Errorf("archive: %w", err)
	}
	f.index, err = openLeafIndex(ctx, filepath.Join(f.path, indexName))
	return err
}

// close closes the files. All that was written is on the disk by then.
func (f *folder) close() {
	if f.index != nil {
		_ = f.index.close()
	}
	if f.objects != nil {
		_ = f.objects.Close()
	}
	if f.lock != nil {
		_ = f.lock.Close()
	}
}

// checkLog returns an error if the folder belongs to another log. In an empty folder it stores this log. The log may
// have moved to another URL.
func (f *folder) checkLog(of Log) error {
	stored, err := readLog(f.path)
	if errors.Is(err, blob.ErrAbsent) {
		others, err := os.ReadDir(f.path)
		if err != nil {
			return fmt.Errorf("archive: %w", err)
		}
		if len(others) > 0 {
			return fmt.Errorf("%w: %s has other files (name an empty folder)", ErrFolder, f.path)
		}
		content, err := json.MarshalIndent(of, "", "  ")
		if err != nil {
			return fmt.Errorf("archive: %w", err)
		}
		return f.replaceFile(logName, append(content, '\n'))
	}
	if err != nil {
		return err
	}
	if stored.Origin != of.Origin || !bytes.Equal(stored.PublicKey, of.PublicKey) {
		return fmt.Errorf("%w: %s is of %s, with another key or origin (name another folder)", ErrFolder, f.path,
			stored.Origin)
	}
	return nil
}

// readLog returns the log of an archive. The error wraps blob.ErrAbsent or ErrFolder.
func readLog(path string) (of Log, err error) {
	content, err := blob.KeptFile(filepath.Join(path, logName))
	if err != nil {
		return of, err
	}
	err = json.Unmarshal(content, &of)
	if err == nil && (of.Origin == "" || len(of.PublicKey) == 0) {
		err = errors.New("it has no origin or no key")
	}
	if err != nil {
		return of, fmt.Errorf("%w: %s: %v (put it back from a backup)", ErrFolder, filepath.Join(path, logName), err)
	}
	return of, nil
}

// replaceFile replaces a file of the folder.
func (f *folder) replaceFile(name string, content []byte) error {
	f.writing(name)
	if err := blob.ShowFile(filepath.Join(f.path, filepath.FromSlash(name)), content); err != nil {
		return fmt.Errorf("archive: %w", err)
	}
	return nil
}

// put stores an object, whose name is determined by the log's entries.
func (f *folder) put(ctx context.Context, name string, content []byte) error {
	f.writing(objectsName + "/" + name)
	err := f.objects.Put(ctx, name, content)
	if errors.Is(err, blob.ErrOther) {
		return fmt.Errorf("%w: %s", ErrDamaged, name)
	}
	if err != nil {
		return fmt.Errorf("archive: %w", err)
	}
	return nil
}

// get reads an object that put stored.
func (f *folder) get(ctx context.Context, name string) ([]byte, error) {
	content, err := f.objects.Get(ctx, name, maxObject)
	if errors.Is(err, blob.ErrAbsent) {
		return nil, fmt.Errorf("%w: %s is missing", ErrDamaged, name)
	}
	if err != nil {
		return nil, fmt.Errorf("archive: %w", err)
	}
	return content, nil
}

// progress returns the number of entries in the folder.
func (f *folder) progress() (uint64, error) {
	content, err := blob.KeptFile(filepath.Join(f.path, progressName))
	if errors.Is(err, blob.ErrAbsent) {
		return 0, nil
	}
	if err != nil {
		return 0, fmt.Errorf("archive: %w", err)
	}
	entries, err := strconv.ParseUint(strings.TrimSuffix(string(content), "\n"), 10, 64)
	if err != nil {
		return 0, fmt.Errorf("%w: %s: %v", ErrDamaged, progressName, err)
	}
	return entries, nil
}

// readHead reads the head in a file of an archive's folder. The error wraps blob.ErrAbsent or ErrDamaged.
func readHead(path, name string, of Log) (ct.SignedHead, error) {
	answer, err := blob.KeptFile(filepath.Join(path, name))
	if err != nil {
		return ct.SignedHead{}, err
	}
	stored, err := ct.OpenSTH(answer, of.PublicKey)
	if err != nil {
		return ct.SignedHead{}, fmt.Errorf("%w: %s: %v", ErrDamaged, filepath.Join(path, name), err)
	}
	return stored, nil
}
