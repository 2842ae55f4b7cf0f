// Package watchstore stores the findings of ctwatch in one SQLite file: certificates with their names, the log entries
// that contain them, the states and heads of logs, evidence against logs, and the alerts that must still be sent.
//
// A Store implements watch.Keeper: it stores what it finds in entries and the state of their log in one transaction. It
// also implements alert.Queue.
package watchstore

import (
	"database/sql"
	_ "embed"
	"errors"
	"fmt"
	"net/url"
	"os"
	"path/filepath"
	"sync"
	"syscall"
	"time"

	"github.com/mattn/go-sqlite3"

	"wagtenib/internal/watch"
	"wagtenib/internal/watch/namesearch"
)

// FileName is the name of the store in its folder.
const FileName = "ctwatch.sqlite"

// DefaultFolder returns the default folder of a store: the state directory of the systemd unit, or ct-watch.
func DefaultFolder() string {
	if folder := os.Getenv("STATE_DIRECTORY"); folder != "" {
		return folder
	}
	return "ct-watch"
}

// application identifies the file as a store of ctwatch (PRAGMA application_id). version is the version of its tables
// (PRAGMA user_version).
const (
	application = 0x63747761
	version     = 1
)

// The errors that Open returns wrap one of these. Their texts name the file and say what to do.
var (
	ErrDamaged = errors.New("the store is damaged")
	ErrOther   = errors.New("the file is no store of this ctwatch")
	ErrInUse   = errors.New("the store is in use")
)

//go:embed schema.sql
var schema string

// Unread selects the certificates with unreadable names that cause an alert.
type Unread string

// The values of Unread.
const (
	UnreadAll       Unread = "all"       // all of them
	UnreadMentioned Unread = "mentioned" // those whose bytes contain a watched name
	UnreadNone      Unread = "none"      // none of them; they are only stored
)

// Options hold the settings of a store: what it searches, stores and reports.
type Options struct {
	Searcher *namesearch.Searcher
	Expected Expected
	Unread   Unread           // UnreadAll if it is empty
	Wake     func()           // called after an alert was stored; must return at once; may be nil
	Now      func() time.Time // time.Now if it is nil
}

// Store is an open store.
type Store struct {
	db      *sql.DB
	path    string
	options Options
	lock    *os.File
	// A writer holds this mutex. SQLite allows one writer, and others would wait by repeated attempts.
	writes   sync.Mutex
	statuses *statuses
}

// Open opens the store in a folder for writing, and creates both if they do not exist. Only one process at a time can
// open it so. Open searches the stored certificates for names that were not watched before.
//
// The error wraps ErrDamaged, ErrOther or ErrInUse, or is one of the file system.
func Open(folder string, options Options) (*Store, error) {
	if err := os.MkdirAll(folder, 0o750); err != nil {
		return nil, err
	}
	lock, err := lockFolder(folder)
	if err != nil {
		return nil, err
	}
	s, err := open(filepath.Join(folder, FileName), options, "rwc")
	if err != nil {
		return nil, errors.Join(err, lock.Close())
	}
	s.lock = lock
	if err := s.start(); err != nil {
		return nil, errors.Join(s.describe(err), s.Close())
	}
	return s, nil
}

// OpenToRead opens the existing store in a folder for queries. Another process may write to it at the same time.
func OpenToRead(folder string) (*Store, error) {
	path := filepath.Join(folder, FileName)
	if _, err := os.Stat(path); err != nil {
		return nil, fmt.Errorf("%w (start ctwatch run first, or name the folder of its store by --folder)", err)
	}
	s, err := open(path, Options{}, "rw")
	if err != nil {
		return nil, err
	}
	if err := s.check(); err != nil {
		return nil, errors.Join(s.describe(err), s.Close())
	}
	return s, nil
}

func open(path string, options Options, mode string) (*Store, error) {
	if options.Now == nil {
		options.Now = time.Now
	}
	if options.Searcher == nil {
		options.Searcher = namesearch.NewSearcher(nil)
	}
	if options.Wake == nil {
		options.Wake = func() {}
	}
	absolute, err := filepath.Abs(path)
	if err != nil {
		return nil, err
	}
	settings := url.Values{"_synchronous": {"FULL"}, "_busy_timeout": {"10000"}, "_foreign_keys": {"1"},
		"_txlock": {"immediate"}, "mode": {mode}}
	if mode == "rwc" {
		// The mode remains in the file, so a reader must not set it: if two connections set it in a new file, SQLite
		// returns an error to one of them at once.
		settings.Set("_journal_mode", "WAL")
	}
	source := url.URL{Scheme: "file", Path: absolute, RawQuery: settings.Encode()}
	db, err := sql.Open("sqlite3", source.String())
	if err != nil {
		return nil, err
	}
	return &Store{db: db, path: path, options: options, statuses: newStatuses()}, nil
}

// lockFolder locks the folder of a store until the returned file is closed, so that no other process can open the store
// for writing.
func lockFolder(folder string) (*os.File, error) {
	path := filepath.Join(folder, "lock")
	file, err := os.OpenFile(path, os.O_CREATE|os.O_RDWR, 0o640)
	if err != nil {
		return nil, err
	}
	if err := syscall.Flock(int(file.Fd()), syscall.LOCK_EX|syscall.LOCK_NB); err != nil {
		return nil, errors.Join(fmt.Errorf("%s: %w by another ctwatch run (end that one, or name another folder): "+
			"%v", folder, ErrInUse, err), file.Close())
	}
	return file, nil
}

// start creates the tables of a new file, checks the file, and searches the stored certificates for added names.
func (s *Store) start() error {
	var tables int
	if err := s.db.QueryRow("select count(*) from sqlite_master").Scan(&tables); err != nil {
		return err
	}
	if tables == 0 {
		// One transaction writes the tables and the file's numbers: a kill leaves an empty file or a complete store.
		if err := s.write(func(w *writer) error {
			_, err := w.tx.Exec(fmt.Sprintf("%s; PRAGMA application_id = %d; PRAGMA user_version = %d", schema,
				application, version))
			return err
		}); err != nil {
			return err
		}
	}
	if err := s.check(); err != nil {
		return err
	}
	if _, err := s.db.Exec(listTable); err != nil {
		return err
	}
	var result string
	if err := s.db.QueryRow("PRAGMA quick_check(1)").Scan(&result); err != nil {
		return err
	}
	if result != "ok" {
		return fmt.Errorf("%w: %s", ErrDamaged, result)
	}
	return s.searchAdded()
}

// check returns an error if the file is not a store, or has another version.
func (s *Store) check() error {
	var foundApplication, foundVersion int
	if err := s.db.QueryRow("PRAGMA application_id").Scan(&foundApplication); err != nil {
		return err
	}
	if err := s.db.QueryRow("PRAGMA user_version").Scan(&foundVersion); err != nil {
		return err
	}
	if foundApplication != application || foundVersion != version {
		return fmt.Errorf("%w: application %#x, version %d", ErrOther, foundApplication, foundVersion)
	}
	return nil
}

// describe returns an error with the name of the store's file and the remedy.
func (s *Store) describe(err error) error {
	var fault sqlite3.Error
	isSQLite := errors.As(err, &fault)
	switch {
	case errors.Is(err, ErrDamaged), isSQLite && (fault.Code == sqlite3.ErrCorrupt || fault.Code == sqlite3.ErrNotADB):
		if !errors.Is(err, ErrDamaged) {
			err = fmt.Errorf("%w: %w", ErrDamaged, err)
		}
		return fmt.Errorf("%s: %w (restore it from a backup, or move it away: a new store begins at the end of each "+
			"log)", s.path, err)
	case errors.Is(err, ErrOther):
		return fmt.Errorf("%s: %w (name another folder, or use the ctwatch that made it)", s.path, err)
	case isSQLite && fault.Code == sqlite3.ErrFull:
		return fmt.Errorf("%s: the disk is full, and nothing was stored (make room): %w", s.path, err)
	}
	return fmt.Errorf("%s: %w", s.path, err)
}

// Close closes the store.
func (s *Store) Close() error {
	err := s.db.Close()
	if s.lock != nil {
		err = errors.Join(err, s.lock.Close())
	}
	return err
}

// writer holds a transaction that writes.
type writer struct {
	tx       *sql.Tx
	prepared map[string]*sql.Stmt
	hasAlert bool // an alert was stored
}

// write calls do in one transaction: all that it writes is stored, or nothing.
func (s *Store) write(do func(*writer) error) error {
	s.writes.Lock()
	defer s.writes.Unlock()
	tx, err := s.db.Begin()
	if err != nil {
		return s.describe(err)
	}
	w := &writer{tx: tx, prepared: map[string]*sql.Stmt{}}
	if err := do(w); err != nil {
		return errors.Join(s.describe(err), tx.Rollback())
	}
	if err := tx.Commit(); err != nil {
		return s.describe(err)
	}
	if w.hasAlert {
		s.options.Wake()
	}
	return nil
}

// statement returns a prepared statement. Each text is prepared once in a transaction.
func (w *writer) statement(text string) (*sql.Stmt, error) {
	if found := w.prepared[text]; found != nil {
		return found, nil
	}
	made, err := w.tx.Prepare(text)
	if err == nil {
		w.prepared[text] = made
	}
	return made, err
}

// exec runs a statement, and returns the number of rows that it changed.
func (w *writer) exec(text string, values ...any) (int64, error) {
	statement, err := w.statement(text)
	if err != nil {
		return 0, err
	}
	result, err := statement.Exec(values...)
	if err != nil {
		return 0, err
	}
	return result.RowsAffected()
}

// number runs a statement that returns one number. If it returns no row, found is false.
func (w *writer) number(text string, values ...any) (value int64, found bool, err error) {
	statement, err := w.statement(text)
	if err != nil {
		return 0, false, err
	}
	err = statement.QueryRow(values...).Scan(&value)
	if errors.Is(err, sql.ErrNoRows) {
		return 0, false, nil
	}
	return value, err == nil, err
}

var _ watch.Keeper = (*Store)(nil)
