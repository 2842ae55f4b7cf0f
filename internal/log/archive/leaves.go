package archive

import (
	"context"
	"database/sql"
	"errors"
	"fmt"
	"net/url"
	"path/filepath"
	"strings"
	"sync"
	"time"

	"github.com/mattn/go-sqlite3"

	"wagtenib/bindings/go/wagtenib"
	"wagtenib/internal/blob"
)

// maxVariables is the maximum number of values in one statement, and maxConnections the maximum number of connections
// of one process.
const maxVariables, maxConnections = 500, 4

// leafIndex finds the index of a leaf by its hash. It stores a row for each leaf in a SQLite file. A process that
// serves the archive may use the file at the same time as the process that writes it.
//
// Like SQLite, it needs a file system whose locks exclude others and whose fsync is durable. The write-ahead log is
// synced at each commit (synchronous=FULL), because NORMAL could lose the last commits at a power failure.
type leafIndex struct {
	*database
	// writes is held while a call writes. SQLite permits one writer at a time, and others would have to try again.
	writes chan struct{}
}

// database is an open SQLite file.
type database struct {
	source string
	mu     sync.RWMutex
	db     *sql.DB

	preparing sync.Mutex
	// prepared has the prepared statements of db by their texts, because preparing one takes longer than a look-up.
	prepared map[string]*sql.Stmt
}

// driverName is the name of the SQLite driver that sets the pragmas of an index.
const driverName = "sqlite3 of an index"

// pragmas are set on each connection, in this order. The keys are hashes, so each new row is in a page of its own, and
// a commit writes all these pages. Therefore pages are small. Only a new file gets this page size. The write-ahead log
// may have as many bytes as with SQLite's own page size before it is copied. Temporary files only have what a statement
// of several rows changed, until the statement ends, so they are kept in memory.
const pragmas = `pragma page_size = 1024; pragma journal_mode = wal; pragma wal_autocheckpoint = 4000;
	pragma temp_store = memory`

func init() {
	sql.Register(driverName, &sqlite3.SQLiteDriver{ConnectHook: func(c *sqlite3.SQLiteConn) error {
		_, err := c.Exec(pragmas, nil)
		return err
	}})
}

// open opens the database. SQLite opens the file at the first statement.
func (d *database) open() (err error) {
	if d.db, err = sql.Open(driverName, d.source); err != nil {
		return fmt.Errorf("archive: SQLite: %w", err)
	}
	d.db.SetMaxOpenConns(maxConnections)
	d.prepared = map[string]*sql.Stmt{}
	return nil
}

// statement returns a prepared statement of the database.
func (d *database) statement(ctx context.Context, db *sql.DB, text string) (*sql.Stmt, error) {
	d.preparing.Lock()
	defer d.preparing.Unlock()
	if known := d.prepared[text]; known != nil {
		return known, nil
	}
	prepared, err := db.PrepareContext(ctx, text)
	if err == nil {
		d.prepared[text] = prepared
	}
	return prepared, err
}

// reopen closes the database and opens it again, unless another call already has.
func (d *database) reopen(broken *sql.DB) error {
	d.mu.Lock()
	defer d.mu.Unlock()
	if d.db != broken {
		return nil
	}
	_ = broken.Close()
	return d.open()
}

// use calls a function with the database, and returns the database that it used.
func (d *database) use(do func(*sql.DB) error) (used *sql.DB, err error) {
	d.mu.RLock()
	defer d.mu.RUnlock()
	return d.db, do(d.db)
}

func (d *database) close() error {
	d.mu.Lock()
	defer d.mu.Unlock()
	return d.db.Close()
}

// isBroken reports whether SQLite may be wrong about the locks that it holds. If a file system fails a lock or an
// unlock, SQLite remains wrong as long as this process has the file open.
func isBroken(err error) bool {
	var failure sqlite3.Error
	return errors.As(err, &failure) && (failure.Code == sqlite3.ErrProtocol || failure.Code == sqlite3.ErrIoErr)
}

// maxCached is the number of KiB of the file that each connection caches, enough for the upper pages of a log of 10^8
// entries. SQLite's default is 2 MB.
const maxCached = 16 << 10

// openLeafIndex opens the index in a file, and creates the file if it does not exist.
func openLeafIndex(ctx context.Context, path string) (*leafIndex, error) {
	path, err := filepath.Abs(path)
	if err != nil {
		return nil, fmt.Errorf("archive: SQLite: %w", err)
	}
	settings := url.Values{"_synchronous": {"FULL"}, "_cache_size": {fmt.Sprint(-maxCached)}, "_busy_timeout": {"50"},
		"_txlock": {"immediate"}}
	source := url.URL{Scheme: "file", Path: path, RawQuery: settings.Encode()}
	of := &database{source: source.String()}
	if err := of.open(); err != nil {
		return nil, err
	}
	err = of.retryWhileBusy(ctx, "table", func(db *sql.DB) error {
		_, err := db.ExecContext(ctx, `create table if not exists leaves `+
			`(identity blob primary key, "index" integer not null, timestamp integer not null) without rowid`)
		return err
	})
	if err != nil {
		of.close()
		return nil, fmt.Errorf("%w: the index in %s", err, path)
	}
	if err := blob.SyncFolder(filepath.Dir(path)); err != nil {
		of.close()
		return nil, err
	}
	return &leafIndex{of, make(chan struct{}, 1)}, nil
}

// retryWhileBusy calls a function, again and again while another connection blocks it, until the context ends.
// (SQLite's own waiting does not end with the context.) After a failure of the file's locks or of the disk, it opens
// the file again, and tries once more.
func (d *database) retryWhileBusy(ctx context.Context, what string, do func(*sql.DB) error) error {
	for again := false; ; {
		used, err := d.use(do)
		if isBroken(err) && !again && ctx.Err() == nil {
			if failed := d.reopen(used); failed != nil {
				return failed
			}
			again = true
			continue
		}
		var failure sqlite3.Error
		busy := errors.As(err, &failure) && (failure.Code == sqlite3.ErrBusy || failure.Code == sqlite3.ErrLocked)
		if busy {
			select {
			case <-time.After(5 * time.Millisecond):
				continue
			case <-ctx.Done():
				err = ctx.Err()
			}
		}
		if err != nil {
			return fmt.Errorf("archive: SQLite: %s: %w", what, err)
		}
		return nil
	}
}

// find returns the index of the leaf with a hash, and false if there is none.
func (l *leafIndex) find(ctx context.Context, hash wagtenib.Hash) (index uint64, ok bool, err error) {
	err = l.retryWhileBusy(ctx, "find", func(db *sql.DB) error {
		find, err := l.statement(ctx, db, `select "index" from leaves where identity = ?`)
		if err != nil {
			return err
		}
		err = find.QueryRowContext(ctx, hash[:]).Scan(&index)
		if errors.Is(err, sql.ErrNoRows) {
			return nil
		}
		ok = err == nil
		return err
	})
	return index, ok, err
}

// add adds the hashes of leaves from an index on, in one transaction. A hash that the index has, or that occurs earlier
// in the list, keeps its index.
func (l *leafIndex) add(ctx context.Context, from uint64, hashes []wagtenib.Hash) error {
	if len(hashes) == 0 {
		return nil
	}
	return l.retryWhileBusy(ctx, "add", func(db *sql.DB) error { return l.insert(ctx, db, from, hashes) })
}

func (l *leafIndex) insert(ctx context.Context, db *sql.DB, from uint64, hashes []wagtenib.Hash) error {
	select {
	case l.writes <- struct{}{}:
		defer func() { <-l.writes }()
	case <-ctx.Done():
		return ctx.Err()
	}
	tx, err := db.BeginTx(ctx, nil)
	if err != nil {
		return err
	}
	defer tx.Rollback()
	for at := 0; at < len(hashes); at += maxVariables / 2 {
		some := hashes[at:min(at+maxVariables/2, len(hashes))]
		values := make([]any, 0, 2*len(some))
		for i := range some {
			values = append(values, some[i][:], int64(from)+int64(at+i))
		}
		rows := strings.Repeat(", (?, ?, 0)", len(some))[2:]
		if _, err := tx.ExecContext(ctx, "insert into leaves values "+rows+" on conflict (identity) do nothing",
			values...); err != nil {
			return err
		}
	}
	return tx.Commit()
}
