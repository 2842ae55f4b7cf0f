package blob

import (
	"context"
	"database/sql"
	"database/sql/driver"
	"errors"
	"fmt"
	"time"

	"github.com/lib/pq"
)

// Postgres holds the address of a database in a form of libpq (a URL or key=value), and the name of a log in it.
type Postgres struct {
	Source, Log string
}

// maxConnections is how many connections to a database one store opens.
const maxConnections = 4

// createTables makes the tables that are missing. Without the advisory lock, two processes that make them at the same
// time would fail.
const createTables = `select pg_advisory_xact_lock(4957128866342178);
create table if not exists ct_register (log text primary key, text bytea not null, published bigint not null, moment bigint not null);
create table if not exists ct_places (log text, identity bytea, index bigint not null, timestamp bigint not null, primary key (log, identity));
create table if not exists ct_leaves (like ct_places including all)`

// open connects to the server, checks that its settings are safe, and makes the tables.
func (at Postgres) open(ctx context.Context) (*sql.DB, error) {
	if at.Log == "" {
		return nil, fmt.Errorf("%w: the name of a log", ErrEmpty)
	}
	connector, err := pq.NewConnector(at.Source)
	if err != nil {
		return nil, fmt.Errorf("stores: PostgreSQL: %w", err)
	}
	connector.Dialer(deadlineDialer{})
	db := sql.OpenDB(sessionConnector{connector})
	db.SetMaxOpenConns(maxConnections)
	if _, err := withContext(ctx, func() (any, error) { return nil, prepare(ctx, db) }); err != nil {
		db.Close()
		return nil, err
	}
	return db, nil
}

// sessionSettings sets the parameters of each session, whatever the server, its database or the address say. A commit
// waits until a standby that may take over has it on its disk. No timeout ends that wait, since the server would
// acknowledge the commit after a timeout.
const sessionSettings = `set lock_timeout = '10s'; set statement_timeout = 0;
select set_config('synchronous_commit', 'on', false) where current_setting('synchronous_commit') <> 'remote_apply'`

// sessionConnector opens sessions with sessionSettings. They include a lock timeout, so that a session waits only
// briefly for a row that another session has locked. A session whose commit waits for a standby keeps its row locked,
// and the server never ends sessions that wait for that row.
type sessionConnector struct{ driver.Connector }

func (s sessionConnector) Connect(ctx context.Context) (driver.Conn, error) {
	connection, err := s.Connector.Connect(ctx)
	if err != nil {
		return nil, err
	}
	session, ok := connection.(driver.ExecerContext)
	if !ok {
		connection.Close()
		return nil, fmt.Errorf("%w: PostgreSQL: a session takes no settings", ErrUnsafe)
	}
	if _, err := session.ExecContext(ctx, sessionSettings, nil); err != nil {
		connection.Close()
		return nil, err
	}
	return connection, nil
}

// prepare returns ErrUnsafe if a setting lets the server lose what it acknowledges, and makes the tables.
func prepare(ctx context.Context, db *sql.DB) error {
	for _, setting := range []string{"fsync", "full_page_writes", "synchronous_commit"} {
		var value string
		// reset_val is the value for a session that does not set the parameter itself.
		if err := db.QueryRowContext(ctx, "select reset_val from pg_settings where name = $1",
			setting).Scan(&value); err != nil {
			return fmt.Errorf("stores: PostgreSQL: %w", err)
		}
		if value == "off" {
			return fmt.Errorf("%w: PostgreSQL has %s off", ErrUnsafe, setting)
		}
	}
	if _, err := db.ExecContext(ctx, createTables); err != nil {
		return fmt.Errorf("stores: PostgreSQL: tables: %w", err)
	}
	return nil
}

// inPostgres keeps the lock in a row. The server must have fsync, full_page_writes and synchronous_commit on, which
// is checked. If a standby may take over, synchronous_standby_names must name it, so that it has everything that was
// acknowledged. Only one server may accept writes. The sessions of inPostgres set synchronous_commit to on, and no
// statement_timeout.
type inPostgres struct {
	db  *sql.DB
	log string
}

// OpenPostgres opens the lock of a log.
func OpenPostgres(ctx context.Context, at Postgres) (Lock, error) {
	db, err := at.open(ctx)
	if err != nil {
		return nil, err
	}
	return &inPostgres{db, at.Log}, nil
}

// timeOf returns the time of a server and its maximum error, with ErrSameMachine if the server is on this machine.
func timeOf(ctx context.Context, db *sql.DB) (time.Time, time.Duration, error) {
	type reply struct {
		time         time.Time
		server, here string
	}
	got, err := withContext(ctx, func() (got reply, err error) {
		err = db.QueryRowContext(ctx, "select clock_timestamp(), coalesce(host(inet_server_addr()), ''), "+
			"coalesce(host(inet_client_addr()), '')").Scan(&got.time, &got.server, &got.here)
		return got, err
	})
	if err != nil {
		return time.Time{}, 0, fmt.Errorf("stores: PostgreSQL: time: %w", err)
	}
	if !isElsewhere(got.server, got.here) {
		return got.time, time.Millisecond, ErrSameMachine
	}
	return got.time, time.Millisecond, nil
}

// Time implements Timed.
func (p *inPostgres) Time(ctx context.Context) (time.Time, time.Duration, error) {
	return timeOf(ctx, p.db)
}

// Time implements Timed.
func (p *indexInPostgres) Time(ctx context.Context) (time.Time, time.Duration, error) {
	return timeOf(ctx, p.db)
}

// postgresWriteError wraps the error of a write. It is ErrUnknown, since the write may have been done, unless the
// server reports that it refused the write.
func postgresWriteError(what string, err error) error {
	var reported *pq.Error
	if errors.As(err, &reported) {
		switch reported.Code.Class() {
		case "22", "23", "40", "53":
			return fmt.Errorf("stores: PostgreSQL: %s: %w", what, err)
		}
	}
	return fmt.Errorf("%w: PostgreSQL: %s: %v", ErrUnknown, what, err)
}

// writeUncancelled makes a write, and returns how many rows it changed. It uses one connection: if that broke, the pool
// would repeat the write on another connection, and a swap that was done would be reported as lost. The end of the
// context ends the call, but does not cancel the write. By a cancellation the server would end the commit's wait for a
// standby, make the commit visible, and acknowledge it.
func writeUncancelled(ctx context.Context, db *sql.DB, statement string, values ...any) (int64, error) {
	return withContext(ctx, func() (int64, error) {
		connection, err := db.Conn(ctx)
		if err != nil {
			return 0, err
		}
		defer connection.Close()
		result, err := connection.ExecContext(context.Background(), statement, values...)
		if err != nil {
			return 0, err
		}
		return result.RowsAffected()
	})
}

// write makes a write, and returns whether it changed a row.
func (p *inPostgres) write(ctx context.Context, what, statement string, values ...any) (bool, error) {
	rows, err := writeUncancelled(ctx, p.db, statement, values...)
	if err != nil {
		return false, postgresWriteError(what, err)
	}
	return rows > 0, nil
}

func (p *inPostgres) Create(ctx context.Context, text string) error {
	if err := checkText(text); err != nil {
		return err
	}
	done, err := p.write(ctx, "create",
		"insert into ct_register (log, text, published, moment) values ($1, $2, 0, 0) on conflict do nothing",
		p.log, []byte(text))
	if err == nil && !done {
		return ErrExists
	}
	return err
}

// row holds the row of a lock.
type row struct {
	text      []byte
	published Published
}

// read reads the row. What it reads persists, since the server shows a row only after its transaction is on the disk.
func (p *inPostgres) read(ctx context.Context) (row, error) {
	read, err := withContext(ctx, func() (read row, err error) {
		const one = "select text, published, moment from ct_register where log = $1"
		err = p.db.QueryRowContext(ctx, one, p.log).Scan(&read.text, &read.published.Size, &read.published.Timestamp)
		return read, err
	})
	if errors.Is(err, sql.ErrNoRows) {
		return row{}, ErrAbsent
	}
	if err != nil {
		return row{}, fmt.Errorf("stores: PostgreSQL: read: %w", err)
	}
	return read, nil
}

func (p *inPostgres) Read(ctx context.Context) (string, error) {
	read, err := p.read(ctx)
	return string(read.text), err
}

func (p *inPostgres) Swap(ctx context.Context, old, new string) error {
	if err := checkText(old, new); err != nil {
		return err
	}
	done, err := p.write(ctx, "swap", "update ct_register set text = $3 where log = $1 and text = $2", p.log,
		[]byte(old), []byte(new))
	if err != nil || done {
		return err
	}
	current, err := p.Read(ctx)
	switch {
	case err != nil:
		return err
	case current == new:
		return nil
	}
	return ErrLost
}

func (p *inPostgres) Published(ctx context.Context) (Published, error) {
	read, err := p.read(ctx)
	return read.published, err
}

func (p *inPostgres) Raise(ctx context.Context, published Published) error {
	if err := checkNumbers(published.Size, published.Timestamp); err != nil {
		return err
	}
	const raise = "update ct_register set published = $2, moment = $3 where log = $1 and (published, moment) < ($2, $3)"
	done, err := p.write(ctx, "raise", raise, p.log, int64(published.Size), int64(published.Timestamp))
	if err != nil || done {
		return err
	}
	_, err = p.read(ctx)
	return err
}

func (p *inPostgres) Close() error { return p.db.Close() }

// indexInPostgres keeps a row for each identity, and another one for each leaf hash.
type indexInPostgres struct {
	db  *sql.DB
	log string
}

// The tables of an index.
const (
	identityTable = "ct_places"
	leafTable     = "ct_leaves"
)

// OpenPostgresIndex opens the index of a log.
func OpenPostgresIndex(ctx context.Context, at Postgres) (Index, error) {
	db, err := at.open(ctx)
	if err != nil {
		return nil, err
	}
	return &indexInPostgres{db, at.Log}, nil
}

func (p *indexInPostgres) Find(ctx context.Context, identities []Identity) (map[Identity]Place, error) {
	return p.find(ctx, identityTable, identities)
}

func (p *indexInPostgres) FindLeaves(ctx context.Context, hashes []Identity) (map[Identity]Place, error) {
	return p.find(ctx, leafTable, hashes)
}

func (p *indexInPostgres) find(ctx context.Context, table string, keys []Identity) (map[Identity]Place, error) {
	keys, err := distinct(keys)
	if err != nil {
		return nil, err
	}
	values := make(pq.ByteaArray, len(keys))
	for i := range keys {
		values[i] = keys[i][:]
	}
	return withContext(ctx, func() (map[Identity]Place, error) {
		query := "select identity, index, timestamp from " + table + " where log = $1 and identity = any($2)"
		rows, err := p.db.QueryContext(ctx, query, p.log, values)
		if err != nil {
			return nil, fmt.Errorf("stores: PostgreSQL: find: %w", err)
		}
		return scanPlaces(rows)
	})
}

// scanPlaces returns the places in rows of identity, index and timestamp.
func scanPlaces(rows *sql.Rows) (map[Identity]Place, error) {
	defer rows.Close()
	found := map[Identity]Place{}
	for rows.Next() {
		var bytes []byte
		var place Place
		if err := rows.Scan(&bytes, &place.Index, &place.Timestamp); err != nil {
			return nil, fmt.Errorf("stores: find: %w", err)
		}
		var identity Identity
		if copy(identity[:], bytes) != len(identity) || len(bytes) != len(identity) {
			return nil, fmt.Errorf("stores: find: an identity of %d bytes", len(bytes))
		}
		found[identity] = place
	}
	if err := rows.Err(); err != nil {
		return nil, fmt.Errorf("stores: find: %w", err)
	}
	return found, nil
}

func (p *indexInPostgres) Add(ctx context.Context, rows []Row) error {
	return p.add(ctx, rows, "add", "nothing")
}

func (p *indexInPostgres) Replace(ctx context.Context, rows []Row) error {
	return p.add(ctx, rows, "replace", "update set index = excluded.index, timestamp = excluded.timestamp")
}

// add adds rows to both tables by one statement, which is one transaction. onConflict is what the statement does if an
// identity or a leaf hash has a place already.
func (p *indexInPostgres) add(ctx context.Context, rows []Row, what, onConflict string) error {
	identities, leaves, err := firsts(rows)
	if err != nil || len(rows) == 0 {
		return err
	}
	values := append(append([]any{p.log}, columns(identities)...), columns(leaves)...)
	// Rows are added in the order of their keys, so that two such calls cannot deadlock.
	into := func(table string, from int) string {
		return fmt.Sprintf("insert into %s select $1, i, n, t from unnest($%d::bytea[], $%d::bigint[], $%d::bigint[]) "+
			"as u(i, n, t) order by i on conflict (log, identity) do %s", table, from, from+1, from+2, onConflict)
	}
	add := "with identities as (" + into(identityTable, 2) + ") " + into(leafTable, 5)
	if _, err = writeUncancelled(ctx, p.db, add, values...); err != nil {
		return fmt.Errorf("stores: PostgreSQL: %s: %w", what, err)
	}
	return nil
}

// columns returns the values of a table's rows, column by column.
func columns(rows []keyed) []any {
	n := len(rows)
	keys, indexes, timestamps := make(pq.ByteaArray, n), make(pq.Int64Array, n), make(pq.Int64Array, n)
	for i := range rows {
		keys[i], indexes[i], timestamps[i] = rows[i].key[:], int64(rows[i].place.Index), int64(rows[i].place.Timestamp)
	}
	return []any{keys, indexes, timestamps}
}

func (p *indexInPostgres) Close() error { return p.db.Close() }
