package blob

import (
	"context"
	"encoding/binary"
	"errors"
	"fmt"
	"io/fs"
	"path/filepath"
	"sync"
	"syscall"

	"github.com/syndtr/goleveldb/leveldb"
	levelerrors "github.com/syndtr/goleveldb/leveldb/errors"
	"github.com/syndtr/goleveldb/leveldb/filter"
	"github.com/syndtr/goleveldb/leveldb/opt"
	"github.com/syndtr/goleveldb/leveldb/storage"
)

// inLevelDB keeps an index in a folder, by goleveldb. Only one process can have it open. A step's rows of both tables
// are one write, which is on the disk before Add returns.
//
// Identities and leaf hashes are random, so an engine that keeps a table sorted (as a B-tree) writes a page for each
// row. LevelDB writes rows one after another, and sorts many of them at once.
type inLevelDB struct {
	path    string
	files   *levelFiles
	options opt.Options
	// turn is held by the only goroutine that may write, since Add looks up which rows exist before it writes.
	turn chan struct{}
	// isBroken is whether a write failed, so that db accepts no further one. Only the holder of turn may use it.
	isBroken bool
	mu       sync.RWMutex
	db       *leveldb.DB
}

// The tables, by the first byte of their keys.
const (
	ofIdentities = 'i'
	ofLeaves     = 'l'
)

// levelOptions are the same for each index. An operator has nothing to choose here: for 10^4 and for 10^8 entries they
// only bound the memory and the number of open files.
var levelOptions = opt.Options{
	// Nothing is dropped because it cannot be read. levelFiles takes care of a write that was cut off.
	Strict: opt.StrictAll,
	// Rows stay in memory, and in the journal, until there are so many bytes of them. The larger the buffer, the less
	// often a row is written again. LevelDB has two of them, and about as much memory again for their order.
	WriteBuffer: 16 << 20,
	// Sorted tables of the youngest level are merged with the next level when there are so many. A look-up asks the
	// filter of each of them.
	CompactionL0Trigger:    8,
	WriteL0SlowdownTrigger: 16,
	WriteL0PauseTrigger:    24,
	// Each level has ten times the bytes of the one before. The larger the first is, the fewer levels there are, and so
	// the fewer times a row is written again.
	CompactionTotalSize: 256 << 20,
	// A table is one file. Its filter and its list of blocks are read as a whole, so it must not be large.
	CompactionTableSize: 2 << 20,
	// Keys are random, so a table of one level overlaps ten of the next one, and that is no reason to split it.
	CompactionGPOverlapsFactor: 40,
	// Look-ups must not cause writes.
	DisableSeeksCompaction: true,
	// A table's filter (10 bits a row) rules out 99 of 100 keys that the table does not have.
	Filter: filter.NewBloomFilter(10),
	// This bounds the memory for filters, lists of blocks and blocks, and the next one the open files.
	BlockCacheCapacity:     32 << 20,
	OpenFilesCacheCapacity: 256,
	// Hashes cannot be compressed.
	Compression: opt.NoCompression,
	// inLevelDB has one writer.
	NoWriteMerge: true,
}

// OpenLevelDB opens the index in a folder. It makes the folder and the index if they do not exist.
func OpenLevelDB(ctx context.Context, path string) (Index, error) {
	return openLevelDB(ctx, path, levelOptions, openLevelFiles)
}

func openLevelFiles(path string) (storage.Storage, error) { return storage.OpenFile(path, false) }

// openLevelDB opens an index with these options. The function open opens its files.
func openLevelDB(ctx context.Context, path string, options opt.Options,
	open func(path string) (storage.Storage, error)) (Index, error) {
	path, err := filepath.Abs(path)
	if err == nil {
		err = ctx.Err()
	}
	if err != nil {
		return nil, fmt.Errorf("stores: index: %w", err)
	}
	if err := MakeFolder(path, privateFolder); err != nil {
		return nil, err
	}
	if err := closeFolder(path); err != nil {
		return nil, err
	}
	index := &inLevelDB{path: path, options: options, turn: make(chan struct{}, 1)}
	files, err := open(path)
	if err != nil {
		return nil, index.wrap("open", err)
	}
	index.files = &levelFiles{Storage: files, path: path}
	if index.db, err = leveldb.Open(index.files, &index.options); err != nil {
		_ = files.Close()
		return nil, index.wrap("open", err)
	}
	return index, nil
}

// wrap wraps an error of LevelDB, and adds what to do about it.
func (l *inLevelDB) wrap(what string, err error) error {
	switch {
	case errors.Is(err, syscall.EWOULDBLOCK):
		return fmt.Errorf("%w: the index in %s (stop the log or the command that has it open; nodes that share an index "+
			"need PostgreSQL)", ErrInUse, l.path)
	case levelerrors.IsCorrupted(err) || errors.Is(err, fs.ErrNotExist):
		return fmt.Errorf("%w: the index in %s: %v (stop the log, delete this folder, and build the index again by "+
			"ctserve index)", ErrDamaged, l.path, err)
	}
	return fmt.Errorf("stores: index %s: %s: %w", l.path, what, err)
}

// reopen opens the index again after a write failed. LevelDB cannot continue its journal then, since the journal may
// end with a part of a row. If nothing can be written yet, the index is opened read-only, so that look-ups go on.
func (l *inLevelDB) reopen() error {
	l.mu.Lock()
	defer l.mu.Unlock()
	// The error is ignored: what was acknowledged is on the disk, and the error of the failed write was returned.
	_ = l.db.Close()
	db, err := leveldb.Open(l.files, &l.options)
	if err == nil {
		l.db, l.isBroken = db, false
		return nil
	}
	readOnly := l.options
	readOnly.ReadOnly = true
	if db, openErr := leveldb.Open(l.files, &readOnly); openErr == nil {
		l.db = db
	}
	return l.wrap("open", err)
}

func (l *inLevelDB) Find(ctx context.Context, identities []Identity) (map[Identity]Place, error) {
	return l.find(ctx, ofIdentities, identities)
}

func (l *inLevelDB) FindLeaves(ctx context.Context, hashes []Identity) (map[Identity]Place, error) {
	return l.find(ctx, ofLeaves, hashes)
}

func (l *inLevelDB) find(ctx context.Context, table byte, keys []Identity) (map[Identity]Place, error) {
	keys, err := distinct(keys)
	if err != nil {
		return nil, err
	}
	l.mu.RLock()
	defer l.mu.RUnlock()
	found := map[Identity]Place{}
	for i := range keys {
		if err := ctx.Err(); err != nil {
			return nil, fmt.Errorf("stores: index: find: %w", err)
		}
		value, err := l.db.Get(keyIn(table, &keys[i]), nil)
		if errors.Is(err, leveldb.ErrNotFound) {
			continue
		}
		if err != nil {
			return nil, l.wrap("find", err)
		}
		if found[keys[i]], err = placeIn(value); err != nil {
			return nil, l.wrap("find", err)
		}
	}
	return found, nil
}

// keyIn returns the key of a row of a table.
func keyIn(table byte, key *Identity) []byte {
	return append(append(make([]byte, 0, 1+len(key)), table), key[:]...)
}

// placeIn returns the place in the value of a row, which has the index and the timestamp as varints.
func placeIn(value []byte) (place Place, err error) {
	index, length := binary.Uvarint(value)
	timestamp, more := binary.Uvarint(value[max(length, 0):])
	if length <= 0 || more <= 0 || length+more != len(value) {
		return place, levelerrors.NewErrCorrupted(storage.FileDesc{}, fmt.Errorf("a row with the value %x", value))
	}
	return Place{index, timestamp}, nil
}

func (l *inLevelDB) Add(ctx context.Context, rows []Row) error {
	return l.write(ctx, rows, "add", false)
}

func (l *inLevelDB) Replace(ctx context.Context, rows []Row) error {
	return l.write(ctx, rows, "replace", true)
}

// write writes rows. The call ends with its context, but the write itself goes on. The next write waits for it.
func (l *inLevelDB) write(ctx context.Context, rows []Row, what string, replaces bool) error {
	identities, leaves, err := firsts(rows)
	if err != nil || len(rows) == 0 {
		return err
	}
	if err := ctx.Err(); err != nil {
		return fmt.Errorf("stores: index: %s: %w", what, err)
	}
	select {
	case l.turn <- struct{}{}:
	case <-ctx.Done():
		return fmt.Errorf("stores: index: %s: %w", what, ctx.Err())
	}
	done := make(chan error, 1)
	go func() {
		err := l.put(identities, leaves, what, replaces)
		<-l.turn
		done <- err
	}()
	select {
	case err := <-done:
		return err
	case <-ctx.Done():
		return fmt.Errorf("stores: index: %s: %w", what, ctx.Err())
	}
}

// put makes one write of the rows that are missing or, if replaces is true, of all rows. The caller must hold turn.
func (l *inLevelDB) put(identities, leaves []keyed, what string, replaces bool) error {
	if l.isBroken {
		if err := l.reopen(); err != nil {
			return err
		}
	}
	l.mu.RLock()
	defer l.mu.RUnlock()
	var batch leveldb.Batch
	for table, rows := range map[byte][]keyed{ofIdentities: identities, ofLeaves: leaves} {
		for i := range rows {
			key := keyIn(table, &rows[i].key)
			if !replaces {
				has, err := l.db.Has(key, nil)
				if err != nil {
					return l.wrap(what, err)
				}
				if has {
					continue
				}
			}
			place := rows[i].place
			batch.Put(key, binary.AppendUvarint(binary.AppendUvarint(nil, place.Index), place.Timestamp))
		}
	}
	if batch.Len() == 0 {
		// LevelDB shows a row only after it is on the disk.
		return nil
	}
	if err := l.db.Write(&batch, &opt.WriteOptions{Sync: true}); err != nil {
		l.isBroken = true
		return l.wrap(what, err)
	}
	return nil
}

func (l *inLevelDB) Close() error {
	l.mu.Lock()
	defer l.mu.Unlock()
	err := errors.Join(l.db.Close(), l.files.Close())
	if err != nil {
		return fmt.Errorf("stores: index %s: close: %w", l.path, err)
	}
	return nil
}
