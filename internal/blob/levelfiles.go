package blob

import (
	"bytes"
	"encoding/binary"
	"errors"
	"fmt"
	"io"
	"slices"
	"sync"

	levelerrors "github.com/syndtr/goleveldb/leveldb/errors"
	"github.com/syndtr/goleveldb/leveldb/journal"
	"github.com/syndtr/goleveldb/leveldb/storage"
	"github.com/syndtr/goleveldb/leveldb/util"
)

// levelFiles holds the files of an index. It does what goleveldb leaves out:
//
//   - A new manifest is on the disk before CURRENT names it. goleveldb syncs it only after the next change, and before
//     that deletes the old manifest. If power failed in between, there would be none.
//   - The name of a new journal is on the disk as soon as the first row in it is. goleveldb syncs the folder only with
//     a manifest.
//   - A record that a kill or a power cut left unfinished at the end of a journal or a manifest is cut off. It was not
//     acknowledged. With opt.StrictAll, goleveldb refuses such a file. Without opt.StrictAll, it also drops damaged
//     records in the middle.
type levelFiles struct {
	storage.Storage
	path string
	mu   sync.Mutex
	// manifest is the newest manifest that was made, or nil.
	manifest *levelFile
}

// Create implements storage.Storage.
func (l *levelFiles) Create(fd storage.FileDesc) (storage.Writer, error) {
	w, err := l.Storage.Create(fd)
	if err != nil {
		return nil, err
	}
	made := &levelFile{Writer: w, folder: l.path}
	if fd.Type == storage.TypeManifest {
		l.mu.Lock()
		defer l.mu.Unlock()
		l.manifest = made
	}
	return made, nil
}

// SetMeta implements storage.Storage. It syncs the newest manifest first.
func (l *levelFiles) SetMeta(fd storage.FileDesc) error {
	l.mu.Lock()
	defer l.mu.Unlock()
	if l.manifest != nil {
		if err := l.manifest.Sync(); err != nil {
			return err
		}
	}
	return l.Storage.SetMeta(fd)
}

// Open implements storage.Storage. It reads a journal or a manifest as a whole, without an unfinished record at its
// end.
func (l *levelFiles) Open(fd storage.FileDesc) (storage.Reader, error) {
	r, err := l.Storage.Open(fd)
	if err != nil || fd.Type != storage.TypeJournal && fd.Type != storage.TypeManifest {
		return r, err
	}
	content, err := io.ReadAll(r)
	if err != nil {
		_ = r.Close()
		return nil, fmt.Errorf("stores: index: %w", err)
	}
	content = content[:completeLength(content)]
	if fd.Type == storage.TypeManifest {
		if err := l.checkNewest(content); err != nil {
			_ = r.Close()
			return nil, levelerrors.NewErrCorrupted(fd, err)
		}
	}
	return levelJournal{bytes.NewReader(content), r}, nil
}

// checkNewest returns an error if a manifest has lost its last records, so that the journal that it names is missing.
// After the rows of a journal are in a table, goleveldb adds a record with the table and the next journal to the
// manifest, and then deletes the journal. So a manifest without that record names the deleted journal. A manifest that
// names no journal is correct only as long as there is no table.
func (l *levelFiles) checkNewest(manifest []byte) error {
	number, err := journalIn(manifest)
	if err != nil {
		return err
	}
	others, err := l.List(storage.TypeJournal | storage.TypeTable)
	if err != nil {
		return err
	}
	for _, other := range others {
		if number == 0 && other.Type == storage.TypeTable {
			return errors.New("it names no journal, and there are tables")
		}
	}
	last := storage.FileDesc{Type: storage.TypeJournal, Num: number}
	if number != 0 && !slices.Contains(others, last) {
		return fmt.Errorf("it names %v, which is missing", last)
	}
	return nil
}

// The tags of the fields of LevelDB's manifests: a comparer's name, numbers, a key of a level, a deleted table and an
// added one.
const (
	comparerField, journalField, fileField, sequenceField, earlierField = 1, 2, 3, 4, 9
	keyField, deletedField, addedField                                  = 5, 6, 7
)

// journalIn returns the number of the journal that a manifest names last, or 0 if it names none.
func journalIn(manifest []byte) (number int64, err error) {
	records := journal.NewReader(bytes.NewReader(manifest), nil, true, true)
	for {
		record, err := records.Next()
		if errors.Is(err, io.EOF) {
			return number, nil
		}
		if err != nil {
			return 0, err
		}
		content, err := io.ReadAll(record)
		if err != nil {
			return 0, err
		}
		fields := manifestFields{rest: content}
		for len(fields.rest) > 0 && !fields.isWrong {
			switch tag := fields.number(); tag {
			case journalField:
				number = int64(fields.number())
			case fileField, sequenceField, earlierField:
				fields.number()
			case comparerField:
				fields.text()
			case keyField:
				fields.number()
				fields.text()
			case deletedField:
				fields.number()
				fields.number()
			case addedField:
				fields.number()
				fields.number()
				fields.number()
				fields.text()
				fields.text()
			default:
				fields.isWrong = true
			}
		}
		if fields.isWrong {
			return 0, errors.New("a record cannot be read")
		}
	}
}

// manifestFields reads the fields of a record of a manifest. It holds the rest of the record.
type manifestFields struct {
	rest    []byte
	isWrong bool
}

func (m *manifestFields) number() uint64 {
	value, length := binary.Uvarint(m.rest)
	if length <= 0 {
		m.isWrong, length = true, 0
	}
	m.rest = m.rest[length:]
	return value
}

func (m *manifestFields) text() {
	length := m.number()
	if length > uint64(len(m.rest)) {
		m.isWrong, length = true, 0
	}
	m.rest = m.rest[length:]
}

// levelJournal is a journal or a manifest that was read as a whole. It has no more bytes than the write buffer.
type levelJournal struct {
	*bytes.Reader
	io.Closer
}

// levelFile is a file that is being written. Its first sync also syncs its name.
type levelFile struct {
	storage.Writer
	folder  string
	isNamed bool
}

// Sync implements storage.Writer.
func (l *levelFile) Sync() error {
	if err := l.Writer.Sync(); err != nil || l.isNamed {
		return err
	}
	if err := SyncFolder(l.folder); err != nil {
		return err
	}
	l.isNamed = true
	return nil
}

// The format of LevelDB's journals: they consist of blocks, and blocks consist of chunks. A chunk has a header with a
// checksum, a length and a kind.
const (
	levelBlock  = 32 << 10
	levelHeader = 7
	fullChunk   = 1
	lastChunk   = 4
)

// completeLength returns the length of a journal without an unfinished record at its end. That is a record that was
// being written when the process or the machine stopped: the file ends within it, or has zeros in place of its end. If
// anything else is wrong, completeLength returns the whole length, and LevelDB refuses the journal.
func completeLength(content []byte) int {
	written, end := len(bytes.TrimRight(content, "\x00")), 0
	for at := 0; ; {
		room := levelBlock - at%levelBlock
		if room < levelHeader {
			// The end of a block that has no room for a header is filled with zeros.
			at += room
			continue
		}
		if at >= written || len(content)-at < levelHeader {
			return end
		}
		rest := content[at:]
		length, kind := levelHeader+int(binary.LittleEndian.Uint16(rest[4:6])), rest[6]
		if kind < fullChunk || kind > lastChunk || length > room {
			length = levelHeader
		} else if length > len(rest) {
			return end
		} else if util.NewCRC(rest[levelHeader-1:length]).Value() == binary.LittleEndian.Uint32(rest[:4]) {
			at += length
			if kind == fullChunk || kind == lastChunk {
				end = at
			}
			continue
		}
		if written < at+length {
			return end
		}
		return len(content)
	}
}
