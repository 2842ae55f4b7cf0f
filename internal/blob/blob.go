// Package blob keeps a log's data: the objects, the lock that decides the next state, and the index of
// identities. Each store is an interface with a few methods, which says what the engine must promise. One suite of
// tests runs against all of them. Every call has a context and ends with it, except for a system call on a disk that
// does not answer. Every list has a bound, and nothing in memory grows with the log.
package blob

import (
	"context"
	"errors"
	"fmt"
	"time"
)

// The bounds.
const (
	// MaxObject is how many bytes an object may have. (The largest is a data tile: 256 entries.)
	MaxObject = 64 << 20
	// MaxListed is how many names one call lists.
	MaxListed = 1000
	// MaxText is how many bytes the lock's text may have.
	MaxText = 64 << 10
	// MaxRows is how many identities one call looks up, and how many rows it adds.
	MaxRows = 4096
	// MaxNumber is the largest published size, index and timestamp. The bigint of an SQL database can hold it.
	MaxNumber = 1<<63 - 1
)

// The kinds of errors. Use errors.Is. Any other error is the engine's, wrapped.
var (
	// ErrName: a name does not have the form that Objects states. Nothing was done.
	ErrName = errors.New("stores: invalid name")
	// ErrEmpty: a text, or the name of a log in an engine, is empty. Nothing was done.
	ErrEmpty = errors.New("stores: empty")
	// ErrTooLong: an object, a text or a list is longer than its bound. Nothing was done.
	ErrTooLong = errors.New("stores: too long")
	// ErrNumber: a number is larger than MaxNumber. Nothing was done.
	ErrNumber = errors.New("stores: number too large")
	// ErrAbsent: there is no object of this name, or no lock.
	ErrAbsent = errors.New("stores: absent")
	// ErrOther: the name has another content, which was not changed.
	ErrOther = errors.New("stores: the name has another content")
	// ErrLost: the swap was not performed, since the lock has another text.
	ErrLost = errors.New("stores: the lock has another text")
	// ErrExists: the lock was created before.
	ErrExists = errors.New("stores: the lock exists already")
	// ErrUnknown: the call may have been done, may not, or may yet be.
	ErrUnknown = errors.New("stores: outcome unknown")
	// ErrInUse: another process has the index open.
	ErrInUse = errors.New("stores: in use by another process")
	// ErrDamaged: a file of the index is missing, or its bytes are not those that were written.
	ErrDamaged = errors.New("stores: damaged")
	// ErrUnsafe: with its settings, an engine may lose what it acknowledged.
	ErrUnsafe = errors.New("stores: the engine's settings may lose what it acknowledges")
)

// TooLong is the ErrTooLong of an object. It holds the object's length in bytes.
type TooLong struct{ Length int64 }

func (e TooLong) Error() string { return fmt.Sprintf("%v: %d bytes", ErrTooLong, e.Length) }

// Is reports whether the target is ErrTooLong.
func (e TooLong) Is(target error) bool { return target == ErrTooLong }

// Objects keeps bytes under names. Each name has one content for ever. A name consists of parts with a slash between
// them, at most 16 parts and 200 bytes. A part has ASCII letters, digits, '-', '_' and '.', and does not begin with
// '.'. No name is the beginning of another one up to a slash: if a/b exists, a cannot exist.
//
// The engine must promise that an object whose Put was acknowledged is read by every Get that begins later, until it is
// deleted, even if processes are killed or power fails. It need not promise an order among objects, or that its bytes
// are correct: a reader checks an object by a hash.
type Objects interface {
	// Put stores the content, of at most MaxObject bytes, under the name. If the object exists with this content, Put
	// makes sure that it persists, and returns nil. If it exists with another content, Put returns ErrOther. If two
	// calls put two contents at once, a folder and an S3 engine with conditional puts store one of them, and return
	// ErrOther to the other call. Another engine may store either, so a caller that needs more must use two names.
	// After any other error the object may exist or not, and the call may be repeated.
	Put(ctx context.Context, name string, content []byte) error
	// Get returns the content, or ErrAbsent. If the content has more than maxBytes bytes, it returns TooLong, and
	// nothing of the content.
	Get(ctx context.Context, name string, maxBytes int64) ([]byte, error)
	// List returns the first names that begin with the prefix and are greater than the text after, in the order of
	// their bytes. It returns at most maxNames names, and at most MaxListed. The prefix is empty or ends with a slash.
	// The text is a name, the beginning of one, or empty.
	List(ctx context.Context, prefix, after string, maxNames int) ([]string, error)
	// Delete deletes an object. It returns nil if there is none.
	Delete(ctx context.Context, name string) error
	Close() error
}

// Lock holds the text that decides a log's next state, and the published head. The text has 1 to MaxText bytes of any
// value. Two attempts to set it have two texts, since each text names its predecessor and a random number. So a node
// that reads a text knows whether it is its own.
//
// The engine must promise that swaps and reads of one lock are linearizable, and that what was acknowledged or read
// persists, even if processes are killed or power fails. The lock must never be rolled back: a lock from an older copy
// lets a log fork.
type Lock interface {
	// Create sets the first text, and sets the published head to zero. It returns ErrExists if the lock was created
	// before, whatever its text is.
	Create(ctx context.Context, text string) error
	// Read returns the text. It returns ErrAbsent if the lock was not created, or was lost.
	Read(ctx context.Context) (string, error)
	// Swap sets the text to new if it is old, byte for byte. It returns nil also if the text is new already, so a call
	// may be repeated. It returns ErrLost if the lock has another text, and ErrAbsent if it does not exist.
	// ErrUnknown means that the swap may have happened, or may still happen as long as the text is old.
	Swap(ctx context.Context, old, new string) error
	// Published returns the latest head that Raise acknowledged, or the zero head if there was none since Create.
	Published(ctx context.Context) (Published, error)
	// Raise sets the published head unless the new head is older than the current one. So the published head never goes
	// back, and the call may be repeated. Raise returns ErrAbsent if the lock was not created.
	Raise(ctx context.Context, published Published) error
	Close() error
}

// Published holds the size and the timestamp of a log's published head. The size is a number of entries, and the
// timestamp is in milliseconds since 1970.
type Published struct{ Size, Timestamp uint64 }

// Before reports whether p is older than the other head: it has fewer entries, or as many and an earlier timestamp.
func (p Published) Before(other Published) bool {
	return p.Size < other.Size || p.Size == other.Size && p.Timestamp < other.Timestamp
}

// Identity identifies a submission, so that a duplicate of it is found. It is the SHA-256 digest of the part of the
// submission that gets into the log.
type Identity [32]byte

// Place is the index and the timestamp of an entry. The timestamp is in milliseconds.
type Place struct {
	Index, Timestamp uint64
}

// Row holds an entry of the index: the identity of its submission, the hash of its leaf, and its place.
type Row struct {
	Identity Identity
	// Leaf is the hash of the entry's leaf (RFC 6962, section 2.1).
	Leaf  Identity
	Place Place
}

// Index is the deduplication index. It finds the place of an entry by the identity of its submission, so that a
// duplicate is answered with the place of the first one, and by the hash of its leaf. Identities and leaf hashes are
// two tables: neither is found in the other.
//
// The engine must promise that what was added and acknowledged is found by every Find that begins later, even if
// processes are killed or power fails, and that it finds nothing that was not added. The places that it finds need not
// be correct, since they are checked with an inclusion proof. If it loses identities, duplicates get into the log, and
// nothing else happens.
type Index interface {
	// Find returns the places of the identities that have one. A call takes at most MaxRows identities.
	Find(ctx context.Context, identities []Identity) (map[Identity]Place, error)
	// FindLeaves returns places as Find does, but looks them up by the hashes of leaves.
	FindLeaves(ctx context.Context, hashes []Identity) (map[Identity]Place, error)
	// Add adds at most MaxRows rows. An identity or a leaf hash that has a place, or occurs earlier in the list, keeps
	// its first place. After an error some rows may have been added, and the call may be repeated.
	Add(ctx context.Context, rows []Row) error
	// Replace sets the places of the identities and leaf hashes of at most MaxRows rows, whatever they were. If one
	// occurs twice in the list, its first place counts. After an error some places may have been set, and the call may
	// be repeated.
	Replace(ctx context.Context, rows []Row) error
	Close() error
}

// Timed is a store that reports the time of its machine.
type Timed interface {
	// Time returns the time of day and its maximum error. If the clock is this machine's own, it returns both with
	// ErrSameMachine.
	Time(ctx context.Context) (at time.Time, within time.Duration, err error)
}
