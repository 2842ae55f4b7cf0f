package blob

import (
	"context"
	"errors"
	"sync"
	"time"
)

// Call counts the calls of one method of all stores of one kind.
type Call struct {
	// Store is objects, lock or index. Name is the name of the method in lower case.
	Store, Name string
	// Count is the number of calls. Failed is the number of calls that returned none of the results that the interface
	// states. Duration is the sum of the durations of all calls.
	Count, Failed uint64
	Duration      time.Duration
}

const (
	ofObjects = "objects"
	ofLock    = "lock"
	ofIndex   = "index"
)

// countedCalls are the calls that are counted, in the order of Calls.All.
var countedCalls = []Call{
	{Store: ofObjects, Name: "put"}, {Store: ofObjects, Name: "get"}, {Store: ofObjects, Name: "list"},
	{Store: ofObjects, Name: "delete"}, {Store: ofObjects, Name: "swap"},
	{Store: ofLock, Name: "create"}, {Store: ofLock, Name: "read"}, {Store: ofLock, Name: "swap"},
	{Store: ofLock, Name: "published"}, {Store: ofLock, Name: "raise"},
	{Store: ofIndex, Name: "find"}, {Store: ofIndex, Name: "add"}, {Store: ofIndex, Name: "replace"},
}

// Calls counts the calls of stores. A nil Calls has counted none.
type Calls struct {
	mutex sync.Mutex
	// counts is keyed by the kind of store and the name of the method.
	counts map[[2]string]Call
}

// All returns the counts of all methods of all kinds of stores, also of those that were never called.
func (c *Calls) All() (all []Call) {
	if c == nil {
		return nil
	}
	c.mutex.Lock()
	defer c.mutex.Unlock()
	for _, call := range countedCalls {
		counted := c.counts[[2]string{call.Store, call.Name}]
		counted.Store, counted.Name = call.Store, call.Name
		all = append(all, counted)
	}
	return all
}

// count counts a call that began at a given time and ends now. It returns the error of the call.
func (c *Calls) count(ctx context.Context, store, name string, began time.Time, err error) error {
	duration, failed := time.Since(began), isFailure(ctx, err)
	c.mutex.Lock()
	defer c.mutex.Unlock()
	if c.counts == nil {
		c.counts = map[[2]string]Call{}
	}
	call := c.counts[[2]string{store, name}]
	call.Count++
	call.Duration += duration
	if failed {
		call.Failed++
	}
	c.counts[[2]string{store, name}] = call
	return err
}

// isFailure reports whether an error means that the store failed. It does not if the interface states the error, or if
// the caller cancelled the call.
func isFailure(ctx context.Context, err error) bool {
	if err == nil || ctx.Err() == context.Canceled {
		return false
	}
	for _, answer := range []error{ErrName, ErrEmpty, ErrTooLong, ErrNumber, ErrAbsent, ErrOther, ErrLost, ErrExists} {
		if errors.Is(err, answer) {
			return false
		}
	}
	return true
}

// Objects returns objects whose calls are counted. They are Timed if the given objects are.
func (c *Calls) Objects(objects Objects) Objects {
	counted := countedObjects{objects, c}
	if timed, ok := objects.(Timed); ok {
		return struct {
			Objects
			Timed
		}{counted, timed}
	}
	return counted
}

type countedObjects struct {
	Objects
	calls *Calls
}

func (o countedObjects) Put(ctx context.Context, name string, content []byte) error {
	began := time.Now()
	return o.calls.count(ctx, ofObjects, "put", began, o.Objects.Put(ctx, name, content))
}

func (o countedObjects) Get(ctx context.Context, name string, maxBytes int64) ([]byte, error) {
	began := time.Now()
	content, err := o.Objects.Get(ctx, name, maxBytes)
	return content, o.calls.count(ctx, ofObjects, "get", began, err)
}

func (o countedObjects) List(ctx context.Context, prefix, after string, maxNames int) ([]string, error) {
	began := time.Now()
	names, err := o.Objects.List(ctx, prefix, after, maxNames)
	return names, o.calls.count(ctx, ofObjects, "list", began, err)
}

func (o countedObjects) Delete(ctx context.Context, name string) error {
	began := time.Now()
	return o.calls.count(ctx, ofObjects, "delete", began, o.Objects.Delete(ctx, name))
}

// Current returns a Current whose swaps are counted as calls of objects.
func (c *Calls) Current(current Current) Current { return countedCurrent{current, c} }

type countedCurrent struct {
	current Current
	calls   *Calls
}

func (o countedCurrent) Swap(ctx context.Context, name string, old, new []byte) error {
	began := time.Now()
	return o.calls.count(ctx, ofObjects, "swap", began, o.current.Swap(ctx, name, old, new))
}

// Lock returns a lock whose calls are counted. It is Timed if the given lock is.
func (c *Calls) Lock(lock Lock) Lock {
	counted := countedLock{lock, c}
	if timed, ok := lock.(Timed); ok {
		return struct {
			Lock
			Timed
		}{counted, timed}
	}
	return counted
}

type countedLock struct {
	Lock
	calls *Calls
}

func (r countedLock) Create(ctx context.Context, text string) error {
	began := time.Now()
	return r.calls.count(ctx, ofLock, "create", began, r.Lock.Create(ctx, text))
}

func (r countedLock) Read(ctx context.Context) (string, error) {
	began := time.Now()
	text, err := r.Lock.Read(ctx)
	return text, r.calls.count(ctx, ofLock, "read", began, err)
}

func (r countedLock) Swap(ctx context.Context, old, new string) error {
	began := time.Now()
	return r.calls.count(ctx, ofLock, "swap", began, r.Lock.Swap(ctx, old, new))
}

func (r countedLock) Published(ctx context.Context) (Published, error) {
	began := time.Now()
	published, err := r.Lock.Published(ctx)
	return published, r.calls.count(ctx, ofLock, "published", began, err)
}

func (r countedLock) Raise(ctx context.Context, published Published) error {
	began := time.Now()
	return r.calls.count(ctx, ofLock, "raise", began, r.Lock.Raise(ctx, published))
}

// Index returns an index whose calls are counted. It is Timed if the given index is. A look-up by leaf hash counts as a
// find.
func (c *Calls) Index(index Index) Index {
	counted := countedIndex{index, c}
	if timed, ok := index.(Timed); ok {
		return struct {
			Index
			Timed
		}{counted, timed}
	}
	return counted
}

type countedIndex struct {
	Index
	calls *Calls
}

func (i countedIndex) Find(ctx context.Context, identities []Identity) (map[Identity]Place, error) {
	began := time.Now()
	found, err := i.Index.Find(ctx, identities)
	return found, i.calls.count(ctx, ofIndex, "find", began, err)
}

func (i countedIndex) FindLeaves(ctx context.Context, hashes []Identity) (map[Identity]Place, error) {
	began := time.Now()
	found, err := i.Index.FindLeaves(ctx, hashes)
	return found, i.calls.count(ctx, ofIndex, "find", began, err)
}

func (i countedIndex) Add(ctx context.Context, rows []Row) error {
	began := time.Now()
	return i.calls.count(ctx, ofIndex, "add", began, i.Index.Add(ctx, rows))
}

func (i countedIndex) Replace(ctx context.Context, rows []Row) error {
	began := time.Now()
	return i.calls.count(ctx, ofIndex, "replace", began, i.Index.Replace(ctx, rows))
}
