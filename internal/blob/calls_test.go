package blob

import (
	"context"
	"errors"
	"fmt"
	"os"
	"path/filepath"
	"reflect"
	"testing"
	"time"
)

// stub stands in for a store of each kind. Its calls return one error after some time, and always the same results.
type stub struct {
	err      error
	duration time.Duration
}

func (s *stub) wait() error {
	time.Sleep(s.duration)
	return s.err
}

type stubObjects struct{ *stub }

func (s stubObjects) Put(_ context.Context, name string, content []byte) error { return s.wait() }
func (s stubObjects) Get(context.Context, string, int64) ([]byte, error) {
	return []byte("content"), s.wait()
}
func (s stubObjects) List(context.Context, string, string, int) ([]string, error) {
	return []string{"a", "b"}, s.wait()
}
func (s stubObjects) Delete(context.Context, string) error { return s.wait() }
func (s stubObjects) Close() error                         { return errors.New("closed") }

type stubCurrent struct{ *stub }

func (s stubCurrent) Swap(context.Context, string, []byte, []byte) error { return s.wait() }

type stubLock struct{ *stub }

func (s stubLock) Create(context.Context, string) error       { return s.wait() }
func (s stubLock) Read(context.Context) (string, error)       { return "text", s.wait() }
func (s stubLock) Swap(context.Context, string, string) error { return s.wait() }
func (s stubLock) Published(context.Context) (Published, error) {
	return Published{7, 8}, s.wait()
}
func (s stubLock) Raise(context.Context, Published) error { return s.wait() }
func (s stubLock) Close() error                           { return errors.New("closed") }

type stubIndex struct{ *stub }

func (s stubIndex) Find(context.Context, []Identity) (map[Identity]Place, error) {
	return map[Identity]Place{{1}: {2, 3}}, s.wait()
}
func (s stubIndex) FindLeaves(context.Context, []Identity) (map[Identity]Place, error) {
	return map[Identity]Place{{4}: {5, 6}}, s.wait()
}
func (s stubIndex) Add(context.Context, []Row) error     { return s.wait() }
func (s stubIndex) Replace(context.Context, []Row) error { return s.wait() }
func (s stubIndex) Close() error                         { return errors.New("closed") }

type stubTime struct{}

func (stubTime) Time(context.Context) (time.Time, time.Duration, error) {
	return time.UnixMilli(9), 5, ErrSameMachine
}

// callAll makes each call once, in the order of Calls.All, and returns the errors and the results.
func callAll(ctx context.Context, objects Objects, current Current, lock Lock,
	index Index) (errs []error, values []any) {
	add := func(err error, more ...any) { errs, values = append(errs, err), append(values, more...) }
	add(objects.Put(ctx, "name", nil))
	content, err := objects.Get(ctx, "name", 1)
	add(err, content)
	names, err := objects.List(ctx, "", "", 1)
	add(err, names)
	add(objects.Delete(ctx, "name"))
	add(current.Swap(ctx, "name", nil, nil))
	add(lock.Create(ctx, "text"))
	text, err := lock.Read(ctx)
	add(err, text)
	add(lock.Swap(ctx, "old", "new"))
	published, err := lock.Published(ctx)
	add(err, published)
	add(lock.Raise(ctx, published))
	found, err := index.Find(ctx, nil)
	add(err, found)
	add(index.Add(ctx, nil))
	add(index.Replace(ctx, nil))
	return errs, values
}

// TestCallsAreCounted: each call of each store is counted under its name, with its duration. It counts as a failure if
// the store did not do what it promises. Its results and errors are returned unchanged.
func TestCallsAreCounted(t *testing.T) {
	broken := errors.New("the disk is gone")
	gone, cancel := context.WithCancel(context.Background())
	cancel()
	late, stop := context.WithDeadline(context.Background(), time.Now().Add(-time.Second))
	defer stop()
	want := [][2]string{
		{"objects", "put"}, {"objects", "get"}, {"objects", "list"}, {"objects", "delete"},
		{"objects", "swap"},
		{"lock", "create"}, {"lock", "read"}, {"lock", "swap"}, {"lock", "published"}, {"lock", "raise"},
		{"index", "find"}, {"index", "add"}, {"index", "replace"},
	}
	for what, test := range map[string]struct {
		ctx    context.Context
		err    error
		failed uint64
	}{
		"done":                           {context.Background(), nil, 0},
		"the engine's error":             {context.Background(), fmt.Errorf("stores: put: %w", broken), 1},
		"unknown":                        {context.Background(), ErrUnknown, 1},
		"unsafe":                         {context.Background(), ErrUnsafe, 1},
		"out of time":                    {late, context.DeadlineExceeded, 1},
		"cancelled by the caller":        {gone, fmt.Errorf("stores: %w", context.Canceled), 0},
		"the store's own cancelled call": {context.Background(), context.Canceled, 1},
		"absent":                         {context.Background(), fmt.Errorf("stores: %w", ErrAbsent), 0},
		"other":                          {context.Background(), ErrOther, 0},
		"lost":                           {context.Background(), ErrLost, 0},
		"exists":                         {context.Background(), ErrExists, 0},
		"no name":                        {context.Background(), ErrName, 0},
		"empty":                          {context.Background(), ErrEmpty, 0},
		"too long":                       {context.Background(), TooLong{9}, 0},
		"a number too large":             {context.Background(), ErrNumber, 0},
	} {
		calls, store := &Calls{}, &stub{err: test.err, duration: time.Millisecond}
		objects, lock, index := calls.Objects(stubObjects{store}), calls.Lock(stubLock{store}),
			calls.Index(stubIndex{store})
		began := time.Now()
		for i := 0; i < 2; i++ {
			errs, values := callAll(test.ctx, objects, calls.Current(stubCurrent{store}), lock, index)
			for i, err := range errs {
				if err != test.err {
					t.Errorf("%s: %s returns %v", what, want[i], err)
				}
			}
			if expected := []any{[]byte("content"), []string{"a", "b"}, "text", Published{7, 8},
				map[Identity]Place{{1}: {2, 3}}}; !reflect.DeepEqual(values, expected) {
				t.Errorf("%s: they return %v", what, values)
			}
		}
		all := time.Since(began)
		counted := calls.All()
		if len(counted) != len(want) {
			t.Fatalf("%s: %+v", what, counted)
		}
		for i, call := range counted {
			if [2]string{call.Store, call.Name} != want[i] || call.Count != 2 || call.Failed != 2*test.failed ||
				call.Duration < 2*store.duration {
				t.Errorf("%s: %+v, and not 2 of %s with %d failures", what, call, want[i], 2*test.failed)
			}
			all -= call.Duration
		}
		if all < 0 {
			t.Errorf("%s: the sum of the counted durations is %v too long", what, -all)
		}
	}
}

// TestCountedStores: closing a counted store closes the store. It is Timed only if the store is, and reports the
// store's time. A look-up by leaf hash counts as one by identity.
func TestCountedStores(t *testing.T) {
	calls, stubbed := &Calls{}, &stub{}
	checkTimed := func(store any, expected bool) {
		t.Helper()
		one, isTimed := store.(Timed)
		if isTimed != expected {
			t.Fatalf("%T: it reports the time: %v", store, isTimed)
		}
		if !isTimed {
			return
		}
		if at, within, err := one.Time(limited(t)); at != time.UnixMilli(9) || within != 5 || err != ErrSameMachine {
			t.Errorf("%T: %v, %v, %v", store, at, within, err)
		}
	}
	for _, isTimed := range []bool{false, true} {
		objects, lock := Objects(stubObjects{stubbed}), Lock(stubLock{stubbed})
		if isTimed {
			objects = struct {
				stubObjects
				stubTime
			}{stubObjects{stubbed}, stubTime{}}
			lock = struct {
				stubLock
				stubTime
			}{stubLock{stubbed}, stubTime{}}
		}
		for _, store := range []interface{ Close() error }{calls.Objects(objects), calls.Lock(lock)} {
			checkTimed(store, isTimed)
			if err := store.Close(); err == nil || err.Error() != "closed" {
				t.Errorf("%T: it is not closed: %v", store, err)
			}
		}
	}
	for _, each := range []struct {
		index   Index
		isTimed bool
	}{
		{stubIndex{stubbed}, false},
		{struct {
			stubIndex
			stubTime
		}{stubIndex{stubbed}, stubTime{}}, true},
	} {
		index := calls.Index(each.index)
		checkTimed(index, each.isTimed)
		if found, err := index.FindLeaves(limited(t), nil); err != nil || found[Identity{4}] != (Place{5, 6}) {
			t.Errorf("%v, %v", found, err)
		}
		if err := index.Close(); err == nil || err.Error() != "closed" {
			t.Errorf("it is not closed: %v", err)
		}
	}
	for _, call := range calls.All() {
		expected := uint64(0)
		if call.Store == "index" && call.Name == "find" {
			expected = 2
		}
		if call.Count != expected {
			t.Errorf("%+v, and not %d", call, expected)
		}
	}
	if all := (*Calls)(nil).All(); all != nil {
		t.Errorf("a nil Calls has %+v", all)
	}
}

// TestFailuresOfAFolder: if a file has replaced the folder, each put fails, and is counted as a failure. A name that
// does not exist is no failure.
func TestFailuresOfAFolder(t *testing.T) {
	calls, folder := &Calls{}, filepath.Join(t.TempDir(), "objects")
	opened, err := OpenFolder(folder)
	must(t, err)
	objects := calls.Objects(opened)
	defer objects.Close()
	must(t, objects.Put(limited(t), "tile/0/000", []byte("content")))
	if _, err := objects.Get(limited(t), "tile/0/001", manyBytes); !errors.Is(err, ErrAbsent) {
		t.Fatal(err)
	}
	must(t, os.RemoveAll(folder))
	must(t, os.WriteFile(folder, []byte("no folder"), 0o600))
	for i := 0; i < 3; i++ {
		if objects.Put(limited(t), "tile/0/002", []byte("content")) == nil {
			t.Fatal("the put succeeds")
		}
	}
	if put, get := calls.All()[0], calls.All()[1]; put.Count != 4 || put.Failed != 3 || get.Count != 1 ||
		get.Failed != 0 {
		t.Errorf("%+v, %+v", put, get)
	}
}
