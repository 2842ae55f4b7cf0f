package blob

import (
	"bytes"
	"compress/gzip"
	"context"
	"errors"
	"fmt"
	"io"
	"math/rand"
	"net/http"
	"os"
	"path/filepath"
	"strings"
	"sync"
	"sync/atomic"
	"testing"

	"wagtenib/internal/testkit"
)

// publicPlace holds the objects of a public log. Each call of open returns the view of another process.
type publicPlace struct {
	open   func(t *testing.T) (Objects, Current)
	bucket *testkit.Bucket
}

// publicPlaces returns a folder and a bucket.
func publicPlaces(t *testing.T) map[string]publicPlace {
	t.Helper()
	opened := func(address string) func(t *testing.T) (Objects, Current) {
		return func(t *testing.T) (Objects, Current) {
			t.Helper()
			objects, current, err := OpenPublic(limited(t), address)
			must(t, err)
			t.Cleanup(func() { must(t, objects.Close()) })
			return objects, current
		}
	}
	bucket := testkit.NewBucket(true)
	at := serve(t, bucket)
	return map[string]publicPlace{
		"folder": {open: opened("folder:" + filepath.Join(t.TempDir(), "objects"))},
		"S3":     {open: opened(addressOfS3(at, "")), bucket: bucket},
	}
}

func addressOfS3(at S3, more string) string {
	return fmt.Sprintf("s3://%s:%s@%s/%s?tls=no&region=%s%s", at.Key, at.Secret, at.Endpoint, at.Bucket, at.Region, more)
}

func TestSwapReplacesWhatWasCompared(t *testing.T) {
	for name, place := range publicPlaces(t) {
		t.Run(name, func(t *testing.T) {
			ctx := limited(t)
			objects, current := place.open(t)
			_, other := place.open(t)
			if err := current.Swap(ctx, "checkpoint", []byte("0"), []byte("1")); !errors.Is(err, ErrLost) {
				t.Errorf("a swap of a content if there is none: %v", err)
			}
			for _, each := range []Current{current, other} {
				// The second call finds that the swap is done.
				must(t, each.Swap(ctx, "checkpoint", nil, []byte("1")))
			}
			if err := other.Swap(ctx, "checkpoint", nil, []byte("2")); !errors.Is(err, ErrLost) {
				t.Errorf("a swap of nothing if there is a content: %v", err)
			}
			must(t, other.Swap(ctx, "checkpoint", []byte("1"), []byte("2")))
			if err := current.Swap(ctx, "checkpoint", []byte("1"), []byte("3")); !errors.Is(err, ErrLost) {
				t.Errorf("a swap of a content that was replaced: %v", err)
			}
			if got, err := objects.Get(ctx, "checkpoint", MaxCurrent); err != nil || string(got) != "2" {
				t.Errorf("%q, %v", got, err)
			}
			must(t, SetCurrent(ctx, objects, current, "log.v3.json", []byte("{}")))
			must(t, SetCurrent(ctx, objects, other, "log.v3.json", []byte(`{"mmd":60}`)))
			if got, err := objects.Get(ctx, "log.v3.json", MaxCurrent); err != nil || string(got) != `{"mmd":60}` {
				t.Errorf("%q, %v", got, err)
			}
			if err := current.Swap(ctx, ".writing", nil, []byte("1")); !errors.Is(err, ErrName) {
				t.Errorf("an invalid name: %v", err)
			}
			if err := current.Swap(ctx, "checkpoint", []byte("2"), make([]byte, MaxCurrent+1)); !errors.Is(err, ErrTooLong) {
				t.Errorf("a content that is too long: %v", err)
			}
		})
	}
}

// TestSwapsOfManyWriters lets eight writers raise one number, each with its own view of the store, while responses are
// lost and requests are refused. A reader sees that the number never falls, and no swap that was acknowledged is
// missing.
func TestSwapsOfManyWriters(t *testing.T) {
	const writers, each = 8, 12
	for name, place := range publicPlaces(t) {
		t.Run(name, func(t *testing.T) {
			ctx := limited(t)
			objects, current := place.open(t)
			must(t, current.Swap(ctx, "checkpoint", nil, []byte("0 start")))
			var views []Current
			for range writers {
				_, view := place.open(t)
				views = append(views, view)
			}
			if place.bucket != nil {
				place.bucket.Losing = func(number int) bool { return number%7 == 0 }
				place.bucket.Refusing = func(number int) bool { return number%11 == 0 }
			}
			var all sync.WaitGroup
			for number, view := range views {
				all.Add(1)
				go func() {
					defer all.Done()
					for done := 0; done < each; {
						old, err := objects.Get(ctx, "checkpoint", MaxCurrent)
						if err == nil {
							err = view.Swap(ctx, "checkpoint", old, []byte(fmt.Sprintf("%d of writer %d", numberOf(old)+1, number)))
						}
						switch {
						case err == nil:
							done++
						case !errors.Is(err, ErrLost):
							t.Errorf("writer %d: %v", number, err)
							return
						}
					}
				}()
			}
			over := make(chan struct{})
			go func() {
				defer close(over)
				all.Wait()
			}()
			for seen, isOver := 0, false; !isOver; {
				select {
				case <-over:
					isOver = true
				default:
				}
				content, err := objects.Get(ctx, "checkpoint", MaxCurrent)
				must(t, err)
				now := numberOf(content)
				// A swap whose response was lost may be done, and be replaced before its writer looks for it. Then the
				// writer makes one more.
				isMore := place.bucket != nil && now > writers*each
				if now < seen || isOver && now != writers*each && !isMore {
					t.Fatalf("%d is read after %d (the writers have ended: %t)", now, seen, isOver)
				}
				seen = now
			}
		})
	}
}

// numberOf returns the number at the beginning of a content, and -1 if there is none.
func numberOf(content []byte) int {
	n := -1
	if _, err := fmt.Sscanf(string(content), "%d of", &n); err != nil && !bytes.Equal(content, []byte("0 start")) {
		return -1
	}
	return max(n, 0)
}

// TestLateSwapChangesNothing: a put of an older checkpoint that reaches the bucket after a later one was put is
// refused there.
func TestLateSwapChangesNothing(t *testing.T) {
	bucket := testkit.NewBucket(true)
	address := addressOfS3(serve(t, bucket), "")
	objects, early, err := OpenPublic(limited(t), address)
	must(t, err)
	_, late, err := OpenPublic(limited(t), address)
	must(t, err)
	must(t, early.Swap(limited(t), "checkpoint", nil, []byte("1")))
	// The late one knows what is there, so that its next request is the put.
	must(t, late.Swap(limited(t), "checkpoint", []byte("1"), []byte("2")))
	held, goOn := make(chan struct{}), make(chan struct{})
	tag := testkit.Object{Content: []byte("2")}.ETag()
	var isHeld atomic.Bool
	bucket.Before = func(_ int, r *http.Request) {
		if r.Method == http.MethodPut && r.Header.Get("If-Match") == tag && !isHeld.Swap(true) {
			close(held)
			<-goOn
		}
	}
	lateErr := make(chan error, 1)
	ctx := limited(t)
	go func() { lateErr <- late.Swap(ctx, "checkpoint", []byte("2"), []byte("3 late")) }()
	<-held
	must(t, early.Swap(limited(t), "checkpoint", []byte("2"), []byte("4")))
	close(goOn)
	if err := <-lateErr; !errors.Is(err, ErrLost) {
		t.Errorf("the late swap: %v", err)
	}
	if got, err := objects.Get(limited(t), "checkpoint", MaxCurrent); err != nil || string(got) != "4" {
		t.Errorf("%q, %v", got, err)
	}
}

// TestPublicBucketRefusesEnginesWithoutConditions: an engine that ignores If-Match, or an address that says that there
// are no conditional puts, could let a checkpoint go back.
func TestPublicBucketRefusesEnginesWithoutConditions(t *testing.T) {
	bucket := testkit.NewBucket(true)
	at := serve(t, bucket)
	bucket.Matching = false
	_, _, err := OpenPublic(limited(t), addressOfS3(at, ""))
	if !errors.Is(err, ErrUnsafe) || !strings.Contains(fmt.Sprint(err), "If-Match") {
		t.Errorf("an engine that ignores If-Match: %v", err)
	}
	if _, _, err := OpenPublic(limited(t), addressOfS3(at, "&conditional=no")); !errors.Is(err, ErrUnsafe) {
		t.Errorf("no conditional puts: %v", err)
	}
}

// TestDataTilesAreStoredInGzip: a public bucket has data tiles in gzip, with the headers that a CDN serves, and Get
// returns the tile. One that was put before, without compression, is read as it is. A bucket that is not public
// compresses nothing, and reads what is compressed.
func TestDataTilesAreStoredInGzip(t *testing.T) {
	bucket := testkit.NewBucket(true)
	address := addressOfS3(serve(t, bucket), "")
	public, _, err := OpenPublic(limited(t), address)
	must(t, err)
	plain, err := ObjectsAt(limited(t), address)
	must(t, err)
	content := bytes.Repeat([]byte("an entry of a data tile. "), 4000)
	const keptForEver = "public, max-age=31536000, immutable"
	for name, want := range map[string]testkit.Object{
		"tile/data/000":     {Encoding: "gzip", Type: "application/octet-stream", Cache: keptForEver},
		"tile/data/001.p/5": {Encoding: "gzip", Type: "application/octet-stream", Cache: "public, max-age=60"},
		"tile/0/000":        {Type: "application/octet-stream", Cache: keptForEver},
		"issuer/00":         {Type: "application/pkix-cert", Cache: keptForEver},
	} {
		must(t, public.Put(limited(t), name, content))
		// Another node, or the same one after a restart, puts the object again. Each put compares the contents.
		must(t, public.Put(limited(t), name, content))
		must(t, plain.Put(limited(t), name, content))
		if err := plain.Put(limited(t), name, content[1:]); !errors.Is(err, ErrOther) {
			t.Errorf("%s: another content: %v", name, err)
		}
		stored, _ := bucket.Object(name)
		if stored.Encoding != want.Encoding || stored.Type != want.Type || stored.Cache != want.Cache {
			t.Errorf("%s has the headers %q, %q and %q", name, stored.Encoding, stored.Type, stored.Cache)
		}
		if want.Encoding == "gzip" {
			reader, err := gzip.NewReader(bytes.NewReader(stored.Content))
			must(t, err)
			got, err := io.ReadAll(reader)
			if err != nil || !bytes.Equal(got, content) || len(stored.Content) > len(content)/10 {
				t.Errorf("%s: %d bytes in %d, %v", name, len(got), len(stored.Content), err)
			}
		}
		for _, store := range []Objects{public, plain} {
			ctx, packed := WithPacked(limited(t))
			if got, err := store.Get(ctx, name, int64(len(content))); err != nil || !bytes.Equal(got, content) {
				t.Errorf("%s: %d bytes, %v", name, len(got), err)
			}
			isKept := packed.Name == name && bytes.Equal(packed.Gzip, stored.Content)
			if isKept != (want.Encoding == "gzip") {
				t.Errorf("%s is kept as it is stored: %t", name, isKept)
			}
			var long TooLong
			_, err := store.Get(limited(t), name, int64(len(content))-1)
			if !errors.As(err, &long) || long.Length != int64(len(content)) {
				t.Errorf("%s: more than the maximum: %v", name, err)
			}
		}
	}
	must(t, plain.Put(limited(t), "tile/data/002", content))
	if stored, _ := bucket.Object("tile/data/002"); stored.Encoding != "" || !bytes.Equal(stored.Content, content) {
		t.Errorf("a bucket that is not public has %d bytes in %q", len(stored.Content), stored.Encoding)
	}
	if got, err := public.Get(limited(t), "tile/data/002", manyBytes); err != nil || !bytes.Equal(got, content) {
		t.Errorf("a tile without compression: %d bytes, %v", len(got), err)
	}
}

// TestDamagedGzipIsNoContent: for an object that is cut, changed, or not in gzip, Get returns an error and no bytes.
func TestDamagedGzipIsNoContent(t *testing.T) {
	bucket := testkit.NewBucket(true)
	public, _, err := OpenPublic(limited(t), addressOfS3(serve(t, bucket), ""))
	must(t, err)
	const name = "tile/data/000"
	content := make([]byte, 3000)
	random := rand.New(rand.NewSource(1))
	random.Read(content)
	must(t, public.Put(limited(t), name, content))
	whole, _ := bucket.Object(name)
	changed := bytes.Clone(whole.Content)
	changed[len(changed)/2] ^= 1
	for what, damaged := range map[string][]byte{
		"nothing": {}, "three bytes": whole.Content[:3], "cut": whole.Content[:len(whole.Content)-9],
		"changed": changed, "no gzip": content,
		"more after it": append(bytes.Clone(whole.Content), whole.Content...),
	} {
		bucket.Set(name, testkit.Object{Content: damaged, Encoding: "gzip"})
		if got, err := public.Get(limited(t), name, MaxObject); err == nil || got != nil {
			t.Errorf("%s: %d bytes, %v", what, len(got), err)
		}
	}
}

// TestSwapWaitsForItsContext: a process that is paused keeps a folder's lock, and the others give up with their
// contexts.
func TestSwapWaitsForItsContext(t *testing.T) {
	root := t.TempDir()
	_, current, err := OpenPublic(limited(t), "folder:"+root)
	must(t, err)
	unlock, err := lockFor(limited(t), filepath.Join(root, swapLock))
	must(t, err)
	ctx, cancel := context.WithCancel(context.Background())
	swapErr := make(chan error, 1)
	go func() { swapErr <- current.Swap(ctx, "checkpoint", nil, []byte("1")) }()
	cancel()
	if err := <-swapErr; !errors.Is(err, context.Canceled) {
		t.Errorf("%v", err)
	}
	if _, err := os.Stat(filepath.Join(root, "checkpoint")); !os.IsNotExist(err) {
		t.Errorf("a checkpoint: %v", err)
	}
	unlock()
	must(t, current.Swap(limited(t), "checkpoint", nil, []byte("1")))
}
