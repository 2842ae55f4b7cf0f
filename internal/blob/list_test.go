package blob

import (
	"context"
	"errors"
	"net/http"
	"testing"

	"wagtenib/internal/testkit"
)

// TestS3ListEndsWithItsContext ends the context of each list before the response. A list that is cut off must return an
// error, since it would look like a complete one.
func TestS3ListEndsWithItsContext(t *testing.T) {
	bucket := testkit.NewBucket(true)
	store, err := OpenS3(limited(t), serve(t, bucket))
	must(t, err)
	for i := range 3 {
		must(t, store.Put(limited(t), objectName(i), objectContent(i)))
	}
	names, err := store.List(limited(t), "written/", "", 10)
	if err != nil || len(names) != 3 {
		t.Fatalf("%q, %v", names, err)
	}
	for range 40 {
		ctx, cancel := context.WithCancel(limited(t))
		bucket.Before = func(_ int, r *http.Request) {
			if r.Method == http.MethodGet {
				cancel()
				<-r.Context().Done()
			}
		}
		if names, err := store.List(ctx, "written/", "", 10); !errors.Is(err, context.Canceled) {
			t.Fatalf("a list that was cut off has %q, %v", names, err)
		}
	}
}

// TestSwapComparesTheNameToo swaps a second object from the content that the last swap gave to the first object. The
// second object does not exist, so nothing is swapped.
func TestSwapComparesTheNameToo(t *testing.T) {
	bucket := testkit.NewBucket(true)
	objects, current, err := OpenPublic(limited(t), addressOfS3(serve(t, bucket), ""))
	must(t, err)
	must(t, current.Swap(limited(t), "checkpoint", nil, []byte("1")))
	if err := current.Swap(limited(t), "log.v3.json", []byte("1"), []byte("2")); !errors.Is(err, ErrLost) {
		t.Errorf("a swap of an object that is not there: %v", err)
	}
	if got, err := objects.Get(limited(t), "checkpoint", MaxCurrent); err != nil || string(got) != "1" {
		t.Errorf("the other object has %q, %v", got, err)
	}
}
