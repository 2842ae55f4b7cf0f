package service

import (
	"context"
	"crypto/sha256"
	"errors"
	"sync"
	"testing"
	"time"

	"wagtenib/internal/blob"
	"wagtenib/internal/testkit"
)

// TestMarginOfASlowAnswer checks that half of the duration of an answer is added to the margin of the time in it.
func TestMarginOfASlowAnswer(t *testing.T) {
	clock := still{now: time.Now()}
	for off, isRight := range map[time.Duration]bool{20 * time.Second: true, 22 * time.Second: false} {
		s := clock.sources()
		// The answer took 20 s, so its time counts as that of 10 s ago. The clock may be off by 10 s of skew, 1 s of
		// the store's own margin, and 10 s for the duration.
		s.record(s.ofStores, "a store", clock.now.Add(-10*time.Second-off), time.Second, clock.Elapsed()-20*time.Second)
		if isVouched, err := s.Compare(clock.now, clock.Elapsed(), true); isVouched != isRight || (err == nil) != isRight {
			t.Errorf("a clock that is off by %v: %t, %v", off, isVouched, err)
		}
	}
}

// heldPuts is a store of objects. Each put sends its context to contexts, and waits until release is closed.
type heldPuts struct {
	blob.Objects
	release  chan struct{}
	contexts chan context.Context
}

func (h heldPuts) Put(ctx context.Context, name string, content []byte) error {
	h.contexts <- ctx
	<-h.release
	return h.Objects.Put(ctx, name, content)
}

func objectsIn(t *testing.T) blob.Objects {
	t.Helper()
	objects, err := blob.OpenFolder(t.TempDir())
	testkit.Must(t, err)
	t.Cleanup(func() { testkit.Must(t, objects.Close()) })
	return objects
}

// TestSubmissionRepairsMissingIssuer checks that a missing issuer counts as damaged until a submission brings it.
func TestSubmissionRepairsMissingIssuer(t *testing.T) {
	i, certificate := newIssuers(objectsIn(t), func(string) {}), []byte("an issuer")
	testkit.Must(t, i.Look(testkit.Limited(t, testkit.Longest), sha256.Sum256(certificate)))
	if count, _ := i.damage(); count != 1 {
		t.Fatalf("%d issuers are damaged", count)
	}
	testkit.Must(t, i.put(testkit.Limited(t, testkit.Longest), [][]byte{certificate}))
	if count, why := i.damage(); count != 0 {
		t.Errorf("%d issuers are damaged: %s", count, why)
	}
}

// TestPutOfAnIssuerOutlastsItsClient checks that a client that goes away does not end the put of an issuer, because
// other submissions may wait for it.
func TestPutOfAnIssuerOutlastsItsClient(t *testing.T) {
	held := heldPuts{objectsIn(t), make(chan struct{}), make(chan context.Context, 1)}
	i, certificate := newIssuers(held, func(string) {}), []byte("an issuer")
	client, cancel := context.WithCancel(testkit.Limited(t, testkit.Longest))
	release := sync.OnceFunc(func() { close(held.release) })
	defer release()
	outcome := make(chan error, 1)
	go func() { outcome <- i.put(client, [][]byte{certificate}) }()
	ofPut := <-held.contexts
	cancel()
	if err := <-outcome; !errors.Is(err, context.Canceled) {
		t.Errorf("the client gets %v", err)
	}
	if err := ofPut.Err(); err != nil {
		t.Fatalf("the put ends with its client: %v", err)
	}
	release()
	testkit.Eventually(t, "the issuer is stored", func() bool { return i.bytesOf(sha256.Sum256(certificate)) != nil })
}
