package tiles

import (
	"bytes"
	"context"
	"crypto/sha256"
	"errors"
	"fmt"
	"testing"
	"time"

	"golang.org/x/mod/sumdb/tlog"

	"wagtenib/internal/testkit"
)

var must = testkit.Must

func limited(t testing.TB) context.Context { return testkit.Limited(t, testkit.Longest) }

// TestTiles checks that the widest version of a tile in the tree is read, and that the requested hashes are returned. A
// tile of another length is wrong. No other tiles are read.
func TestTiles(t *testing.T) {
	wide := make([]byte, 32*256)
	for i := range wide {
		wide[i] = byte(i / 32)
	}
	for _, of := range []struct {
		size            uint64
		name, read      string
		width, expected int
	}{
		{300, "tile/0/000", "tile/0/000", 256, 256},
		{300, "tile/0/000.p/7", "tile/0/000", 256, 7},
		{300, "tile/0/001.p/44", "tile/0/001.p/44", 44, 44},
		{300, "tile/0/001.p/3", "tile/0/001.p/44", 44, 3},
		{511, "tile/0/001.p/255", "tile/0/001.p/255", 255, 255},
		{512, "tile/0/001.p/255", "tile/0/001", 256, 255},
		{300, "tile/1/000.p/1", "tile/1/000.p/1", 1, 1},
		{1 << 40, "tile/4/x001/000.p/1", "", 0, 0},
		{256 * 1001, "tile/0/x001/000", "tile/0/x001/000", 256, 256},
		{300, "tile/0/001.p/45", "", 0, 0},
		{300, "tile/0/001", "", 0, 0},
		{300, "tile/0/002.p/1", "", 0, 0},
		{300, "tile/1/000.p/2", "", 0, 0},
		{300, "tile/data/000", "", 0, 0},
		{1 << 40, "tile/8/000.p/1", "", 0, 0},
		{300, "tile/0/0", "", 0, 0},
		{300, "heads/1", "", 0, 0},
	} {
		asked := ""
		content := wide[:32*of.width]
		r := NewProver(func(_ context.Context, name string, maxBytes int64) ([]byte, error) {
			if asked = name; maxBytes != 32*256 {
				t.Errorf("%s of %d: at most %d bytes", of.name, of.size, maxBytes)
			}
			return content, nil
		}, 1)
		tiles := r.tiles(of.size)
		read, err := tiles(limited(t), of.name)
		if of.read == "" {
			if !errors.Is(err, ErrReply) || asked != "" {
				t.Errorf("%s of %d: %q is read, %v", of.name, of.size, asked, err)
			}
			continue
		}
		if err != nil || asked != of.read || !bytes.Equal(read, wide[:32*of.expected]) {
			t.Errorf("%s of %d: %s is read, %d bytes, %v", of.name, of.size, asked, len(read), err)
		}
		for _, wrong := range [][]byte{nil, wide[:32*of.width-1], wide[:32*(of.width-1)],
			append(wide[:32*of.width:32*of.width], 0)} {
			content = wrong
			if _, err := tiles(limited(t), of.name); !errors.Is(err, ErrWrong) {
				t.Errorf("%s of %d has %d bytes: %v", of.name, of.size, len(wrong), err)
			}
		}
	}
	broken := errors.New("the disk")
	r := NewProver(func(context.Context, string, int64) ([]byte, error) { return nil, broken }, 1)
	if _, err := r.tiles(300)(limited(t), "tile/0/000"); !errors.Is(err, broken) {
		t.Error(err)
	}
}

// TestProver reads a tree of three leaves out of the tiles of a larger one. Its nodes are computed by hand (RFC 6962,
// section 2.1).
func TestProver(t *testing.T) {
	ctx := limited(t)
	leaf := func(i byte) [32]byte { return sha256.Sum256([]byte{0, i}) }
	node := func(a, b [32]byte) [32]byte { return sha256.Sum256(append(append([]byte{1}, a[:]...), b[:]...)) }
	zero, one, two, three := leaf(0), leaf(1), leaf(2), leaf(3)
	tile := bytes.Join([][]byte{zero[:], one[:], two[:], three[:]}, nil)
	r := NewProver(func(_ context.Context, name string, _ int64) ([]byte, error) {
		if name != "tile/0/000.p/4" {
			return nil, fmt.Errorf("%s is read", name)
		}
		return tile, nil
	}, 64)
	root := node(node(zero, one), two)
	path, err := r.Path(ctx, 2, 3, 4)
	if err != nil || len(path) != 1 || path[0] != node(zero, one) {
		t.Errorf("a path: %x, %v", path, err)
	}
	must(t, CheckPath(path, 3, root, 2, two))
	proof, err := r.Proof(ctx, 1, 3, 4)
	if err != nil || len(proof) != 2 || proof[0] != one || proof[1] != two {
		t.Errorf("a proof: %x, %v", proof, err)
	}
	must(t, CheckProof(proof, 3, root, 1, zero))
	if found, err := r.Root(ctx, 3, 4); err != nil || found != root {
		t.Errorf("a root: %x, %v", found, err)
	}
	if found, err := r.Root(ctx, 1, 4); err != nil || found != zero {
		t.Errorf("a root of one: %x, %v", found, err)
	}
	// Each difference from the tree is an error.
	for what, err := range map[string]error{
		"a path to another leaf":           CheckPath(path, 3, root, 2, one),
		"a path of another index":          CheckPath(path, 3, root, 1, two),
		"a path to another root":           CheckPath(path, 3, zero, 2, two),
		"no path":                          CheckPath(nil, 3, root, 2, two),
		"no path of one leaf to another":   CheckPath(nil, 1, zero, 0, one),
		"a proof from another root":        CheckProof(proof, 3, root, 1, one),
		"a proof to another root":          CheckProof(proof, 3, zero, 1, zero),
		"a proof from another size":        CheckProof(proof, 3, root, 2, zero),
		"a proof that lacks a hash":        CheckProof(proof[:1], 3, root, 1, zero),
		"no proof from a tree to its fork": CheckProof(nil, 1, zero, 1, one),
	} {
		if !errors.Is(err, ErrWrong) {
			t.Errorf("%s: %v", what, err)
		}
	}
	// An empty proof needs no tile.
	empty := NewProver(nil, 0)
	for _, sizes := range [][2]uint64{{0, 0}, {0, 3}, {3, 3}} {
		if proof, err := empty.Proof(ctx, sizes[0], sizes[1], 3); err != nil || len(proof) != 0 {
			t.Errorf("from %d to %d: %x, %v", sizes[0], sizes[1], proof, err)
		}
	}
}

// TestClientGoes checks that a call ends with its context, and that its slot is free after its reading has ended. A
// call whose context has already ended reads nothing, and if no slot is free no call waits.
func TestClientGoes(t *testing.T) {
	asked, tile, done := make(chan context.Context, 4), sha256.Sum256([]byte{0, 0}), make(chan struct{})
	isThere := false
	r := NewProver(func(ctx context.Context, _ string, _ int64) ([]byte, error) {
		asked <- ctx
		if !isThere {
			<-ctx.Done()
			<-done
			return nil, ctx.Err()
		}
		return tile[:], nil
	}, 1)
	ended, cancel := context.WithCancel(limited(t))
	cancel()
	if _, err := r.Root(ended, 1, 1); !errors.Is(err, context.Canceled) || len(asked) != 0 || len(r.slots) != 0 {
		t.Errorf("the context has ended: %v, and %d tiles are read", err, len(asked))
	}
	ending, cancel := context.WithCancel(limited(t))
	errs := make(chan error, 1)
	go func() {
		_, err := r.Root(ending, 1, 1)
		errs <- err
	}()
	readCtx := <-asked
	if deadline, hasDeadline := readCtx.Deadline(); !hasDeadline || time.Until(deadline) > maxReading {
		t.Errorf("the deadline of the reading is %v", deadline)
	}
	if _, err := r.Root(limited(t), 1, 1); !errors.Is(err, ErrBusy) {
		t.Errorf("without a free slot: %v", err)
	}
	cancel()
	if err := <-errs; !errors.Is(err, context.Canceled) {
		t.Errorf("the context ends: %v", err)
	}
	second := make(chan error, 1)
	go func() {
		_, err := r.Root(limited(t), 1, 1)
		second <- err
	}()
	select {
	case err := <-second:
		if !errors.Is(err, ErrBusy) {
			t.Errorf("during a reading that has not ended: %v", err)
		}
	case <-asked:
		t.Fatal("another call has the slot of a reading that has not ended")
	}
	close(done)
	testkit.Eventually(t, "the slot is free", func() bool { return len(r.slots) == 0 })
	isThere = true
	if root, err := r.Root(limited(t), 1, 1); err != nil || root != tlog.Hash(tile) {
		t.Errorf("after that: %x, %v", root, err)
	}
}

// TestSlotIsFreeAfterCall checks that if only one call runs at a time, a caller that calls again directly after an
// answer or an error never gets ErrBusy.
func TestSlotIsFreeAfterCall(t *testing.T) {
	r, ctx, broken := NewProver(nil, 1), limited(t), errors.New("the disk")
	for i := 0; i < 20000; i++ {
		var fails error
		if i%2 == 1 {
			fails = broken
		}
		if what, err := within(ctx, r, func(context.Context) (int, error) { return i, fails }); what != i ||
			err != fails {
			t.Fatalf("call %d: %d, %v", i, what, err)
		}
	}
}
