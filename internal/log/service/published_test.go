package service_test

import (
	"bytes"
	"context"
	"crypto/sha256"
	"encoding/base64"
	"encoding/binary"
	"errors"
	"fmt"
	"net/http"
	"os"
	"strings"
	"sync/atomic"
	"testing"
	"time"

	"wagtenib/internal/blob"
	"wagtenib/internal/ct"
	"wagtenib/internal/log/node"
	"wagtenib/internal/log/service"
	"wagtenib/internal/log/signer"
	"wagtenib/internal/witness"
)

// signedAgain returns a note of the same head with another signature of the log's key, for a timestamp.
func signedAgain(key *signer.Key, content []byte, size, timestamp uint64) ([]byte, error) {
	text, rest, _ := strings.Cut(string(content), "\n\n")
	line, _, _ := strings.Cut(rest, "\n")
	lines, parts := strings.Split(text, "\n"), strings.Split(line, " ")
	root, err := base64.StdEncoding.DecodeString(lines[2])
	if err != nil {
		return nil, err
	}
	blob, err := base64.StdEncoding.DecodeString(parts[2])
	if err != nil {
		return nil, err
	}
	signed, err := key.SignHead(context.Background(), ct.TreeHead{TreeSize: size, Timestamp: timestamp,
		Root: [32]byte(root)}, nil)
	if err != nil {
		return nil, err
	}
	blob = append(binary.BigEndian.AppendUint64(blob[:4:4], timestamp), signed...)
	return []byte(fmt.Sprintf("%s\n\n%s %s %s\n", text, parts[0], parts[1],
		base64.StdEncoding.EncodeToString(blob))), nil
}

// overtaken is a store of objects in which another node stores each head first, with another signature.
type overtaken struct {
	blob.Objects
	key *signer.Key
}

func (o overtaken) Put(ctx context.Context, name string, content []byte) error {
	if strings.HasPrefix(name, "heads/") {
		var size, timestamp uint64
		if _, err := fmt.Sscanf(strings.TrimPrefix(name, "heads/"), "%020d-%020d", &size, &timestamp); err != nil {
			return err
		}
		other, err := signedAgain(o.key, content, size, timestamp)
		if err != nil {
			return err
		}
		if err := o.Objects.Put(ctx, name, other); err != nil {
			return err
		}
	}
	return o.Objects.Put(ctx, name, content)
}

// TestShowsTheHeadThatIsInTheStore checks that, if another node stored a head first, with its own signature, this node
// serves that one.
func TestShowsTheHeadThatIsInTheStore(t *testing.T) {
	t.Parallel()
	p, got := newPlace(t), &answers{}
	config := p.config()
	config.Stores.Objects = overtaken{config.Stores.Objects, p.key}
	l := started(t, config)
	got.submit(t, l, 0, 3)
	head, err := l.Checkpoint(limited(t))
	must(t, err)
	if _, stored := p.newestHead(); !bytes.Equal(stored, head.Signed) {
		t.Errorf("the store has\n%s\nand the node serves\n%s", stored, head.Signed)
	}
	p.checkLog(got)
}

// stuck is a store of the checkpoint that refuses each swap while it is full.
type stuck struct {
	blob.Current
	isFull atomic.Bool
}

func (s *stuck) Swap(ctx context.Context, name string, old, new []byte) error {
	if s.isFull.Load() {
		return errFull
	}
	return s.Current.Swap(ctx, name, old, new)
}

// TestPublishedAfterItsCheckpoint checks that the lock does not name a head as published before readers without a node
// can fetch it as the checkpoint.
func TestPublishedAfterItsCheckpoint(t *testing.T) {
	t.Parallel()
	p, got := newPlace(t), &answers{}
	config := p.config()
	objects, current, err := blob.OpenPublic(limited(t), "folder:"+p.path("objects"))
	must(t, err)
	t.Cleanup(func() { must(t, objects.Close()) })
	checkpoint := &stuck{Current: current}
	config.Stores.Current = checkpoint
	l := started(t, config)
	got.submit(t, l, 0, 3)
	checkpoint.isFull.Store(true)
	_, err = l.Submit(limited(t), entryOf(3))
	wants(t, err, errFull)
	if published, err := config.Stores.Lock.Published(limited(t)); err != nil || published.Size != 3 {
		t.Errorf("%v: the lock names %d entries as published", err, published.Size)
	}
	checkpoint.isFull.Store(false)
	eventually(t, "it goes on", func() bool { return l.Metrics().Fault == "" })
	got.submit(t, l, 3, 4)
	p.checkLog(got)
}

// replaced is a store of the checkpoint. Before its next swap, another node stores a head that is a millisecond later
// than the present one.
type replaced struct {
	blob.Current
	key  *signer.Key
	next atomic.Bool
}

func (r *replaced) Swap(ctx context.Context, name string, old, new []byte) error {
	if name == "checkpoint" && old != nil && r.next.CompareAndSwap(true, false) {
		blob, err := base64.StdEncoding.DecodeString(strings.Fields(strings.Split(string(old), "\n")[4])[2])
		if err != nil {
			return err
		}
		between, err := signedAgain(r.key, old, 3, binary.BigEndian.Uint64(blob[4:12])+1)
		if err != nil {
			return err
		}
		if err := r.Current.Swap(ctx, name, old, between); err != nil {
			return err
		}
	}
	return r.Current.Swap(ctx, name, old, new)
}

// TestCheckpointIsReadAgainAfterALostSwap checks that, if another node has replaced the checkpoint meanwhile, the node
// reads it again and replaces the other node's.
func TestCheckpointIsReadAgainAfterALostSwap(t *testing.T) {
	t.Parallel()
	p, got := newPlace(t), &answers{}
	config := p.config()
	objects, current, err := blob.OpenPublic(limited(t), "folder:"+p.path("objects"))
	must(t, err)
	t.Cleanup(func() { must(t, objects.Close()) })
	checkpoint := &replaced{Current: current, key: p.key}
	config.Stores.Current = checkpoint
	l := started(t, config)
	got.submit(t, l, 0, 3)
	checkpoint.next.Store(true)
	got.submit(t, l, 3, 4)
	if fault := l.Metrics().LastFault; fault != "" || checkpoint.next.Load() {
		t.Errorf("the node had the fault %q, and the checkpoint was not replaced in between: %t", fault,
			checkpoint.next.Load())
	}
	head, err := l.Checkpoint(limited(t))
	must(t, err)
	if stored, err := os.ReadFile(p.object("checkpoint")); err != nil || !bytes.Equal(stored, head.Signed) {
		t.Errorf("%v: the checkpoint is\n%s\nand the newest head\n%s", err, stored, head.Signed)
	}
}

// silent is a lock that does not return the published head while it is away. It records the time that such a call has.
type silent struct {
	blob.Lock
	isAway atomic.Bool
	left   chan time.Duration
}

func (s *silent) Published(ctx context.Context) (blob.Published, error) {
	if !s.isAway.Load() {
		return s.Lock.Published(ctx)
	}
	until, _ := ctx.Deadline()
	select {
	case s.left <- time.Until(until):
	default:
	}
	return blob.Published{}, errors.New("the lock is silent")
}

// TestReadersWaitBrieflyForTheLock checks that a reader waits for a silent lock for at most two seconds if the node
// knows a head. Then the reader gets that head.
func TestReadersWaitBrieflyForTheLock(t *testing.T) {
	t.Parallel()
	p, got := newPlace(t), &answers{}
	config := p.config()
	lock := &silent{Lock: config.Stores.Lock, left: make(chan time.Duration, 1)}
	config.Stores.Lock = lock
	l := started(t, config)
	got.submit(t, l, 0, 3)
	lock.isAway.Store(true)
	head, err := l.Checkpoint(limited(t))
	if err != nil || head.TreeSize != 3 {
		t.Errorf("%v, %d entries", err, head.TreeSize)
	}
	if left := <-lock.left; left > 2*time.Second {
		t.Errorf("the call has %v until its deadline", left)
	}
}

// TestRepairsAnObjectThatIsTooLong checks that a tile at the right edge of the tree counts as damaged if it has more
// bytes than any object may have. The node makes it again from the newest staged batch.
func TestRepairsAnObjectThatIsTooLong(t *testing.T) {
	t.Parallel()
	p, got := newPlace(t), &answers{}
	l := started(t, p.config())
	got.submit(t, l, 0, 3)
	ends(t, l)
	must(t, os.Truncate(p.object("tile/0/000.p/3"), blob.MaxObject+1))
	l = started(t, p.config())
	got.submit(t, l, 3, 5)
	if f := l.Metrics(); f.Repaired != 1 || f.LastRepaired != "tile/0/000.p/3" {
		t.Errorf("%d objects are repaired, the last is %q", f.Repaired, f.LastRepaired)
	}
	p.checkLog(got)
}

// TestFreesBytesOfAbandonedSubmissions checks that submissions whose clients give up free their bytes in the queue.
func TestFreesBytesOfAbandonedSubmissions(t *testing.T) {
	t.Parallel()
	p, got := newPlace(t), &answers{}
	config := p.config()
	held := &slow{Objects: config.Stores.Objects}
	config.Stores.Objects = held
	l := started(t, config)
	got.submit(t, l, 0, 1)
	release := held.hold()
	defer release()
	const many = service.MaxQueueBytes*3/4/service.MaxEntry + 1
	for turn := range 2 {
		ctx, cancel := context.WithCancel(limited(t))
		outcomes := make(chan error, many)
		before := l.Metrics().Queue
		for n := range many {
			entry := entryOf(1)
			entry.Certificate = bytes.Repeat([]byte{byte(turn), byte(n), byte(n >> 8), 7}, service.MaxEntry/4)
			go func() {
				_, err := l.Submit(ctx, entry)
				outcomes <- err
			}()
		}
		eventually(t, "all wait", func() bool {
			select {
			case err := <-outcomes:
				t.Fatalf("turn %d: %v", turn, err)
			default:
			}
			return l.Metrics().Queue == before+many
		})
		cancel()
		for range many {
			wants(t, <-outcomes, context.Canceled)
		}
	}
}

// TestRefusesStartIfOneWitnessIsAhead checks that a log that begins again from nothing is stopped if one witness
// cosigned more of it, although enough other witnesses cosign its first head.
func TestRefusesStartIfOneWitnessIsAhead(t *testing.T) {
	t.Parallel()
	p := newPlace(t)
	config := p.config()
	p.witnessed(&config)
	p.witnessed(&config)
	p.witnessed(&config)
	config.Quorums = witness.Quorums{Publish: 2, Start: 2}
	seen := ct.TreeHead{TreeSize: 10, Timestamp: uint64(time.Now().UnixMilli()), Root: sha256.Sum256([]byte("ten"))}
	signed, err := p.key.SignHead(limited(t), seen, nil)
	must(t, err)
	verifier := ct.LogVerifier(config.Origin, p.key.Key())
	blob := binary.BigEndian.AppendUint32(nil, verifier.KeyHash())
	blob = append(binary.BigEndian.AppendUint64(blob, seen.Timestamp), signed...)
	note := fmt.Sprintf("%s\n10\n%s\n\n— %[1]s %[3]s\n", config.Origin,
		base64.StdEncoding.EncodeToString(seen.Root[:]), base64.StdEncoding.EncodeToString(blob))
	third := witness.Client{One: config.Witnesses[2], HTTP: http.DefaultClient}
	status, answer, err := third.AddCheckpoint(limited(t), witness.Request{Note: []byte(note)}.Body())
	if err != nil || status != http.StatusOK {
		t.Fatalf("%v: %d %s", err, status, answer)
	}
	l := started(t, config)
	_, err = l.Submit(limited(t), entryOf(1))
	wants(t, err, node.ErrRolledBack)
}
