package service_test

import (
	"context"
	"errors"
	"math/rand/v2"
	"path/filepath"
	"sync"
	"testing"

	"wagtenib/internal/log"
	"wagtenib/internal/log/service"
	"wagtenib/internal/log/signer"
	"wagtenib/internal/testkit"
)

// erringSigner returns one wrong signature, at a random place, in each reply with several timestamps after the first
// ones.
type erringSigner struct {
	signer.Signer
	mu sync.Mutex
	// right is how many timestamps still get right signatures, and wrong counts the replies with a wrong one.
	right, wrong int
}

// errs changes a reply.
func (s *erringSigner) errs(signed [][]byte, err error) ([][]byte, error) {
	s.mu.Lock()
	defer s.mu.Unlock()
	if s.right -= len(signed); err == nil && s.right < 0 && len(signed) > 1 {
		at := rand.IntN(len(signed))
		signed[at] = append([]byte{}, signed[at]...)
		signed[at][len(signed[at])-1] ^= 1
		s.wrong++
	}
	return signed, err
}

// wrongReplies returns how many replies had a wrong signature.
func (s *erringSigner) wrongReplies() int {
	s.mu.Lock()
	defer s.mu.Unlock()
	return s.wrong
}

func (s *erringSigner) SignStep(ctx context.Context, step signer.Step) ([][]byte, error) {
	return s.errs(s.Signer.SignStep(ctx, step))
}

func (s *erringSigner) SignTimestamps(ctx context.Context, receipts []signer.Receipt) ([][]byte, error) {
	return s.errs(s.Signer.SignTimestamps(ctx, receipts))
}

// erringLog opens a log whose signer is at a socket, and errs after so many timestamps.
func erringLog(t *testing.T, p *place, right int) (*service.Log, *erringSigner) {
	t.Helper()
	config := p.config()
	erring := &erringSigner{Signer: config.Signer, right: right}
	ctx, stop := context.WithCancel(context.Background())
	ended := make(chan error, 1)
	socket := signer.Socket{Path: filepath.Join(t.TempDir(), "socket")}
	go func() { ended <- signer.Listen(ctx, erring, socket) }()
	t.Cleanup(func() {
		stop()
		<-ended
	})
	var client *signer.Client
	eventually(t, "the signer listens", func() (isOpen bool) {
		var err error
		client, err = signer.NewClient(limited(t), func(ctx context.Context) (*signer.Peer, error) {
			return signer.Dial(ctx, socket.Path)
		}, testkit.Longest)
		return err == nil
	})
	t.Cleanup(func() { client.Close() })
	config.Signer = client
	return started(t, config), erring
}

// TestErringSigner has a signer that returns some wrong signatures among right ones. No client gets a wrong SCT. The log
// counts each reply with a wrong signature, and it goes on after the signer errs no more.
func TestErringSigner(t *testing.T) {
	t.Parallel()
	p := newPlace(t)
	l, erring := erringLog(t, p, 384)
	a, ctx := &answers{}, limited(t)
	// submitAll submits 32 entries at the same time. An entry may be refused, since the signer errs.
	submitAll := func(from int) {
		var all sync.WaitGroup
		for n := from; n < from+32; n++ {
			all.Add(1)
			go func() {
				defer all.Done()
				switch place, err := l.Submit(ctx, entryOf(n)); {
				case err == nil:
					a.add(entryOf(n), place)
				case !errors.Is(err, log.ErrStore):
					t.Errorf("entry %d: %v", n, err)
				}
			}()
		}
		all.Wait()
	}
	from := 0
	for ; erring.wrongReplies() < 5; from += 32 {
		submitAll(from)
	}
	p.checkLog(a)
	if counted := l.Metrics().WrongSignatures; counted != uint64(erring.wrongReplies()) {
		t.Errorf("%d replies were wrong, and %d were counted", erring.wrongReplies(), counted)
	}
	if m := l.Metrics(); m.UnverifiedSCTs != 0 || m.VerifiedSCTs < 384 {
		t.Errorf("%d SCTs were verified, and %d were not", m.VerifiedSCTs, m.UnverifiedSCTs)
	}
	erring.mu.Lock()
	erring.right = 1 << 40
	erring.mu.Unlock()
	eventually(t, "the log takes submissions again", func() bool {
		place, err := l.Submit(ctx, entryOf(from))
		if err == nil {
			a.add(entryOf(from), place)
		}
		return err == nil
	})
	a.submit(t, l, 0, from)
	p.checkLog(a)
}
