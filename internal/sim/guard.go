package sim

import (
	"bytes"
	"context"
	"crypto/ecdsa"
	"crypto/elliptic"
	"crypto/sha512"
	"crypto/x509"
	"encoding/binary"
	"errors"
	"fmt"
	"math/big"
	"time"

	"golang.org/x/mod/sumdb/note"

	"wagtenib/bindings/go/wagtenib"
	"wagtenib/internal/blob"
	"wagtenib/internal/ct"
	"wagtenib/internal/log/signer"
)

// keyDER is the SubjectPublicKeyInfo of the log's key in all histories. logKey signs instead of this key.
var (
	keyDER = newKey()
	logKey = standIn(keyDER)
)

func newKey() []byte {
	curve := elliptic.P256()
	x, y := curve.ScalarBaseMult(big.NewInt(0x5157a7e).Bytes())
	der, err := x509.MarshalPKIXPublicKey(&ecdsa.PublicKey{Curve: curve, X: x, Y: y})
	if err != nil {
		panic(err)
	}
	return der
}

// standIn signs instead of a private key. Its signatures are hashes, which cost a hundredth of a real signature. No
// fault of a history makes such a hash, so the signer must have made such a signature.
type standIn []byte

// sign returns the signature of a message. It has 64 bytes, and is the same each time.
func (s standIn) sign(message []byte) []byte {
	hash := sha512.New()
	hash.Write(s)
	hash.Write(message)
	return hash.Sum(nil)
}

// isSigned reports whether a signature is this key's over a message.
func (s standIn) isSigned(message, signed []byte) bool { return bytes.Equal(s.sign(message), signed) }

// verifier verifies signatures of notes that a stand-in made.
type verifier struct {
	note.Verifier
	isSigned func(text, signature []byte) bool
}

func (v verifier) Verify(text, signature []byte) bool { return v.isSigned(text, signature) }

// ownVerifier verifies the log's signatures of notes (C2SP static-ct-api, signatures of type 5).
var ownVerifier = verifier{ct.LogVerifier(Origin, keyDER), func(text, signature []byte) bool {
	of, err := wagtenib.ReadCheckpoint(string(text))
	if err != nil || of.Origin != Origin || len(signature) <= 8 {
		return false
	}
	return isSigned(headMessage(ct.TreeHead{TreeSize: of.TreeSize, Timestamp: binary.BigEndian.Uint64(signature),
		Root: of.Root}), signature[8:])
}}

// Verifier returns the verifier with which a node verifies the log's signatures of notes.
func (g *guarded) Verifier() note.Verifier { return ownVerifier }

// salted is the length of the salt at the beginning of a signature of the log's key, in bytes. With it, signatures of
// one message differ, as ECDSA signatures do.
const salted = 8

// sign returns the DigitallySigned of a message (RFC 5246, section 4.7) with a salt.
func sign(salt, message []byte) []byte {
	signature := append(bytes.Clone(salt), logKey.sign(append(bytes.Clone(salt), message...))[salted:]...)
	return append(binary.BigEndian.AppendUint16([]byte{4, 3}, uint16(len(signature))), signature...)
}

// isSigned reports whether a DigitallySigned is the key's over a message.
func isSigned(message, signed []byte) bool {
	return len(signed) >= 4+salted && bytes.Equal(sign(signed[4:4+salted], message), signed)
}

// sign returns a new signature of a message.
func (g *guarded) sign(message []byte) []byte {
	g.m.w.stores.signatures++
	return sign(binary.BigEndian.AppendUint64(nil, g.m.w.stores.signatures), message)
}

// headMessage returns the bytes of a tree head that are signed (RFC 6962, section 3.5).
func headMessage(head ct.TreeHead) []byte {
	message := binary.BigEndian.AppendUint64([]byte{0, 1}, head.Timestamp)
	return append(binary.BigEndian.AppendUint64(message, head.TreeSize), head.Root[:]...)
}

// guarded implements the signer of a machine. It signs only what the proved guard approves. The guard's state is in the
// lock's engine (docs/GUARD.md).
type guarded struct {
	m *machine
	// busy is set during a call, because the signer handles one call at a time.
	busy bool
	// seen is the newest state that this process saw.
	seen signer.State
}

func (g *guarded) Key() []byte { return keyDER }

// IsGuarded reports that there is a guard.
func (g *guarded) IsGuarded() bool { return true }

// signerWithin is the maximum time for one call of the signer.
const signerWithin = 4 * time.Second

// turn waits until no other call is running, and returns the context for this call, and the function that ends it.
func (g *guarded) turn(ctx context.Context) (*simulated, func(), error) {
	inner, cancel := within(ctx, signerWithin)
	if !g.m.w.wait(max(inner.left(), 0), func() bool { return !g.busy }) {
		cancel()
		return nil, nil, fmt.Errorf("sim: the signer is busy: %w", context.DeadlineExceeded)
	}
	g.busy = true
	return inner, func() { g.busy = false; cancel() }, nil
}

// state reads the guard's state. It returns an error if the state was rolled back.
func (g *guarded) state(ctx context.Context) (state signer.State, err error) {
	text := ""
	err = g.m.call(ctx, "guard", "read", false, func() error {
		text = g.m.w.stores.guard
		return nil
	})
	if err != nil {
		return state, err
	}
	if state, err = signer.ReadState(text); err != nil {
		return state, err
	}
	if err = state.CheckSince(g.seen); err == nil {
		g.seen = state
	}
	return state, err
}

func (g *guarded) Last(ctx context.Context) (*ct.TreeHead, error) {
	inner, done, err := g.turn(ctx)
	if err != nil {
		return nil, err
	}
	defer done()
	state, err := g.state(inner)
	if err != nil {
		return nil, err
	}
	return state.Last(), nil
}

// SignHead signs a head that the guard approves, after the guard's new state is in the lock's engine. Before the first
// head with leaves, the guard's state gets the head of the empty tree.
func (g *guarded) SignHead(ctx context.Context, head ct.TreeHead, consistency [][32]byte) ([]byte, error) {
	inner, done, err := g.turn(ctx)
	if err != nil {
		return nil, err
	}
	defer done()
	state, err := g.state(inner)
	if err != nil {
		return nil, err
	}
	if state.MustBegin(head) {
		empty, err := state.Begin(head)
		if err != nil {
			return nil, err
		}
		if err := g.swap(inner, state, empty); err != nil {
			return nil, err
		}
		state = empty
	}
	next, err := state.After(head, consistency, head.Timestamp)
	if err != nil {
		return nil, err
	}
	if err := g.swap(inner, state, next); err != nil {
		return nil, err
	}
	g.m.w.judge.signs(g.m, head)
	if !bytes.Equal(next.Signed(), headMessage(head)) {
		g.m.w.judge.breaks("a signed head is the list's", "the guard has other bytes signed")
	}
	return g.sign(next.Signed()), nil
}

// swap replaces the guard's state.
func (g *guarded) swap(ctx context.Context, old, next signer.State) error {
	s, text := &g.m.w.stores, next.Text()
	err := g.m.call(ctx, "guard", "swap for "+text[:min(len(text), 110)], true, func() error {
		switch s.guard {
		case text:
			return nil
		case old.Text():
			s.setGuard(text)
			return nil
		}
		return blob.ErrLost
	})
	if errors.Is(err, blob.ErrLost) {
		return signer.ErrMoved
	}
	if err == nil {
		g.seen = next
	}
	return err
}

// SignStep signs a step's timestamps if the guard approves them.
func (g *guarded) SignStep(ctx context.Context, step signer.Step) ([][]byte, error) {
	return g.signApproved(ctx, step.Leaves, func(state signer.State) error { return state.CheckStep(step) })
}

// SignTimestamps signs timestamps that the guard approves, all or none.
func (g *guarded) SignTimestamps(ctx context.Context, receipts []signer.Receipt) ([][]byte, error) {
	leaves := make([][]byte, len(receipts))
	for i, receipt := range receipts {
		leaves[i] = receipt.Leaf
	}
	return g.signApproved(ctx, leaves, func(state signer.State) error {
		for _, receipt := range receipts {
			if err := state.CheckReceipt(receipt); err != nil {
				return err
			}
		}
		return nil
	})
}

// signApproved signs leaves if the guard approves them with its current state.
func (g *guarded) signApproved(ctx context.Context, leaves [][]byte, approve func(signer.State) error) ([][]byte, error) {
	inner, done, err := g.turn(ctx)
	if err != nil {
		return nil, err
	}
	defer done()
	state, err := g.state(inner)
	if err != nil {
		return nil, err
	}
	if err := approve(state); err != nil {
		return nil, err
	}
	signed := make([][]byte, len(leaves))
	for i, leaf := range leaves {
		signed[i] = g.sign(leaf)
	}
	return signed, nil
}
