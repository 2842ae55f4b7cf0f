package signer

import (
	"context"
	"crypto"
	"crypto/ecdsa"
	"crypto/elliptic"
	"crypto/rand"
	"crypto/sha256"
	"crypto/x509"
	"encoding/pem"
	"errors"
	"fmt"
	"io"
	"runtime"
	"sync/atomic"

	"golang.org/x/sync/errgroup"

	"wagtenib/internal/command/privatefile"
	"wagtenib/internal/ct"
)

// maxKeyFile is the maximum size of a key's file in bytes.
const maxKeyFile = 64 << 10

// algorithms are the two bytes before a signature: sha256 and ecdsa (RFC 5246, section 7.4.1.4.1).
var algorithms = [2]byte{4, 3}

// Key is a log's private key, from a file or in a PKCS#11 token. As a Signer it has no guard, so it signs everything
// that a caller asks for.
type Key struct {
	private crypto.Signer
	public  []byte
	// module is the PKCS#11 module with the key's token. It is nil for a key from a file.
	module io.Closer
}

// Close releases the key's token.
func (k *Key) Close() error {
	if k.module == nil {
		return nil
	}
	return k.module.Close()
}

// OpenKey reads a private key of P-256 in PEM (EC PRIVATE KEY or PRIVATE KEY) from a file that only its owner may read.
// If the path is a PKCS#11 URI (RFC 7512), it finds the key in a token. Such a key never leaves the token.
func OpenKey(path string) (*Key, error) {
	if IsToken(path) {
		return openToken(path)
	}
	content, err := readPrivate(path, "a log's key")
	if err != nil {
		return nil, err
	}
	private, err := parse(content)
	if err != nil {
		return nil, fmt.Errorf("%w: %s", err, path)
	}
	return FromKey(private)
}

// readPrivate reads a file with a secret. An error because other users may read it is ErrKey too.
func readPrivate(path, secret string) ([]byte, error) {
	content, err := privatefile.Read(path, secret, maxKeyFile)
	if errors.Is(err, privatefile.ErrShared) {
		err = fmt.Errorf("%w: %w", ErrKey, err)
	} else if err != nil {
		err = fmt.Errorf("signer: %w", err)
	}
	return content, err
}

// FromKey returns the Key of a private key of P-256.
func FromKey(private crypto.Signer) (*Key, error) {
	public, ok := private.Public().(*ecdsa.PublicKey)
	if !ok || public.Curve != elliptic.P256() {
		return nil, fmt.Errorf("%w: it is not a P-256 key", ErrKey)
	}
	der, err := x509.MarshalPKIXPublicKey(public)
	if err != nil {
		return nil, fmt.Errorf("%w: %v", ErrKey, err)
	}
	return &Key{private: private, public: der}, nil
}

// parse returns the first private key in PEM. A file that openssl wrote may have the curve's parameters before it.
func parse(content []byte) (*ecdsa.PrivateKey, error) {
	for {
		block, rest := pem.Decode(content)
		if block == nil {
			return nil, fmt.Errorf("%w: there is no private key in PEM", ErrKey)
		}
		content = rest
		switch block.Type {
		case "EC PRIVATE KEY":
			key, err := x509.ParseECPrivateKey(block.Bytes)
			if err != nil {
				return nil, fmt.Errorf("%w: %v", ErrKey, err)
			}
			return key, nil
		case "PRIVATE KEY":
			key, err := x509.ParsePKCS8PrivateKey(block.Bytes)
			if err != nil {
				return nil, fmt.Errorf("%w: %v", ErrKey, err)
			}
			if key, ok := key.(*ecdsa.PrivateKey); ok {
				return key, nil
			}
			return nil, fmt.Errorf("%w: it is not an ECDSA key", ErrKey)
		}
	}
}

// sign returns the DigitallySigned of a message.
func (k *Key) sign(message []byte) ([]byte, error) {
	hash := sha256.Sum256(message)
	signature, err := k.private.Sign(rand.Reader, hash[:], crypto.SHA256)
	if err != nil {
		return nil, fmt.Errorf("signer: %w", err)
	}
	return append([]byte{algorithms[0], algorithms[1], byte(len(signature) >> 8), byte(len(signature))},
		signature...), nil
}

// Key returns the log's public key, as Signer says.
func (k *Key) Key() []byte { return append([]byte{}, k.public...) }

// IsGuarded returns false: a key signs whatever it is asked for.
func (k *Key) IsGuarded() bool { return false }

// Last returns nil: a key keeps no head.
func (k *Key) Last(context.Context) (*ct.TreeHead, error) { return nil, nil }

// SignHead returns the signature of a head, as Signer says. It ignores the proof.
func (k *Key) SignHead(ctx context.Context, head ct.TreeHead, _ [][32]byte) ([]byte, error) {
	if err := ctx.Err(); err != nil {
		return nil, fmt.Errorf("signer: %w", err)
	}
	return k.sign(messageOf(head))
}

// SignStep returns the signatures of a step's timestamps, as Signer says. It checks neither leaves nor subtrees.
func (k *Key) SignStep(ctx context.Context, step Step) ([][]byte, error) {
	return k.signAll(ctx, step.Leaves)
}

// SignTimestamps returns the signatures of timestamps, as Signer says. It checks neither leaves nor paths.
func (k *Key) SignTimestamps(ctx context.Context, receipts []Receipt) ([][]byte, error) {
	messages := make([][]byte, 0, len(receipts))
	for _, receipt := range receipts {
		messages = append(messages, receipt.Leaf)
	}
	return k.signAll(ctx, messages)
}

// signAll returns the DigitallySigned of each message, or an error.
func (k *Key) signAll(ctx context.Context, messages [][]byte) ([][]byte, error) {
	signatures := make([][]byte, len(messages))
	err := inParallel(ctx, len(messages), func(at int) (err error) {
		signatures[at], err = k.sign(messages[at])
		return err
	})
	if err != nil {
		return nil, err
	}
	return signatures, nil
}

// inParallel calls do for each index below count, in as many goroutines as there are processors. It returns the first
// error, and stops if the context ends. A goroutine takes one index after the other, so its stack grows only once.
func inParallel(ctx context.Context, count int, do func(at int) error) error {
	all, ctx := errgroup.WithContext(ctx)
	var next atomic.Int64
	for range min(count, runtime.GOMAXPROCS(0)) {
		all.Go(func() error {
			for at := int(next.Add(1)) - 1; at < count; at = int(next.Add(1)) - 1 {
				if err := ctx.Err(); err != nil {
					return fmt.Errorf("signer: %w", err)
				}
				if err := do(at); err != nil {
					return err
				}
			}
			return nil
		})
	}
	return all.Wait()
}
