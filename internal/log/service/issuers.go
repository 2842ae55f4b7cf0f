package service

import (
	"bytes"
	"context"
	"crypto/sha256"
	"encoding/hex"
	"errors"
	"fmt"
	"sync"

	"golang.org/x/sync/singleflight"

	"wagtenib/internal/blob"
	"wagtenib/internal/log/node"
)

const (
	issuersPrefix = "issuer/"
	// maxIssuers is the maximum number of issuers that are remembered as stored, and maxIssuerBytes that of their
	// bytes.
	maxIssuers, maxIssuerBytes = 4096, 16 << 20
	// maxIssuer is the maximum number of bytes that are read of an issuer, and maxDamaged that of damaged issuers that
	// are remembered.
	maxIssuer, maxDamaged = 1 << 20, 1024
)

// issuers stores the certificates of issuers under issuer/<SHA-256> (C2SP static-ct-api), each once. If many
// submissions with one issuer come at the same time, one stores it and the others wait.
type issuers struct {
	objects  blob.Objects
	repaired func(name string)
	putting  singleflight.Group

	mu sync.Mutex
	// known has the issuers that were stored, with their bytes.
	known map[[32]byte][]byte
	bytes int
	// damaged has the issuers that were missing or wrong when they were last read, and whose bytes are not known.
	damaged map[[32]byte]error
}

func newIssuers(objects blob.Objects, repaired func(string)) *issuers {
	return &issuers{objects: objects, repaired: repaired, known: map[[32]byte][]byte{}, damaged: map[[32]byte]error{}}
}

func issuerName(fingerprint [32]byte) string {
	return issuersPrefix + hex.EncodeToString(fingerprint[:])
}

// put returns after all these certificates are in the store.
func (i *issuers) put(ctx context.Context, certificates [][]byte) error {
	var unknown [][]byte
	for _, certificate := range certificates {
		if i.bytesOf(sha256.Sum256(certificate)) == nil {
			unknown = append(unknown, certificate)
		}
	}
	calls := make([]func(context.Context) error, len(unknown))
	for at, certificate := range unknown {
		calls[at] = func(ctx context.Context) error { return i.putOne(ctx, certificate) }
	}
	return parallel(ctx, calls...)
}

// putOne stores one certificate, or waits for the goroutine that stores it.
func (i *issuers) putOne(ctx context.Context, certificate []byte) error {
	fingerprint := sha256.Sum256(certificate)
	done := i.putting.DoChan(issuerName(fingerprint), func() (any, error) {
		// A client that goes away must not stop the others.
		own, cancel := context.WithTimeout(context.WithoutCancel(ctx), callWithin)
		defer cancel()
		err := i.write(own, fingerprint, certificate)
		if err == nil {
			i.keep(fingerprint, certificate)
		}
		return nil, err
	})
	select {
	case outcome := <-done:
		return outcome.Err
	case <-ctx.Done():
		return ctx.Err()
	}
}

// write stores one certificate. It replaces an object of its name that has another content.
func (i *issuers) write(ctx context.Context, fingerprint [32]byte, certificate []byte) error {
	i.mu.Lock()
	wasDamaged := i.damaged[fingerprint] != nil
	i.mu.Unlock()
	if !wasDamaged {
		if err := i.objects.Put(ctx, issuerName(fingerprint), certificate); !errors.Is(err, blob.ErrOther) {
			return err
		}
	}
	return i.replace(ctx, fingerprint, certificate)
}

// replace stores a certificate in place of any other content under its name.
func (i *issuers) replace(ctx context.Context, fingerprint [32]byte, certificate []byte) error {
	name := issuerName(fingerprint)
	if content, err := i.objects.Get(ctx, name, maxIssuer); err == nil && bytes.Equal(content, certificate) {
		return nil
	}
	if err := i.objects.Delete(ctx, name); err != nil {
		return err
	}
	if err := i.objects.Put(ctx, name, certificate); err != nil {
		return err
	}
	i.repaired(name)
	return nil
}

func (i *issuers) keep(fingerprint [32]byte, certificate []byte) {
	i.mu.Lock()
	defer i.mu.Unlock()
	if len(i.known) >= maxIssuers || i.bytes+len(certificate) > maxIssuerBytes {
		i.known, i.bytes = map[[32]byte][]byte{}, 0
	}
	i.known[fingerprint] = bytes.Clone(certificate)
	i.bytes += len(certificate)
	delete(i.damaged, fingerprint)
}

// bytesOf returns the bytes of an issuer that is remembered as stored, or nil.
func (i *issuers) bytesOf(fingerprint [32]byte) []byte {
	i.mu.Lock()
	defer i.mu.Unlock()
	return i.known[fingerprint]
}

// Look reads an issuer again. If it is missing or wrong, Look stores it again if its bytes are known. Otherwise the
// issuer counts as damaged until a submission brings it, or Look reads it right. After an error its state is not known.
func (i *issuers) Look(ctx context.Context, fingerprint [32]byte) error {
	name := issuerName(fingerprint)
	content, err := i.objects.Get(ctx, name, maxIssuer)
	switch {
	case err == nil && sha256.Sum256(content) == fingerprint:
		i.mu.Lock()
		defer i.mu.Unlock()
		delete(i.damaged, fingerprint)
		return nil
	case err == nil, errors.Is(err, blob.ErrTooLong):
		err = fmt.Errorf("%w: %s has another content (put it back from a backup)", node.ErrDamaged, name)
	case errors.Is(err, blob.ErrAbsent):
		err = fmt.Errorf("%w: %s is missing (put it back from a backup)", node.ErrDamaged, name)
	default:
		return err
	}
	if certificate := i.bytesOf(fingerprint); certificate != nil {
		return i.replace(ctx, fingerprint, certificate)
	}
	i.mu.Lock()
	defer i.mu.Unlock()
	if len(i.damaged) < maxDamaged {
		i.damaged[fingerprint] = err
	}
	return nil
}

// Next returns the issuers that Look should read next: a damaged one and one that is remembered as stored, if there are
// such.
func (i *issuers) Next() (fingerprints [][32]byte) {
	i.mu.Lock()
	defer i.mu.Unlock()
	// The order of a map is random.
	for fingerprint := range i.damaged {
		fingerprints = append(fingerprints, fingerprint)
		break
	}
	for fingerprint := range i.known {
		return append(fingerprints, fingerprint)
	}
	return fingerprints
}

// damage returns the number of damaged issuers, and the error of the one with the smallest fingerprint.
func (i *issuers) damage() (count int, why string) {
	i.mu.Lock()
	defer i.mu.Unlock()
	var first [32]byte
	for fingerprint, err := range i.damaged {
		if why == "" || bytes.Compare(fingerprint[:], first[:]) < 0 {
			first, why = fingerprint, err.Error()
		}
	}
	return len(i.damaged), why
}
