package witness

import (
	"crypto/ed25519"
	"errors"
	"fmt"
	"strings"
)

// ErrQuorum means that the quorums of a log's witnesses are impossible, or that two of its witnesses are the same.
var ErrQuorum = errors.New("witness: impossible quorums")

// One is a witness to which a log sends its heads.
type One struct {
	// URL is the part before /add-checkpoint.
	URL, Name string
	Key       ed25519.PublicKey
}

// ReadOne reads a witness from a text with its URL, a comma, and its verifier key.
func ReadOne(text string) (one One, err error) {
	url, key, _ := strings.Cut(text, ",")
	if !strings.HasPrefix(url, "http://") && !strings.HasPrefix(url, "https://") {
		return one, fmt.Errorf("%w: a witness is a URL, a comma and its verifier key", ErrKey)
	}
	one.URL = strings.TrimRight(url, "/")
	one.Name, one.Key, err = ReadVerifierKey(key)
	return one, err
}

// CheckDistinct returns ErrQuorum if two witnesses have the same name, key or URL, because one witness must not count
// twice.
func CheckDistinct(all []One) error {
	seen := map[string]bool{}
	for _, one := range all {
		for _, own := range []string{one.Name, string(one.Key), one.URL} {
			if seen[own] {
				return fmt.Errorf("%w: two witnesses have one name, key or URL: %s (name each witness once)",
					ErrQuorum, one.Name)
			}
			seen[own] = true
		}
	}
	return nil
}

// Quorums are numbers of witnesses: Publish must cosign a head before it is published, Start must cosign again the head
// with which a node starts, and at most Faults are faulty.
type Quorums struct{ Publish, Start, Faults int }

// IsSafe reports whether quorums of this many witnesses are safe: any two heads that they cosign belong to one list of
// entries (docs/WITNESS.md: is_safe).
func (q Quorums) IsSafe(witnesses int) bool { return witnesses+q.Faults < q.Start+q.Publish }

// Check returns ErrQuorum unless this many witnesses can have these quorums, and the quorums are safe.
func (q Quorums) Check(witnesses int) error {
	n := witnesses
	if q.Publish < 1 || q.Start < 1 || q.Faults < 0 || q.Publish > n || q.Start > n || !q.IsSafe(n) {
		return fmt.Errorf("%w: of %d witnesses, %d publish, %d start and %d may be faulty (%d + %d must be below "+
			"%d + %d)",
			ErrQuorum, n, q.Publish, q.Start, q.Faults, n, q.Faults, q.Start, q.Publish)
	}
	return nil
}
