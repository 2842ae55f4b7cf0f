package audit

import (
	"context"
	"errors"
	"fmt"
	"net/http"
	"strconv"
	"strings"

	"golang.org/x/mod/sumdb/note"

	"wagtenib/bindings/go/wagtenib"
	"wagtenib/internal/watch"
	"wagtenib/internal/witness"
)

// The reasons why a witness does not cosign, for errors.Is.
var (
	// ErrWitnessBusy means that the witness cannot cosign now, or that it cosigns other heads at the same time.
	ErrWitnessBusy = errors.New("audit: the witness cannot cosign now")
	// ErrWitnessRefuses means that the witness refuses, or that its answer has no cosignature of its key.
	ErrWitnessRefuses = errors.New("audit: the witness does not cosign")
	// ErrWitnessSaw means that the witness cosigned another history of the log.
	ErrWitnessSaw = errors.New("audit: the witness cosigned another tree than this one began with")
)

// maxAttempts is the maximum number of requests to a witness for one head. Others may ask it at the same time, so the
// size from which it needs a proof can change.
const maxAttempts = 4

// Cosign asks a witness to cosign an accepted head of a tiled log (add-checkpoint; C2SP tlog-witness). It returns the
// checkpoint with the witness's signature line. If the checkpoint has that line already, it does not ask the witness.
func Cosign(ctx context.Context, reader *watch.Reader, head watch.Head, client witness.Client) ([]byte, error) {
	verifier := client.Verifier()
	if _, err := note.Open(head.Signed, note.VerifierList(verifier)); err == nil {
		return head.Signed, nil
	}
	var old uint64
	for range maxAttempts {
		proof, err := proofFrom(ctx, reader, old, head)
		if err != nil {
			return nil, err
		}
		body := witness.Request{Old: old, Proof: proof, Note: head.Signed}.Body()
		status, answer, err := client.AddCheckpoint(ctx, body)
		if err != nil {
			return nil, err
		}
		if status == http.StatusOK {
			return withLine(head.Signed, answer, verifier)
		}
		next, err := refused(status, answer, old, head)
		if err != nil {
			return nil, fmt.Errorf("%w: %s", err, client.Name)
		}
		old = next
	}
	return nil, fmt.Errorf("%w: %s names another size each time", ErrWitnessBusy, client.Name)
}

// refused reads the answer of a witness that did not cosign. It returns the size from which the next proof must start,
// or the reason why the witness cannot cosign.
func refused(status int, answer string, old uint64, head watch.Head) (uint64, error) {
	switch {
	case status == http.StatusConflict:
		size, err := strconv.ParseUint(strings.TrimSuffix(answer, "\n"), 10, 63)
		if err != nil {
			return 0, fmt.Errorf("%w: it answers 409 and no size", ErrWitnessRefuses)
		}
		if size > head.TreeSize {
			return 0, fmt.Errorf("%w: it cosigned %d leaves, and %d are accepted", ErrWitnessRefuses, size, head.TreeSize)
		}
		if size == old && old == head.TreeSize {
			return 0, ErrWitnessSaw
		}
		return size, nil
	case status == http.StatusUnprocessableEntity:
		return 0, ErrWitnessSaw
	case status == http.StatusServiceUnavailable || status == http.StatusTooManyRequests:
		return 0, fmt.Errorf("%w: status %d", ErrWitnessBusy, status)
	}
	return 0, fmt.Errorf("%w: status %d: %.80q", ErrWitnessRefuses, status, answer)
}

// proofFrom returns the proof from an older size to a head. It returns an error if the proof does not lead to the
// head's root: the witness would accuse the log, although a tile may only be damaged.
func proofFrom(ctx context.Context, reader *watch.Reader, old uint64, head watch.Head) ([][32]byte, error) {
	if old == 0 || old >= head.TreeSize {
		return nil, nil
	}
	proof, err := reader.Consistency(ctx, old, head.TreeSize)
	if err != nil {
		return nil, err
	}
	first, err := reader.Root(ctx, head, old)
	if err != nil {
		return nil, err
	}
	if fault := wagtenib.VerifyConsistency(old, head.TreeSize, first, head.Root, proof); fault != nil {
		return nil, fmt.Errorf("audit: the log's hash tiles do not lead from %d to %d leaves: %w", old, head.TreeSize, fault)
	}
	return proof, nil
}

// withLine returns a checkpoint with the line of a witness's answer that is its cosignature.
func withLine(signed []byte, answer string, verifier note.Verifier) ([]byte, error) {
	text, _, _ := strings.Cut(string(signed), "\n\n")
	for _, line := range strings.Split(answer, "\n") {
		if !strings.HasPrefix(line, "— "+verifier.Name()+" ") {
			continue
		}
		if _, err := note.Open([]byte(text+"\n\n"+line+"\n"), note.VerifierList(verifier)); err == nil {
			return append(append([]byte(nil), signed...), line+"\n"...), nil
		}
	}
	return nil, fmt.Errorf("%w: its answer has no line of its key", ErrWitnessRefuses)
}
