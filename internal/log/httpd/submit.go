package httpd

import (
	"context"
	"encoding/json"
	"errors"
	"io"
	"net/http"
	"net/netip"
	"slices"

	"wagtenib/internal/ct"
	"wagtenib/internal/log/chain"
)

func (f *Front) addChain(w http.ResponseWriter, r *http.Request) error {
	return f.add(w, r, f.checker.Certificate)
}

func (f *Front) addPreChain(w http.ResponseWriter, r *http.Request) error {
	return f.add(w, r, f.checker.Precertificate)
}

// chainCheck checks a chain, and makes an entry from it.
type chainCheck func(chain [][]byte) (*ct.Entry, error)

func (f *Front) add(w http.ResponseWriter, r *http.Request, check chainCheck) error {
	if f.ending.Load() {
		return refusal{status: http.StatusServiceUnavailable, name: "ended", after: 10, closes: true}
	}
	if f.options.ReadOnly {
		return refusal{status: http.StatusForbidden, name: "read-only",
			detail: "the log accepts no more submissions", closes: true}
	}
	client := f.clientOf(r)
	body, taken, err := f.body(r, client)
	// The entry, which is kept, has fewer bytes than the request. The request's bytes count until the response.
	defer f.uses.waiting.give(taken)
	defer f.uses.waitingByClient.giveSome(client, int(taken))
	if err != nil {
		return err
	}
	ctx, cancel := context.WithTimeout(r.Context(), f.limits.Submission)
	defer cancel()
	return f.submit(ctx, w, r, client, body, check)
}

// maxPiece is the maximum number of bytes that are allocated for a body before they were received.
const maxPiece = 16 << 10

// body reads a submission, and returns how many bytes of the budget it took. It refuses a body without a
// Content-Length, because no client of logs sends one.
func (f *Front) body(r *http.Request, client netip.Addr) (body []byte, taken int64, err error) {
	if r.ContentLength < 0 {
		return nil, 0, refusal{status: http.StatusLengthRequired, name: "length-required", closes: true}
	}
	if r.ContentLength > MaxBody {
		return nil, 0, refusal{status: http.StatusRequestEntityTooLarge, name: "body-too-large", closes: true}
	}
	if connection, ok := r.Context().Value(openKey{}).(*open); ok {
		f.uses.connections.setReading(connection, true)
		defer f.uses.connections.setReading(connection, false)
	}
	body = make([]byte, 0, min(r.ContentLength+1, maxPiece))
	for {
		if len(body) == cap(body) {
			body = slices.Grow(body, maxPiece)
		}
		n, err := r.Body.Read(body[len(body):cap(body)])
		if n > 0 {
			// The received bytes count, and not the announced ones. So a client that sends nothing holds nothing.
			if !f.uses.waitingByClient.takeSome(client, n) {
				return nil, taken, refusal{status: http.StatusTooManyRequests, name: "too-many-bytes",
					after: 1, closes: true}
			}
			if !f.uses.waiting.take(int64(n)) {
				f.uses.waitingByClient.giveSome(client, n)
				return nil, taken, refusal{status: http.StatusServiceUnavailable, name: "busy", after: 1, closes: true}
			}
			taken += int64(n)
			body = body[:len(body)+n]
		}
		if errors.Is(err, io.EOF) {
			return body, taken, nil
		}
		if err != nil {
			return nil, taken, refusal{status: http.StatusRequestTimeout, name: "body-broken-off",
				closes: true, why: err}
		}
	}
}

// checked checks a submission and makes an entry from it. It waits while Limits.Checks others are being checked.
func (f *Front) checked(ctx context.Context, body []byte, check chainCheck) (*ct.Entry, error) {
	select {
	case f.uses.checks <- struct{}{}:
	case <-ctx.Done():
		return nil, ctx.Err()
	}
	defer func() { <-f.uses.checks }()
	var submission struct {
		Chain [][]byte `json:"chain"`
	}
	if err := json.Unmarshal(body, &submission); err != nil {
		return nil, refusal{status: http.StatusBadRequest, name: "no-submission",
			detail: "the body is not a JSON object with the chain as a list of base64 strings"}
	}
	return check(submission.Chain)
}

// encodedRoots is the answer to get-roots for some roots.
type encodedRoots struct {
	roots *chain.Roots
	text  []byte
}

func (f *Front) getRoots(w http.ResponseWriter, r *http.Request) error {
	roots, encoded := f.checker.Roots(), f.roots.Load()
	if encoded == nil || encoded.roots != roots {
		text, err := json.Marshal(struct {
			Certificates [][]byte `json:"certificates"`
		}{roots.Certificates()})
		if err != nil {
			return err
		}
		encoded = &encodedRoots{roots, append(text, '\n')}
		f.roots.Store(encoded)
	}
	w.Header().Set("Cache-Control", "public, max-age=60")
	write(w, http.StatusOK, "application/json", encoded.text)
	return nil
}
