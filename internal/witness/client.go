package witness

import (
	"bytes"
	"context"
	"fmt"
	"io"
	"net/http"

	"golang.org/x/mod/sumdb/note"
)

// maxAnswer is the maximum number of bytes of an answer that a client reads.
const maxAnswer = 16 << 10

// Client sends requests to one witness over HTTP. Each call sends one request (C2SP tlog-witness).
type Client struct {
	One
	HTTP *http.Client
}

// Verifier returns the key of the witness's cosignatures.
func (c Client) Verifier() note.Verifier { return OfCosigner(c.Name, c.Key) }

// AddCheckpoint posts the body of an add-checkpoint request, and returns the status and the beginning of the answer's
// body. It waits until the context ends. It returns a redirect as it is: if it followed one, a witness could make the
// log's machine send a request to any address.
func (c Client) AddCheckpoint(ctx context.Context, body []byte) (status int, answer string, err error) {
	request, err := http.NewRequestWithContext(ctx, http.MethodPost, c.URL+"/add-checkpoint", bytes.NewReader(body))
	if err != nil {
		return 0, "", fmt.Errorf("witness: %s: %w", c.Name, err)
	}
	client := *c.HTTP
	client.CheckRedirect = func(*http.Request, []*http.Request) error { return http.ErrUseLastResponse }
	response, err := client.Do(request)
	if err != nil {
		return 0, "", fmt.Errorf("witness: %s: %w", c.Name, err)
	}
	defer response.Body.Close()
	text, err := io.ReadAll(io.LimitReader(response.Body, maxAnswer))
	if err != nil {
		return 0, "", fmt.Errorf("witness: %s: %w", c.Name, err)
	}
	return response.StatusCode, string(text), nil
}
