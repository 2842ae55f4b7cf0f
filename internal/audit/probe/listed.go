package probe

import (
	"bytes"
	"context"
	"crypto/sha256"
	"crypto/x509"
	"encoding/json"
	"fmt"
	"io"
	"net/http"
	"strings"
	"time"

	"wagtenib/internal/watch/loglist"
)

// maxListed is the maximum number of bytes of /log.v3.json.
const maxListed = 1 << 20

// readListed reads the entry of one tiled log (log list schema v3), in the form of /log.v3.json.
func readListed(content []byte) (loglist.Log, error) {
	tiled := map[string]any{"tiled_logs": []json.RawMessage{content}}
	list, err := json.Marshal(map[string]any{"operators": []any{tiled}})
	if err != nil {
		return loglist.Log{}, fmt.Errorf("%w: %w", loglist.ErrForm, err)
	}
	found, err := loglist.Parse(list)
	if err != nil {
		return loglist.Log{}, err
	}
	return found.Logs[0], nil
}

// ReadExpected reads the expected entry of a log: a log list with one log (as `ctserve list-entry` writes it), or only
// the entry of one log.
func ReadExpected(content []byte) (loglist.Log, error) {
	list, err := loglist.Parse(content)
	if err != nil {
		return readListed(content)
	}
	if len(list.Logs) != 1 {
		return loglist.Log{}, fmt.Errorf("probe: the list has %d logs (write one log into the file)", len(list.Logs))
	}
	return list.Logs[0], nil
}

// lookSlowly checks the answers of a log that seldom change: its roots and its entry in /log.v3.json.
func (r *run) lookSlowly(ctx context.Context) {
	r.lookAtListed(ctx)
	if r.options.Roots != nil {
		r.lookAtRoots(ctx)
	}
}

// lookAtListed compares /log.v3.json with the expected entry, and with the checkpoint.
func (r *run) lookAtListed(ctx context.Context) {
	content, ok := r.read(ctx, r.options.SubmissionURL+"/log.v3.json", maxListed)
	if !ok {
		return
	}
	listed, err := readListed(content)
	if err != nil {
		r.recorder.fail(CheckListed, map[string][]byte{"log.v3.json": content}, "%v", err)
		return
	}
	r.recorder.pass(CheckListed, "%s", listed.Name)
	compare := func(name string, seen, want any) {
		if seen == want {
			r.recorder.pass(name, "%v", seen)
			return
		}
		r.recorder.fail(name, map[string][]byte{"log.v3.json": content}, "it has %v, and %v is expected", seen, want)
	}
	compare(CheckListedLogID, fmt.Sprintf("%x", listed.ID), fmt.Sprintf("%x", r.log.ID))
	if checkpoint, err := r.reads.Checkpoint(ctx); err == nil {
		origin, _, _ := strings.Cut(string(checkpoint), "\n")
		compare(CheckListedOrigin, listed.Origin, origin)
	}
	if r.options.Expected == nil {
		return
	}
	compare(CheckListedMergeDelay, listed.MaxMergeDelay, r.log.MaxMergeDelay)
	compare(CheckListedURL, listed.URL, r.log.URL)
	interval := func(log loglist.Log) string {
		if log.Start.IsZero() && log.End.IsZero() {
			return "no interval"
		}
		return log.Start.UTC().Format(time.RFC3339) + " to " + log.End.UTC().Format(time.RFC3339)
	}
	compare(CheckListedInterval, interval(listed), interval(r.log))
}

// lookAtRoots checks that get-roots has the expected roots.
func (r *run) lookAtRoots(ctx context.Context) {
	content, ok := r.read(ctx, r.options.SubmissionURL+"/ct/v1/get-roots", maxBody)
	if !ok {
		return
	}
	var answer struct {
		Certificates [][]byte `json:"certificates"`
	}
	if err := json.Unmarshal(content, &answer); err != nil {
		r.recorder.fail(CheckRoots, nil, "get-roots answers no JSON: %v", err)
		return
	}
	has := map[[32]byte]bool{}
	for _, root := range answer.Certificates {
		has[sha256.Sum256(root)] = true
	}
	missing := 0
	for _, root := range r.options.Roots {
		if fingerprint := sha256.Sum256(root); !has[fingerprint] {
			missing++
			r.recorder.fail(CheckRoots, map[string][]byte{"root": root},
				"get-roots lacks the root with SHA-256 %x (%s)", fingerprint, subjectOf(root))
		}
	}
	if missing == 0 {
		r.recorder.pass(CheckRoots, "%d roots, among them the %d that are expected", len(answer.Certificates),
			len(r.options.Roots))
	}
}

// subjectOf returns the subject of a certificate in DER, as text.
func subjectOf(der []byte) string {
	certificate, err := x509.ParseCertificate(der)
	if err != nil {
		return "its subject cannot be read"
	}
	return certificate.Subject.String()
}

// read returns the content at an address, if the answer has status 200. The meter counts failed requests. Other answers
// are not recorded here.
func (r *run) read(ctx context.Context, address string, maxBytes int64) ([]byte, bool) {
	request, err := http.NewRequestWithContext(ctx, http.MethodGet, address, nil)
	if err != nil {
		return nil, false
	}
	request.Header.Set("User-Agent", r.options.Client.UserAgent)
	response, err := r.submits.Do(request)
	if err != nil {
		return nil, false
	}
	defer response.Body.Close()
	content, err := io.ReadAll(io.LimitReader(response.Body, maxBytes))
	return bytes.Clone(content), err == nil && response.StatusCode == http.StatusOK
}
