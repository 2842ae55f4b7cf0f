package probe

import (
	"bytes"
	"context"
	"encoding/json"
	"io"
	"net/http"
	"time"

	"wagtenib/internal/audit"
	"wagtenib/internal/ct"
)

// maxAnswer is the maximum number of bytes of an answer to a submission.
const maxAnswer = 64 << 10

// Submission holds a chain, and the entry that a log makes of it.
type Submission struct {
	Call   string   // "add-chain" or "add-pre-chain"
	Chain  [][]byte // DER, the certificate or precertificate first
	Header []byte   // the entry's type and, for a precertificate, the hash of its issuer's key
	Entry  []byte   // the certificate, or the TBSCertificate of the precertificate's entry
	Old    bool     // the log may already have the entry, so the SCT's timestamp may be old
}

// Submitter makes the chains that a probe submits.
type Submitter interface {
	// Next returns the next chain. The certificate expires at `start` or later, and before `end`, if these are not zero.
	Next(now, start, end time.Time) (Submission, error)
}

// submitNext submits the next chain, and adds the log's promise to r.promises.
func (r *run) submitNext(ctx context.Context) {
	submission, err := r.options.Submitter.Next(r.clock.Now(), r.log.Start, r.log.End)
	if err != nil {
		r.recorder.fail(CheckSubmission, nil, "there is nothing to submit: %v", err)
		return
	}
	asked := r.clock.Now()
	sct, ok := r.submit(ctx, submission)
	if !ok {
		return
	}
	r.recorder.pass(CheckSubmission, "%s: an SCT of %s", submission.Call, timeOf(sct.Timestamp))
	p := &promise{submission: submission, sct: sct, until: timeOf(sct.Timestamp).Add(r.log.MaxMergeDelay)}
	if !r.judgeSignature(p, &sct) {
		return
	}
	if !r.judgeTimestamp(p, asked) {
		return
	}
	var named bool
	if p.index, named = sct.Index(); !named {
		r.recorder.fail(CheckSCTIndex, p.evidence(), "the SCT names no index")
		return
	}
	r.promises = append(r.promises, p)
}

// submit submits a chain, and returns the SCT of the answer. If the log refuses the chain, it records a failure of the
// check. The meter counts the answers of a busy or failed server.
func (r *run) submit(ctx context.Context, submission Submission) (ct.SCT, bool) {
	body, err := json.Marshal(map[string][][]byte{"chain": submission.Chain})
	if err != nil {
		panic(err) // Bytes can always be encoded.
	}
	address := r.options.SubmissionURL + "/ct/v1/" + submission.Call
	request, err := http.NewRequestWithContext(ctx, http.MethodPost, address, bytes.NewReader(body))
	if err != nil {
		r.recorder.fail(CheckSubmission, nil, "%v", err)
		return ct.SCT{}, false
	}
	request.Header.Set("Content-Type", "application/json")
	request.Header.Set("User-Agent", r.options.Client.UserAgent)
	response, err := r.submits.Do(request)
	if err != nil {
		return ct.SCT{}, false
	}
	defer response.Body.Close()
	content, err := io.ReadAll(io.LimitReader(response.Body, maxAnswer))
	switch status := response.StatusCode; {
	case err != nil || status == http.StatusTooManyRequests || status >= http.StatusInternalServerError:
		return ct.SCT{}, false
	case status != http.StatusOK:
		r.recorder.fail(CheckSubmission, map[string][]byte{"chain": body},
			"%s: status %d: %.200q (check that the log accepts the root, and that its interval contains the expiry date)",
			submission.Call, status, content)
		return ct.SCT{}, false
	}
	scts, err := ct.ReadSCTs(content)
	if err != nil {
		r.recorder.fail(CheckSubmission, map[string][]byte{"answer": content}, "%s: %v", submission.Call, err)
		return ct.SCT{}, false
	}
	return scts[0], true
}

// judgeSignature checks that the log signed an SCT for a submission. It stores the leaf that the SCT promises in p.
func (r *run) judgeSignature(p *promise, sct *ct.SCT) bool {
	evidence := map[string][]byte{"sct": sct.Bytes(), "certificate": p.submission.Chain[0]}
	if sct.LogID != r.log.ID {
		r.recorder.fail(CheckSCTSignature, evidence, "the SCT has the log ID %x, and this is the log %x", sct.LogID,
			r.log.ID)
		return false
	}
	leaf, err := audit.Leaf(*sct, p.submission.Header, p.submission.Entry)
	if err == nil {
		err = ct.Verify(r.log.PublicKey, leaf, sct.Signature)
	}
	if err != nil {
		r.recorder.fail(CheckSCTSignature, evidence, "%v", err)
		return false
	}
	p.keep(leaf)
	r.recorder.pass(CheckSCTSignature, "%s at %s", p.submission.Call, timeOf(sct.Timestamp))
	return true
}

// judgeTimestamp compares the timestamp of a new SCT with the time at which the chain was submitted.
func (r *run) judgeTimestamp(p *promise, asked time.Time) bool {
	timestamp, now := timeOf(p.sct.Timestamp), r.clock.Now()
	if timestamp.After(now.Add(maxSkew)) || !p.submission.Old && timestamp.Before(asked.Add(-maxSkew)) {
		r.recorder.fail(CheckSCTTimestamp, p.evidence(),
			"the SCT is of %s, and the chain was submitted from %s to %s", timestamp,
			asked.UTC().Format(time.RFC3339Nano), now.UTC().Format(time.RFC3339Nano))
		return false
	}
	r.recorder.pass(CheckSCTTimestamp, "%s, submitted at %s", timestamp, asked.UTC().Format(time.RFC3339Nano))
	return true
}
