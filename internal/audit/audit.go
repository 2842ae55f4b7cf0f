package audit

import (
	"context"
	"crypto/sha256"
	"crypto/x509"
	"fmt"
	"sync"

	"golang.org/x/crypto/cryptobyte"

	"wagtenib/bindings/go/wagtenib"
	"wagtenib/internal/ct"
	"wagtenib/internal/logclient"
	"wagtenib/internal/watch"
)

// Outcome is the outcome of the audit of a timestamp, from the best to the gravest.
type Outcome int

// The outcomes.
const (
	Included   Outcome = iota // the log has the leaf that it promised
	NotYet                    // the log does not have the leaf, but may still add it
	UnknownLog                // none of the given logs has this key
	NoAnswer                  // the log gives no answer, or a wrong one
	Unreadable                // the certificate or the timestamp cannot be read
	Overdue                   // the deadline is over, and the newest head, which is too old, was signed before it
	Future                    // the timestamp is later than the time at which it was seen
	LaterEntry                // the log has the leaf, which is later than the head that covers it
	Never                     // the log broke its promise, or did not sign the timestamp
)

// String returns the name of an outcome.
func (o Outcome) String() string {
	return [...]string{"included", "not yet", "unknown log", "no answer", "unreadable", "overdue", "future", "later entry",
		"never"}[o]
}

// Result holds the outcome of the audit of one timestamp.
type Result struct {
	SCT      ct.SCT
	Log      watch.Log // zero for UnknownLog
	Outcome  Outcome
	Index    uint64 // the index of the leaf, for Included
	TreeSize uint64 // the number of leaves of the log's newest head
	Text     string // what was found, in one sentence
	Evidence *watch.Evidence
}

// Auditor audits the timestamps of logs.
type Auditor struct {
	logs      map[watch.LogID]watch.Log
	options   logclient.Options
	times     *watch.Times
	readTimes sync.Once // reads the newest heads of all logs
}

// New returns an auditor of these logs.
func New(logs []watch.Log, options logclient.Options) *Auditor {
	a := &Auditor{logs: map[watch.LogID]watch.Log{}, options: options, times: watch.NewTimes(logs)}
	for _, log := range logs {
		a.logs[log.ID] = log
	}
	if a.options.Clock == nil {
		a.options.Clock = logclient.MachineClock{}
	}
	return a
}

// Certificate audits the timestamps in a certificate against their logs, all at once. The certificate and the one of
// its issuer are in DER. The library makes the leaf that each timestamp promises, and decides whether the log's path
// leads from it to the root that the log signed. The error is one of CertificateSCTs.
func (a *Auditor) Certificate(ctx context.Context, certificate, issuer []byte) ([]Result, error) {
	scts, err := CertificateSCTs(certificate)
	if err != nil {
		return nil, err
	}
	return a.each(ctx, scts, func(sct ct.SCT) ([]byte, error) {
		return wagtenib.PromisedLeaf(wagtenib.Promise{Certificate: certificate, Issuer: issuer, Timestamp: sct.Timestamp,
			Extensions: sct.Extensions})
	}), nil
}

// SCTs audits timestamps that a log returned for a submitted certificate, all at once. The certificate is in DER. If it
// has the poison extension, it is a precertificate, and the certificate of its final issuer must be given. Otherwise
// the certificate itself is the entry, and the issuer is ignored. The error wraps ErrCertificate.
func (a *Auditor) SCTs(ctx context.Context, scts []ct.SCT, certificate, issuer []byte) ([]Result, error) {
	_, tbs, isPrecertificate, err := extension(certificate, poison)
	if err != nil {
		return nil, err
	}
	content, header := certificate, []byte{0, 0}
	if isPrecertificate {
		if content, err = wagtenib.PrecertificateEntry(tbs); err != nil {
			return nil, fmt.Errorf("%w: %w", ErrCertificate, err)
		}
		parsed, err := x509.ParseCertificate(issuer)
		if err != nil {
			return nil, fmt.Errorf("%w: the issuer of a precertificate must be given: %v", ErrCertificate, err)
		}
		key := sha256.Sum256(parsed.RawSubjectPublicKeyInfo)
		header = append([]byte{0, 1}, key[:]...)
	}
	return a.each(ctx, scts, func(sct ct.SCT) ([]byte, error) { return Leaf(sct, header, content) }), nil
}

// Leaf returns the MerkleTreeLeaf of an entry (RFC 6962, section 3.4), which is also the text that its SCT signs. The
// header is the entry's type and, for a precertificate, the hash of its issuer's key. It returns an error if a part is
// too long.
func Leaf(sct ct.SCT, header, content []byte) ([]byte, error) {
	leaf := cryptobyte.NewBuilder([]byte{0, 0})
	leaf.AddUint64(sct.Timestamp)
	leaf.AddBytes(header)
	leaf.AddUint24LengthPrefixed(func(b *cryptobyte.Builder) { b.AddBytes(content) })
	leaf.AddUint16LengthPrefixed(func(b *cryptobyte.Builder) { b.AddBytes(sct.Extensions) })
	return leaf.Bytes()
}

// each audits timestamps at the same time, so that a slow log does not delay the others.
func (a *Auditor) each(ctx context.Context, scts []ct.SCT, leafOf func(ct.SCT) ([]byte, error)) []Result {
	results := make([]Result, len(scts))
	var running sync.WaitGroup
	for i, sct := range scts {
		running.Add(1)
		go func() {
			defer running.Done()
			results[i] = a.one(ctx, sct, leafOf)
		}()
	}
	running.Wait()
	return results
}

// one audits one timestamp.
func (a *Auditor) one(ctx context.Context, sct ct.SCT, leafOf func(ct.SCT) ([]byte, error)) Result {
	result := Result{SCT: sct}
	finish := func(outcome Outcome, format string, values ...any) Result {
		result.Outcome, result.Text = outcome, fmt.Sprintf(format, values...)
		return result
	}
	var ok bool
	if result.Log, ok = a.logs[sct.LogID]; !ok {
		return finish(UnknownLog, "no log that was given has the ID %x", sct.LogID)
	}
	leaf, err := leafOf(sct)
	if err != nil {
		return finish(Unreadable, "%v", err)
	}
	if err := ct.Verify(result.Log.PublicKey, leaf, sct.Signature); err != nil {
		return finish(Never, "the log's key did not sign the timestamp over this certificate: %v", err)
	}
	reader, err := watch.NewReader(result.Log, a.options)
	if err != nil {
		return finish(NoAnswer, "%v", err)
	}
	// A head that the log's key did not sign is no evidence against the log.
	head, err := reader.Head(ctx)
	if err != nil {
		return finish(NoAnswer, "%v", err)
	}
	result.TreeSize = head.TreeSize
	a.times.Add(result.Log.ID, head.Timestamp)
	found := promise{reader: reader, sct: sct, leaf: leaf, head: head}
	judged := found.judge(ctx)
	if judged.outcome == Included || judged.outcome == NotYet {
		judged = a.judgeTime(ctx, found, judged)
	}
	result.Index = judged.index
	if judged.files != nil {
		evidence, err := watch.NewEvidence(result.Log, a.options.Clock.Now(), judged.verdict, judged.text, judged.files)
		if err != nil {
			return finish(NoAnswer, "%v", err)
		}
		result.Evidence = &evidence
	}
	return finish(judged.outcome, "%s", judged.text)
}
