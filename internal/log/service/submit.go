package service

import (
	"context"
	"crypto/sha256"
	"errors"
	"fmt"

	"wagtenib/bindings/go/wagtenib"
	"wagtenib/internal/ct"
	"wagtenib/internal/log"
	"wagtenib/internal/log/chain"
	"wagtenib/internal/log/node"
)

// Submit implements log.Log. A duplicate is answered with the first timestamp of its entry, without waiting
// for a step. Other submissions wait for a step. If another node makes the steps, and the submission may be forwarded
// (log.IsForwarded), the error is log.ErrElsewhere.
func (l *Log) Submit(ctx context.Context, entry ct.Entry) (ct.SCT, error) {
	submission, err := submissionOf(entry)
	if err != nil {
		return ct.SCT{}, err
	}
	if l.node.IsEnding() {
		return ct.SCT{}, fault{log.ErrEnded, node.ErrEnded}
	}
	if err := l.node.Lasting(); err != nil {
		return ct.SCT{}, withKind(err)
	}
	if err := l.issuers.put(ctx, entry.Issuers); err != nil {
		return ct.SCT{}, l.why(ctx, err)
	}
	r := l.node.Request(submission)
	if l.config.Address != "" && !log.IsForwarded(ctx) {
		r.Movable()
	}
	for range maxKnown {
		sct, err := l.lookup(ctx, r)
		if err != nil {
			return ct.SCT{}, l.why(ctx, err)
		}
		if sct != nil {
			return *sct, nil
		}
		ticket, err := r.Enqueue()
		if err != nil {
			return ct.SCT{}, withKind(err)
		}
		answer, err := r.Wait(ctx, ticket)
		switch {
		case err != nil:
			return ct.SCT{}, err
		case answer.Err != nil:
			return ct.SCT{}, withKind(answer.Err)
		case !answer.Known:
			return answer.SCT, nil
		}
	}
	return ct.SCT{}, fault{log.ErrStore,
		errors.New("serve: the index has an index for the entry again and again, but the log does not have the entry there")}
}

// lookup looks a submission up. It limits the number of tiles that are read at once, because each may have megabytes.
func (l *Log) lookup(ctx context.Context, r *node.Request) (*ct.SCT, error) {
	candidate, err := r.Find(ctx)
	if err != nil || candidate == nil {
		return nil, err
	}
	select {
	case l.lookups <- struct{}{}:
	case <-ctx.Done():
		return nil, ctx.Err()
	}
	defer func() { <-l.lookups }()
	return r.Claim(ctx, candidate)
}

// why returns the error of a request. It is the context's error if that has ended, and otherwise an error of the log.
func (l *Log) why(ctx context.Context, err error) error {
	if ctx.Err() != nil {
		return fmt.Errorf("serve: %w", ctx.Err())
	}
	var damaged node.DamagedTile
	if errors.As(err, &damaged) {
		l.janitor.Note(damaged.Number, err)
	}
	return withKind(err)
}

// submissionOf returns an entry as a submission for a step. The error is log.ErrTooLarge if the entry has too
// many bytes.
func submissionOf(entry ct.Entry) (wagtenib.Submission, error) {
	var s wagtenib.Submission
	switch entry.Type {
	case ct.X509Entry:
		s.Certificate = entry.Certificate
	case ct.PrecertEntry:
		s.IssuerKeyHash, s.TBSCertificate, s.PreCertificate = entry.IssuerKeyHash, entry.TBSCertificate,
			entry.Precertificate
	default:
		return s, fmt.Errorf("%w: an entry of type %d", node.ErrConfig, entry.Type)
	}
	if bytes := len(s.Certificate) + len(s.PreCertificate) + len(s.TBSCertificate); bytes > MaxEntry {
		return s, fmt.Errorf("%w: it has %d bytes, and may have %d", log.ErrTooLarge, bytes, MaxEntry)
	}
	isWhole := len(s.Certificate) > 0 || len(s.PreCertificate) > 0 && len(s.TBSCertificate) > 0
	if !isWhole || len(entry.Issuers) > chain.MaxCertificates {
		return s, fmt.Errorf("%w: the entry is neither a certificate nor a precertificate, or its chain is too long",
			node.ErrConfig)
	}
	for _, issuer := range entry.Issuers {
		s.Chain = append(s.Chain, sha256.Sum256(issuer))
	}
	return s, nil
}
