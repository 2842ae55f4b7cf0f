package service

import (
	"context"
	"fmt"
	"net/http"
	"net/http/httptrace"
	"sync"
	"sync/atomic"
	"time"

	"golang.org/x/mod/sumdb/note"

	"wagtenib/internal/blob"
	"wagtenib/internal/log"
	"wagtenib/internal/witness"
)

// remote is a witness over HTTP (node.Witness). A call goes on after the node has enough cosignatures, so that a slow
// witness still cosigns the newest head, and is not taken for one that does not answer.
type remote struct {
	witness.Client
	counts  *counts
	sources *sources
	// turn has an element while a call is being made, and calls waits for the call's end.
	turn  chan struct{}
	calls sync.WaitGroup
	// isElsewhere is true if the witness answered from another machine, and so has another clock.
	isElsewhere atomic.Bool
}

func newRemote(of witness.One, counts *counts, sources *sources) *remote {
	client := &http.Client{Transport: &http.Transport{MaxIdleConnsPerHost: 2, IdleConnTimeout: time.Minute,
		TLSHandshakeTimeout: cosignWithin}}
	counts.witness(of.Name, func(*log.Witness) {})
	return &remote{Client: witness.Client{One: of, HTTP: client}, counts: counts, sources: sources,
		turn: make(chan struct{}, 1)}
}

// answered is the outcome of a call.
type answered struct {
	status int
	answer string
	err    error
}

// AddCheckpoint implements node.Witness. It returns when the context ends, even if the call goes on.
func (r *remote) AddCheckpoint(ctx context.Context, body []byte) (status int, answer string, err error) {
	select {
	case r.turn <- struct{}{}:
	case <-ctx.Done():
		err := fmt.Errorf("witness: %s has not answered for the previous head: %w", r.Name, ctx.Err())
		r.missed(err)
		return 0, "", err
	}
	outcomes := make(chan answered, 1)
	r.calls.Add(1)
	go func() {
		defer r.calls.Done()
		own, cancel := context.WithTimeout(context.WithoutCancel(ctx), cosignWithin)
		defer cancel()
		outcome := r.ask(own, body)
		<-r.turn
		outcomes <- outcome
	}()
	select {
	case outcome := <-outcomes:
		return outcome.status, outcome.answer, outcome.err
	case <-ctx.Done():
		return 0, "", fmt.Errorf("witness: %s: %w", r.Name, ctx.Err())
	}
}

// ask makes one call, and counts its outcome. A conflict is not counted: the node asks again, or reports that the
// witness is ahead.
func (r *remote) ask(ctx context.Context, body []byte) (outcome answered) {
	ctx = httptrace.WithClientTrace(ctx,
		&httptrace.ClientTrace{GotConn: func(info httptrace.GotConnInfo) {
			r.isElsewhere.Store(blob.IsElsewhere(info.Conn))
		}})
	before := r.sources.clock.Elapsed()
	outcome.status, outcome.answer, outcome.err = r.Client.AddCheckpoint(ctx, body)
	switch {
	case outcome.err != nil:
		r.missed(outcome.err)
	case outcome.status == http.StatusConflict || outcome.status == http.StatusUnprocessableEntity:
	case outcome.status != http.StatusOK:
		r.missed(fmt.Errorf("witness: %s answers %d: %.80q", r.Name, outcome.status, outcome.answer))
	case !r.isCosigned(body, outcome.answer):
		r.missed(fmt.Errorf("witness: %s answers no cosignature of its key", r.Name))
	default:
		if r.isElsewhere.Load() {
			r.sources.recordWitness(r.Name, outcome.answer, before)
		}
		r.counts.witness(r.Name, func(w *log.Witness) {
			*w = log.Witness{Name: r.Name, Cosigned: w.Cosigned + 1}
		})
	}
	return outcome
}

// isCosigned reports whether an answer is a cosignature of the request's checkpoint.
func (r *remote) isCosigned(body []byte, answer string) bool {
	of, err := witness.ParseRequest(body)
	if err != nil {
		return false
	}
	opened, err := note.Open([]byte(of.Text+"\n"+answer), note.VerifierList(r.Verifier()))
	return err == nil && len(opened.Sigs) == 1
}

// missed records why the witness did not cosign. It leaves IsAhead as it is, because a witness that does not answer is
// as far ahead as before.
func (r *remote) missed(err error) {
	r.counts.witness(r.Name, func(w *log.Witness) { w.Missed, w.Fault = w.Missed+1, err.Error() })
}

// state returns the witness's state for the log.
func (r *remote) state() log.Witness {
	r.counts.mu.Lock()
	defer r.counts.mu.Unlock()
	return r.counts.witnesses[r.Name]
}

// close waits for the last call, and closes the connections.
func (r *remote) close() {
	r.calls.Wait()
	r.HTTP.CloseIdleConnections()
}
