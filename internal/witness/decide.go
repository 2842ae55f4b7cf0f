package witness

import (
	"bytes"
	"errors"
	"fmt"
	"net/http"
	"strconv"

	"golang.org/x/mod/sumdb/tlog"

	"wagtenib/bindings/go/wagtenib"
)

// refusal has the name of a refusal, which is answered and counted, and its HTTP status (docs/WITNESS.md).
type refusal struct {
	name   string
	status int
}

// refusals maps each error of the proved decision that is the client's fault to its refusal.
var refusals = map[wagtenib.Code]refusal{
	wagtenib.ErrNoCheckpoint:  {"no-checkpoint", http.StatusBadRequest},
	wagtenib.ErrOldAbove:      {"old-above", http.StatusBadRequest},
	wagtenib.ErrNotLast:       {"not-last", http.StatusConflict},
	wagtenib.ErrFork:          {"fork", http.StatusConflict},
	wagtenib.ErrProofNotEmpty: {"proof-not-empty", http.StatusUnprocessableEntity},
	wagtenib.ErrEmptyPath:     {"inconsistent", http.StatusUnprocessableEntity},
	wagtenib.ErrPathTooLong:   {"inconsistent", http.StatusUnprocessableEntity},
	wagtenib.ErrPathTooShort:  {"inconsistent", http.StatusUnprocessableEntity},
	wagtenib.ErrFirstMismatch: {"inconsistent", http.StatusUnprocessableEntity},
	wagtenib.ErrRootMismatch:  {"inconsistent", http.StatusUnprocessableEntity},
}

// faults maps the errors of a consistency proof to the names that follow "inconsistent" in an answer (docs/WITNESS.md).
var faults = map[wagtenib.Code]string{
	wagtenib.ErrEmptyPath: "empty-path", wagtenib.ErrPathTooLong: "path-too-long",
	wagtenib.ErrPathTooShort:  "path-too-short",
	wagtenib.ErrFirstMismatch: "first-mismatch", wagtenib.ErrRootMismatch: "root-mismatch",
}

// decision returns the message to cosign for a request over a state, or an error that is a wagtenib.Code.
type decision func(last state, r Request, now uint64) (message []byte, err error)

// provedDecision is the decision of the proved library.
func provedDecision(last state, r Request, now uint64) (message []byte, err error) {
	if last.message == nil {
		return wagtenib.WitnessFirst(last.origin, r.Text, r.Old, r.Proof, now)
	}
	return wagtenib.WitnessCosign(last.message, r.Text, r.Old, r.Proof, now)
}

// next returns the state after a request, or the refusal as an error that is a wagtenib.Code. A message that was
// decided is used only if it is the message of this timestamp and this checkpoint, and x/mod's tlog package also finds
// that the proof leads to the checkpoint's tree. Otherwise the error is ErrDecision.
func (s *Server) next(last state, r Request, now uint64) (next state, err error) {
	message, err := s.decision(last, r, now)
	if err != nil {
		return state{}, err
	}
	wrong := func(why string) (state, error) {
		return state{}, fmt.Errorf("%w: %s: %.200q", ErrDecision, why, message)
	}
	of, err := wagtenib.ReadCheckpoint(r.Text)
	if err != nil || of.Origin != last.origin {
		return wrong("the request has no checkpoint of the log")
	}
	if !bytes.Equal(message, Message(now, r.Text)) {
		return wrong("the message is not that of this checkpoint and time")
	}
	if err := checkConsistent(last.tree, r, of); err != nil {
		return wrong(err.Error())
	}
	return state{origin: last.origin, message: message, tree: wagtenib.WitnessedTree{TreeSize: of.TreeSize, Time: now,
		Root: of.Root}}, nil
}

// checkConsistent returns an error if a request does not lead from the last tree to the checkpoint's tree.
func checkConsistent(last wagtenib.WitnessedTree, r Request, of wagtenib.Checkpoint) error {
	switch {
	case r.Old != last.TreeSize || of.TreeSize < last.TreeSize:
		return errors.New("the request's old size is not that of the last tree")
	case of.TreeSize == last.TreeSize && last.Root != of.Root:
		return errors.New("the checkpoint is a fork of the last tree")
	case of.TreeSize == last.TreeSize || last.TreeSize == 0:
		return nil
	}
	proof := make(tlog.TreeProof, len(r.Proof))
	for i := range r.Proof {
		proof[i] = r.Proof[i]
	}
	return tlog.CheckTree(proof, int64(of.TreeSize), of.Root, int64(last.TreeSize), last.Root)
}

// refused returns the answer to an error of a decision.
func (s *Server) refused(last state, err error) answer {
	var code wagtenib.Code
	if !errors.As(err, &code) {
		return s.failed("decision", last.origin, err)
	}
	of, isOfClient := refusals[code]
	switch {
	case code == wagtenib.ErrState || code == wagtenib.ErrOtherOrigin:
		return s.failed("state", last.origin, err)
	case code == wagtenib.ErrTimeFalls:
		return s.failed("clock", last.origin, fmt.Errorf("%w: %v", ErrClock, err))
	case !isOfClient:
		return s.failed("decision", last.origin, err)
	}
	s.metrics.refused(last.origin, of.name)
	text := of.name
	if fault := faults[code]; fault != "" {
		text += " " + fault
	}
	if of.status == http.StatusConflict {
		return answer{of.status, "text/x.tlog.size", strconv.FormatUint(last.tree.TreeSize, 10) + "\n"}
	}
	return plain(of.status, text+"\n")
}
