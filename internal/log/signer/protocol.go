package signer

import (
	"bufio"
	"context"
	"encoding/json"
	"errors"
	"fmt"
	"io"
	"time"
	"wagtenib/internal/ct"
)

// A signer in a process of its own answers lines. Each request and each reply is one line with one JSON object.
const (
	// MaxLine is the maximum length of a line in bytes. MaxReceipts is the maximum number of timestamps in one request.
	MaxLine     = 64 << 20
	MaxReceipts = 4096
	// requestTimeout is the time that a request has to arrive, the time to answer it, and the time to send its reply.
	requestTimeout = 30 * time.Second
)

// request asks for one thing: the key, the last head, the signature of a head, or the signatures of a step's timestamps
// or of any timestamps.
type request struct {
	Open        bool         `json:"open,omitempty"`
	Last        bool         `json:"last,omitempty"`
	Head        *ct.HeadJSON `json:"head,omitempty"`
	Consistency [][]byte     `json:"consistency,omitempty"`
	// Step is written by appendStep.
	Step     *stepLine     `json:"step,omitempty"`
	Receipts []receiptLine `json:"receipts,omitempty"`
}

type stepLine struct {
	First    uint64   `json:"first_index"`
	Leaves   [][]byte `json:"leaf_inputs"`
	Subtrees [][]byte `json:"subtrees,omitempty"`
}

type receiptLine struct {
	Path  [][]byte `json:"audit_path,omitempty"`
	Index uint64   `json:"leaf_index"`
	Leaf  []byte   `json:"leaf_input"`
}

// reply holds the answer to a request, or the reason why there is none.
type reply struct {
	Key        []byte       `json:"key,omitempty"`
	Guarded    bool         `json:"guarded,omitempty"`
	Last       *ct.HeadJSON `json:"last,omitempty"`
	Signatures [][]byte     `json:"signatures,omitempty"`
	Refused    string       `json:"refused,omitempty"`
	Fault      string       `json:"fault,omitempty"`
	// Failed is the text of any other error. Moved is whether it is ErrMoved, and BadState whether it is ErrState.
	Failed   string `json:"failed,omitempty"`
	Moved    bool   `json:"moved,omitempty"`
	BadState bool   `json:"bad_state,omitempty"`
}

// parseHashes returns the hashes of a list of byte strings, each of which must have 32 bytes.
func parseHashes(texts [][]byte) ([][32]byte, error) {
	hashes := make([][32]byte, len(texts))
	for i, text := range texts {
		if copy(hashes[i][:], text) != len(text) || len(text) != 32 {
			return nil, fmt.Errorf("%w: a hash has %d bytes instead of 32", ErrReply, len(text))
		}
	}
	return hashes, nil
}

// hashBytes returns each hash as a byte string.
func hashBytes(hashes [][32]byte) [][]byte {
	texts := make([][]byte, 0, len(hashes))
	for i := range hashes {
		texts = append(texts, hashes[i][:])
	}
	return texts
}

// answer returns the signer's reply to a request's line.
func answer(ctx context.Context, s Signer, line []byte) (reply, error) {
	if step, ok := readStep(line); ok {
		return answerStep(ctx, s, step)
	}
	var req request
	if err := json.Unmarshal(line, &req); err != nil {
		return reply{}, fmt.Errorf("%w: %v", ErrReply, err)
	}
	switch {
	case req.Open:
		return reply{Key: s.Key(), Guarded: s.IsGuarded()}, nil
	case req.Last:
		last, err := s.Last(ctx)
		return reply{Last: ct.NewHeadJSON(last)}, err
	case req.Head != nil:
		head, err := req.Head.Head()
		if err != nil {
			return reply{}, fmt.Errorf("%w: %v", ErrReply, err)
		}
		proof, err := parseHashes(req.Consistency)
		if err != nil {
			return reply{}, err
		}
		signature, err := s.SignHead(ctx, *head, proof)
		return reply{Signatures: [][]byte{signature}}, err
	case req.Step != nil:
		subtrees, err := parseHashes(req.Step.Subtrees)
		if err != nil {
			return reply{}, err
		}
		return answerStep(ctx, s, Step{req.Step.First, subtrees, req.Step.Leaves})
	}
	var receipts []Receipt
	for _, receipt := range req.Receipts {
		path, err := parseHashes(receipt.Path)
		if err != nil {
			return reply{}, err
		}
		receipts = append(receipts, Receipt{receipt.Leaf, receipt.Index, path})
	}
	if err := checkCount(len(receipts)); err != nil {
		return reply{}, err
	}
	signatures, err := s.SignTimestamps(ctx, receipts)
	return reply{Signatures: signatures}, err
}

// answerStep returns the signer's reply to a request for the timestamps of a step.
func answerStep(ctx context.Context, s Signer, step Step) (reply, error) {
	if err := checkCount(len(step.Leaves)); err != nil {
		return reply{}, err
	}
	signatures, err := s.SignStep(ctx, step)
	return reply{Signatures: signatures}, err
}

// checkCount returns an error if a request is for too many timestamps.
func checkCount(timestamps int) error {
	if timestamps > MaxReceipts {
		return fmt.Errorf("%w: a request for %d timestamps, more than %d", ErrReply, timestamps, MaxReceipts)
	}
	return nil
}

// Serve answers requests until the reader ends.
func Serve(ctx context.Context, s Signer, from io.Reader, to io.Writer) error {
	lines := bufio.NewReaderSize(from, 1<<16)
	for {
		line, err := readLine(lines)
		if err != nil {
			if errors.Is(err, io.EOF) {
				return nil
			}
			return fmt.Errorf("signer: %w", err)
		}
		answering, cancel := context.WithTimeout(ctx, requestTimeout)
		rep, err := answer(answering, s, line)
		cancel()
		var refusal Refusal
		if errors.As(err, &refusal) {
			rep = reply{Refused: refusal.Name, Fault: refusal.Fault}
		} else if err != nil {
			rep = reply{Failed: err.Error(), Moved: errors.Is(err, ErrMoved), BadState: errors.Is(err, ErrState)}
		}
		text := appendSignatures(nil, rep.Signatures)
		if err != nil || len(rep.Signatures) == 0 {
			if text, err = json.Marshal(rep); err != nil {
				return fmt.Errorf("signer: %w", err)
			}
		}
		if _, err := to.Write(append(text, '\n')); err != nil {
			return fmt.Errorf("signer: %w", err)
		}
	}
}

// ServeState answers the first request with the reason why no signer can start: a fault of the guard's state. The
// process that started the signer then logs this reason.
func ServeState(reason error, from io.Reader, to io.Writer) error {
	if _, err := readLine(bufio.NewReader(from)); err != nil {
		return fmt.Errorf("signer: %w", err)
	}
	text, err := json.Marshal(reply{Failed: reason.Error(), BadState: true})
	if err == nil {
		_, err = to.Write(append(text, '\n'))
	}
	if err != nil {
		return fmt.Errorf("signer: %w", err)
	}
	return nil
}

// readLine reads a line of at most MaxLine bytes, and returns it without its line end.
func readLine(from *bufio.Reader) (line []byte, err error) {
	for {
		part, err := from.ReadSlice('\n')
		if len(line)+len(part) > MaxLine {
			return nil, fmt.Errorf("a line of more than %d bytes", MaxLine)
		}
		line = append(line, part...)
		if err == nil {
			return line[:len(line)-1], nil
		}
		if err != bufio.ErrBufferFull {
			return nil, err
		}
	}
}
