//go:build linux && (amd64 || arm64)

package wagtenib

// #cgo nocallback wagtenib_step_begin
// #cgo noescape wagtenib_step_begin
// #cgo nocallback wagtenib_step_needs
// #cgo noescape wagtenib_step_needs
// #cgo nocallback wagtenib_step
// #cgo noescape wagtenib_step
// #cgo nocallback wagtenib_step_claim
// #cgo noescape wagtenib_step_claim
// #cgo nocallback wagtenib_step_resume
// #cgo noescape wagtenib_step_resume
// #include "wagtenib.h"
import "C"

import (
	"encoding/binary"
	"errors"
	"fmt"
)

// MaxBatch is the maximum number of submissions of a step.
const MaxBatch = 4096

// ErrSubmission means that a submission has no encoding: a certificate has no bytes or more than 2^24 - 1, or the chain
// has more than 2,047 issuers.
var ErrSubmission = errors.New("wagtenib: a submission has a length that is not in range")

// Submission is an entry of a batch.
type Submission struct {
	Certificate    []byte // DER, of an entry of a certificate; then the next two are nil
	PreCertificate []byte // DER, of an entry of a precertificate
	TBSCertificate []byte // DER, of an entry of a precertificate (RFC 6962, section 3.2)
	IssuerKeyHash  Hash   // of an entry of a precertificate
	Chain          []Hash // SHA-256 fingerprints of the issuers
}

// Receipt is the position of an entry of a batch in the log.
type Receipt struct {
	LeafIndex uint64
	Timestamp uint64 // milliseconds since 1970
	Signed    []byte // what is signed for the SCT (RFC 6962, section 3.2), which is also the leaf
}

// Object is the position of an object in a bundle.
type Object struct {
	Name          string // as in "tile/0/000"
	Start, Length uint64 // the place of its content in the bundle
	Digest        Hash   // SHA-256 of its content
}

// Published has what a step publishes.
type Published struct {
	Signed     SignedBytes // what is signed for the head (RFC 6962, section 3.5)
	Checkpoint string      // the text of the checkpoint, without a signature (C2SP tlog-checkpoint)
	Objects    []Object    // the objects of the bundle, in order
}

// Step is a step of a log.
type Step struct {
	Published
	State    string // the new state
	Bundle   []byte
	Receipts []Receipt // one for each submission, in the batch's order; of a repeat that of the first
}

// appendVector appends the length of a part in 8 bytes, and the part.
func appendVector[T []byte | string](text []byte, part T) []byte {
	return append(binary.BigEndian.AppendUint64(text, uint64(len(part))), part...)
}

// appendCertificate appends the length of a certificate in 3 bytes, and the certificate.
func appendCertificate(text, certificate []byte) ([]byte, error) {
	n := len(certificate)
	if n == 0 || n >= 1<<24 {
		return nil, fmt.Errorf("%w: a certificate of %d bytes", ErrSubmission, n)
	}
	return append(append(text, byte(n>>16), byte(n>>8), byte(n)), certificate...), nil
}

// AppendSubmission appends a submission to a batch: a TileLeaf (C2SP static-ct-api) with the timestamp 0 and no
// extensions. It returns ErrSubmission if a length is not in range.
func AppendSubmission(batch []byte, s Submission) (_ []byte, err error) {
	if len(s.Chain) >= 2048 {
		return nil, fmt.Errorf("%w: %d fingerprints", ErrSubmission, len(s.Chain))
	}
	batch = append(batch, 0, 0, 0, 0, 0, 0, 0, 0)
	if s.Certificate != nil {
		if batch, err = appendCertificate(append(batch, 0, 0), s.Certificate); err != nil {
			return nil, err
		}
		batch = append(batch, 0, 0)
	} else {
		if batch, err = appendCertificate(append(append(batch, 0, 1), s.IssuerKeyHash[:]...), s.TBSCertificate); err != nil {
			return nil, err
		}
		if batch, err = appendCertificate(append(batch, 0, 0), s.PreCertificate); err != nil {
			return nil, err
		}
	}
	batch = binary.BigEndian.AppendUint16(batch, uint16(32*len(s.Chain)))
	for i := range s.Chain {
		batch = append(batch, s.Chain[i][:]...)
	}
	return batch, nil
}

// AppendContent appends the content of an object to an edge.
func AppendContent(edge, content []byte) []byte { return appendVector(edge, content) }

// answered makes a call that writes a result of unknown length, and returns a copy of the result.
func answered(room int, call func(out *C.uint8_t, room C.size_t, length *C.uint64_t) C.uint32_t) ([]byte, error) {
	out := make([]byte, room)
	var length C.uint64_t
	code := call(ofBytes(out), C.size_t(len(out)), &length)
	if code == C.WAGTENIB_NO_ROOM {
		out = make([]byte, length)
		code = call(ofBytes(out), C.size_t(len(out)), &length)
	}
	if err := result(code); err != nil {
		return nil, err
	}
	return out[:length:length], nil
}

// fields reads a result from its beginning.
type fields struct{ rest []byte }

// bytes returns the next bytes. The results of the library always have them.
func (f *fields) bytes(n uint64) []byte {
	part := f.rest[:n:n]
	f.rest = f.rest[n:]
	return part
}

func (f *fields) number() uint64 { return binary.BigEndian.Uint64(f.bytes(8)) }

func (f *fields) vector() []byte { return f.bytes(f.number()) }

// published reads what a step publishes.
func (f *fields) published() (p Published) {
	p.Signed = SignedBytes(f.bytes(TreeHeadBytes))
	p.Checkpoint = string(f.vector())
	for objects := (fields{f.vector()}); len(objects.rest) > 0; {
		p.Objects = append(p.Objects, Object{string(objects.vector()), objects.number(), objects.number(),
			Hash(objects.bytes(HashSize))})
	}
	return p
}

// StepBegin returns the state of a log without leaves at a timestamp in milliseconds. The error is nil or ErrMemory.
func StepBegin(timestamp uint64) (state string, err error) {
	reply, err := answered(512, func(out *C.uint8_t, room C.size_t, length *C.uint64_t) C.uint32_t {
		return C.wagtenib_step_begin(C.uint64_t(timestamp), out, room, length)
	})
	return string(reply), err
}

// StepNeeds returns the names of the objects whose contents a step from the state needs, in order. The error is nil,
// ErrState or ErrMemory.
func StepNeeds(state string) (names []string, err error) {
	reply, err := answered(512, func(out *C.uint8_t, room C.size_t, length *C.uint64_t) C.uint32_t {
		return C.wagtenib_step_needs(ofText(state), C.size_t(len(state)), out, room, length)
	})
	if err != nil {
		return nil, err
	}
	for f := (fields{reply}); len(f.rest) > 0; {
		names = append(names, string(f.vector()))
	}
	return names, nil
}

// MakeStep returns the step of a log with this origin from a state. The edge has the contents that the step needs,
// appended by AppendContent in the order of StepNeeds, and the batch has the submissions, appended by AppendSubmission.
// The timestamp now is in milliseconds.
//
// The error is nil or the first reason of ErrOrigin, ErrBatch, ErrTooMany, ErrState, ErrTimestampTooFar (now is more
// than maxAhead beyond the state's timestamp), ErrEdge, ErrEntries, ErrClockBack, ErrLogFull, ErrDataTileTooLong and
// ErrMemory.
func MakeStep(origin, state string, edge, batch []byte, now, maxAhead uint64) (*Step, error) {
	reply, err := answered(len(edge)+2*len(batch)+len(batch)/4+32768,
		func(out *C.uint8_t, room C.size_t, length *C.uint64_t) C.uint32_t {
			return C.wagtenib_step(ofText(origin), C.size_t(len(origin)), ofText(state), C.size_t(len(state)), ofBytes(edge),
				C.size_t(len(edge)), ofBytes(batch), C.size_t(len(batch)), C.uint64_t(now), C.uint64_t(maxAhead), out, room, length)
		})
	if err != nil {
		return nil, err
	}
	f := fields{reply}
	step := &Step{Published: f.published(), State: string(f.vector()), Bundle: f.vector()}
	for len(f.rest) > 0 {
		step.Receipts = append(step.Receipts, Receipt{f.number(), f.number(), f.vector()})
	}
	return step, nil
}

// StepClaim returns the bytes to sign for the SCT of a submission, appended by AppendSubmission. Its entry must have
// this timestamp and be the leaf at index: the path must lead from that leaf to the root of the state. The error is nil
// or the first reason of ErrBatch, ErrState, ErrClaim and ErrMemory.
func StepClaim(state string, index, timestamp uint64, path []Hash, submission []byte) (signed []byte, err error) {
	return answered(len(submission)+64, func(out *C.uint8_t, room C.size_t, length *C.uint64_t) C.uint32_t {
		return C.wagtenib_step_claim(ofText(state), C.size_t(len(state)), C.uint64_t(index), C.uint64_t(timestamp),
			ofHashes(path), C.size_t(len(path)), ofBytes(submission), C.size_t(len(submission)), out, room, length)
	})
}

// StepResume returns what was published by the step that led to a state, from the bundle of that step. The error is nil
// or the first reason of ErrOrigin, ErrState, ErrBundle and ErrMemory.
func StepResume(origin, state string, bundle []byte) (*Published, error) {
	reply, err := answered(16384, func(out *C.uint8_t, room C.size_t, length *C.uint64_t) C.uint32_t {
		return C.wagtenib_step_resume(ofText(origin), C.size_t(len(origin)), ofText(state), C.size_t(len(state)),
			ofBytes(bundle), C.size_t(len(bundle)), out, room, length)
	})
	if err != nil {
		return nil, err
	}
	f := fields{reply}
	p := f.published()
	return &p, nil
}
