package wagtenib_test

import (
	"bytes"
	"crypto/sha256"
	"encoding/binary"
	"encoding/hex"
	"errors"
	"fmt"
	"strings"
	"testing"

	"golang.org/x/mod/sumdb/tlog"

	"wagtenib/bindings/go/wagtenib"
)

const stepOrigin = "log.example/steps"

// steppedLeaf returns the MerkleTreeLeaf of a submission (RFC 6962, section 3.4), whose only extension is its index
// (C2SP static-ct-api).
func steppedLeaf(s wagtenib.Submission, timestamp, index uint64) []byte {
	leaf := binary.BigEndian.AppendUint64([]byte{0, 0}, timestamp)
	signed := s.Certificate
	if signed != nil {
		leaf = append(leaf, 0, 0)
	} else {
		leaf, signed = append(append(leaf, 0, 1), s.IssuerKeyHash[:]...), s.TBSCertificate
	}
	leaf = append(append(leaf, byte(len(signed)>>16), byte(len(signed)>>8), byte(len(signed))), signed...)
	return append(leaf, 0, 8, 0, 0, 5, byte(index>>32), byte(index>>24), byte(index>>16), byte(index>>8), byte(index))
}

// submissionAt returns a generated submission.
func submissionAt(number int) wagtenib.Submission {
	if number%3 == 2 {
		return wagtenib.Submission{PreCertificate: fmt.Append(nil, "pre ", number),
			TBSCertificate: fmt.Append(nil, "tbs ", number), IssuerKeyHash: sha256.Sum256([]byte{1})}
	}
	return wagtenib.Submission{Certificate: fmt.Append(nil, "certificate ", number),
		Chain: make([]wagtenib.Hash, number%4)}
}

// batchOf returns the bytes of a batch.
func batchOf(t testing.TB, submissions ...wagtenib.Submission) (batch []byte) {
	t.Helper()
	for _, s := range submissions {
		var err error
		if batch, err = wagtenib.AppendSubmission(batch, s); err != nil {
			t.Fatal(err)
		}
	}
	return batch
}

// steppedLog is a log that grows by steps: its newest state, what it has published, and the hashes that tlog computes
// of its leaves.
type steppedLog struct {
	madeLog
	state   string
	objects map[string][]byte
}

// edge returns the edge that the next step needs.
func (l *steppedLog) edge(t testing.TB) (edge []byte) {
	t.Helper()
	names, err := wagtenib.StepNeeds(l.state)
	if err != nil {
		t.Fatal(err)
	}
	for _, name := range names {
		content, ok := l.objects[name]
		if !ok {
			t.Fatalf("%s is not published", name)
		}
		edge = wagtenib.AppendContent(edge, content)
	}
	return edge
}

// take publishes a step.
func (l *steppedLog) take(t testing.TB, step *wagtenib.Step) {
	t.Helper()
	for _, o := range step.Objects {
		content := step.Bundle[o.Start : o.Start+o.Length]
		if sha256.Sum256(content) != o.Digest {
			t.Errorf("%s has another digest", o.Name)
		}
		l.objects[o.Name] = content
	}
	l.state = step.State
}

// TestSteps makes steps of many sizes. Roots and tiles must be those of x/mod's tlog, and the signed bytes those of RFC
// 6962.
func TestSteps(t *testing.T) {
	log := steppedLog{objects: map[string][]byte{}}
	var err error
	if log.state, err = wagtenib.StepBegin(1000); err != nil {
		t.Fatal(err)
	}
	for number, count := range []int{1, 2, 253, 0, 300, 1, 255} {
		now, first := uint64(1001+number), uint64(len(log.leaves))
		var batch []wagtenib.Submission
		for range count {
			s := submissionAt(len(log.leaves))
			batch = append(batch, s)
			log.append(t, steppedLeaf(s, now, uint64(len(log.leaves))))
		}
		// This is the first submission again, with another chain.
		if count > 0 {
			again := batch[0]
			again.Chain = make([]wagtenib.Hash, 2047)
			batch = append(batch, again)
		}
		before := log.state
		step, err := wagtenib.MakeStep(stepOrigin, before, log.edge(t), batchOf(t, batch...), now, hour)
		if err != nil {
			t.Fatal(err)
		}
		size := uint64(len(log.leaves))
		root := log.root(t, size)
		signed := append(binary.BigEndian.AppendUint64(binary.BigEndian.AppendUint64([]byte{0, 1}, now), size), root[:]...)
		if !bytes.Equal(step.Signed[:], signed) {
			t.Fatalf("step %d: what is signed for the head is %x", number, step.Signed)
		}
		if want := fmt.Sprintf("%s\n%d\n%s\n", stepOrigin, size, tlog.Hash(root)); step.Checkpoint != want {
			t.Errorf("step %d: the checkpoint is %q", number, step.Checkpoint)
		}
		digests := [4][32]byte{root, sha256.Sum256(step.Bundle), {}, sha256.Sum256([]byte(before))}
		line := fmt.Sprintf("growth %016x%016x%x%x", size, now, digests[0], digests[1])
		if !strings.HasPrefix(step.State, line) || !strings.HasSuffix(step.State, hex.EncodeToString(digests[3][:])) ||
			len(step.State) != 295 {
			t.Errorf("step %d: the state is %s", number, step.State)
		}
		if len(step.Receipts) != len(batch) {
			t.Fatalf("step %d: %d receipts", number, len(step.Receipts))
		}
		for i, r := range step.Receipts {
			index := first + uint64(i)
			if i == count {
				index = first
			}
			if r.LeafIndex != index || r.Timestamp != now || !bytes.Equal(r.Signed, log.leaves[index]) {
				t.Errorf("step %d: receipt %d is of %d at %d", number, i, r.LeafIndex, r.Timestamp)
			}
		}
		log.take(t, step)
		published, err := wagtenib.StepResume(stepOrigin, step.State, step.Bundle)
		if err != nil || published.Signed != step.Signed || published.Checkpoint != step.Checkpoint ||
			fmt.Sprint(published.Objects) != fmt.Sprint(step.Objects) {
			t.Errorf("step %d: what is published is %+v, %v", number, published, err)
		}
	}
	size := uint64(len(log.leaves))
	for _, tile := range tlog.NewTiles(8, 0, int64(size)) {
		content, err := tlog.ReadTileData(tile, log.stored)
		if err != nil {
			t.Fatal(err)
		}
		name := strings.Replace(tile.Path(), "tile/8/", "tile/", 1)
		if !bytes.Equal(log.objects[name], content) {
			t.Errorf("%s is %d bytes", name, len(log.objects[name]))
		}
	}
	for _, index := range []uint64{0, 2, 255, 256, 600, size - 1} {
		timestamp, s := binary.BigEndian.Uint64(log.leaves[index][2:]), batchOf(t, submissionAt(int(index)))
		signed, err := wagtenib.StepClaim(log.state, index, timestamp, log.path(t, index, size), s)
		if err != nil || !bytes.Equal(signed, log.leaves[index]) {
			t.Errorf("entry %d: %x, %v", index, signed, err)
		}
		for what, claim := range map[string]func() ([]byte, error){
			"at another index": func() ([]byte, error) {
				return wagtenib.StepClaim(log.state, index^1, timestamp, log.path(t, index, size), s)
			},
			"at another timestamp": func() ([]byte, error) {
				return wagtenib.StepClaim(log.state, index, timestamp+1, log.path(t, index, size), s)
			},
			"at an index of 2^40": func() ([]byte, error) {
				return wagtenib.StepClaim(log.state, 1<<40, timestamp, log.path(t, index, size), s)
			},
			"another submission": func() ([]byte, error) {
				return wagtenib.StepClaim(log.state, index, timestamp, log.path(t, index, size),
					batchOf(t, submissionAt(int(index)+1)))
			},
			"without a path": func() ([]byte, error) { return wagtenib.StepClaim(log.state, index, timestamp, nil, s) },
		} {
			if signed, err := claim(); !errors.Is(err, wagtenib.ErrClaim) || signed != nil {
				t.Errorf("entry %d, %s: %x, %v", index, what, signed, err)
			}
		}
	}
	log.refuses(t)
}

// refuses checks each error of a step, by the argument that is wrong.
func (l *steppedLog) refuses(t *testing.T) {
	t.Helper()
	edge, one := l.edge(t), batchOf(t, submissionAt(1_000_000))
	bent := bytes.Clone(edge)
	bent[8] ^= 1
	data := bytes.Clone(edge)
	data[len(data)-1] ^= 1
	many := bytes.Repeat(one, wagtenib.MaxBatch+1)
	timestamped := bytes.Clone(one)
	timestamped[7] = 1
	extended := batchOf(t, wagtenib.Submission{Certificate: []byte("x")})
	extended = append(append(bytes.Clone(extended[:14]), 0, 1, 9), extended[16:]...)
	full := "growth " + fmt.Sprintf("%016x%016x", uint64(1)<<40, 5) + l.state[39:]
	for what, of := range map[string]struct {
		origin, state string
		edge, batch   []byte
		now, ahead    uint64
		due           error
	}{
		"nothing wrong":               {stepOrigin, l.state, edge, one, 2000, hour, nil},
		"as far ahead as is allowed":  {stepOrigin, l.state, edge, one, 2000, 2000 - 1007, nil},
		"no entries":                  {stepOrigin, l.state, edge, nil, 2000, hour, nil},
		"as many as a batch may have": {stepOrigin, l.state, edge, many[len(one):], 2000, hour, nil},
		"no origin":                   {"", l.state, edge, one, 2000, hour, wagtenib.ErrOrigin},
		"an origin of two lines":      {"log\n", l.state, edge, one, 2000, hour, wagtenib.ErrOrigin},
		"an origin that is no UTF-8":  {"log\xff", l.state, edge, one, 2000, hour, wagtenib.ErrOrigin},
		"a batch that is cut off":     {stepOrigin, l.state, edge, one[:len(one)-1], 2000, hour, wagtenib.ErrBatch},
		"a batch that goes on": {stepOrigin, l.state, edge, append(bytes.Clone(one), 0), 2000, hour,
			wagtenib.ErrBatch},
		"a timestamp in the batch":  {stepOrigin, l.state, edge, timestamped, 2000, hour, wagtenib.ErrBatch},
		"extensions in the batch":   {stepOrigin, l.state, edge, extended, 2000, hour, wagtenib.ErrBatch},
		"too many":                  {stepOrigin, l.state, edge, many, 2000, hour, wagtenib.ErrTooMany},
		"an edge that is no list":   {stepOrigin, l.state, edge[:len(edge)-1], one, 2000, hour, wagtenib.ErrEdge},
		"such an edge and no state": {stepOrigin, "growth", edge[:len(edge)-1], one, 2000, hour, wagtenib.ErrState},
		"such an edge too far ahead": {stepOrigin, l.state, edge[:len(edge)-1], one, 2000, 2000 - 1008,
			wagtenib.ErrTimestampTooFar},
		"no state":      {stepOrigin, l.state[1:], edge, one, 2000, hour, wagtenib.ErrState},
		"too far ahead": {stepOrigin, l.state, edge, one, 2000, 2000 - 1008, wagtenib.ErrTimestampTooFar},
		"a bent tile":   {stepOrigin, l.state, bent, one, 2000, hour, wagtenib.ErrEdge},
		"no edge":       {stepOrigin, l.state, nil, one, 2000, hour, wagtenib.ErrEdge},
		"one content too many": {stepOrigin, l.state, wagtenib.AppendContent(bytes.Clone(edge), nil), one, 2000, hour,
			wagtenib.ErrEdge},
		"a bent data tile":       {stepOrigin, l.state, data, one, 2000, hour, wagtenib.ErrEntries},
		"a clock that goes back": {stepOrigin, l.state, edge, one, 1007, hour, wagtenib.ErrClockBack},
		"a log of 2^40 leaves":   {stepOrigin, full, nil, one, 6, hour, wagtenib.ErrEdge},
	} {
		step, err := wagtenib.MakeStep(of.origin, of.state, of.edge, of.batch, of.now, of.ahead)
		if !errors.Is(err, of.due) || (err == nil) != (step != nil) {
			t.Errorf("%s: %v", what, err)
		}
	}
	for what, err := range map[string]error{
		"a state that is needed":    second(wagtenib.StepNeeds("growth")),
		"a state that is resumed":   second(wagtenib.StepResume(stepOrigin, "growth", nil)),
		"a state of a claim":        second(wagtenib.StepClaim("growth", 0, 0, nil, one)),
		"a claim of no submission":  second(wagtenib.StepClaim(l.state, 0, 0, nil, nil)),
		"a claim of two":            second(wagtenib.StepClaim(l.state, 0, 0, nil, append(bytes.Clone(one), one...))),
		"another bundle":            second(wagtenib.StepResume(stepOrigin, l.state, []byte("bundle"))),
		"no origin of what resumes": second(wagtenib.StepResume("", l.state, nil)),
	} {
		due := wagtenib.ErrState
		switch what {
		case "a claim of no submission", "a claim of two":
			due = wagtenib.ErrBatch
		case "another bundle":
			due = wagtenib.ErrBundle
		case "no origin of what resumes":
			due = wagtenib.ErrOrigin
		}
		if !errors.Is(err, due) {
			t.Errorf("%s: %v, and not %v", what, err, due)
		}
	}
}

// second returns the error of a call with two results.
func second[T any](_ T, err error) error { return err }

// TestSubmissionsInRange checks that a submission without an encoding is an error before a call.
func TestSubmissionsInRange(t *testing.T) {
	for what, s := range map[string]wagtenib.Submission{
		"nothing":            {},
		"no certificate":     {Certificate: []byte{}},
		"a long certificate": {Certificate: make([]byte, 1<<24)},
		"no precertificate":  {TBSCertificate: []byte("t")},
		"no TBSCertificate":  {PreCertificate: []byte("p")},
		"too many issuers":   {Certificate: []byte("x"), Chain: make([]wagtenib.Hash, 2048)},
	} {
		if batch, err := wagtenib.AppendSubmission(nil, s); !errors.Is(err, wagtenib.ErrSubmission) || batch != nil {
			t.Errorf("%s: %v", what, err)
		}
	}
}
