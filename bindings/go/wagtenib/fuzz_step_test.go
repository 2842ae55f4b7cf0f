package wagtenib_test

import (
	"bytes"
	"crypto/sha256"
	"encoding/binary"
	"errors"
	"fmt"
	"testing"

	"golang.org/x/crypto/cryptobyte"
	"golang.org/x/mod/sumdb/tlog"

	"wagtenib/bindings/go/wagtenib"
)

// readSubmission reads a submission: a TileLeaf (C2SP static-ct-api) with the timestamp 0 and no extensions.
func readSubmission(s *cryptobyte.String) (found wagtenib.Submission, ok bool) {
	var timestamp uint64
	var entryType uint16
	var keyHash []byte
	var signed, extensions, whole, chain cryptobyte.String
	ok = s.ReadUint64(&timestamp) && timestamp == 0 && s.ReadUint16(&entryType) && entryType <= 1 &&
		(entryType == 0 || s.ReadBytes(&keyHash, 32)) && s.ReadUint24LengthPrefixed(&signed) && len(signed) > 0 &&
		s.ReadUint16LengthPrefixed(&extensions) && extensions.Empty() &&
		(entryType == 0 || s.ReadUint24LengthPrefixed(&whole) && len(whole) > 0) && s.ReadUint16LengthPrefixed(&chain) &&
		len(chain)%32 == 0
	if !ok {
		return found, false
	}
	if entryType == 0 {
		found.Certificate = signed
	} else {
		found.TBSCertificate, found.PreCertificate, found.IssuerKeyHash = signed, whole, wagtenib.Hash(keyHash)
	}
	for ; len(chain) > 0; chain = chain[32:] {
		found.Chain = append(found.Chain, wagtenib.Hash(chain[:32]))
	}
	return found, true
}

// readBatch reads a batch of submissions.
func readBatch(batch []byte) (found []wagtenib.Submission, ok bool) {
	for s := cryptobyte.String(batch); !s.Empty(); {
		submission, ok := readSubmission(&s)
		if !ok {
			return nil, false
		}
		found = append(found, submission)
	}
	return found, true
}

// readEdge reads the contents of an edge, each after its length in 8 bytes.
func readEdge(edge []byte) (contents [][]byte, ok bool) {
	for len(edge) > 0 {
		if len(edge) < 8 || binary.BigEndian.Uint64(edge) > uint64(len(edge)-8) {
			return nil, false
		}
		end := 8 + binary.BigEndian.Uint64(edge)
		contents, edge = append(contents, edge[8:end]), edge[end:]
	}
	return contents, true
}

// threeLeaves returns a log of three leaves, and the contents of its edge.
func threeLeaves(t testing.TB) (log *steppedLog, contents [][]byte) {
	t.Helper()
	log = &steppedLog{objects: map[string][]byte{}}
	var err error
	if log.state, err = wagtenib.StepBegin(1000); err != nil {
		t.Fatal(err)
	}
	var batch []wagtenib.Submission
	for i := range 3 {
		batch = append(batch, submissionAt(i))
		log.append(t, steppedLeaf(batch[i], 1001, uint64(i)))
	}
	step, err := wagtenib.MakeStep(stepOrigin, log.state, nil, batchOf(t, batch...), 1001, hour)
	if err != nil {
		t.Fatal(err)
	}
	log.take(t, step)
	contents, _ = readEdge(log.edge(t))
	return log, contents
}

// edgeFault returns the expected error of a step with these contents of an edge, if the correct contents are right.
func edgeFault(contents, right [][]byte) error {
	switch {
	case len(contents) != len(right) || !bytes.Equal(contents[0], right[0]):
		return wagtenib.ErrEdge
	case !bytes.Equal(contents[1], right[1]):
		return wagtenib.ErrEntries
	}
	return nil
}

// FuzzStep makes a step of a log with three leaves, with any batch and any edge.
func FuzzStep(f *testing.F) {
	log, right := threeLeaves(f)
	edge, one := log.edge(f), batchOf(f, submissionAt(9))
	pre := batchOf(f, submissionAt(8), submissionAt(9), submissionAt(8), submissionAt(0))
	bent := func(of []byte, at int) []byte {
		of = bytes.Clone(of)
		of[(at+len(of))%len(of)] ^= 1
		return of
	}
	for _, seed := range [][2][]byte{{edge, nil}, {edge, one}, {edge, pre}, {edge, one[1:]},
		{edge, append(bytes.Clone(one), 0)}, {edge, bent(one, 7)}, {edge, bent(one, 9)}, {edge, bent(one, -1)},
		{nil, one}, {edge[:9], one}, {bent(edge, 0), one}, {bent(edge, 8), one}, {bent(edge, -1), one},
		{append(bytes.Clone(edge), make([]byte, 8)...), one}} {
		f.Add(seed[0], seed[1])
	}
	f.Fuzz(func(t *testing.T, edge, batch []byte) {
		submissions, isBatch := readBatch(batch)
		contents, isEdge := readEdge(edge)
		var due error
		switch {
		case !isBatch:
			due = wagtenib.ErrBatch
		case len(submissions) > wagtenib.MaxBatch:
			due = wagtenib.ErrTooMany
		case !isEdge:
			due = wagtenib.ErrEdge
		default:
			due = edgeFault(contents, right)
		}
		step, err := wagtenib.MakeStep(stepOrigin, log.state, edge, batch, 2000, hour)
		if !errors.Is(err, due) || (step == nil) != (due != nil) {
			t.Fatalf("%x with %x: %v, but %v is due", batch, edge, err, due)
		}
		if step != nil {
			stepIsOf(t, log, step, submissions)
		}
	})
}

// stepIsOf fails the test unless the step has a receipt and a leaf for each submission, only one leaf for equal
// submissions, and the root that tlog computes.
func stepIsOf(t *testing.T, log *steppedLog, step *wagtenib.Step, submissions []wagtenib.Submission) {
	t.Helper()
	grown := madeLog{append([][]byte{}, log.leaves...), append(storedHashes{}, log.stored...)}
	places := map[string]uint64{}
	if len(step.Receipts) != len(submissions) {
		t.Fatalf("%d receipts for %d submissions", len(step.Receipts), len(submissions))
	}
	for i, s := range submissions {
		key := fmt.Sprintf("%v %x %x %x", s.Certificate != nil, s.Certificate, s.IssuerKeyHash, s.TBSCertificate)
		index, isRepeat := places[key]
		if !isRepeat {
			index = uint64(len(grown.leaves))
			places[key] = index
			grown.append(t, steppedLeaf(s, 2000, index))
		}
		if r := step.Receipts[i]; r.LeafIndex != index || r.Timestamp != 2000 || !bytes.Equal(r.Signed, grown.leaves[index]) {
			t.Fatalf("receipt %d is of %d: %x", i, r.LeafIndex, r.Signed)
		}
	}
	size := uint64(len(grown.leaves))
	root := grown.root(t, size)
	if want := fmt.Sprintf("%s\n%d\n%s\n", stepOrigin, size, tlog.Hash(root)); step.Checkpoint != want {
		t.Fatalf("the checkpoint is %q, but %q is due", step.Checkpoint, want)
	}
	if step.Signed != signedBytes(wagtenib.TreeHead{TreeSize: size, Timestamp: 2000, Root: root}) {
		t.Fatalf("what is signed for the head is %x", step.Signed)
	}
	for _, o := range step.Objects {
		if sha256.Sum256(step.Bundle[o.Start:o.Start+o.Length]) != o.Digest {
			t.Fatalf("%s has another digest", o.Name)
		}
	}
}

// FuzzClaim claims an entry of a log with three leaves for any bytes.
func FuzzClaim(f *testing.F) {
	log, _ := threeLeaves(f)
	for i := range 4 {
		f.Add(batchOf(f, submissionAt(i)), uint64(i), uint64(1001))
	}
	f.Add(batchOf(f, submissionAt(0), submissionAt(1)), uint64(0), uint64(1001))
	f.Add([]byte(nil), uint64(1<<40), uint64(0))
	f.Fuzz(func(t *testing.T, submission []byte, index, timestamp uint64) {
		found, ok := readBatch(submission)
		var want []byte
		due := error(wagtenib.ErrClaim)
		switch {
		case !ok || len(found) != 1:
			due = wagtenib.ErrBatch
		case index < 3 && bytes.Equal(steppedLeaf(found[0], timestamp, index), log.leaves[index]):
			want, due = log.leaves[index], nil
		}
		signed, err := wagtenib.StepClaim(log.state, index, timestamp, log.path(t, index, 3), submission)
		if !errors.Is(err, due) || !bytes.Equal(signed, want) {
			t.Fatalf("%x at %d: %x, %v, but %v is due", submission, index, signed, err, due)
		}
	})
}
