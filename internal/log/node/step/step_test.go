package step

import (
	"bytes"
	"crypto/sha256"
	"errors"
	"strings"
	"testing"

	"wagtenib/bindings/go/wagtenib"
	"wagtenib/internal/testkit"
)

// origin is that of the log of these tests.
const origin = "log.example/tried"

var must = testkit.Must

// TestSteps makes two steps, from nothing and over an edge, and reads the second one's bundle both ways.
func TestSteps(t *testing.T) {
	c := New(origin)
	line, err := c.Begin(5)
	must(t, err)
	names, err := c.Needs(line)
	if err != nil || len(names) != 0 {
		t.Fatalf("%v, %v", names, err)
	}
	one, err := c.Step(line, nil, []wagtenib.Submission{{Certificate: []byte("one")}}, 7, MaxAhead)
	must(t, err)
	// The root of one leaf is the leaf's hash: by hand, from RFC 6962, sections 2.1 and 3.4, and static-ct-api's
	// extension.
	leaf := "\x00\x00\x00" + "\x00\x00\x00\x00\x00\x00\x00\x07" + "\x00\x00" + "\x00\x00\x03one" +
		"\x00\x08\x00\x00\x05\x00\x00\x00\x00\x00"
	if one.State.Root != sha256.Sum256([]byte(leaf)) || one.State.TreeSize != 1 ||
		string(one.Receipts[0].Signed) != leaf[1:] {
		t.Errorf("%+v", one)
	}
	names, err = c.Needs(one.Line)
	if err != nil || strings.Join(names, " ") != "tile/0/000.p/1 tile/data/000.p/1" {
		t.Fatalf("%v, %v", names, err)
	}
	objects := one.Objects
	edge := [][]byte{objects[0].Content, objects[1].Content}
	two, err := c.Step(one.Line, edge, []wagtenib.Submission{{PreCertificate: []byte("p"),
		TBSCertificate: []byte("t")}}, 8, MaxAhead)
	must(t, err)
	resumed, err := c.Resume(two.Line, two.Bundle)
	must(t, err)
	objects = two.Objects
	if len(objects) != 2 || len(resumed.Objects) != 2 || resumed.Checkpoint != two.Checkpoint {
		t.Fatalf("%+v and %+v", objects, resumed)
	}
	for i := range objects {
		if one, other := objects[i], resumed.Objects[i]; one.Name != other.Name ||
			!bytes.Equal(one.Content, other.Content) || one.Digest != other.Digest ||
			one.Digest != sha256.Sum256(one.Content) {
			t.Errorf("%s and %s", objects[i].Name, resumed.Objects[i].Name)
		}
	}
	// The path in a tree of two leaves is the other leaf's hash.
	first := sha256.Sum256([]byte(leaf))
	path, entry := [][32]byte{[32]byte(objects[0].Content[32:64])}, wagtenib.Submission{Certificate: []byte("one")}
	claimed, err := c.Claim(two.Line, 0, 7, path, entry)
	must(t, err)
	if string(claimed.Signed) != leaf[1:] || !bytes.Equal(objects[0].Content[:32], first[:]) {
		t.Errorf("%+v", claimed)
	}
	bent := append([]byte{}, edge[0]...)
	bent[3] ^= 1
	refusals := map[Refusal]func() error{
		Edge:      func() error { _, err := c.Step(one.Line, [][]byte{bent, edge[1]}, nil, 8, MaxAhead); return err },
		Entries:   func() error { _, err := c.Step(one.Line, [][]byte{edge[0], {1}}, nil, 8, MaxAhead); return err },
		TooFar:    func() error { _, err := c.Step(one.Line, edge, nil, 11, 3); return err },
		ClockBack: func() error { _, err := c.Step(one.Line, edge, nil, 7, MaxAhead); return err },
		BadState:  func() error { _, err := c.Needs("growth"); return err },
		Bundle:    func() error { _, err := c.Resume(two.Line, one.Bundle); return err },
		NoClaim:   func() error { _, err := c.Claim(two.Line, 1, 7, path, entry); return err },
	}
	for want, ask := range refusals {
		if err := ask(); !errors.Is(err, want) {
			t.Errorf("%v, and not %s", err, want)
		}
	}
	if _, err := c.Step(one.Line, edge, []wagtenib.Submission{{}}, 8, MaxAhead); !errors.Is(err, BadBatch) {
		t.Error(err)
	}
}

// TestOutOfMemory: the error of a function that is out of memory is returned, and nothing else.
func TestOutOfMemory(t *testing.T) {
	of := Proved()
	of.Step = func(string, string, []byte, []byte, uint64, uint64) (*wagtenib.Step, error) {
		return nil, wagtenib.ErrMemory
	}
	c := Over(origin, of)
	if stepped, err := c.Step(lineOf(1, 2), nil, nil, 3, 4); !errors.Is(err, wagtenib.ErrMemory) || stepped != nil {
		t.Errorf("%+v, %v", stepped, err)
	}
}

// oneEntry returns a stepper, a line of a log without entries, and the step of the first entry after it.
func oneEntry(t *testing.T) (c *Stepper, before string, first *Stepped) {
	t.Helper()
	c = New(origin)
	before, err := c.Begin(5)
	must(t, err)
	first, err = c.Step(before, nil, oneSubmission, 7, MaxAhead)
	must(t, err)
	return c, before, first
}

// oneSubmission is its batch.
var oneSubmission = []wagtenib.Submission{{Certificate: []byte("one")}}

// TestWrongStates: a state in a reply with one wrong field is refused, since it must follow from the request.
func TestWrongStates(t *testing.T) {
	line, right := oneReply(t)
	asked := func(state string) error {
		reply := *right
		reply.State = state
		_, err := steps(&reply).Step(line, nil, oneSubmission, 7, MaxAhead)
		return err
	}
	must(t, asked(right.State))
	// The offsets of the numbers and hashes in the line, in bytes.
	for what, at := range map[string]int{"the size": 7, "the timestamp": 15, "the root": 16, "the bundle's digest": 48,
		"the digest of the line before": 112} {
		digits := []byte(right.State)
		digit := &digits[len(growth)+2*at]
		if *digit++; *digit > '9' {
			*digit = '0'
		}
		if err := asked(string(digits)); !errors.Is(err, ErrReply) {
			t.Errorf("%s is another: %v", what, err)
		}
	}
}

// TestReceipts has a batch with repeats in it answered in its order, and a function reply other receipts than one for
// each submission.
func TestReceipts(t *testing.T) {
	c := New(origin)
	line, err := c.Begin(5)
	must(t, err)
	of := func(leaf string) wagtenib.Submission { return wagtenib.Submission{Certificate: []byte(leaf)} }
	before, err := c.Step(line, nil, []wagtenib.Submission{of("zero")}, 6, MaxAhead)
	must(t, err)
	edge := [][]byte{before.Objects[0].Content, before.Objects[1].Content}
	batch := []wagtenib.Submission{of("one"), of("two"), of("one"), of("three"), of("two")}
	right, err := c.Step(before.Line, edge, batch, 7, MaxAhead)
	must(t, err)
	for i, index := range []uint64{1, 2, 1, 3, 2} {
		first := map[uint64]int{1: 0, 2: 1, 3: 3}[index]
		if r := right.Receipts[i]; r.LeafIndex != index || !bytes.Equal(r.Signed, right.Receipts[first].Signed) ||
			!bytes.Contains(r.Signed, batch[i].Certificate) {
			t.Errorf("receipt %d is of entry %d", i, r.LeafIndex)
		}
	}
	if right.State.TreeSize != 4 {
		t.Errorf("%d entries", right.State.TreeSize)
	}
	reply, err := wagtenib.MakeStep(origin, before.Line, edgeBytes(edge), bytesOf(t, batch), 7, MaxAhead)
	must(t, err)
	for what, wrong := range map[string]func([]wagtenib.Receipt) []wagtenib.Receipt{
		"none":                  func(r []wagtenib.Receipt) []wagtenib.Receipt { return nil },
		"one too few":           func(r []wagtenib.Receipt) []wagtenib.Receipt { return r[:4] },
		"one too many":          func(r []wagtenib.Receipt) []wagtenib.Receipt { return append(r, r[4]) },
		"one of the log before": func(r []wagtenib.Receipt) []wagtenib.Receipt { r[2].LeafIndex = 0; return r },
		"one after the entries": func(r []wagtenib.Receipt) []wagtenib.Receipt { r[4].LeafIndex = 4; return r },
		"one farther after":     func(r []wagtenib.Receipt) []wagtenib.Receipt { r[4].LeafIndex = 5; return r },
		"one out of turn":       func(r []wagtenib.Receipt) []wagtenib.Receipt { r[1], r[3] = r[3], r[1]; return r },
		"an entry without one":  func(r []wagtenib.Receipt) []wagtenib.Receipt { r[3] = r[4]; return r },
		"of another timestamp":  func(r []wagtenib.Receipt) []wagtenib.Receipt { r[0].Timestamp++; return r },
		"nothing to be signed":  func(r []wagtenib.Receipt) []wagtenib.Receipt { r[4].Signed = nil; return r },
	} {
		bent := *reply
		bent.Receipts = wrong(append([]wagtenib.Receipt{}, reply.Receipts...))
		if _, err := steps(&bent).Step(before.Line, edge, batch, 7, MaxAhead); !errors.Is(err, ErrReply) {
			t.Errorf("%s: %v", what, err)
		}
	}
}

// bytesOf returns the bytes of a batch.
func bytesOf(t *testing.T, batch []wagtenib.Submission) []byte {
	t.Helper()
	text, err := batchBytes(batch)
	must(t, err)
	return text
}

// steps returns a stepper over a function that replies one step to every request.
func steps(reply *wagtenib.Step) *Stepper {
	of := Proved()
	of.Step = func(string, string, []byte, []byte, uint64, uint64) (*wagtenib.Step, error) { return reply, nil }
	return Over(origin, of)
}

// oneReply returns a line of a log without entries, and the proved function's reply with the first entry after it.
func oneReply(t *testing.T) (line string, reply *wagtenib.Step) {
	t.Helper()
	line, err := wagtenib.StepBegin(5)
	must(t, err)
	reply, err = wagtenib.MakeStep(origin, line, nil, bytesOf(t, oneSubmission), 7, MaxAhead)
	must(t, err)
	return line, reply
}

// TestReferences: a reference to other bytes of a bundle than an object's is refused.
func TestReferences(t *testing.T) {
	line, one := oneReply(t)
	right := one.Objects[0]
	bundle := string(one.Bundle)
	for what, wrong := range map[string]wagtenib.Object{
		"none that is published": {Name: "heads/1", Start: 3, Length: 4, Digest: sha256.Sum256([]byte(bundle[3:7]))},
		"after the end": {Name: "tile/0/000.p/1", Start: uint64(len(bundle)), Length: 1,
			Digest: sha256.Sum256(nil)},
		"farther than a number":   {Name: "tile/0/000.p/1", Start: 1, Length: 1<<64 - 1, Digest: sha256.Sum256(nil)},
		"begins after the end":    {Name: "tile/0/000.p/1", Start: 1<<64 - 1, Length: 1, Digest: sha256.Sum256(nil)},
		"one byte further":        {Name: right.Name, Start: right.Start + 1, Length: 32, Digest: right.Digest},
		"one byte less":           {Name: right.Name, Start: right.Start, Length: 31, Digest: right.Digest},
		"another object's digest": {Name: right.Name, Start: right.Start, Length: 32, Digest: one.Objects[1].Digest},
		"no digest":               {Name: right.Name, Start: right.Start, Length: 32},
	} {
		bent := *one
		bent.Objects = []wagtenib.Object{wrong}
		if _, err := steps(&bent).Step(line, nil, oneSubmission, 7, MaxAhead); !errors.Is(err, ErrReply) {
			t.Errorf("a step, %s: %v", what, err)
		}
		of := Proved()
		of.Resume = func(string, string, []byte) (*wagtenib.Published, error) { return &bent.Published, nil }
		if _, err := Over(origin, of).Resume(one.State, one.Bundle); !errors.Is(err, ErrReply) {
			t.Errorf("a bundle, %s: %v", what, err)
		}
	}
}

// TestTexts refuses what is no state and no bundle.
func TestTexts(t *testing.T) {
	zeros := strings.Repeat("0", 288)
	if s, err := ParseState("growth " + zeros); err != nil || !s.IsBegin() {
		t.Errorf("%+v, %v", s, err)
	}
	for _, line := range []string{"", "growth ", zeros, "growth " + zeros + "0", "growth " + zeros[1:] + "g",
		"growth " + zeros[1:] + "A", "Growth " + zeros, "growth " + zeros + "\n", "growth f" + zeros[1:]} {
		if s, err := ParseState(line); !errors.Is(err, ErrState) {
			t.Errorf("%q: %+v, %v", line, s, err)
		}
	}
}
