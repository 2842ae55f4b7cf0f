package step

import (
	"crypto/sha256"
	"encoding/binary"
	"encoding/hex"
	"errors"
	"fmt"
	"strings"
	"testing"

	"wagtenib/bindings/go/wagtenib"
)

// lineOf returns the line of a state with a size, a timestamp, and up to four hashes. The missing hashes are zero.
func lineOf(size, timestamp uint64, hashes ...[32]byte) string {
	line := fmt.Sprintf("growth %016x%016x", size, timestamp)
	for i := 0; i < 4; i++ {
		var hash [32]byte
		if i < len(hashes) {
			hash = hashes[i]
		}
		line += hex.EncodeToString(hash[:])
	}
	return line
}

// TestWrongBegins: the line of a log without entries has neither entries nor a bundle, and it has the timestamp that was
// requested.
func TestWrongBegins(t *testing.T) {
	begins := func(line string) *Stepper {
		of := Proved()
		of.Begin = func(uint64) (string, error) { return line, nil }
		return Over(origin, of)
	}
	root := sha256.Sum256(nil)
	right := lineOf(0, 5, root)
	if line, err := begins(right).Begin(5); err != nil || line != right {
		t.Fatalf("%s, %v", line, err)
	}
	for what, line := range map[string]string{"an entry": lineOf(1, 5, root), "another timestamp": lineOf(0, 6, root),
		"a bundle": lineOf(0, 5, root, [32]byte{1}), "no state": "growth"} {
		if _, err := begins(line).Begin(5); !errors.Is(err, ErrReply) {
			t.Errorf("%s: %v", what, err)
		}
	}
}

// TestWrongNeeds: a reply with a name that is not that of a tile is refused.
func TestWrongNeeds(t *testing.T) {
	needs := func(names ...string) *Stepper {
		of := Proved()
		of.Needs = func(string) ([]string, error) { return names, nil }
		return Over(origin, of)
	}
	line := lineOf(1, 5)
	if names, err := needs("tile/0/000.p/1", "tile/data/000.p/1").Needs(line); err != nil ||
		strings.Join(names, " ") != "tile/0/000.p/1 tile/data/000.p/1" {
		t.Errorf("%q, %v", names, err)
	}
	for _, name := range []string{"", "heads/1", "/tile/0/000", "issuer/00"} {
		if names, err := needs("tile/0/000.p/1", name).Needs(line); !errors.Is(err, ErrReply) || names != nil {
			t.Errorf("%q: %q, %v", name, names, err)
		}
	}
}

// signedOf returns the TreeHeadSignature of a head (RFC 6962, section 3.5).
func signedOf(size, timestamp uint64, root [32]byte) (signed wagtenib.SignedBytes) {
	signed[1] = 1
	binary.BigEndian.PutUint64(signed[2:], timestamp)
	binary.BigEndian.PutUint64(signed[10:], size)
	copy(signed[18:], root[:])
	return signed
}

// TestWrongHeads: a step's head, and one that is resumed, is the state's in each of its parts, and has a note.
func TestWrongHeads(t *testing.T) {
	bundle := []byte("a bundle")
	before := lineOf(3, 5)
	line := lineOf(3, 7, [32]byte{1}, sha256.Sum256(bundle), [32]byte{}, Digest(before))
	right := wagtenib.Published{Checkpoint: "a note", Signed: signedOf(3, 7, [32]byte{1})}
	for what, bend := range map[string]func(p *wagtenib.Published){
		"as it is":           func(*wagtenib.Published) {},
		"another size":       func(p *wagtenib.Published) { p.Signed[17]++ },
		"another timestamp":  func(p *wagtenib.Published) { p.Signed[9]++ },
		"another root":       func(p *wagtenib.Published) { p.Signed[49] ^= 1 },
		"another version":    func(p *wagtenib.Published) { p.Signed[0] = 1 },
		"a timestamp's type": func(p *wagtenib.Published) { p.Signed[1] = 0 },
		"no note":            func(p *wagtenib.Published) { p.Checkpoint = "" },
	} {
		bent := right
		bend(&bent)
		due := what == "as it is"
		if _, err := steps(&wagtenib.Step{Published: bent, State: line, Bundle: bundle}).Step(before, nil, nil, 7,
			MaxAhead); due != (err == nil) || !due && !errors.Is(err, ErrReply) {
			t.Errorf("a step's head has %s: %v", what, err)
		}
		of := Proved()
		of.Resume = func(string, string, []byte) (*wagtenib.Published, error) { return &bent, nil }
		if _, err := Over(origin, of).Resume(line, bundle); due != (err == nil) || !due && !errors.Is(err, ErrReply) {
			t.Errorf("a head that is resumed has %s: %v", what, err)
		}
	}
	// A reply that is right for another request is refused.
	whole := wagtenib.Step{Published: right, State: line, Bundle: bundle}
	for what, of := range map[string]struct {
		before string
		now    uint64
	}{"of another timestamp": {before, 8}, "of another size": {lineOf(2, 5), 7},
		"after another line": {lineOf(3, 6), 7}} {
		if _, err := steps(&whole).Step(of.before, nil, nil, of.now, MaxAhead); !errors.Is(err, ErrReply) {
			t.Errorf("a step %s: %v", what, err)
		}
	}
	whole.Bundle = []byte("another")
	if _, err := steps(&whole).Step(before, nil, nil, 7, MaxAhead); !errors.Is(err, ErrReply) {
		t.Errorf("a step with another bundle: %v", err)
	}
	if _, err := New(origin).Resume("growth", bundle); !errors.Is(err, ErrState) {
		t.Error(err)
	}
}

// TestWrongClaims: a receipt without bytes to sign is refused, and so is a submission that has no encoding.
func TestWrongClaims(t *testing.T) {
	of := Proved()
	of.Claim = func(string, uint64, uint64, []wagtenib.Hash, []byte) ([]byte, error) { return nil, nil }
	if receipt, err := Over(origin, of).Claim(lineOf(3, 7), 1, 6, nil,
		wagtenib.Submission{Certificate: []byte("x")}); !errors.Is(err, ErrReply) || receipt != nil {
		t.Errorf("%+v, %v", receipt, err)
	}
	c := New(origin)
	for what, s := range map[string]wagtenib.Submission{
		"nothing":            {},
		"too many issuers":   {Certificate: []byte("x"), Chain: make2048()},
		"no precertificate":  {TBSCertificate: []byte("t"), IssuerKeyHash: wagtenib.Hash{}},
		"a long certificate": {Certificate: make([]byte, 1<<24)},
	} {
		if _, err := c.Claim(lineOf(3, 7), 1, 6, nil, s); !errors.Is(err, BadBatch) {
			t.Errorf("%s: %v", what, err)
		}
		if _, err := c.Step(lineOf(0, 5, sha256.Sum256(nil)), nil, []wagtenib.Submission{{Certificate: []byte("x")}, s}, 6,
			MaxAhead); !errors.Is(err, BadBatch) {
			t.Errorf("%s: %v", what, err)
		}
	}
}

// make2048 returns one fingerprint more than a chain may have.
func make2048() []wagtenib.Hash { return make([]wagtenib.Hash, 2048) }

// TestClaimOfOne: the only entry of a log, which has no issuers, is claimed with an empty path.
func TestClaimOfOne(t *testing.T) {
	c, _, one := oneEntry(t)
	receipt, err := c.Claim(one.Line, 0, 7, nil, wagtenib.Submission{Certificate: []byte("one")})
	if err != nil || string(receipt.Signed) != string(one.Receipts[0].Signed) {
		t.Errorf("%+v, %v", receipt, err)
	}
	// Bytes that are appended to an object must not change the next one.
	for _, object := range one.Objects {
		if cap(object.Content) != len(object.Content) {
			t.Errorf("%s has room for %d bytes after it", object.Name, cap(object.Content)-len(object.Content))
		}
	}
}

// TestBounds: a state with the maximum number of entries is read, and one with more is refused.
func TestBounds(t *testing.T) {
	if s, err := ParseState(lineOf(MaxLeaves, 1)); err != nil || s.TreeSize != MaxLeaves || s.Timestamp != 1 {
		t.Errorf("%+v, %v", s, err)
	}
	if s, err := ParseState(lineOf(MaxLeaves+1, 1)); !errors.Is(err, ErrState) {
		t.Errorf("%+v, %v", s, err)
	}
}

// TestLinesThatAreNone: a step from or to a text that is not the line of a state is refused.
func TestLinesThatAreNone(t *testing.T) {
	bundle := []byte("a bundle")
	before := lineOf(3, 5)
	whole := wagtenib.Step{
		Published: wagtenib.Published{Checkpoint: "a note", Signed: signedOf(3, 7, [32]byte{1})},
		State:     lineOf(3, 7, [32]byte{1}, sha256.Sum256(bundle), [32]byte{}, Digest(before)), Bundle: bundle,
	}
	if _, err := steps(&whole).Step(before, nil, nil, 7, MaxAhead); err != nil {
		t.Fatal(err)
	}
	if _, err := steps(&whole).Step(before+"0", nil, nil, 7, MaxAhead); !errors.Is(err, ErrState) {
		t.Errorf("from no line: %v", err)
	}
	for _, line := range []string{"", "growth", whole.State + "0"} {
		other := whole
		other.State = line
		if _, err := steps(&other).Step(before, nil, nil, 7, MaxAhead); !errors.Is(err, ErrReply) {
			t.Errorf("to %q: %v", line, err)
		}
	}
}
