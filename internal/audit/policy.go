package audit

import (
	"bytes"
	"errors"
	"fmt"
	"slices"
	"strings"

	"golang.org/x/mod/sumdb/note"

	"wagtenib/internal/watch"
	"wagtenib/internal/witness"
)

// ErrPolicy means that a policy of witnesses cannot be read, or can never be met.
var ErrPolicy = errors.New("audit: not a policy of witnesses")

// Policy holds witnesses, and how many of them must have cosigned a checkpoint (C2SP tlog-cosignature).
type Policy struct {
	verifiers []note.Verifier
	keys      []byte // one verifier key in each line
	quorum    int
}

// NewPolicy reads the verifier keys of witnesses (NAME+ID+KEY), one in each line. It ignores empty lines and lines that
// begin with #. The quorum is the number of witnesses that must have cosigned a checkpoint. The error is nil or wraps
// ErrPolicy.
func NewPolicy(keys []byte, quorum int) (*Policy, error) {
	p := &Policy{quorum: quorum}
	seen := map[string]bool{}
	for number, line := range strings.Split(string(keys), "\n") {
		line = strings.TrimSpace(line)
		if line == "" || strings.HasPrefix(line, "#") {
			continue
		}
		name, key, err := witness.ReadVerifierKey(line)
		if err != nil {
			return nil, fmt.Errorf("%w: line %d is no verifier key (write NAME+ID+KEY, as ctwitness --verifier-key "+
				"prints it): %v", ErrPolicy, number+1, err)
		}
		if seen[name] || seen[string(key)] {
			return nil, fmt.Errorf("%w: line %d: the witness %q is there twice", ErrPolicy, number+1, name)
		}
		seen[name], seen[string(key)] = true, true
		p.verifiers = append(p.verifiers, witness.OfCosigner(name, key))
		p.keys = append(p.keys, line+"\n"...)
	}
	if quorum < 1 || quorum > len(p.verifiers) {
		return nil, fmt.Errorf("%w: the quorum is %d, and there are %d witnesses", ErrPolicy, quorum, len(p.verifiers))
	}
	return p, nil
}

// Cosigners returns the names of the policy's witnesses that cosigned a checkpoint, each once.
func (p *Policy) Cosigners(checkpoint []byte) (names []string) {
	for _, verifier := range p.verifiers {
		if _, err := note.Open(checkpoint, note.VerifierList(verifier)); err == nil {
			names = append(names, verifier.Name())
		}
	}
	return names
}

// Check returns nil if enough witnesses cosigned a head, and otherwise a *watch.PolicyError. It is a value for
// watch.Options.Policy.
func (p *Policy) Check(head watch.Head) error {
	names := p.Cosigners(head.Signed)
	if len(names) >= p.quorum {
		return nil
	}
	text := fmt.Sprintf("the head of %d leaves is cosigned by %d witnesses (%s), and the policy requires %d of %d",
		head.TreeSize, len(names), strings.Join(names, ", "), p.quorum, len(p.verifiers))
	keys := fmt.Appendf(nil, "# quorum %d\n%s", p.quorum, p.keys)
	return &watch.PolicyError{Text: text, Files: map[string][]byte{watch.FileKeys: keys}}
}

// SplitHeads returns the heads in the bytes of a file: checkpoints after each other, or answers to get-sth, one in each
// line. It leaves out other text between checkpoints.
func SplitHeads(content []byte) (heads [][]byte) {
	if trimmed := bytes.TrimSpace(content); bytes.HasPrefix(trimmed, []byte("{")) {
		return bytes.Split(trimmed, []byte("\n"))
	}
	// A checkpoint has a text, an empty line, and lines with signatures. The text of the next checkpoint follows them.
	signature := []byte("— ")
	var one []byte
	inSignatures := false
	for _, line := range bytes.SplitAfter(content, []byte("\n")) {
		if inSignatures && !bytes.HasPrefix(line, signature) {
			heads, one, inSignatures = append(heads, slices.Clone(one)), nil, false
			if len(bytes.TrimSpace(line)) == 0 {
				continue
			}
		}
		one = append(one, line...)
		inSignatures = bytes.HasPrefix(line, signature)
	}
	if inSignatures {
		heads = append(heads, one)
	}
	return heads
}
