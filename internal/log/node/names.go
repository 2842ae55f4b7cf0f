package node

import (
	"crypto/sha256"
	"encoding/hex"
	"fmt"
	"strings"
	"time"

	"wagtenib/bindings/go/wagtenib"
	"wagtenib/internal/blob"
	"wagtenib/internal/ct"
	"wagtenib/internal/log/node/decider"
	"wagtenib/internal/log/node/step"
	"wagtenib/internal/tiles"
)

const (
	headsPrefix   = "heads/"
	stagingPrefix = "staging/"
	maxNote       = 16 << 10
	// checkpointName is the name of the newest head for readers without a node (C2SP tlog-tiles, "Checkpoints").
	checkpointName = "checkpoint"

	nodePrefix = "node "
	saltPrefix = "salt "
	nowhere    = "-"
)

// headName returns the name of a head's object. Names are in the order of states.
func headName(size, timestamp uint64) string {
	return fmt.Sprintf("%s%020d-%020d", headsPrefix, size, timestamp)
}

// headNamed reads a head's name.
func headNamed(name string) (size, timestamp uint64, err error) {
	_, err = fmt.Sscanf(strings.TrimPrefix(name, headsPrefix), "%020d-%020d", &size, &timestamp)
	if err != nil || headName(size, timestamp) != name {
		return 0, 0, fmt.Errorf("%w: %.100q is not the name of a head", ErrDamaged, name)
	}
	return size, timestamp, nil
}

// state is a text of the lock: three lines, which are a state's line, the node that set it, and a random number.
type state struct {
	step.State
	text, line string
	// look is the command of a node that read the text.
	look *decider.Command
	// node is the address of the node that set the text, or empty if that node has none.
	node string
	// readAt is when this node read the text first, by Elapsed.
	readAt time.Duration
}

// parseText reads a text of the lock.
func parseText(text string) (*state, error) {
	lines := strings.Split(text, "\n")
	if len(lines) != 4 || lines[3] != "" || !strings.HasPrefix(lines[1], nodePrefix) ||
		!strings.HasPrefix(lines[2], saltPrefix) {
		return nil, fmt.Errorf("%w: the lock's text is not one of a log: %.40q", ErrDamaged, text)
	}
	read, err := step.ParseState(lines[0])
	if err != nil {
		return nil, fmt.Errorf("%w: the lock's text: %v", ErrDamaged, err)
	}
	k := &state{State: read, text: text, line: lines[0], node: strings.TrimPrefix(lines[1], nodePrefix)}
	if k.node == nowhere {
		k.node = ""
	}
	return k, nil
}

// HeadName returns the name of the object that has a head.
func HeadName(of blob.Published) string { return headName(of.Size, of.Timestamp) }

// HeadIn returns the head of the state that a text of the lock names. The error is ErrDamaged if it is not one of a
// log.
func HeadIn(text string) (ct.TreeHead, error) {
	k, err := parseText(text)
	if err != nil {
		return ct.TreeHead{}, err
	}
	return k.TreeHead, nil
}

// Identity returns the identity of a leaf's entry: SHA-256 over its type, and the certificate, or the issuer's key hash
// and the TBSCertificate.
func Identity(leaf *ct.Leaf) blob.Identity {
	return identity(leaf.Type, leaf.IssuerKeyHash, leaf.Certificate)
}

// where returns this node's address as the lock's text has it.
func (c *Config) where() string {
	if c.Address == "" {
		return nowhere
	}
	return c.Address
}

// textAfter returns the lock's text of a step, and the name of its staged batch, as the decider makes them
// (docs/NODE.md).
func (c *Config) textAfter(before uint64, line string, to step.State, salt uint64) (text, staged string) {
	return fmt.Sprintf("%s\n%s%s\n%s%016x%016x\n", line, nodePrefix, c.where(), saltPrefix, before, salt),
		fmt.Sprintf("%s%016x%016x%016x", stagingPrefix, to.Timestamp, before, salt)
}

// follows reports whether a head may come after another one of the same history.
func follows(size, timestamp uint64, before ct.TreeHead) bool {
	return size >= before.TreeSize && timestamp > before.Timestamp
}

// reference names an object in the decider's commands: its name, and the digest of its content.
func reference(object step.Object) string {
	return object.Name + " " + hex.EncodeToString(object.Digest[:])
}

// identityOf returns SHA-256 over the parts of a submission that are in its leaf: the type, and the certificate, or the
// issuer's key hash and the TBSCertificate.
func identityOf(s wagtenib.Submission) blob.Identity {
	if len(s.Certificate) > 0 {
		return identity(ct.X509Entry, s.Certificate)
	}
	return identity(ct.PrecertEntry, s.IssuerKeyHash[:], s.TBSCertificate)
}

func identity(of ct.EntryType, what ...[]byte) (id blob.Identity) {
	hash := sha256.New()
	hash.Write([]byte{byte(of >> 8), byte(of)})
	for _, part := range what {
		hash.Write(part)
	}
	hash.Sum(id[:0])
	return id
}

// rowsIn returns the index's rows of all entries in a step's objects. A partial tile that grew has those of earlier
// steps as well.
func rowsIn(objects []step.Object) (rows []blob.Row, err error) {
	for _, object := range objects {
		if !strings.HasPrefix(object.Name, ct.DataTilePrefix) {
			continue
		}
		leaves, err := tiles.Leaves(object.Name, object.Content)
		if err != nil {
			return nil, err
		}
		for i := range leaves {
			l := &leaves[i]
			index, _ := l.Index()
			rows = append(rows, blob.Row{Identity: identity(l.Type, l.IssuerKeyHash, l.Certificate),
				Leaf: blob.Identity(l.Hash()), Place: blob.Place{Index: index, Timestamp: l.Timestamp}})
		}
	}
	return rows, nil
}
