package judge

import (
	"bytes"
	"crypto"
	"crypto/ecdsa"
	"crypto/rsa"
	"crypto/sha256"
	"crypto/x509"
	"encoding/base64"
	"encoding/binary"
	"encoding/json"
	"errors"
	"fmt"
	"io/fs"
	"os"
	"path/filepath"
	"strconv"
	"strings"
	"time"
)

// about is the content of the file evidence.json: the monitor's statement, and the log's parameters.
type about struct {
	Verdict       string `json:"verdict"`
	Time          string `json:"time"`
	Origin        string `json:"origin"`
	Key           []byte `json:"key"`
	MaxMergeDelay uint64 `json:"max_merge_delay"` // milliseconds
}

// evidence has the files of a folder by their names, and the content of evidence.json.
type evidence struct {
	about
	files map[string][]byte
	key   crypto.PublicKey
}

// ErrEvidence means that the files do not show what evidence.json says.
var ErrEvidence = errors.New("check: the evidence does not show this")

func notShown(format string, arguments ...any) error {
	return fmt.Errorf("%w: "+format, append([]any{ErrEvidence}, arguments...)...)
}

// maxEvidenceFile is the maximum number of bytes of a file of evidence. The largest file is a data tile.
const maxEvidenceFile = 64 << 20

// judges maps each verdict in evidence.json to the function that checks it.
var judges = map[string]func(*evidence) (string, error){
	"fork": (*evidence).fork, "shrunk": (*evidence).shrunk, "not later": (*evidence).notLater,
	"other history": (*evidence).otherHistory, "not proved": (*evidence).notProved,
	"other root": (*evidence).otherRoot, "late merge": (*evidence).lateMerge, "later " +
		"entry": (*evidence).laterEntry, "wrong index": (*evidence).wrongIndex,
	"no leaf": (*evidence).noLeaf, "damaged tile": (*evidence).damagedTile, "old head": (*evidence).oldHead, "bad " +
		"signature": (*evidence).badSignature,
	"broken promise": (*evidence).brokenPromise, "few " +
		"cosignatures": (*evidence).fewCosigned, "entry": (*evidence).logged, "future promise": (*evidence).futurePromise,
	"overdue promise": (*evidence).overduePromise, "withheld entries": (*evidence).withheld,
}

// Evidence checks a folder of evidence against a log (evidence.json, head-1, head-2, leaf, tile, proof.json) by the
// log's public key, a SubjectPublicKeyInfo in DER. The key must come from the reader's own source, such as a log list,
// and must be the one in evidence.json. Evidence returns a sentence that says what the files show, and what must be
// believed. The error wraps ErrEvidence if the files do not show it.
func Evidence(folder string, key []byte) (shown string, err error) {
	e := &evidence{files: map[string][]byte{}}
	entries, err := os.ReadDir(folder)
	if err != nil {
		return "", err
	}
	for _, entry := range entries {
		if entry.Type()&fs.ModeType != 0 {
			continue
		}
		name := filepath.Join(folder, entry.Name())
		info, err := os.Stat(name)
		if err != nil {
			return "", err
		}
		if info.Size() > maxEvidenceFile {
			return "", fmt.Errorf("check: %s has more than %d bytes", name, maxEvidenceFile)
		}
		if e.files[entry.Name()], err = os.ReadFile(name); err != nil {
			return "", err
		}
	}
	if err := json.Unmarshal(e.files["evidence.json"], &e.about); err != nil {
		return "", fmt.Errorf("check: %s: %w", filepath.Join(folder, "evidence.json"), err)
	}
	if !bytes.Equal(e.Key, key) {
		return "", notShown("evidence.json is about a log with another key than the given one")
	}
	if e.key, err = x509.ParsePKIXPublicKey(key); err != nil {
		return "", fmt.Errorf("check: the key: %w", err)
	}
	judge := judges[e.Verdict]
	if judge == nil {
		return "", notShown("there is no verdict %q", e.Verdict)
	}
	return judge(e)
}

// verify reports whether a DigitallySigned with SHA-256 (RFC 5246, section 4.7) is a signature of the log's key.
func (e *evidence) verify(message, signature []byte) bool {
	if len(signature) < 4 || signature[0] != 4 || int(binary.BigEndian.Uint16(signature[2:])) != len(signature)-4 {
		return false
	}
	digest := sha256.Sum256(message)
	switch key := e.key.(type) {
	case *ecdsa.PublicKey:
		return signature[1] == 3 && ecdsa.VerifyASN1(key, digest[:], signature[4:])
	case *rsa.PublicKey:
		return signature[1] == 1 && rsa.VerifyPKCS1v15(key, crypto.SHA256, digest[:], signature[4:]) == nil
	}
	return false
}

// parsed reads a head without verifying it, and returns each signature over it with its timestamp. A checkpoint has a
// line for each signature, and an answer to get-sth has one.
func (e *evidence) parsed(name string) (head head, signatures []signedAt, err error) {
	content, ok := e.files[name]
	if !ok {
		return head, nil, notShown("the file %s is missing", name)
	}
	if e.Origin == "" {
		return parsedSTH(name, content)
	}
	text, signatureLines, ok := strings.Cut(string(content), "\n\n")
	lines := strings.Split(text, "\n")
	if !ok || len(lines) != 3 || lines[0] != e.Origin {
		return head, nil, notShown("%s is not a checkpoint of %q", name, e.Origin)
	}
	if head.size, err = strconv.ParseUint(lines[1], 10, 63); err != nil {
		return head, nil, notShown("%s has no size", name)
	}
	root, err := base64.StdEncoding.DecodeString(lines[2])
	if err != nil || len(root) != sha256.Size {
		return head, nil, notShown("%s has no root", name)
	}
	copy(head.root[:], root)
	for _, line := range strings.Split(signatureLines, "\n") {
		content, err := base64.StdEncoding.DecodeString(strings.TrimPrefix(line, "— "+e.Origin+" "))
		if err == nil && len(content) > 12 {
			signatures = append(signatures, signedAt{binary.BigEndian.Uint64(content[4:]), content[12:]})
		}
	}
	return head, signatures, nil
}

// signedAt is a signature over a head, with the signed timestamp.
type signedAt struct {
	timestamp uint64
	signature []byte
}

func parsedSTH(name string, content []byte) (found head, signatures []signedAt, err error) {
	var sth struct {
		Size      uint64 `json:"tree_size"`
		Timestamp uint64 `json:"timestamp"`
		Root      []byte `json:"sha256_root_hash"`
		Signature []byte `json:"tree_head_signature"`
	}
	if err := json.Unmarshal(content, &sth); err != nil || len(sth.Root) != sha256.Size {
		return found, nil, notShown("%s is not an answer to get-sth", name)
	}
	found.size = sth.Size
	copy(found.root[:], sth.Root)
	return found, []signedAt{{sth.Timestamp, sth.Signature}}, nil
}

// head returns a head that the log's key signed.
func (e *evidence) head(name string) (head, error) {
	found, signatures, err := e.parsed(name)
	if err != nil {
		return found, err
	}
	for _, one := range signatures {
		message := binary.BigEndian.AppendUint64([]byte{0, 1}, one.timestamp)
		message = append(binary.BigEndian.AppendUint64(message, found.size), found.root[:]...)
		if e.verify(message, one.signature) {
			found.timestamp = one.timestamp
			return found, nil
		}
	}
	return found, notShown("the log's key did not sign %s", name)
}

// heads returns head-1 and head-2.
func (e *evidence) heads() (first, second head, err error) {
	if first, err = e.head("head-1"); err != nil {
		return first, second, err
	}
	second, err = e.head("head-2")
	return first, second, err
}

func (e *evidence) fork() (string, error) {
	first, second, err := e.heads()
	if err != nil {
		return "", err
	}
	if first.size != second.size || first.root == second.root {
		return "", notShown("the heads are of %d and %d leaves, and a fork has one size and two roots", first.size,
			second.size)
	}
	return fmt.Sprintf("the log signed two roots of %d leaves, %x and %x. Nothing else must be believed", first.size,
		first.root, second.root), nil
}

func (e *evidence) shrunk() (string, error) {
	first, second, err := e.heads()
	if err != nil {
		return "", err
	}
	if second.size >= first.size || second.timestamp < first.timestamp {
		return "", notShown("%d leaves at %d, and %d leaves at %d", first.size, first.timestamp, second.size,
			second.timestamp)
	}
	return fmt.Sprintf("the log signed %d leaves at %d, and %d leaves at %d. Nothing else must be believed", first.size,
		first.timestamp, second.size, second.timestamp), nil
}

func (e *evidence) notLater() (string, error) {
	first, second, err := e.heads()
	if err != nil {
		return "", err
	}
	if second.size <= first.size || second.timestamp > first.timestamp {
		return "", notShown("%d leaves at %d, and %d leaves at %d", first.size, first.timestamp, second.size,
			second.timestamp)
	}
	return fmt.Sprintf("the log signed %d leaves at %d, and more, %d, at %d, which is not later. Nothing else must be "+
		"believed", first.size, first.timestamp, second.size, second.timestamp), nil
}

// consistency is the content of proof.json for two heads: a log's answer to get-sth-consistency, and the root from which
// it leads to that of head-2, if that is not the root of head-1.
type consistency struct {
	Proof     *[][]byte `json:"consistency"` // another answer has no such field, and must not be taken for an empty proof
	FirstRoot []byte    `json:"first_root"`
}

// otherHistory judges a signed head and a proof that another root of as many leaves leads to a second signed head. So
// the second tree does not begin with the first one, assuming no hash collision.
func (e *evidence) otherHistory() (string, error) {
	second, err := e.head("head-2")
	if err != nil {
		return "", err
	}
	if second.size == 0 {
		if second.root == sha256.Sum256(nil) {
			return "", notShown("head-2 is that of the empty tree")
		}
		return fmt.Sprintf("the log signed the root %x of no leaves, which is not that of the empty tree. Nothing else must be "+
			"believed", second.root), nil
	}
	first, err := e.head("head-1")
	if err != nil {
		return "", err
	}
	var answer consistency
	if err := json.Unmarshal(e.files["proof.json"], &answer); err != nil || answer.Proof == nil ||
		len(answer.FirstRoot) != sha256.Size {
		return "", notShown("proof.json has no proof with another root")
	}
	other := head{size: first.size, root: hash(answer.FirstRoot)}
	if first.size == 0 || first.size >= second.size || other.root == first.root || !leads(other, second, *answer.Proof) {
		return "", notShown("the proof does not lead from another root of %d leaves to head-2", first.size)
	}
	return fmt.Sprintf("the log signed the root %x of %d leaves, and a tree of %d leaves whose first %d leaves have the root "+
		"%x. Nothing else must be believed", first.root, first.size, second.size, first.size, other.root), nil
}

// notProved judges two heads between which the log gave no proof, or one that does not lead from one to the other. This
// accuses nobody.
func (e *evidence) notProved() (string, error) {
	first, second, err := e.heads()
	if err != nil {
		return "", err
	}
	if first.size == 0 || first.size >= second.size {
		return "", notShown("there is no proof between %d and %d leaves", first.size, second.size)
	}
	said := "gave no proof"
	if content, ok := e.files["proof.json"]; ok {
		var answer consistency
		if err := json.Unmarshal(content, &answer); err != nil || answer.Proof == nil || answer.FirstRoot != nil {
			return "", notShown("proof.json is not an answer to get-sth-consistency")
		}
		if leads(first, second, *answer.Proof) {
			return "", notShown("the proof leads from head-1 to head-2")
		}
		said = "gave this proof, which does not lead from one to the other"
	}
	return fmt.Sprintf("this is no accusation: the log signed heads of %d and %d leaves. It must be believed that it %s: ask it "+
		"again", first.size, second.size, said), nil
}

func (e *evidence) otherRoot() (string, error) {
	second, err := e.head("head-2")
	if err != nil {
		return "", err
	}
	return fmt.Sprintf("the log signed the root %x of %d leaves. It must be believed that the leaves which it "+
		"gave have another one: read them again", second.root, second.size), nil
}

func (e *evidence) oldHead() (string, error) {
	second, err := e.head("head-2")
	if err != nil {
		return "", err
	}
	at, err := time.Parse(time.RFC3339, e.Time)
	if err != nil {
		return "", notShown("evidence.json has no time")
	}
	if age := at.UnixMilli() - int64(second.timestamp); age <= int64(e.MaxMergeDelay) {
		return "", notShown("the head was %d ms old, and the maximum merge delay is %d ms", age, e.MaxMergeDelay)
	}
	return fmt.Sprintf("the log signed its head at %d. It must be believed that this was its newest head at %s, "+
		"and that its maximum merge delay is %d ms", second.timestamp, e.Time, e.MaxMergeDelay), nil
}

// withheld judges a head whose entries the log did not hand out.
func (e *evidence) withheld() (string, error) {
	second, err := e.head("head-2")
	if err != nil {
		return "", err
	}
	seen, err := e.seen()
	if err != nil {
		return "", err
	}
	if seen < second.timestamp || seen-second.timestamp <= e.MaxMergeDelay {
		return "", notShown("the head was signed at %d and seen at %d, and the maximum merge delay is %d ms",
			second.timestamp, seen, e.MaxMergeDelay)
	}
	return fmt.Sprintf("the log signed its head of %d leaves at %d. It must be believed that it did not hand out all of "+
		"them until %s, and that its maximum merge delay is %d ms: ask for the last one", second.size, second.timestamp,
		e.Time, e.MaxMergeDelay), nil
}

// seen returns the time of evidence.json in milliseconds.
func (e *evidence) seen() (uint64, error) {
	at, err := time.Parse(time.RFC3339, e.Time)
	if err != nil || at.UnixMilli() < 0 {
		return 0, notShown("evidence.json has no time")
	}
	return uint64(at.UnixMilli()), nil
}

func (e *evidence) badSignature() (string, error) {
	if _, _, err := e.parsed("head-2"); err != nil {
		return "", err
	}
	if _, err := e.head("head-2"); err == nil {
		return "", notShown("the log's key signed head-2")
	}
	return "the log's key did not sign the head. It must be believed that the log's address answered with it", nil
}
