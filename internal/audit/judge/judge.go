// Package judge checks a log by the objects that it published in a folder and by the SCTs that it returned. It needs
// only the log's public key. It is independent of the log's code: it uses no other package of this repository. The log
// must be at rest, because a node that died after a swap leaves tiles that no head covers until another node continues.
// It holds the whole log in memory.
package judge

import (
	"bytes"
	"crypto/ecdsa"
	"crypto/sha256"
	"crypto/x509"
	"encoding/base64"
	"encoding/binary"
	"encoding/hex"
	"errors"
	"fmt"
	"io/fs"
	"os"
	"path/filepath"
	"regexp"
	"sort"
	"strconv"
	"strings"
)

// Answer is an SCT that the log returned, with what was submitted.
type Answer struct {
	// A certificate has Certificate. A precertificate has IssuerKeyHash and TBSCertificate instead.
	Certificate    []byte `json:"certificate,omitempty"`
	IssuerKeyHash  []byte `json:"issuer_key_hash,omitempty"`
	TBSCertificate []byte `json:"tbs_certificate,omitempty"`
	Timestamp      uint64 `json:"timestamp"`
	Extensions     []byte `json:"extensions"`
	// Signature is a DigitallySigned.
	Signature []byte `json:"signature"`
	LogID     []byte `json:"log_id"`
}

// Report counts what a correct log has.
type Report struct {
	Heads, Leaves, Tiles, Issuers, Answers int
	// Repeats is the number of leaves whose entry occurs in an earlier leaf.
	Repeats int
}

// errWrong is the error that every verdict wraps.
var errWrong = errors.New("check")

// ErrNoHead means that a folder has no signed tree head, so it does not contain what a log published.
var ErrNoHead = errors.New("there is no head")

func wrong(format string, arguments ...any) error {
	return fmt.Errorf("%w: "+format, append([]any{errWrong}, arguments...)...)
}

type hash = [32]byte

// folder is a log in a folder, with what was computed from its leaves.
type folder struct {
	objects map[string][]byte
	key     *ecdsa.PublicKey
	logID   hash
	leaves  []leaf
	// rows[k] has the hashes of the perfect subtrees of 2^k leaves.
	rows [][]hash
}

// leaf is an entry: its MerkleTreeLeaf, its bytes in a data tile, and its parts.
type leaf struct {
	merkle, inTile, entry []byte
	// precertificate is nil if the entry is a certificate.
	precertificate   []byte
	timestamp, index uint64
	issuers          []hash
}

// Folder checks the objects below a folder by a log's key, a SubjectPublicKeyInfo in DER. The error wraps ErrNoHead if
// the folder has no tree head.
func Folder(path string, key []byte, answers []Answer) (Report, error) {
	parsed, err := x509.ParsePKIXPublicKey(key)
	if err != nil {
		return Report{}, wrong("the key: %v", err)
	}
	public, ok := parsed.(*ecdsa.PublicKey)
	if !ok {
		return Report{}, wrong("the key is not an ECDSA key")
	}
	f := &folder{objects: map[string][]byte{}, key: public, logID: sha256.Sum256(key)}
	if err := f.read(path); err != nil {
		return Report{}, err
	}
	heads, err := f.heads()
	if err != nil {
		return Report{}, err
	}
	if len(heads) == 0 {
		return Report{}, fmt.Errorf("%w: %w", errWrong, ErrNoHead)
	}
	top := heads[len(heads)-1].size
	if err := f.readLeaves(top); err != nil {
		return Report{}, err
	}
	for _, h := range heads {
		if err := f.judgeHead(h); err != nil {
			return Report{}, err
		}
	}
	report := Report{Heads: len(heads), Leaves: len(f.leaves), Answers: len(answers)}
	if report.Tiles, err = f.judgeTiles(top); err != nil {
		return Report{}, err
	}
	if report.Issuers, err = f.judgeIssuers(); err != nil {
		return Report{}, err
	}
	for i, a := range answers {
		if err := f.judgeAnswer(a); err != nil {
			return Report{}, fmt.Errorf("answer %d: %w", i, err)
		}
	}
	seen := map[string]bool{}
	for _, l := range f.leaves {
		seen[string(l.entry)] = true
	}
	report.Repeats = len(f.leaves) - len(seen)
	return report, nil
}

// read reads all files with public names.
func (f *folder) read(path string) error {
	return filepath.WalkDir(path, func(at string, entry fs.DirEntry, err error) error {
		if err != nil {
			return err
		}
		name, err := filepath.Rel(path, at)
		if err != nil || name == "." {
			return err
		}
		if strings.HasPrefix(name, ".") || name == "staging" {
			if entry.IsDir() {
				return filepath.SkipDir
			}
			return nil
		}
		if entry.IsDir() {
			return nil
		}
		f.objects[filepath.ToSlash(name)], err = os.ReadFile(at)
		return err
	})
}

type head struct {
	size, timestamp uint64
	root            hash
	signature       []byte
	name            string
}

// furtherLine matches a signature line after that of the log: a name, and base64 of the four bytes of a key ID and
// more.
var furtherLine = regexp.MustCompile(`^— [^ +]+ [A-Za-z0-9+/]{7,}=*$`)

var headForm = regexp.MustCompile(`^heads/(\d{20})-(\d{20})$`)

// heads reads the signed notes in the order of their names, and checks everything for which it needs no leaves. A
// mirror has no heads of earlier times, so the only head there is the checkpoint.
func (f *folder) heads() ([]head, error) {
	var heads []head
	for name, content := range f.objects {
		if !strings.HasPrefix(name, "heads/") {
			continue
		}
		parts := headForm.FindStringSubmatch(name)
		if parts == nil {
			return nil, wrong("%s: that is not the name of a head", name)
		}
		h, err := f.note(string(content))
		if err != nil {
			return nil, fmt.Errorf("%s: %w", name, err)
		}
		if h.name = name; fmt.Sprintf("heads/%020d-%020d", h.size, h.timestamp) != name {
			return nil, wrong("%s: it is the head of %d leaves at %d", name, h.size, h.timestamp)
		}
		heads = append(heads, h)
	}
	if content, exists := f.objects["checkpoint"]; exists && len(heads) == 0 {
		h, err := f.note(string(content))
		if err != nil {
			return nil, fmt.Errorf("checkpoint: %w", err)
		}
		h.name = "checkpoint"
		return []head{h}, nil
	}
	sort.Slice(heads, func(i, j int) bool { return heads[i].name < heads[j].name })
	for i := 1; i < len(heads); i++ {
		if heads[i].timestamp <= heads[i-1].timestamp {
			return nil, wrong("%s is not later than %s", heads[i].name, heads[i-1].name)
		}
	}
	return heads, nil
}

// note reads a checkpoint (C2SP tlog-checkpoint, static-ct-api). The first signature must be that of the log, which it
// verifies. It checks only the form of the witnesses' signatures after it.
func (f *folder) note(text string) (head, error) {
	body, signatures, ok := strings.Cut(text, "\n\n")
	lines := strings.Split(body, "\n")
	if !ok || len(lines) != 3 || !strings.HasSuffix(signatures, "\n") {
		return head{}, wrong("it is not a signed note")
	}
	signed := strings.Split(strings.TrimSuffix(signatures, "\n"), "\n")
	for _, line := range signed[1:] {
		if !furtherLine.MatchString(line) {
			return head{}, wrong("it is not a signed note: %q", line)
		}
	}
	size, err := strconv.ParseUint(lines[1], 10, 63)
	if err != nil || strconv.FormatUint(size, 10) != lines[1] {
		return head{}, wrong("it has no size")
	}
	root, err := base64.StdEncoding.Strict().DecodeString(lines[2])
	if err != nil || len(root) != 32 || base64.StdEncoding.EncodeToString(root) != lines[2] {
		return head{}, wrong("it has no root")
	}
	blob, err := f.signature(lines[0], signed[0])
	if err != nil {
		return head{}, err
	}
	h := head{size: size, timestamp: binary.BigEndian.Uint64(blob[4:12]), signature: blob[12:]}
	copy(h.root[:], root)
	message := []byte{0, 1}
	message = binary.BigEndian.AppendUint64(message, h.timestamp)
	message = binary.BigEndian.AppendUint64(message, h.size)
	return h, f.checkSigned(append(message, root...), h.signature)
}

// signature reads a signature line, which must be that of the log.
func (f *folder) signature(origin, line string) ([]byte, error) {
	parts := strings.Split(line, " ")
	if len(parts) != 3 || parts[0] != "—" || parts[1] != origin {
		return nil, wrong("the signature is not that of the origin")
	}
	blob, err := base64.StdEncoding.Strict().DecodeString(parts[2])
	if err != nil || len(blob) < 13 || base64.StdEncoding.EncodeToString(blob) != parts[2] {
		return nil, wrong("it has no signature")
	}
	id := sha256.Sum256(append([]byte(origin+"\n\x05"), f.logID[:]...))
	if !bytes.Equal(id[:4], blob[:4]) {
		return nil, wrong("the signature is that of another key")
	}
	return blob, nil
}

// checkSigned checks a DigitallySigned of ECDSA with SHA-256.
func (f *folder) checkSigned(message, signature []byte) error {
	if len(signature) < 4 || signature[0] != 4 || signature[1] != 3 ||
		int(signature[2])<<8|int(signature[3]) != len(signature)-4 {
		return wrong("the signature is not a DigitallySigned")
	}
	if digest := sha256.Sum256(message); !ecdsa.VerifyASN1(f.key, digest[:], signature[4:]) {
		return wrong("the signature is not that of the key")
	}
	return nil
}

// mth returns the Merkle Tree Hash of the first leaves (RFC 6962, section 2.1).
func (f *folder) mth(size uint64) hash {
	if size == 0 {
		return sha256.Sum256(nil)
	}
	var peaks []hash
	for k, at := 63, uint64(0); k >= 0; k-- {
		if size>>uint(k)&1 == 1 {
			peaks = append(peaks, f.rows[k][at>>uint(k)])
			at += 1 << uint(k)
		}
	}
	root := peaks[len(peaks)-1]
	for i := len(peaks) - 2; i >= 0; i-- {
		root = node(peaks[i], root)
	}
	return root
}

// mayLackPartials reports whether the partial tiles of a tile may have been deleted because the full one exists (C2SP
// tlog-tiles).
func (f *folder) mayLackPartials(level string, index uint64) bool {
	return f.objects[nameOf(level, index, 256)] != nil
}

// judgeHead checks that a head is that of the tree, and that each tile that it needs exists.
func (f *folder) judgeHead(h head) error {
	if h.root != f.mth(h.size) {
		return wrong("%s is not the MTH of the leaves", h.name)
	}
	for level := 0; h.size>>uint(8*level) > 0; level++ {
		hashes := h.size >> uint(8*level)
		if width := hashes % 256; width > 0 {
			if name := nameOf(strconv.Itoa(level), hashes/256, width); f.objects[name] == nil &&
				!f.mayLackPartials(strconv.Itoa(level), hashes/256) {
				return wrong("%s: %s is missing", h.name, name)
			}
		}
		for index := uint64(0); index < hashes/256; index++ {
			if name := nameOf(strconv.Itoa(level), index, 256); f.objects[name] == nil {
				return wrong("%s: %s is missing", h.name, name)
			}
		}
	}
	if width := h.size % 256; width > 0 {
		if name := nameOf("data", h.size/256, width); f.objects[name] == nil && !f.mayLackPartials("data", h.size/256) {
			return wrong("%s: %s is missing", h.name, name)
		}
	}
	return nil
}

var tileForm = regexp.MustCompile(`^tile/(data|\d+)/((?:x\d{3}/)*\d{3})(?:\.p/(\d+))?$`)

// judgeTiles checks that every tile is the one that the leaves define, and that no tile has more than a head covers.
func (f *folder) judgeTiles(size uint64) (count int, err error) {
	for name, content := range f.objects {
		if !strings.HasPrefix(name, "tile/") {
			continue
		}
		of, err := tileNamed(name)
		if err != nil {
			return 0, err
		}
		if 256*of.index+of.width > size>>uint(8*of.level) {
			return 0, wrong("%s has more than the %d leaves of the last head", name, size)
		}
		if !bytes.Equal(content, f.defined(of)) {
			return 0, wrong("%s is not the tile of the tree", name)
		}
		count++
	}
	return count, nil
}

// named has the parts of a tile's name. The level of a data tile is 0 here.
type named struct {
	isData       bool
	level        int
	index, width uint64
}

// tileNamed reads a tile's name, which must be in its only form.
func tileNamed(name string) (of named, err error) {
	parts := tileForm.FindStringSubmatch(name)
	if parts == nil {
		return of, wrong("%s: that is not the name of a tile", name)
	}
	of = named{isData: parts[1] == "data", width: 256}
	of.index, err = strconv.ParseUint(strings.NewReplacer("x", "", "/", "").Replace(parts[2]), 10, 40)
	if err != nil {
		return of, wrong("%s: it has no index", name)
	}
	if parts[3] != "" {
		if of.width, err = strconv.ParseUint(parts[3], 10, 8); err != nil || of.width == 0 {
			return of, wrong("%s: it has no width", name)
		}
	}
	if nameOf(parts[1], of.index, of.width) != name {
		return of, wrong("%s is not the canonical name of its tile", name)
	}
	if of.isData {
		return of, nil
	}
	if of.level, err = strconv.Atoi(parts[1]); err != nil || of.level > 7 || strconv.Itoa(of.level) != parts[1] {
		return of, wrong("%s: it has no level", name)
	}
	return of, nil
}

// defined returns the content of a tile as the leaves define it.
func (f *folder) defined(of named) (content []byte) {
	for at := 256 * of.index; at < 256*of.index+of.width; at++ {
		if of.isData {
			content = append(content, f.leaves[at].inTile...)
		} else {
			content = append(content, f.rows[8*of.level][at][:]...)
		}
	}
	return content
}

// judgeIssuers checks that every issuer exists under the name of its hash.
func (f *folder) judgeIssuers() (count int, err error) {
	for name, content := range f.objects {
		if digest := sha256.Sum256(content); strings.HasPrefix(name, "issuer/") {
			if name != "issuer/"+hex.EncodeToString(digest[:]) {
				return 0, wrong("%s has another hash than its name", name)
			}
			count++
		}
	}
	for i, l := range f.leaves {
		for _, issuer := range l.issuers {
			if name := "issuer/" + hex.EncodeToString(issuer[:]); f.objects[name] == nil {
				return 0, wrong("leaf %d: %s is missing", i, name)
			}
		}
	}
	return count, nil
}

// judgeAnswer checks that an SCT is signed, and that its entry has the index in it.
func (f *folder) judgeAnswer(a Answer) error {
	if !bytes.Equal(a.LogID, f.logID[:]) {
		return wrong("a timestamp of another log")
	}
	if len(a.Extensions) != 8 || !bytes.Equal(a.Extensions[:3], []byte{0, 0, 5}) {
		return wrong("a timestamp without leaf_index")
	}
	index := binary.BigEndian.Uint64(append([]byte{0, 0, 0}, a.Extensions[3:]...))
	entry, content := []byte{0, 0}, a.Certificate
	if len(a.Certificate) == 0 {
		entry, content = append([]byte{0, 1}, a.IssuerKeyHash...), a.TBSCertificate
	}
	entry = append(entry, byte(len(content)>>16), byte(len(content)>>8), byte(len(content)))
	entry = append(entry, content...)
	message := binary.BigEndian.AppendUint64([]byte{0, 0}, a.Timestamp)
	message = append(append(append(message, entry...), 0, 8), a.Extensions...)
	if err := f.checkSigned(message, a.Signature); err != nil {
		return err
	}
	if index >= uint64(len(f.leaves)) {
		return wrong("a timestamp of leaf %d, and the last head has %d leaves", index, len(f.leaves))
	}
	if !bytes.Equal(f.leaves[index].merkle, message) {
		return wrong("leaf %d is not the entry of its SCT", index)
	}
	return nil
}
