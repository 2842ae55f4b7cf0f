package testkit

import (
	"crypto/ecdsa"
	"crypto/rand"
	"crypto/sha256"
	"crypto/x509"
	"encoding/base64"
	"encoding/binary"
	"encoding/hex"
	"encoding/json"
	"fmt"
	"net/http"
	"strconv"
	"strings"
	"sync"

	"golang.org/x/mod/sumdb/tlog"
)

// Entry is an entry of the log.
type Entry struct {
	Timestamp      uint64 // milliseconds since 1970
	Certificate    []byte // DER: a certificate, or the TBSCertificate of a precertificate
	IssuerKeyHash  []byte // of a precertificate, 32 bytes; nil for a certificate
	Precertificate []byte // DER, of a precertificate
	Chain          [][]byte
	Leaf           []byte // replaces the MerkleTreeLeaf of the other fields if it is not nil
	Index          *uint64
}

// Log is a Certificate Transparency log for tests of programs that read logs. It answers the calls of RFC 6962 and those
// of a tiled log (C2SP static-ct-api), and can be made to lie. Its methods may be called while it answers requests.
//
// It shares no code with the programs that it tests. Its trees are those of golang.org/x/mod/sumdb/tlog, and it writes
// each format by its specification.
type Log struct {
	Origin string
	Key    *ecdsa.PrivateKey
	// Page is the maximum number of entries of an answer to get-entries. 0 means 256.
	Page int

	mutex     sync.Mutex
	intercept func(w http.ResponseWriter, r *http.Request) bool
	entries   []Entry
	hashes    []tlog.Hash
	issuers   map[string][]byte
	published published
	changed   map[string][]byte
	requests  map[string]int
}

// published has the head that the log answers, and its size.
type published struct {
	checkpoint, sth []byte
	size            uint64
}

// NewLog returns an empty log with a new P-256 key.
func NewLog(origin string) *Log {
	return newLog(origin, newKey())
}

func newLog(origin string, key *ecdsa.PrivateKey) *Log {
	return &Log{Origin: origin, Key: key, issuers: map[string][]byte{}, changed: map[string][]byte{},
		requests: map[string]int{}}
}

// PublicKey returns the log's key, a SubjectPublicKeyInfo in DER.
func (l *Log) PublicKey() []byte {
	der, err := x509.MarshalPKIXPublicKey(&l.Key.PublicKey)
	if err != nil {
		panic(err) // A P-256 key can always be encoded.
	}
	return der
}

// Fork returns a log with the same key and the first entries of this one.
func (l *Log) Fork(size uint64) *Log {
	l.mutex.Lock()
	defer l.mutex.Unlock()
	other := newLog(l.Origin, l.Key)
	other.Page = l.Page
	other.Add(l.entries[:size]...)
	return other
}

// vector returns bytes after their length, which has this number of bytes.
func vector(length int, content []byte) []byte {
	size := binary.BigEndian.AppendUint64(nil, uint64(len(content)))
	return append(size[8-length:], content...)
}

// timestamped returns a TimestampedEntry (RFC 6962, section 3.4) with the extension leaf_index.
func (e Entry) timestamped(index uint64) []byte {
	content := binary.BigEndian.AppendUint64(nil, e.Timestamp)
	kind := uint16(0)
	if e.IssuerKeyHash != nil {
		kind = 1
	}
	content = append(binary.BigEndian.AppendUint16(content, kind), e.IssuerKeyHash...)
	content = append(content, vector(3, e.Certificate)...)
	return append(content, vector(2, Extensions(e.indexOr(index)))...)
}

func (e Entry) indexOr(index uint64) uint64 {
	if e.Index != nil {
		return *e.Index
	}
	return index
}

// Extensions returns the CtExtensions with only the leaf_index (C2SP static-ct-api), without their length.
func Extensions(index uint64) []byte {
	return append([]byte{0, 0, 5}, binary.BigEndian.AppendUint64(nil, index)[3:]...)
}

// MerkleLeaf returns the MerkleTreeLeaf of an entry at an index (RFC 6962, section 3.4).
func (e Entry) MerkleLeaf(index uint64) []byte {
	if e.Leaf != nil {
		return e.Leaf
	}
	return append([]byte{0, 0}, e.timestamped(index)...)
}

// tileLeaf returns the TileLeaf of an entry (C2SP static-ct-api, "Log Entries").
func (e Entry) tileLeaf(index uint64) []byte {
	content := e.timestamped(index)
	if e.Leaf != nil {
		content = append([]byte(nil), e.Leaf[2:]...)
	}
	if e.IssuerKeyHash != nil {
		content = append(content, vector(3, e.Precertificate)...)
	}
	var chain []byte
	for _, issuer := range e.Chain {
		fingerprint := sha256.Sum256(issuer)
		chain = append(chain, fingerprint[:]...)
	}
	return append(content, vector(2, chain)...)
}

// extraData returns the extra_data of an entry (RFC 6962, section 4.6).
func (e Entry) extraData() []byte {
	var chain, content []byte
	for _, issuer := range e.Chain {
		chain = append(chain, vector(3, issuer)...)
	}
	if e.IssuerKeyHash != nil {
		content = vector(3, e.Precertificate)
	}
	return append(content, vector(3, chain)...)
}

// Add appends entries. No head covers them yet.
func (l *Log) Add(entries ...Entry) {
	l.mutex.Lock()
	defer l.mutex.Unlock()
	for _, e := range entries {
		index := int64(len(l.entries))
		stored, err := tlog.StoredHashes(index, e.MerkleLeaf(uint64(index)), l.reader())
		if err != nil {
			panic(err) // The hashes are in memory.
		}
		l.hashes = append(l.hashes, stored...)
		l.entries = append(l.entries, e)
		for _, issuer := range e.Chain {
			fingerprint := sha256.Sum256(issuer)
			l.issuers[hex.EncodeToString(fingerprint[:])] = issuer
		}
	}
}

func (l *Log) reader() tlog.HashReader {
	return tlog.HashReaderFunc(func(indexes []int64) ([]tlog.Hash, error) {
		result := make([]tlog.Hash, len(indexes))
		for i, index := range indexes {
			result[i] = l.hashes[index]
		}
		return result, nil
	})
}

// Size returns the number of entries.
func (l *Log) Size() uint64 {
	l.mutex.Lock()
	defer l.mutex.Unlock()
	return uint64(len(l.entries))
}

// Root returns the root of the first entries.
func (l *Log) Root(size uint64) [32]byte {
	l.mutex.Lock()
	defer l.mutex.Unlock()
	return l.root(size)
}

func (l *Log) root(size uint64) [32]byte {
	if size == 0 {
		return sha256.Sum256(nil)
	}
	root, err := tlog.TreeHash(int64(size), l.reader())
	if err != nil {
		panic(err) // The hashes are in memory.
	}
	return root
}

// Publish signs a head over the first size entries, and answers with it from now on.
func (l *Log) Publish(size, timestamp uint64) { l.PublishRoot(size, timestamp, l.Root(size)) }

// PublishRoot signs a head with any root, and answers with it from now on.
func (l *Log) PublishRoot(size, timestamp uint64, root [32]byte) {
	l.mutex.Lock()
	defer l.mutex.Unlock()
	signed := l.sign(TreeHeadSignature(size, timestamp, root))
	l.published.size = size
	l.published.checkpoint = []byte(fmt.Sprintf("%s\n%d\n%s\n\n%s", l.Origin, size,
		base64.StdEncoding.EncodeToString(root[:]),
		l.line(timestamp, signed)))
	sth, err := json.Marshal(map[string]any{"tree_size": size, "timestamp": timestamp, "sha256_root_hash": root[:],
		"tree_head_signature": signed})
	if err != nil {
		panic(err) // The values are numbers and bytes.
	}
	l.published.sth = sth
}

// Checkpoint returns the published checkpoint.
func (l *Log) Checkpoint() []byte {
	l.mutex.Lock()
	defer l.mutex.Unlock()
	return append([]byte(nil), l.published.checkpoint...)
}

// STH returns the published answer to get-sth.
func (l *Log) STH() []byte {
	l.mutex.Lock()
	defer l.mutex.Unlock()
	return append([]byte(nil), l.published.sth...)
}

// SetCheckpoint makes the log answer with these bytes as its checkpoint.
func (l *Log) SetCheckpoint(content []byte) {
	l.mutex.Lock()
	defer l.mutex.Unlock()
	l.published.checkpoint = content
}

// TreeHeadSignature returns the bytes that the signature of a head covers (RFC 6962, section 3.5).
func TreeHeadSignature(size, timestamp uint64, root [32]byte) []byte {
	message := binary.BigEndian.AppendUint64([]byte{0, 1}, timestamp)
	return append(binary.BigEndian.AppendUint64(message, size), root[:]...)
}

// sign returns a DigitallySigned of ECDSA with SHA-256.
func (l *Log) sign(message []byte) []byte {
	digest := sha256.Sum256(message)
	signed, err := ecdsa.SignASN1(rand.Reader, l.Key, digest[:])
	if err != nil {
		panic(err) // The key is valid.
	}
	return append([]byte{4, 3}, vector(2, signed)...)
}

// line returns the signature line of a checkpoint (RFC6962NoteSignature of C2SP static-ct-api).
func (l *Log) line(timestamp uint64, signed []byte) string {
	id := sha256.Sum256(l.PublicKey())
	key := sha256.Sum256(append([]byte(l.Origin+"\n\x05"), id[:]...))
	content := binary.BigEndian.AppendUint64(key[:4:4], timestamp)
	return "— " + l.Origin + " " + base64.StdEncoding.EncodeToString(append(content, signed...)) + "\n"
}

// SCT returns the SCT of an entry as it occurs in a certificate's list (RFC 6962, sections 3.2 and 3.3), without its
// length.
func (l *Log) SCT(e Entry, index uint64) []byte {
	id := sha256.Sum256(l.PublicKey())
	sct := append([]byte{0}, id[:]...)
	sct = binary.BigEndian.AppendUint64(sct, e.Timestamp)
	sct = append(sct, vector(2, Extensions(e.indexOr(index)))...)
	return append(sct, l.sign(e.MerkleLeaf(index))...)
}

// LeafHash returns the hash of a leaf (RFC 6962, section 2.1).
func LeafHash(leaf []byte) [32]byte { return sha256.Sum256(append([]byte{0}, leaf...)) }

// MerkleTreeHash returns the Merkle Tree Hash of leaves with these hashes, by the recursion of RFC 6962, section 2.1.
func MerkleTreeHash(hashes [][32]byte) [32]byte {
	switch len(hashes) {
	case 0:
		return sha256.Sum256(nil)
	case 1:
		return hashes[0]
	}
	k := 1
	for k*2 < len(hashes) {
		k *= 2
	}
	left, right := MerkleTreeHash(hashes[:k]), MerkleTreeHash(hashes[k:])
	return sha256.Sum256(append(append([]byte{1}, left[:]...), right[:]...))
}

// IndexOf returns the index of the first leaf with this hash that the newest head covers. ok is false if there is none.
func (l *Log) IndexOf(leafHash [32]byte) (index uint64, ok bool) {
	l.mutex.Lock()
	defer l.mutex.Unlock()
	return l.indexOf(leafHash, l.published.size)
}

func (l *Log) indexOf(leafHash [32]byte, size uint64) (index uint64, ok bool) {
	for index := range size {
		if l.hashes[tlog.StoredHashIndex(0, int64(index))] == leafHash {
			return index, true
		}
	}
	return 0, false
}

// Object returns the tile or the issuer at a path, as the log serves it. ok is false if there is none.
func (l *Log) Object(path string) (content []byte, ok bool) {
	l.mutex.Lock()
	defer l.mutex.Unlock()
	return l.object(path)
}

// Change makes the log serve another content at the path of a tile or an issuer, or nothing if the content is nil.
func (l *Log) Change(path string, content []byte) {
	l.mutex.Lock()
	defer l.mutex.Unlock()
	l.changed[path] = content
}

func (l *Log) object(path string) (content []byte, ok bool) {
	if content, isChanged := l.changed[path]; isChanged {
		return content, content != nil
	}
	if fingerprint, isIssuer := strings.CutPrefix(path, "issuer/"); isIssuer {
		issuer, ok := l.issuers[fingerprint]
		return issuer, ok
	}
	return l.tile(path)
}

// Requests returns the number of requests for a path.
func (l *Log) Requests(path string) int {
	l.mutex.Lock()
	defer l.mutex.Unlock()
	return l.requests[path]
}

// Intercept sets a function that is called before each answer, and returns true if it has answered. It may be nil.
func (l *Log) Intercept(intercept func(w http.ResponseWriter, r *http.Request) bool) {
	l.mutex.Lock()
	defer l.mutex.Unlock()
	l.intercept = intercept
}

// ServeHTTP answers a request for either kind of log.
func (l *Log) ServeHTTP(w http.ResponseWriter, r *http.Request) {
	l.mutex.Lock()
	l.requests[r.URL.Path]++
	intercept := l.intercept
	l.mutex.Unlock()
	if intercept != nil && intercept(w, r) {
		return
	}
	l.mutex.Lock()
	content, ok := l.answer(strings.TrimPrefix(r.URL.Path, "/"), func(name string) uint64 {
		n, err := strconv.ParseUint(r.URL.Query().Get(name), 10, 63)
		if err != nil {
			return 1<<63 - 1
		}
		return n
	}, r.URL.Query().Get("hash"))
	l.mutex.Unlock()
	if !ok {
		http.NotFound(w, r)
		return
	}
	// If the client has disconnected, that is not a fault of the log.
	_, _ = w.Write(content)
}

func (l *Log) answer(path string, number func(string) uint64, hash string) (content []byte, ok bool) {
	switch name := strings.TrimPrefix(path, "ct/v1/"); {
	case path == "checkpoint":
		return l.published.checkpoint, l.published.checkpoint != nil
	case strings.HasPrefix(path, "issuer/"), strings.HasPrefix(path, "tile/"):
		return l.object(path)
	case name == "get-sth":
		return l.published.sth, l.published.sth != nil
	case name == "get-entries":
		return l.getEntries(number("start"), number("end"))
	case name == "get-sth-consistency":
		return l.consistency(number("first"), number("second"))
	case name == "get-proof-by-hash":
		return l.proofByHash(hash, number("tree_size"))
	}
	return nil, false
}

// tile returns a full or partial tile that the newest head covers.
func (l *Log) tile(path string) ([]byte, bool) {
	name := strings.Replace(path, "tile/", "tile/8/", 1)
	of, err := tlog.ParseTilePath(name)
	if err != nil {
		return nil, false
	}
	level := max(of.L, 0)
	if end := uint64(of.N)*256 + uint64(of.W); end > l.published.size>>(8*level) {
		return nil, false
	}
	if of.L >= 0 {
		content, err := tlog.ReadTileData(of, l.reader())
		return content, err == nil
	}
	var content []byte
	for i := range of.W {
		index := uint64(of.N)*256 + uint64(i)
		content = append(content, l.entries[index].tileLeaf(index)...)
	}
	return content, true
}

func (l *Log) getEntries(start, end uint64) ([]byte, bool) {
	if start >= l.published.size || end < start {
		return nil, false
	}
	page := uint64(l.Page)
	if page == 0 {
		page = 256
	}
	var entries []map[string][]byte
	for index := start; index <= end && index < l.published.size && index < start+page; index++ {
		entries = append(entries, map[string][]byte{"leaf_input": l.entries[index].MerkleLeaf(index),
			"extra_data": l.entries[index].extraData()})
	}
	content, err := json.Marshal(map[string]any{"entries": entries})
	return content, err == nil
}

func (l *Log) consistency(first, second uint64) ([]byte, bool) {
	if first < 1 || first >= second || second > uint64(len(l.entries)) {
		return nil, false
	}
	proof, err := tlog.ProveTree(int64(second), int64(first), l.reader())
	if err != nil {
		return nil, false
	}
	content, err := json.Marshal(map[string]any{"consistency": bytesOf(proof)})
	return content, err == nil
}

func bytesOf(hashes []tlog.Hash) [][]byte {
	result := [][]byte{}
	for i := range hashes {
		result = append(result, hashes[i][:])
	}
	return result
}

func (l *Log) proofByHash(text string, size uint64) ([]byte, bool) {
	hash, err := base64.StdEncoding.DecodeString(text)
	if err != nil || len(hash) != sha256.Size || size < 1 || size > uint64(len(l.entries)) {
		return nil, false
	}
	index, ok := l.indexOf([32]byte(hash), size)
	if !ok {
		return nil, false
	}
	proof, err := tlog.ProveRecord(int64(size), int64(index), l.reader())
	if err != nil {
		return nil, false
	}
	content, err := json.Marshal(map[string]any{"leaf_index": index, "audit_path": bytesOf(proof)})
	return content, err == nil
}
