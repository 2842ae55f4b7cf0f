package judge

import (
	"bytes"
	"crypto/ecdsa"
	"crypto/ed25519"
	"crypto/elliptic"
	"crypto/rand"
	"crypto/sha256"
	"crypto/x509"
	"encoding/base64"
	"encoding/binary"
	"errors"
	"fmt"
	"os"
	"path/filepath"
	"strings"
	"testing"

	"golang.org/x/mod/sumdb/tlog"

	"wagtenib/internal/testkit"
)

const origin = "log.example/judged"

var must = testkit.Must

// entered is a leaf of a log that this test builds. It has the fields of a data tile (C2SP static-ct-api, "TileLeaf").
type entered struct {
	timestamp             uint64
	kind                  uint16
	keyHash, certificate  []byte
	extensions            []byte
	precertificate, chain []byte
}

// signed returns the bytes from the timestamp to the extensions.
func (e entered) signed() []byte {
	b := binary.BigEndian.AppendUint64(nil, e.timestamp)
	b = append(binary.BigEndian.AppendUint16(b, e.kind), e.keyHash...)
	b = append(append(b, 0, byte(len(e.certificate)>>8), byte(len(e.certificate))), e.certificate...)
	return append(append(b, 0, byte(len(e.extensions))), e.extensions...)
}

func (e entered) inTile() []byte {
	b := e.signed()
	if e.kind == 1 {
		b = append(append(b, 0, byte(len(e.precertificate)>>8), byte(len(e.precertificate))), e.precertificate...)
	}
	return append(append(b, byte(len(e.chain)>>8), byte(len(e.chain))), e.chain...)
}

func leafIndex(index int) []byte { return []byte{0, 0, 5, 0, 0, 0, byte(index >> 8), byte(index)} }

// published is a log that this test builds by other means than the log's own code: its key, its leaves, and all its
// objects.
type published struct {
	key     *ecdsa.PrivateKey
	der     []byte
	leaves  []entered
	hashes  []tlog.Hash
	objects map[string][]byte
	answers []Answer
}

func (p *published) ReadHashes(indexes []int64) (found []tlog.Hash, err error) {
	for _, i := range indexes {
		found = append(found, p.hashes[i])
	}
	return found, nil
}

// newLog returns a log with 300 leaves and four heads, the first of which has no leaves. The last leaf repeats the
// entry of the first one. change changes a leaf before anything is computed from it.
func newLog(t testing.TB, change func(i int, e *entered)) *published {
	key, err := ecdsa.GenerateKey(elliptic.P256(), rand.Reader)
	must(t, err)
	der, err := x509.MarshalPKIXPublicKey(&key.PublicKey)
	must(t, err)
	p := &published{key: key, der: der, objects: map[string][]byte{}}
	issuer := []byte("an issuer")
	digest := sha256.Sum256(issuer)
	p.objects[fmt.Sprintf("issuer/%x", digest)] = issuer
	for i := 0; i < 300; i++ {
		e := entered{timestamp: uint64(100 + i/10), certificate: []byte(fmt.Sprint("certificate ", i%299)),
			extensions: leafIndex(i), chain: digest[:]}
		if i%299%3 == 2 {
			e.kind, e.keyHash, e.precertificate = 1, bytes.Repeat([]byte{7}, 32), []byte("a precertificate")
		}
		if change != nil {
			change(i, &e)
		}
		more, err := tlog.StoredHashes(int64(i), append([]byte{0, 0}, e.signed()...), p)
		must(t, err)
		p.hashes, p.leaves = append(p.hashes, more...), append(p.leaves, e)
	}
	for i, size := range []int{0, 2, 257, 300} {
		p.head(t, size, uint64(1000+i), p.root(t, size))
		p.tiles(t, size)
	}
	for _, i := range []int{0, 2, 299} {
		p.answers = append(p.answers, p.answer(t, i))
	}
	return p
}

func (p *published) root(t testing.TB, size int) tlog.Hash {
	if size == 0 {
		return sha256.Sum256(nil)
	}
	root, err := tlog.TreeHash(int64(size), p)
	must(t, err)
	return root
}

// signature returns a DigitallySigned over bytes.
func (p *published) signature(t testing.TB, message []byte) []byte {
	digest := sha256.Sum256(message)
	signature, err := ecdsa.SignASN1(rand.Reader, p.key, digest[:])
	must(t, err)
	return append([]byte{4, 3, 0, byte(len(signature))}, signature...)
}

// line returns the line of the log's signature over a head (C2SP static-ct-api: type 5).
func (p *published) line(t testing.TB, size int, timestamp uint64, root tlog.Hash) string {
	message := binary.BigEndian.AppendUint64([]byte{0, 1}, timestamp)
	message = append(binary.BigEndian.AppendUint64(message, uint64(size)), root[:]...)
	id := sha256.Sum256(p.der)
	name := sha256.Sum256(append([]byte(origin+"\n\x05"), id[:]...))
	blob := append(binary.BigEndian.AppendUint64(append([]byte{}, name[:4]...), timestamp), p.signature(t, message)...)
	return "— " + origin + " " + base64.StdEncoding.EncodeToString(blob) + "\n"
}

func nameOfHead(size int, timestamp uint64) string {
	return fmt.Sprintf("heads/%020d-%020d", size, timestamp)
}

// head publishes a head.
func (p *published) head(t testing.TB, size int, timestamp uint64, root tlog.Hash) {
	p.objects[nameOfHead(size, timestamp)] = []byte(fmt.Sprintf("%s\n%d\n%v\n\n%s", origin, size, root,
		p.line(t, size, timestamp, root)))
}

// tiles publishes the tiles of a tree.
func (p *published) tiles(t testing.TB, size int) {
	for _, tile := range tlog.NewTiles(8, 0, int64(size)) {
		content, err := tlog.ReadTileData(tile, p)
		must(t, err)
		p.objects["tile/"+strings.TrimPrefix(tile.Path(), "tile/8/")] = content
	}
	for from := 0; from < size; from += 256 {
		name, to := fmt.Sprintf("tile/data/%03d", from/256), from+256
		if to > size {
			name, to = fmt.Sprintf("%s.p/%d", name, size-from), size
		}
		p.objects[name] = nil
		for _, leaf := range p.leaves[from:to] {
			p.objects[name] = append(p.objects[name], leaf.inTile()...)
		}
	}
	// x/mod also returns partial tiles of smaller trees, which belong to no head.
	for name := range p.objects {
		if at := strings.Index(name, ".p/"); at > 0 && strings.HasPrefix(name, "tile/") && !p.hasHead(name) {
			delete(p.objects, name)
		}
	}
}

// hasHead reports whether a partial tile belongs to the tree of one of the heads.
func (p *published) hasHead(name string) bool {
	for head := range p.objects {
		var size, timestamp int
		if n, _ := fmt.Sscanf(head, "heads/%d-%d", &size, &timestamp); n < 2 || size == 0 {
			continue
		}
		for _, of := range []string{fmt.Sprintf("tile/0/%03d.p/%d", size/256, size%256),
			fmt.Sprintf("tile/data/%03d.p/%d", size/256, size%256), fmt.Sprintf("tile/1/000.p/%d", size/256)} {
			if of == name {
				return true
			}
		}
	}
	return false
}

// answer returns the SCT of a leaf.
func (p *published) answer(t testing.TB, i int) Answer {
	e, id := p.leaves[i], sha256.Sum256(p.der)
	a := Answer{Certificate: e.certificate, Timestamp: e.timestamp, Extensions: e.extensions, LogID: id[:]}
	if e.kind == 1 {
		a.Certificate, a.IssuerKeyHash, a.TBSCertificate = nil, e.keyHash, e.certificate
	}
	a.Signature = p.signature(t, append([]byte{0, 0}, e.signed()...))
	return a
}

// copied returns a copy of the log, which a test may change.
func (p *published) copied() *published {
	other := *p
	other.objects, other.answers, other.leaves = map[string][]byte{}, append([]Answer{}, p.answers...),
		append([]entered{}, p.leaves...)
	for name, content := range p.objects {
		other.objects[name] = append([]byte{}, content...)
	}
	for i := range other.answers {
		other.answers[i].Signature = append([]byte{}, p.answers[i].Signature...)
	}
	return &other
}

// judge writes all objects into a folder, and checks it.
func (p *published) judge(t testing.TB) (Report, error) {
	t.Helper()
	return Folder(p.write(t), p.der, p.answers)
}

// write writes all objects into a folder.
func (p *published) write(t testing.TB) string {
	t.Helper()
	folder := t.TempDir()
	for name, content := range p.objects {
		path := filepath.Join(folder, filepath.FromSlash(name))
		must(t, os.MkdirAll(filepath.Dir(path), 0o755))
		must(t, os.WriteFile(path, content, 0o600))
	}
	return folder
}

// TestRight checks a correct log. It may have deleted partial tiles after their full ones, and have files that are not
// published.
func TestRight(t *testing.T) {
	p := newLog(t, nil)
	expected := Report{Heads: 4, Leaves: 300, Tiles: 0, Issuers: 1, Answers: 3, Repeats: 1}
	for name := range p.objects {
		if strings.HasPrefix(name, "tile/") {
			expected.Tiles++
		}
	}
	if report, err := p.judge(t); err != nil || report != expected {
		t.Fatalf("%+v, expected %+v: %v", report, expected, err)
	}
	// These are partial tiles of 2 leaves. Below are files that only the store uses.
	for _, deleted := range []string{"tile/0/000.p/2", "tile/data/000.p/2"} {
		if p.objects[deleted] == nil {
			t.Fatalf("there is no %s", deleted)
		}
		delete(p.objects, deleted)
		expected.Tiles--
	}
	p.objects["staging/00"], p.objects[".lock"], p.objects[".tmp/x"] = []byte("a bundle"), []byte{}, []byte("half")
	head := nameOfHead(300, 1003)
	p.objects[head] = append(p.objects[head], "— w.example AAAAAAA=\n— v.example BBBBBBBB\n"...)
	if report, err := p.judge(t); err != nil || report != expected {
		t.Errorf("%+v, expected %+v: %v", report, expected, err)
	}
}

// TestMirror checks a log by its checkpoint if the folder has no other head, as in a mirror. The checkpoint must be that
// of the leaves.
func TestMirror(t *testing.T) {
	p := newLog(t, nil)
	right := p.objects[nameOfHead(300, 1003)]
	for name := range p.objects {
		if strings.HasPrefix(name, "heads/") {
			delete(p.objects, name)
		}
	}
	if report, err := p.judge(t); !errors.Is(err, ErrNoHead) || report != (Report{}) {
		t.Errorf("without a checkpoint: %+v, %v", report, err)
	}
	note := func(size int, root tlog.Hash) string {
		return fmt.Sprintf("%s\n%d\n%v\n\n%s", origin, size, root, p.line(t, size, 1003, root))
	}
	p.objects["checkpoint"] = right
	if report, err := p.judge(t); err != nil || report.Heads != 1 || report.Leaves != 300 || report.Answers != 3 {
		t.Errorf("%+v, %v", report, err)
	}
	for expected, wrong := range map[string]string{
		"checkpoint is not the MTH of the leaves":     note(300, p.root(t, 299)),
		"checkpoint: check: it is not a signed note":  string(right[:len(right)-1]),
		"has more than the 257 leaves":                note(257, p.root(t, 257)),
		"checkpoint: check: the signature is not tha": strings.Replace(string(right), "\n300\n", "\n299\n", 1),
	} {
		p.objects["checkpoint"] = []byte(wrong)
		if report, err := p.judge(t); err == nil || !strings.Contains(err.Error(), expected) || report != (Report{}) {
			t.Errorf("%+v, %v, expected: %s", report, err, expected)
		}
	}
}

// TestWrong changes a log in one place at a time, and signs and hashes the rest of it again. Each change must cause the
// expected error.
func TestWrong(t *testing.T) {
	replace := func(name, old, new string) func(t testing.TB, p *published) {
		return func(t testing.TB, p *published) {
			if !strings.Contains(string(p.objects[name]), old) {
				t.Fatalf("%s has no %q", name, old)
			}
			p.objects[name] = []byte(strings.Replace(string(p.objects[name]), old, new, 1))
		}
	}
	missing := func(name string) func(t testing.TB, p *published) {
		return func(t testing.TB, p *published) {
			if p.objects[name] == nil {
				t.Fatalf("there is no %s", name)
			}
			delete(p.objects, name)
		}
	}
	copied := func(from, to string) func(t testing.TB, p *published) {
		return func(_ testing.TB, p *published) { p.objects[to] = p.objects[from] }
	}
	changeAnswer := func(i int, change func(a *Answer)) func(t testing.TB, p *published) {
		return func(_ testing.TB, p *published) { change(&p.answers[i]) }
	}
	// signedAgain makes an answer the correct SCT of a changed leaf.
	signedAgain := func(change func(e *entered)) func(t testing.TB, p *published) {
		return func(t testing.TB, p *published) {
			right := p.leaves[0]
			change(&p.leaves[0])
			p.answers[2] = p.answer(t, 0)
			p.leaves[0] = right
		}
	}
	last, right := nameOfHead(300, 1003), newLog(t, nil)
	for what, of := range map[string]struct {
		leaf     func(i int, e *entered)
		change   func(t testing.TB, p *published)
		expected string
	}{
		"a leaf is earlier than the one before": {func(i int, e *entered) {
			if i == 7 {
				e.timestamp = 99
			}
		}, nil, "leaf 7 is earlier than the one before it"},
		"a leaf says that it is another": {func(i int, e *entered) {
			if i == 260 {
				e.extensions = leafIndex(261)
			}
		}, nil, "leaf 260 says that it is leaf 261"},
		"a leaf's extension is of another type": {func(i int, e *entered) {
			if i == 0 {
				e.extensions = append([]byte{1}, leafIndex(0)[1:]...)
			}
		}, nil, "leaf 0 has other extensions than leaf_index"},
		"a leaf is of a third type": {func(i int, e *entered) {
			if i == 1 {
				e.kind = 2
			}
		}, nil, "leaf 1 is of type 2"},
		"a chain is none of fingerprints": {func(i int, e *entered) {
			if i == 0 {
				e.chain = e.chain[:31]
			}
		}, nil, "leaf 0 has no chain of fingerprints"},
		"an issuer is missing": {func(i int, e *entered) {
			if i == 9 {
				e.chain = bytes.Repeat([]byte{9}, 32)
			}
		}, nil, "leaf 9: issuer/0909"},
		"two heads have one timestamp": {nil, func(t testing.TB, p *published) {
			missing(last)(t, p)
			p.head(t, 300, 1002, p.root(t, 300))
		}, "is not later than"},
		"a later head is of fewer leaves": {nil, func(t testing.TB, p *published) { p.head(t, 2, 2000, p.root(t, 2)) },
			"is not later than"},
		"a head in the middle has another root": {nil, func(t testing.TB, p *published) {
			p.head(t, 257, 1002, p.root(t, 256))
		}, "is not the MTH of the leaves"},
		"the first head has another root": {nil, func(t testing.TB, p *published) { p.head(t, 0, 1000, p.root(t, 1)) },
			"is not the MTH of the leaves"},
		"a head is under another's name": {nil, copied(last, nameOfHead(300, 1004)),
			"it is the head of 300 leaves at 1003"},
		"a head has an extension line": {nil, replace(last, "\n\n", "\nmore\n\n"), "not a signed note"},
		"a head's size begins with 0":  {nil, replace(last, "\n300\n", "\n0300\n"), "no size"},
		"a head's root is short":       {nil, replace(last, "=\n\n", "\n\n"), "no root"},
		"a head's root and a return":   {nil, replace(last, "=\n\n", "=\r\n\n"), "no root"},
		"a head's line and a return": {nil, func(_ testing.TB, p *published) {
			p.objects[last] = append(bytes.TrimSuffix(p.objects[last], []byte("\n")), "\r\n"...)
		}, "no signature"},
		"another signs first": {nil, replace(last, "— "+origin, "— other.example"),
			"the signature is not that of the origin"},
		"a head is of another origin": {nil, replace(last, origin+"\n300", "other.example\n300"),
			"the signature is not that of the origin"},
		"all of a head is another's": {nil, func(t testing.TB, p *published) {
			p.objects[last] = []byte(strings.ReplaceAll(string(p.objects[last]), origin, "other.example"))
		}, "the signature is that of another key"},
		"a head's signature is of another head": {nil, func(t testing.TB, p *published) {
			p.objects[last] = []byte(strings.Replace(string(p.objects[last]), p.root(t, 300).String(),
				p.root(t, 257).String(), 1))
		}, "the signature is not that of the key"},
		"there is no head": {nil, func(_ testing.TB, p *published) {
			for name := range p.objects {
				if strings.HasPrefix(name, "heads/") {
					delete(p.objects, name)
				}
			}
		}, "there is no head"},
		"a partial tile of data is missing":    {nil, missing("tile/data/001.p/1"), "tile/data/001.p/1 is missing"},
		"a partial tile of hashes is missing":  {nil, missing("tile/0/001.p/1"), "tile/0/001.p/1 is missing"},
		"a full tile of hashes is missing":     {nil, missing("tile/0/000"), "tile/0/000 is missing"},
		"a tile of the level above is missing": {nil, missing("tile/1/000.p/1"), "tile/1/000.p/1 is missing"},
		"the newest tile of data is missing":   {nil, missing("tile/data/001.p/44"), "tile/data/001.p/44 is missing"},
		"a tile of data has a leaf more": {nil, func(_ testing.TB, p *published) {
			n := "tile/data/001.p/44"
			p.objects[n] = append(p.objects[n], p.leaves[3].inTile()...)
		}, "tile/data/001.p/44 has 45 leaves"},
		"a tile of data has a leaf less": {nil, func(_ testing.TB, p *published) {
			n, less := "tile/data/001.p/44", len(p.leaves[299].inTile())
			p.objects[n] = p.objects[n][:len(p.objects[n])-less]
		}, "tile/data/001.p/44 has 43 leaves"},
		"a tile of data breaks off": {nil, func(_ testing.TB, p *published) {
			n := "tile/data/001.p/44"
			p.objects[n] = p.objects[n][:len(p.objects[n])-1]
		}, "leaf 43 is cut off"},
		"an earlier tile of data is another": {nil, replace("tile/data/001.p/1", "certificate 256",
			"certificate 255"), "tile/data/001.p/1 is not the tile of the tree"},
		"an earlier tile of hashes is another": {nil, func(_ testing.TB,
			p *published) {
			p.objects["tile/0/000.p/2"][40] ^= 1
		}, "tile/0/000.p/2 is not the tile of the tree"},
		"a tile has more leaves than there are": {nil, copied("tile/0/001.p/44", "tile/0/001.p/45"),
			"has more than the 300 leaves"},
		"a tile of a level that does not exist": {nil, copied("tile/1/000.p/1", "tile/2/000.p/1"),
			"has more than the 300 leaves"},
		"a tile's name has a part too many": {nil, copied("tile/0/000", "tile/0/x000/000"),
			"is not the canonical name of its tile"},
		"a tile's width begins with 0": {nil, copied("tile/0/001.p/44", "tile/0/001.p/044"),
			"is not the canonical name of its tile"},
		"a tile's level begins with 0": {nil, copied("tile/0/000", "tile/00/000"), "it has no level"},
		"a tile's level is not one":    {nil, copied("tile/0/000", "tile/8/000"), "it has no level"},
		"an issuer's content is another": {nil, func(_ testing.TB,
			p *published) {
			p.objects["issuer/"+strings.Repeat("00", 32)] = []byte("x")
		}, "has another hash than its name"},
		"a timestamp of another log": {nil, changeAnswer(1, func(a *Answer) { a.LogID = make([]byte, 32) }),
			"answer 1: check: a timestamp of another log"},
		"a timestamp's extension is another": {nil, changeAnswer(2,
			func(a *Answer) { a.Extensions = append([]byte{1}, a.Extensions[1:]...) }),
			"answer 2: check: a timestamp without leaf_index"},
		"a timestamp's extensions are more": {nil, changeAnswer(2,
			func(a *Answer) { a.Extensions = append(a.Extensions[:8:8], 0) }), "a timestamp without leaf_index"},
		"a timestamp's signature is of another": {nil, func(_ testing.TB,
			p *published) {
			p.answers[2].Signature = p.answers[0].Signature
		}, "answer 2: check: the signature is not that of the key"},
		"a timestamp's algorithm is another": {nil, changeAnswer(0, func(a *Answer) { a.Signature[1] = 1 }),
			"not a DigitallySigned"},
		"a timestamp's hash is another": {nil, changeAnswer(0, func(a *Answer) { a.Signature[0] = 5 }),
			"not a DigitallySigned"},
		"a timestamp's signature has a byte more": {nil, changeAnswer(0,
			func(a *Answer) { a.Signature = append(a.Signature, 0) }), "not a DigitallySigned"},
		"a timestamp of a leaf that does not exist": {nil, signedAgain(
			func(e *entered) { e.extensions = leafIndex(300) }),
			"a timestamp of leaf 300, and the last head has 300 leaves"},
		"another timestamp is signed": {nil, signedAgain(func(e *entered) { e.timestamp++ }),
			"leaf 0 is not the entry of its SCT"},
		"a timestamp of another index is signed": {nil, signedAgain(func(e *entered) { e.extensions = leafIndex(1) }),
			"leaf 1 is not the entry of its SCT"},
		"a timestamp of another content is signed": {nil, signedAgain(
			func(e *entered) { e.certificate = []byte("another") }), "leaf 0 is not the entry of its SCT"},
		"a head's name is not one": {nil, copied(last, "heads/300-1003"),
			"that is not the name of a head"},
		"a tile's name is not one": {nil, copied("tile/0/000", "tile/0/0"),
			"that is not the name of a tile"},
		"a partial tile has no width":              {nil, copied("tile/0/000", "tile/0/000.p/0"), "it has no width"},
		"a partial tile has as many as a full one": {nil, copied("tile/0/000", "tile/0/000.p/256"), "it has no width"},
		"a line after the signature is none": {nil, func(_ testing.TB,
			p *published) {
			p.objects[last] = append(p.objects[last], "— w.example AAAA\n"...)
		}, "not a signed note"},
		"the last line of a head has no end": {nil, func(_ testing.TB,
			p *published) {
			p.objects[last] = bytes.TrimSuffix(p.objects[last], []byte("\n"))
		}, "not a signed note"},
		"a head's signature is cut off": {nil, func(_ testing.TB, p *published) {
			p.objects[last] = []byte(fmt.Sprintf("%s\n300\n%v\n\n— %s %s\n", origin, tlog.Hash{}, origin,
				base64.StdEncoding.EncodeToString(make([]byte, 12))))
		}, "no signature"},
	} {
		p := right.copied()
		if of.leaf != nil {
			p = newLog(t, of.leaf)
		}
		if of.change != nil {
			of.change(t, p)
		}
		report, err := p.judge(t)
		if err == nil || !strings.Contains(err.Error(), of.expected) || report != (Report{}) {
			t.Errorf("%s: %+v, %v, expected: %s", what, report, err, of.expected)
		}
	}
}

// TestKeysOfLogs checks that Folder returns an error for a key that is not an ECDSA key, and for a missing folder.
func TestKeysOfLogs(t *testing.T) {
	p := newLog(t, nil)
	public, _, err := ed25519.GenerateKey(rand.Reader)
	must(t, err)
	der, err := x509.MarshalPKIXPublicKey(public)
	must(t, err)
	for _, key := range [][]byte{nil, p.der[1:], der} {
		if _, err := Folder(t.TempDir(), key, nil); err == nil || !strings.Contains(err.Error(), "the key") {
			t.Errorf("%x: %v", key, err)
		}
	}
	if _, err := Folder(filepath.Join(t.TempDir(), "nowhere"), p.der, nil); !os.IsNotExist(err) {
		t.Error(err)
	}
}
