// Command tlog follows a log over HTTP (C2SP static-ct-api) with golang.org/x/mod/sumdb: note opens its checkpoints, and
// tlog computes the trees of its entries. It shares no code with the programs of this repository.
//
//	tlog -origin NAME -key FILE [-every 1s] [-once] ADDRESS..
//
// FILE has the log's public key in PEM. Each checkpoint is read from the next ADDRESS. The log must have signed it, and
// it must be neither smaller nor earlier than the one before. The entries of the data tiles must have its root, and each
// new hash tile must be that of their tree. If something is wrong, the status is 1. If an address does not answer, the
// next one is asked. SIGTERM ends it with status 0.
package main

import (
	"bytes"
	"context"
	"crypto/ecdsa"
	"crypto/sha256"
	"crypto/x509"
	"encoding/binary"
	"encoding/pem"
	"errors"
	"flag"
	"fmt"
	"io"
	"net/http"
	"os"
	"os/signal"
	"strconv"
	"strings"
	"syscall"
	"time"

	"golang.org/x/crypto/cryptobyte"
	"golang.org/x/mod/sumdb/note"
	"golang.org/x/mod/sumdb/tlog"
)

const height, width = 8, 256

// errWrong means that the log did something wrong. After any other error, the program asks again.
var errWrong = errors.New("wrong")

// verifier implements note.Verifier for the signatures of a log (static-ct-api, "Checkpoints").
type verifier struct {
	origin    string
	id        [sha256.Size]byte
	key       *ecdsa.PublicKey
	timestamp uint64 // of the last signature that was verified
}

func (v *verifier) Name() string { return v.origin }

func (v *verifier) KeyHash() uint32 {
	hash := sha256.Sum256(append([]byte(v.origin+"\n\x05"), v.id[:]...))
	return binary.BigEndian.Uint32(hash[:])
}

// Verify verifies the signature of a tree head (RFC 6962, section 3.5; ECDSA with SHA-256: RFC 5246, section 7.4.1.4.1).
func (v *verifier) Verify(text, signature []byte) bool {
	tree, err := treeOf(string(text), v.origin)
	if err != nil || len(signature) < 12 || signature[8] != 4 || signature[9] != 3 ||
		int(binary.BigEndian.Uint16(signature[10:])) != len(signature)-12 {
		return false
	}
	message := append([]byte{0, 1}, signature[:8]...)
	message = append(binary.BigEndian.AppendUint64(message, uint64(tree.N)), tree.Hash[:]...)
	digest := sha256.Sum256(message)
	v.timestamp = binary.BigEndian.Uint64(signature)
	return ecdsa.VerifyASN1(v.key, digest[:], signature[12:])
}

// treeOf returns the tree of a checkpoint's text. The signature does not cover the text, so it must be the only one of
// the tree.
func treeOf(text, origin string) (tree tlog.Tree, err error) {
	lines := strings.Split(text, "\n")
	if len(lines) != 4 {
		return tree, errors.New("it has not three lines")
	}
	if tree.N, err = strconv.ParseInt(lines[1], 10, 64); err != nil {
		return tree, err
	}
	if tree.Hash, err = tlog.ParseHash(lines[2]); err != nil {
		return tree, err
	}
	if only := fmt.Sprintf("%s\n%d\n%v\n", origin, tree.N, tree.Hash); tree.N < 0 || text != only {
		return tree, fmt.Errorf("it is not %q", only)
	}
	return tree, nil
}

// stored has the hashes of a tree in the order of tlog.
type stored []tlog.Hash

func (s stored) ReadHashes(indexes []int64) (found []tlog.Hash, err error) {
	for _, index := range indexes {
		if index >= int64(len(s)) {
			return nil, fmt.Errorf("hash %d does not exist", index)
		}
		found = append(found, s[index])
	}
	return found, nil
}

// reader follows a log.
type reader struct {
	verifier  *verifier
	client    http.Client
	address   string
	size      int64
	timestamp uint64
	hashes    stored // of the tree of this size
}

// follow reads a checkpoint from an address, and the new entries and hash tiles of its tree.
func (r *reader) follow(ctx context.Context, address string) (tlog.Tree, error) {
	r.address = strings.TrimSuffix(address, "/")
	content, err := r.get(ctx, "checkpoint")
	if err != nil {
		return tlog.Tree{}, err
	}
	opened, err := note.Open(content, note.VerifierList(r.verifier))
	if err != nil {
		return tlog.Tree{}, fmt.Errorf("%w: checkpoint %q: %v", errWrong, content, err)
	}
	tree, err := treeOf(opened.Text, r.verifier.origin)
	if err != nil {
		return tree, fmt.Errorf("%w: checkpoint: %v", errWrong, err)
	}
	timestamp := r.verifier.timestamp
	if tree.N < r.size || timestamp < r.timestamp {
		return tree, fmt.Errorf("%w: the checkpoint has %d entries at %d ms, and there were %d at %d ms before", errWrong, tree.N,
			timestamp, r.size, r.timestamp)
	}
	hashes := r.hashes
	for index := r.size / width; index*width < tree.N; index++ {
		if hashes, err = r.entries(ctx, tree, index, hashes); err != nil {
			return tree, err
		}
	}
	root := tlog.Hash(sha256.Sum256(nil))
	if tree.N > 0 {
		if root, err = tlog.TreeHash(tree.N, hashes); err != nil {
			return tree, err
		}
	}
	if root != tree.Hash {
		return tree, fmt.Errorf("%w: the entries have the root %v, and the checkpoint of %d entries has %v", errWrong, root,
			tree.N, tree.Hash)
	}
	if err := r.checkTiles(ctx, tree, hashes); err != nil {
		return tree, err
	}
	r.size, r.timestamp, r.hashes = tree.N, timestamp, hashes
	return tree, nil
}

// entries reads a data tile, and returns the hashes with those of its new entries.
func (r *reader) entries(ctx context.Context, tree tlog.Tree, index int64, hashes stored) (stored, error) {
	tile := tlog.Tile{H: height, L: -1, N: index, W: int(min(width, tree.N-index*width))}
	content, err := r.tile(ctx, tile)
	if err != nil {
		return nil, err
	}
	rest := cryptobyte.String(content)
	for i := index * width; i < index*width+int64(tile.W); i++ {
		leaf, err := readLeaf(&rest)
		if err != nil {
			return nil, fmt.Errorf("%w: entry %d: %v", errWrong, i, err)
		}
		if i < r.size {
			if tlog.RecordHash(leaf) != hashes[tlog.StoredHashIndex(0, i)] {
				return nil, fmt.Errorf("%w: entry %d is not the one that was read before", errWrong, i)
			}
			continue
		}
		more, err := tlog.StoredHashes(i, leaf, hashes)
		if err != nil {
			return nil, err
		}
		hashes = append(hashes, more...)
	}
	return hashes, nil
}

// readLeaf reads an entry of a data tile, and returns its MerkleTreeLeaf (static-ct-api, "Log Entries").
func readLeaf(rest *cryptobyte.String) ([]byte, error) {
	from := *rest
	var kind uint16
	var certificate, extensions, precertificate, chain cryptobyte.String
	isRead := rest.Skip(8) && rest.ReadUint16(&kind) && kind < 2 && (kind == 0 || rest.Skip(sha256.Size)) &&
		rest.ReadUint24LengthPrefixed(&certificate) && rest.ReadUint16LengthPrefixed(&extensions)
	leaf := append([]byte{0, 0}, from[:len(from)-len(*rest)]...)
	if !isRead || kind == 1 && !rest.ReadUint24LengthPrefixed(&precertificate) ||
		!rest.ReadUint16LengthPrefixed(&chain) || len(chain)%sha256.Size != 0 {
		return nil, errors.New("it is not an entry of a data tile")
	}
	return leaf, nil
}

// checkTiles compares the new hash tiles of a tree with its hashes.
func (r *reader) checkTiles(ctx context.Context, tree tlog.Tree, hashes stored) error {
	all := tlog.NewTiles(height, r.size, tree.N)
	for i, tile := range all {
		// NewTiles also returns the partial tiles of smaller trees.
		if i+1 < len(all) && all[i+1].L == tile.L && all[i+1].N == tile.N {
			continue
		}
		expected, err := tlog.ReadTileData(tile, hashes)
		if err != nil {
			return err
		}
		content, err := r.tile(ctx, tile)
		if err != nil {
			return err
		}
		if !bytes.Equal(content, expected) {
			return fmt.Errorf("%w: %s is not a tile of the tree of %d entries", errWrong, nameOf(tile), tree.N)
		}
	}
	return nil
}

// nameOf returns a tile's name (C2SP tlog-tiles), which lacks the height that the names of tlog contain.
func nameOf(tile tlog.Tile) string { return "tile/" + strings.TrimPrefix(tile.Path(), "tile/8/") }

// tile reads a tile. A partial tile that is gone is the beginning of the full one.
func (r *reader) tile(ctx context.Context, tile tlog.Tile) ([]byte, error) {
	content, err := r.get(ctx, nameOf(tile))
	if !errors.Is(err, errWrong) || tile.W == width {
		return content, err
	}
	full := tile
	full.W = width
	if content, err = r.get(ctx, nameOf(full)); err != nil || tile.L < 0 {
		return content, err
	}
	return content[:min(len(content), tile.W*tlog.HashSize)], nil
}

// get reads an object. It is wrong that an object does not exist.
func (r *reader) get(ctx context.Context, name string) ([]byte, error) {
	request, err := http.NewRequestWithContext(ctx, http.MethodGet, r.address+"/"+name, nil)
	if err != nil {
		return nil, err
	}
	answer, err := r.client.Do(request)
	if err != nil {
		return nil, err
	}
	defer answer.Body.Close()
	switch answer.StatusCode {
	case http.StatusOK:
		return io.ReadAll(answer.Body)
	case http.StatusNotFound:
		return nil, fmt.Errorf("%w: %s does not exist", errWrong, name)
	}
	return nil, fmt.Errorf("%s: %s", name, answer.Status)
}

// newReader returns a reader of the log with an origin and a file with its key.
func newReader(origin, keyFile string) (*reader, error) {
	text, err := os.ReadFile(keyFile)
	if err != nil {
		return nil, err
	}
	block, _ := pem.Decode(text)
	if block == nil {
		return nil, fmt.Errorf("%s is not a key in PEM", keyFile)
	}
	parsed, err := x509.ParsePKIXPublicKey(block.Bytes)
	if err != nil {
		return nil, err
	}
	key, isECDSA := parsed.(*ecdsa.PublicKey)
	if !isECDSA {
		return nil, fmt.Errorf("%s has no ECDSA key", keyFile)
	}
	return &reader{verifier: &verifier{origin: origin, id: sha256.Sum256(block.Bytes), key: key},
		client: http.Client{Timeout: 10 * time.Second}}, nil
}

func run() error {
	origin := flag.String("origin", "", "the log's `name` in checkpoints")
	keyFile := flag.String("key", "", "`file` with the log's public key in PEM")
	every := flag.Duration("every", time.Second, "minimum `duration` between two checkpoints")
	once := flag.Bool("once", false, "end after a checkpoint was read completely")
	flag.Parse()
	if flag.NArg() == 0 {
		return errors.New("there is no address")
	}
	r, err := newReader(*origin, *keyFile)
	if err != nil {
		return err
	}
	ctx, stop := signal.NotifyContext(context.Background(), syscall.SIGTERM, syscall.SIGINT)
	defer stop()
	for i := 0; ctx.Err() == nil; i++ {
		before := r.size
		tree, err := r.follow(ctx, flag.Arg(i%flag.NArg()))
		switch {
		case errors.Is(err, errWrong):
			return fmt.Errorf("%s: %w", r.address, err)
		case ctx.Err() != nil:
		case err != nil:
			fmt.Printf("%s: %v\n", r.address, err)
		case tree.N > before:
			fmt.Printf("%s: %d entries, root %v: consistent, and all leaves are there\n", r.address, tree.N, tree.Hash)
		}
		if *once && err == nil {
			break
		}
		select {
		case <-ctx.Done():
		case <-time.After(*every):
		}
	}
	fmt.Printf("%d entries were read, and all was right\n", r.size)
	return nil
}

func main() {
	if err := run(); err != nil {
		fmt.Fprintln(os.Stderr, "tlog:", err)
		os.Exit(1)
	}
}
