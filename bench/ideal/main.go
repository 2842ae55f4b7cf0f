// Command ideal is a log of C2SP static-ct-api with the minimum cost: a queue, one loop, tiles and a checkpoint. It
// proves nothing, and has no guard, no index on disk that it can search, no limits, no recovery and no second node. It
// stores what a log must store: every file of a step is on the disk before the step's SCTs are returned.
//
//	ideal --folder FOLDER --key KEY --roots ROOTS --listen ADDRESS
//
// It reads the roots again at SIGHUP. bench/peers.py runs it in turns with ctserve.
package main

import (
	"bytes"
	"crypto/ecdsa"
	"crypto/rand"
	"crypto/sha256"
	"crypto/x509"
	"encoding/base64"
	"encoding/json"
	"encoding/pem"
	"flag"
	"fmt"
	"io"
	"log"
	"net/http"
	"os"
	"os/signal"
	"path/filepath"
	"strings"
	"sync"
	"sync/atomic"
	"syscall"
)

const (
	// origin is the log's name in its checkpoints.
	origin = "ideal.example/log"
	// maxBody is the maximum number of bytes of a request's body.
	maxBody = 1 << 20
)

type hash = [sha256.Size]byte

// server answers requests.
type server struct {
	folder  string
	key     *ecdsa.PrivateKey
	logID   hash
	roots   atomic.Pointer[[]*x509.Certificate]
	issuers sync.Map
	queue   queue
	places  places
	tree    tree
	// size and steps are those of the newest checkpoint.
	size, steps atomic.Int64
}

// queue has the entries that wait for the next step.
type queue struct {
	mu      sync.Mutex
	entries []*entry
	byID    map[hash]*entry
	wake    chan struct{}
}

// add adds an entry to the queue. If an equal entry already waits, it returns that one.
func (q *queue) add(e *entry) *entry {
	q.mu.Lock()
	if first := q.byID[e.id]; first != nil {
		e = first
	} else {
		q.entries, q.byID[e.id] = append(q.entries, e), e
	}
	q.mu.Unlock()
	select {
	case q.wake <- struct{}{}:
	default:
	}
	return e
}

// take returns the entries that wait, and empties the queue.
func (q *queue) take() []*entry {
	q.mu.Lock()
	defer q.mu.Unlock()
	taken := q.entries
	q.entries, q.byID = nil, map[hash]*entry{}
	return taken
}

// places has the index and the timestamp of each entry in memory. Its file also has the indexes, in the order of the
// entries.
type places struct {
	mu   sync.RWMutex
	byID map[hash]place
	file *os.File
}

// place is the index and the timestamp of an entry in the log.
type place struct{ index, timestamp uint64 }

// find returns the place of an entry that is in the log.
func (p *places) find(id hash) (place, bool) {
	p.mu.RLock()
	defer p.mu.RUnlock()
	result, ok := p.byID[id]
	return result, ok
}

// must ends the program after an error.
func must(err error) {
	if err != nil {
		log.Fatal("ideal: ", err)
	}
}

// submit answers add-chain and add-pre-chain.
func (s *server) submit(w http.ResponseWriter, r *http.Request) {
	var request struct {
		Chain [][]byte `json:"chain"`
	}
	body, err := io.ReadAll(io.LimitReader(r.Body, maxBody))
	if err == nil {
		err = json.Unmarshal(body, &request)
	}
	var e *entry
	if err == nil {
		e, err = s.check(request.Chain, strings.HasSuffix(r.URL.Path, "pre-chain"))
	}
	if err != nil {
		http.Error(w, err.Error(), http.StatusBadRequest)
		return
	}
	known, isKnown := s.places.find(e.id)
	if isKnown {
		e.place = known
	} else {
		e = s.queue.add(e)
		<-e.placed
	}
	signed := sign(s.key, e.leaf())
	if !isKnown {
		<-e.published
	}
	w.Header().Set("Content-Type", "application/json")
	text := base64.StdEncoding.EncodeToString
	fmt.Fprintf(w, `{"sct_version":0,"id":"%s","timestamp":%d,"extensions":"%s","signature":"%s"}`, text(s.logID[:]),
		e.timestamp, text(e.extensions()), text(signed))
}

// sign returns the DigitallySigned of a message (RFC 5246, section 4.7).
func sign(key *ecdsa.PrivateKey, message []byte) []byte {
	digest := sha256.Sum256(message)
	der, err := ecdsa.SignASN1(rand.Reader, key, digest[:])
	must(err)
	return vector([]byte{4, 3}, 2, der)
}

// getSTH answers get-sth with only the size, and with the number of steps so far.
func (s *server) getSTH(w http.ResponseWriter, _ *http.Request) {
	fmt.Fprintf(w, `{"tree_size":%d,"steps":%d}`, s.size.Load(), s.steps.Load())
}

// getRoots answers get-roots.
func (s *server) getRoots(w http.ResponseWriter, _ *http.Request) {
	certificates := [][]byte{}
	for _, root := range *s.roots.Load() {
		certificates = append(certificates, root.Raw)
	}
	must(json.NewEncoder(w).Encode(map[string]any{"certificates": certificates}))
}

// readRoots reads the roots from a PEM file.
func (s *server) readRoots(path string) {
	content, err := os.ReadFile(path)
	must(err)
	var roots []*x509.Certificate
	for block, rest := pem.Decode(content); block != nil; block, rest = pem.Decode(rest) {
		root, err := x509.ParseCertificate(block.Bytes)
		must(err)
		roots = append(roots, root)
	}
	s.roots.Store(&roots)
}

// root returns an accepted root whose subject is the issuer of a certificate, or nil.
func (s *server) root(of *x509.Certificate) *x509.Certificate {
	for _, root := range *s.roots.Load() {
		if bytes.Equal(root.RawSubject, of.RawIssuer) {
			return root
		}
	}
	return nil
}

// readKey reads the first EC private key in a PEM file.
func readKey(path string) *ecdsa.PrivateKey {
	content, err := os.ReadFile(path)
	must(err)
	for block, rest := pem.Decode(content); block != nil; block, rest = pem.Decode(rest) {
		if key, err := x509.ParseECPrivateKey(block.Bytes); err == nil {
			return key
		}
	}
	log.Fatalf("ideal: %s has no EC private key", path)
	return nil
}

func main() {
	folder, key := flag.String("folder", "", "`folder` of the log"), flag.String("key", "", "`file` of the EC private key")
	roots := flag.String("roots", "", "`file` of the accepted roots in PEM")
	listen := flag.String("listen", "", "`address` to listen at")
	flag.Parse()
	must(os.MkdirAll(filepath.Join(*folder, "issuer"), 0o755))
	file, err := os.OpenFile(filepath.Join(*folder, "places"), os.O_CREATE|os.O_APPEND|os.O_WRONLY, 0o644)
	must(err)
	s := &server{folder: *folder, key: readKey(*key), queue: queue{byID: map[hash]*entry{}, wake: make(chan struct{}, 1)},
		places: places{byID: map[hash]place{}, file: file}, tree: tree{synced: map[string]bool{}}}
	public, err := x509.MarshalPKIXPublicKey(s.key.Public())
	must(err)
	s.logID = sha256.Sum256(public)
	s.readRoots(*roots)
	reload := make(chan os.Signal, 1)
	signal.Notify(reload, syscall.SIGHUP)
	go func() {
		for range reload {
			s.readRoots(*roots)
		}
	}()
	go s.loop()
	http.HandleFunc("POST /ct/v1/add-chain", s.submit)
	http.HandleFunc("POST /ct/v1/add-pre-chain", s.submit)
	http.HandleFunc("GET /ct/v1/get-sth", s.getSTH)
	http.HandleFunc("GET /ct/v1/get-roots", s.getRoots)
	http.Handle("/", http.FileServer(http.Dir(*folder)))
	must(http.ListenAndServe(*listen, nil))
}
