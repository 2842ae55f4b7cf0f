package probe_test

import (
	"bytes"
	"context"
	"crypto/sha256"
	"crypto/x509"
	"encoding/base64"
	"encoding/binary"
	"encoding/json"
	"fmt"
	"net/http"
	"net/http/httptest"
	"strings"
	"sync"
	"testing"
	"time"

	ctx509 "github.com/google/certificate-transparency-go/x509"

	"wagtenib/internal/testkit"
)

// mergeDelay is the maximum merge delay of the log of these tests.
const mergeDelay = time.Minute

// virtualClock is a clock that advances only by waits and requests.
type virtualClock struct {
	mutex sync.Mutex
	now   time.Time
}

func (c *virtualClock) Now() time.Time {
	c.mutex.Lock()
	defer c.mutex.Unlock()
	return c.now
}

func (c *virtualClock) Wait(ctx context.Context, d time.Duration) error {
	c.mutex.Lock()
	defer c.mutex.Unlock()
	c.now = c.now.Add(d)
	return ctx.Err()
}

// server is a correct log, built on tlog of x/mod, with the faults that a test plants. It answers in this process, and
// uses the virtual clock.
type server struct {
	t       *testing.T
	clock   *virtualClock
	log     *testkit.Log
	began   time.Time
	signed  time.Time // when the newest head was signed
	known   map[[32]byte]testkit.Entry
	indexes map[[32]byte]uint64
	roots   [][]byte
	listed  map[string]any
	count   map[string]int // of the requests of each path
	planted planted
}

// planted holds the functions that make a server breach its rules. Each of them may be nil.
type planted struct {
	publishes func(s *server) bool      // reports whether the server signs a head now
	size      func(s *server) uint64    // returns the size of the head that the server signs
	timestamp func(s *server) time.Time // returns the timestamp of an SCT
	sct       func(s *server, number int,
		sct map[string]any) // changes the SCT with this number, which counts from 1
	before func(s *server, w http.ResponseWriter, r *http.Request) bool        // answers instead, if it returns true
	after  func(s *server, r *http.Request, answer *httptest.ResponseRecorder) // changes an answer
}

func newServer(t *testing.T, roots ...[]byte) *server {
	t.Helper()
	log := testkit.NewLog("log.example/2027h1")
	clock := &virtualClock{now: time.Date(2027, 1, 10, 0, 0, 0, 0, time.UTC)}
	id := sha256.Sum256(log.PublicKey())
	listed := map[string]any{"description": "a log", "log_id": id[:], "key": log.PublicKey(),
		"mmd":            int(mergeDelay / time.Second),
		"submission_url": "https://log.example/2027h1/", "monitoring_url": "https://log.example/2027h1/",
		"temporal_interval": map[string]string{"start_inclusive": "2027-01-01T00:00:00Z",
			"end_exclusive": "2027-07-01T00:00:00Z"}}
	return &server{t: t, clock: clock, log: log, began: clock.Now(), known: map[[32]byte]testkit.Entry{},
		indexes: map[[32]byte]uint64{},
		roots:   roots, listed: listed, count: map[string]int{}}
}

// RoundTrip answers a request. Each request takes 5 ms of virtual time.
func (s *server) RoundTrip(r *http.Request) (*http.Response, error) {
	s.clock.mutex.Lock()
	s.clock.now = s.clock.now.Add(5 * time.Millisecond)
	s.clock.mutex.Unlock()
	path := strings.TrimPrefix(r.URL.Path, "/2027h1")
	s.count[path]++
	answer := httptest.NewRecorder()
	s.publish()
	inner := r.Clone(r.Context())
	inner.URL.Path = path
	if s.planted.before == nil || !s.planted.before(s, answer, inner) {
		s.answer(answer, inner)
	}
	if s.planted.after != nil {
		s.planted.after(s, inner, answer)
	}
	response := answer.Result()
	response.Request = r
	return response, nil
}

// publish signs a head if the last one is a second old.
func (s *server) publish() {
	now := s.clock.Now()
	if now.Sub(s.signed) < time.Second || s.planted.publishes != nil && !s.planted.publishes(s) {
		return
	}
	size := s.log.Size()
	if s.planted.size != nil {
		size = s.planted.size(s)
	}
	s.signed = now
	s.log.Publish(size, uint64(now.UnixMilli()))
}

func (s *server) answer(w http.ResponseWriter, r *http.Request) {
	header := w.Header()
	header.Set("Access-Control-Allow-Origin", "*")
	header.Set("Cache-Control", "max-age=1")
	header.Set("Content-Type", "application/json")
	switch path := r.URL.Path; {
	case path == "/ct/v1/add-chain" || path == "/ct/v1/add-pre-chain":
		s.add(w, r, path == "/ct/v1/add-pre-chain")
		return
	case path == "/ct/v1/get-roots":
		s.write(w, map[string]any{"certificates": s.roots})
		return
	case path == "/log.v3.json":
		s.write(w, s.listed)
		return
	case path == "/checkpoint":
		header.Set("Content-Type", "text/plain; charset=utf-8")
	case strings.HasPrefix(path, "/tile/"):
		header.Set("Content-Type", "application/octet-stream")
		header.Set("Cache-Control", "public, max-age=31536000, immutable")
	case strings.HasPrefix(path, "/issuer/"):
		header.Set("Content-Type", "application/pkix-cert")
		header.Set("Cache-Control", "public, max-age=31536000, immutable")
	}
	s.log.ServeHTTP(w, r)
}

func (s *server) write(w http.ResponseWriter, answer any) {
	if err := json.NewEncoder(w).Encode(answer); err != nil {
		s.t.Error(err)
	}
}

// add answers a submission. It makes the entry of a precertificate with certificate-transparency-go.
func (s *server) add(w http.ResponseWriter, r *http.Request, isPrecertificate bool) {
	var body struct {
		Chain [][]byte `json:"chain"`
	}
	if err := json.NewDecoder(r.Body).Decode(&body); err != nil || len(body.Chain) < 2 {
		s.t.Errorf("a submission of %d certificates: %v", len(body.Chain), err)
		http.Error(w, "no chain", http.StatusBadRequest)
		return
	}
	timestamp := s.clock.Now()
	if s.planted.timestamp != nil {
		timestamp = s.planted.timestamp(s)
	}
	entry := testkit.Entry{Timestamp: uint64(timestamp.UnixMilli()), Certificate: body.Chain[0], Chain: body.Chain[1:]}
	first, err := x509.ParseCertificate(body.Chain[0])
	if err != nil {
		s.t.Error(err)
	}
	if isPrecertificate {
		issuer, err := x509.ParseCertificate(body.Chain[1])
		if err != nil {
			s.t.Error(err)
		}
		key := sha256.Sum256(issuer.RawSubjectPublicKeyInfo)
		if entry.Certificate, err = ctx509.RemoveCTPoison(first.RawTBSCertificate); err != nil {
			s.t.Error(err)
		}
		entry.IssuerKeyHash, entry.Precertificate = key[:], body.Chain[0]
	}
	fingerprint := sha256.Sum256(body.Chain[0])
	index, isKnown := s.indexes[fingerprint]
	if isKnown {
		entry = s.known[fingerprint]
	} else {
		index = s.log.Size()
		s.known[fingerprint], s.indexes[fingerprint] = entry, index
		s.log.Add(entry)
	}
	answer := s.sctOf(entry, index)
	if s.planted.sct != nil {
		s.planted.sct(s, s.count["/ct/v1/add-chain"]+s.count["/ct/v1/add-pre-chain"], answer)
	}
	s.write(w, answer)
}

// sctOf returns an SCT in the form of an answer to add-chain (RFC 6962, section 4.1).
func (s *server) sctOf(entry testkit.Entry, index uint64) map[string]any {
	sct := s.log.SCT(entry, index)
	const fixed = 1 + 32 + 8 + 2
	extensions := int(binary.BigEndian.Uint16(sct[fixed-2:]))
	return map[string]any{"sct_version": 0, "id": sct[1:33], "timestamp": binary.BigEndian.Uint64(sct[33:]),
		"extensions": base64.StdEncoding.EncodeToString(sct[fixed : fixed+extensions]),
		"signature":  sct[fixed+extensions:]}
}

// replace replaces the body of an answer, and leaves its headers.
func replace(answer *httptest.ResponseRecorder, content []byte) {
	answer.Body = bytes.NewBuffer(content)
}

// list returns a log list with only this log.
func (s *server) list() []byte {
	content, err := json.Marshal(map[string]any{"operators": []any{map[string]any{"name": "an operator",
		"tiled_logs": []any{s.listed}}}})
	if err != nil {
		s.t.Fatal(fmt.Errorf("the log's entry: %w", err))
	}
	return content
}

// id returns the log's ID.
func (s *server) id() []byte {
	id := sha256.Sum256(s.log.PublicKey())
	return id[:]
}

// signWithout replaces the signature of an SCT for the newest entry with one over a leaf without extensions.
func (s *server) signWithout(sct map[string]any) {
	index := s.log.Size() - 1
	for fingerprint, at := range s.indexes {
		if at != index {
			continue
		}
		leaf := s.known[fingerprint].MerkleLeaf(index)
		leaf = append(leaf[:len(leaf)-10:len(leaf)-10], 0, 0) // The extensions are 8 bytes, after 2 bytes of length.
		signed := s.log.SCT(testkit.Entry{Leaf: leaf}, index)
		sct["extensions"], sct["signature"] = "", signed[1+32+8+2+8:]
	}
}
