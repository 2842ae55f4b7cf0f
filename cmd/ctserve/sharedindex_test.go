package main

import (
	"bytes"
	"context"
	"encoding/gob"
	"fmt"
	"net/http"
	"net/http/httptest"
	"strings"
	"sync"

	"wagtenib/internal/blob"
)

// sharedIndex is an index in a test's memory. The nodes of one log, which are other processes, use it over HTTP, as
// they use PostgreSQL outside of tests. Its address is shared:HOST:PORT.
type sharedIndex struct {
	mu                 sync.Mutex
	identities, leaves map[blob.Identity]blob.Place
}

// indexCall is a node's request.
type indexCall struct {
	OfLeaves, Replaces bool
	Keys               []blob.Identity
	Rows               []blob.Row
}

const sharedKind = "shared:"

func init() {
	others := indexAt
	indexAt = func(ctx context.Context, address string) (blob.Index, error) {
		if at, isShared := strings.CutPrefix(address, sharedKind); isShared {
			return indexClient("http://" + at), nil
		}
		return others(ctx, address)
	}
}

// sharedIndex returns the address of an index that is empty at first.
func (p *place) sharedIndex() string {
	if p.shared == "" {
		server := httptest.NewServer(&sharedIndex{identities: map[blob.Identity]blob.Place{},
			leaves: map[blob.Identity]blob.Place{}})
		p.t.Cleanup(server.Close)
		p.shared = sharedKind + strings.TrimPrefix(server.URL, "http://")
	}
	return p.shared
}

func (s *sharedIndex) ServeHTTP(w http.ResponseWriter, r *http.Request) {
	var call indexCall
	if err := gob.NewDecoder(r.Body).Decode(&call); err != nil {
		http.Error(w, err.Error(), http.StatusBadRequest)
		return
	}
	s.mu.Lock()
	defer s.mu.Unlock()
	table := s.identities
	if call.OfLeaves {
		table = s.leaves
	}
	found := map[blob.Identity]blob.Place{}
	for _, key := range call.Keys {
		if place, ok := table[key]; ok {
			found[key] = place
		}
	}
	for _, row := range call.Rows {
		if _, ok := s.identities[row.Identity]; !ok || call.Replaces {
			s.identities[row.Identity] = row.Place
		}
		if _, ok := s.leaves[row.Leaf]; !ok || call.Replaces {
			s.leaves[row.Leaf] = row.Place
		}
	}
	// A node that was killed reads no answer, so the write may fail.
	_ = gob.NewEncoder(w).Encode(found)
}

// indexClient is the index at a URL.
type indexClient string

func (c indexClient) ask(ctx context.Context, call indexCall) (found map[blob.Identity]blob.Place, err error) {
	var asked bytes.Buffer
	if err := gob.NewEncoder(&asked).Encode(call); err != nil {
		return nil, err
	}
	request, err := http.NewRequestWithContext(ctx, http.MethodPost, string(c), &asked)
	if err != nil {
		return nil, err
	}
	answer, err := http.DefaultClient.Do(request)
	if err != nil {
		return nil, err
	}
	defer answer.Body.Close()
	if answer.StatusCode != http.StatusOK {
		return nil, fmt.Errorf("the shared index: %s", answer.Status)
	}
	err = gob.NewDecoder(answer.Body).Decode(&found)
	return found, err
}

func (c indexClient) Find(ctx context.Context, keys []blob.Identity) (map[blob.Identity]blob.Place, error) {
	return c.ask(ctx, indexCall{Keys: keys})
}

func (c indexClient) FindLeaves(ctx context.Context, keys []blob.Identity) (map[blob.Identity]blob.Place, error) {
	return c.ask(ctx, indexCall{Keys: keys, OfLeaves: true})
}

func (c indexClient) Add(ctx context.Context, rows []blob.Row) error {
	_, err := c.ask(ctx, indexCall{Rows: rows})
	return err
}

func (c indexClient) Replace(ctx context.Context, rows []blob.Row) error {
	_, err := c.ask(ctx, indexCall{Rows: rows, Replaces: true})
	return err
}

func (c indexClient) Close() error { return nil }
