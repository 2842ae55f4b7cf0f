package logclient_test

import (
	"bytes"
	"context"
	"crypto/sha256"
	"encoding/hex"
	"errors"
	"fmt"
	"net/http"
	"strconv"
	"strings"
	"sync/atomic"
	"testing"

	"wagtenib/internal/logclient"
)

// TestReadsSmallPages checks that a log that returns few entries per answer, or cuts answers at its own pages, is read
// completely.
func TestReadsSmallPages(t *testing.T) {
	for _, size := range []int{1, 7, 32, 255, 1000} {
		log := newLog(t, 1000)
		log.Page = size
		c := client(t, log, logclient.Options{})
		for _, from := range []uint64{0, 1, 255, 256, 700, 999, 1000} {
			next := from
			err := c.Entries(context.Background(), from, 1000, func(page logclient.Page, _ bool) error {
				if page.Start != next {
					return fmt.Errorf("entry %d comes after %d", page.Start, next)
				}
				next += uint64(len(page.Entries))
				return nil
			})
			if err != nil || next != 1000 {
				t.Errorf("pages of %d from %d on: %d, %v", size, from, next, err)
			}
		}
	}
}

// TestLimitsTheAnswersOfAPage checks that a log that returns one entry per answer, with many other bytes, cannot fill
// the memory. The answers for the entries of one page have a common limit.
func TestLimitsTheAnswersOfAPage(t *testing.T) {
	const answer = 1000 // bytes
	requests := 0
	log := http.HandlerFunc(func(w http.ResponseWriter, _ *http.Request) {
		requests++
		fmt.Fprintf(w, "%-*s", answer, `{"entries":[{"leaf_input":"AAAA","extra_data":""}]}`)
	})
	for maxBytes, expected := range map[int64]error{100 * answer: logclient.ErrTooLarge,
		255 * answer: logclient.ErrTooLarge, 256 * answer: nil} {
		requests = 0
		c := client(t, log, logclient.Options{Limits: logclient.Limits{Page: maxBytes}})
		entries := 0
		err := c.Entries(context.Background(), 0, 256, func(page logclient.Page, _ bool) error {
			entries += len(page.Entries)
			return nil
		})
		if !errors.Is(err, expected) || err == nil && entries != 256 || requests > int(maxBytes/answer)+1 {
			t.Errorf("with %d bytes: %d entries in %d answers, %v, expected %v", maxBytes, entries, requests, err,
				expected)
		}
	}
}

// TestReadsWithASmallBuffer checks that with a small buffer, tiles are requested again when they are the next ones.
// They must be complete and in order, and the buffer must be released.
func TestReadsWithASmallBuffer(t *testing.T) {
	const tile = 1 << 20
	var requests atomic.Int64
	c := client(t, http.HandlerFunc(func(w http.ResponseWriter, r *http.Request) {
		requests.Add(1)
		number, err := strconv.Atoi(strings.TrimPrefix(r.URL.Path, "/tile/data/"))
		if err == nil {
			_, err = w.Write(bytes.Repeat([]byte{byte(number)}, tile))
		}
		if err != nil && r.Context().Err() == nil {
			t.Error(err)
		}
	}), logclient.Options{Limits: logclient.Limits{Buffer: 2*tile + tile/2}})
	for round := range 2 {
		next := uint64(0)
		err := c.DataTiles(context.Background(), 0, 40*256, func(of logclient.DataTile, _ bool) error {
			if of.Index != next || !bytes.Equal(of.Bytes, bytes.Repeat([]byte{byte(next)}, tile)) {
				return fmt.Errorf("tile %d has %d bytes, and tile %d is next", of.Index, len(of.Bytes), next)
			}
			next++
			return nil
		})
		if err != nil || next != 40 {
			t.Errorf("round %d: %d tiles, %v", round, next, err)
		}
	}
	if requests.Load() <= 80 {
		t.Errorf("%d requests: the buffer was never too small", requests.Load())
	}
}

// TestStopsAtAFailure checks that what precedes a failure is used, in order, and that nothing after it is.
func TestStopsAtAFailure(t *testing.T) {
	log := newLog(t, 2000)
	log.Intercept(func(w http.ResponseWriter, r *http.Request) bool {
		if r.URL.Path == "/tile/data/005" {
			w.WriteHeader(http.StatusForbidden)
			return true
		}
		return false
	})
	c := client(t, log, logclient.Options{})
	next := uint64(0)
	err := c.DataTiles(context.Background(), 0, 2000, func(logclient.DataTile, bool) error {
		next++
		return nil
	})
	if !errors.Is(err, logclient.ErrStatus) || next != 5 {
		t.Errorf("%d tiles, %v", next, err)
	}
	failure := errors.New("enough")
	if err := c.DataTiles(context.Background(), 0, 1000, func(logclient.DataTile,
		bool) error {
		return failure
	}); err != failure {
		t.Errorf("%v, expected the caller's error", err)
	}
}

// TestReadsFullTileForPartial checks that a partial tile that no longer exists is cut from the full one.
func TestReadsFullTileForPartial(t *testing.T) {
	log := newLog(t, 600)
	log.Intercept(func(w http.ResponseWriter, r *http.Request) bool {
		if strings.Contains(r.URL.Path, ".p/") {
			http.NotFound(w, r)
			return true
		}
		return false
	})
	c := client(t, log, logclient.Options{})
	full, err := c.HashTile(context.Background(), "tile/0/001")
	if err != nil || len(full) != 8192 {
		t.Fatalf("%d bytes, %v", len(full), err)
	}
	part, err := c.HashTile(context.Background(), "tile/0/001.p/77")
	if err != nil || !bytes.Equal(part, full[:77*32]) {
		t.Errorf("%d bytes, %v", len(part), err)
	}
	if _, err := c.HashTile(context.Background(), "tile/0/002"); !errors.Is(err, logclient.ErrNotFound) {
		t.Errorf("a tile that is not there: %v", err)
	}
	widths := []int{}
	err = c.DataTiles(context.Background(), 256, 500, func(tile logclient.DataTile, _ bool) error {
		widths = append(widths, tile.Width)
		return nil
	})
	if err != nil || len(widths) != 1 || widths[0] != 244 {
		t.Errorf("tiles of %v entries, %v", widths, err)
	}
}

// TestRefusesOtherBytes checks that a tile of another length, and an issuer with another hash, are refused.
func TestRefusesOtherBytes(t *testing.T) {
	c := client(t, http.HandlerFunc(func(w http.ResponseWriter, _ *http.Request) { fmt.Fprint(w, "issuer") }),
		logclient.Options{})
	if _, err := c.HashTile(context.Background(), "tile/0/000"); !errors.Is(err, logclient.ErrNonsense) {
		t.Errorf("a short tile: %v", err)
	}
	if _, err := c.Issuer(context.Background(), [32]byte{1}); !errors.Is(err, logclient.ErrNonsense) {
		t.Errorf("another issuer: %v", err)
	}
	// The hash was computed by sha256sum.
	fingerprint, err := hex.DecodeString("535c6f8eb511f5d966a1b0725df92ebf27514faba945cbbd698e23ac72c41757")
	if err != nil {
		t.Fatal(err)
	}
	if content, err := c.Issuer(context.Background(), [sha256.Size]byte(fingerprint)); err != nil ||
		string(content) != "issuer" {
		t.Errorf("the issuer is %q, %v", content, err)
	}
}

// TestRoots checks that the roots of a log are returned unchanged (RFC 6962, section 4.7).
func TestRoots(t *testing.T) {
	c := client(t, http.HandlerFunc(func(w http.ResponseWriter, r *http.Request) {
		if r.URL.Path != "/ct/v1/get-roots" {
			http.NotFound(w, r)
			return
		}
		fmt.Fprint(w, `{"certificates":["cm9vdA==","b3RoZXI="]}`) // This is base64 of "root" and "other".
	}), logclient.Options{})
	roots, err := c.Roots(context.Background())
	if err != nil || len(roots) != 2 || string(roots[0]) != "root" || string(roots[1]) != "other" {
		t.Errorf("%q, %v", roots, err)
	}
	page := client(t, http.HandlerFunc(func(w http.ResponseWriter, _ *http.Request) { fmt.Fprint(w, "<html>") }),
		logclient.Options{})
	if _, err := page.Roots(context.Background()); !errors.Is(err, logclient.ErrNonsense) {
		t.Errorf("a page: %v", err)
	}
}

// TestFollowsItsOwnRedirects checks that a redirect within the log's own host is followed, with the same limits.
func TestFollowsItsOwnRedirects(t *testing.T) {
	c := client(t, http.HandlerFunc(func(w http.ResponseWriter, r *http.Request) {
		if r.URL.Path == "/checkpoint" {
			http.Redirect(w, r, "/moved/checkpoint", http.StatusMovedPermanently)
			return
		}
		fmt.Fprint(w, r.URL.Path)
	}), logclient.Options{})
	if content, err := c.Checkpoint(context.Background()); err != nil || string(content) != "/moved/checkpoint" {
		t.Errorf("%q, %v", content, err)
	}
}
