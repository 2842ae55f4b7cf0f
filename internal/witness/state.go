package witness

import (
	"bytes"
	"crypto/rand"
	"crypto/sha256"
	"encoding/base64"
	"encoding/json"
	"errors"
	"fmt"
	"io"
	"strings"

	"wagtenib/bindings/go/wagtenib"
)

// emptyRoot is the root of the tree without leaves: SHA-256 of the empty string.
var emptyRoot = sha256.Sum256(nil)

// stateVersion is the first line of a state's text. neverCosigned is in place of a message before the first
// cosignature.
const (
	stateVersion  = "witness state 2"
	neverCosigned = "none yet\n"
	saltBytes     = 16
)

// state is what a witness stores of a log: the message that was cosigned last (docs/WITNESS.md), which is nil before
// the first cosignature, and the tree in that message. Before the first cosignature it is the tree without leaves.
type state struct {
	origin  string
	message []byte
	tree    wagtenib.WitnessedTree
}

// emptyState returns the state of a log that was never cosigned.
func emptyState(origin string) state {
	return state{origin: origin, tree: wagtenib.WitnessedTree{Root: emptyRoot}}
}

// text returns the text of a lock: a line with the version, a line with a random number, and the message. The random
// number makes the texts of any two swaps differ. So a swap also fails if another request cosigned the same tree in the
// same second meanwhile.
func (s state) text() (string, error) {
	salt := make([]byte, saltBytes)
	if _, err := rand.Read(salt); err != nil {
		return "", fmt.Errorf("witness: %w", err)
	}
	message := string(s.message)
	if s.message == nil {
		message = neverCosigned + s.origin + "\n"
	}
	return stateVersion + "\n" + base64.StdEncoding.EncodeToString(salt) + "\n" + message, nil
}

// readState reads the text of a log's lock. It refuses a text of any other form, which is never taken for the state of
// a log that was never cosigned.
func readState(text, origin string) (state, error) {
	wrong := func(why string) (state, error) {
		return state{}, fmt.Errorf("%w %s: %s: %.80q", ErrState, origin, why, text)
	}
	if strings.HasPrefix(text, "{") {
		last, err := readJSON(text, origin)
		if err != nil {
			return wrong(err.Error())
		}
		return last, nil
	}
	lines := strings.SplitN(text, "\n", 3)
	if len(lines) != 3 || lines[0] != stateVersion {
		return wrong("it has another form")
	}
	if salt, err := base64.StdEncoding.DecodeString(lines[1]); err != nil || len(salt) != saltBytes ||
		base64.StdEncoding.EncodeToString(salt) != lines[1] {
		return wrong("it has no random number")
	}
	if lines[2] == neverCosigned+origin+"\n" {
		return emptyState(origin), nil
	}
	last, err := readMessage([]byte(lines[2]), origin)
	if err != nil {
		return wrong(err.Error())
	}
	return last, nil
}

// readMessage reads the message of a cosignature of a log.
func readMessage(message []byte, origin string) (state, error) {
	tree, err := wagtenib.WitnessState(message, message)
	if err != nil {
		return state{}, err
	}
	if lines := strings.SplitN(string(message), "\n", 4); lines[2] != origin {
		return state{}, fmt.Errorf("it belongs to the log %q", lines[2])
	}
	return state{origin: origin, message: message, tree: tree}, nil
}

// readJSON reads the text of a lock of earlier builds, and returns the state with the message that was cosigned then.
// The next swap replaces the text.
func readJSON(text, origin string) (state, error) {
	var of struct {
		Root   []byte `json:"last_root"`
		Size   uint64 `json:"last_size"`
		Origin string `json:"origin"`
		Salt   []byte `json:"salt"`
		Time   uint64 `json:"time"`
	}
	if err := decodeStrictly([]byte(text), &of); err != nil {
		return state{}, err
	}
	if of.Origin != origin || len(of.Root) != len(emptyRoot) {
		return state{}, errors.New("it belongs to another log, or has no root")
	}
	if of.Time == 0 && of.Size == 0 && bytes.Equal(of.Root, emptyRoot[:]) {
		return emptyState(origin), nil
	}
	return readMessage(Message(of.Time, fmt.Sprintf("%s\n%d\n%s\n", origin, of.Size,
		base64.StdEncoding.EncodeToString(of.Root))), origin)
}

// decodeStrictly reads exactly one JSON value, and refuses unknown keys.
func decodeStrictly(text []byte, into any) error {
	read := json.NewDecoder(bytes.NewReader(text))
	read.DisallowUnknownFields()
	if err := read.Decode(into); err != nil {
		return err
	}
	if _, err := read.Token(); err != io.EOF {
		return errors.New("more than one value")
	}
	return nil
}

// newestSeen returns the newest state of a log that this process saw, or the state of a log that was never cosigned if
// it saw none.
func (s *Server) newestSeen(origin string) state {
	s.mu.Lock()
	defer s.mu.Unlock()
	if of, ok := s.seen[origin]; ok {
		return of
	}
	return emptyState(origin)
}

// remember keeps a state if it is the newest one of its log.
func (s *Server) remember(of state) {
	s.mu.Lock()
	defer s.mu.Unlock()
	if before, ok := s.seen[of.origin]; !ok || checkNotOlder(of, before) == nil {
		s.seen[of.origin] = of
	}
}

// checkNotOlder returns an error if a state is older than one that was seen before it was read, or has another tree of
// the same size. Then the state was rolled back, and cosigning from it would create a fork.
func checkNotOlder(last, before state) error {
	if before.message == nil {
		return nil
	}
	err := error(wagtenib.ErrStateRolledBack)
	if last.message != nil {
		_, err = wagtenib.WitnessState(before.message, last.message)
	}
	if err == nil {
		return nil
	}
	return fmt.Errorf("%w %s: it was rolled back while this witness runs: it has %d leaves with the root %x, and had %d "+
		"with %x (restore the newer state): %w", ErrState, last.origin,
		last.tree.TreeSize, last.tree.Root, before.tree.TreeSize, before.tree.Root, err)
}
