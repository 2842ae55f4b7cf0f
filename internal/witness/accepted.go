package witness

import (
	"errors"
	"fmt"
	"io"
	"net/http"
	"os"

	"golang.org/x/mod/sumdb/note"

	"wagtenib/bindings/go/wagtenib"
)

// maxAccepted is the maximum number of bytes of a signed checkpoint in a file.
const maxAccepted = 64 << 10

// ErrAccepted means that a file does not contain a checkpoint that the log signed.
var ErrAccepted = errors.New("witness: no accepted head of a monitor")

// AcceptedBy returns the size and the root of the tree that a monitor accepted last. The monitor stores the log's
// signed checkpoint in a file (ctwatch run --accepted-folder) after it has read all leaves and compared their root. The
// note must have a signature by each of the log's keys.
func AcceptedBy(path, origin string, keys []note.Verifier) (size uint64, root [32]byte, err error) {
	signed, err := readAccepted(path)
	if err != nil {
		return 0, root, err
	}
	opened, err := note.Open(signed, note.VerifierList(keys...))
	if err != nil || len(opened.Sigs) != len(keys) {
		return 0, root, fmt.Errorf("%w: %s: it lacks a signature by a key of the log", ErrAccepted, path)
	}
	checkpoint, err := wagtenib.ReadCheckpoint(opened.Text)
	if err != nil {
		return 0, root, fmt.Errorf("%w: %s: %v", ErrAccepted, path, err)
	}
	if checkpoint.Origin != origin {
		return 0, root, fmt.Errorf("%w: %s: it belongs to the log %q", ErrAccepted, path, checkpoint.Origin)
	}
	return checkpoint.TreeSize, checkpoint.Root, nil
}

// readAccepted reads a file of at most maxAccepted bytes.
func readAccepted(path string) ([]byte, error) {
	opened, err := os.Open(path)
	if err != nil {
		return nil, fmt.Errorf("%w: %v", ErrAccepted, err)
	}
	defer opened.Close()
	text, err := io.ReadAll(io.LimitReader(opened, maxAccepted+1))
	if err != nil {
		return nil, fmt.Errorf("%w: %v", ErrAccepted, err)
	}
	if len(text) > maxAccepted {
		return nil, fmt.Errorf("%w: %s has more than %d bytes", ErrAccepted, path, maxAccepted)
	}
	return text, nil
}

// unread returns the refusal of a tree that the log's monitor has not accepted, and true, or false if there is none.
// Either the monitor has not read this tree yet, or it has accepted another tree of this size, which is logged.
func (s *Server) unread(log *Log, next wagtenib.WitnessedTree) (refusal answer, isUnread bool) {
	if log.Accepted == nil {
		return refusal, false
	}
	size, root, err := log.Accepted()
	switch {
	case err != nil:
		return s.failed("monitor", log.Origin, err), true
	case size == next.TreeSize && root == next.Root:
		return refusal, false
	case size == next.TreeSize:
		s.options.Log("fork", "origin", log.Origin, "entries", size, "accepted", root[:], "asked", next.Root[:])
	}
	s.metrics.refused(log.Origin, "unread")
	return plain(http.StatusServiceUnavailable, "unread\n"), true
}
