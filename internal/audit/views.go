package audit

import (
	"context"
	"fmt"
	"io"
	"os"
	"path/filepath"
	"strings"
	"time"

	"wagtenib/internal/logclient"
	"wagtenib/internal/watch"
)

// The bounds of the heads that other observers saw.
const (
	maxHeads     = 8 << 20 // bytes of a file or an answer
	maxHeadFiles = 10_000
)

// View holds the outcome of a comparison with a head that somebody else saw.
type View struct {
	Head     watch.Head
	Where    string // the file or address of the head
	Err      error  // why the head cannot be compared, or is not consistent with the log's; nil if both are consistent
	Evidence *watch.Evidence
}

// ReadHeads reads the heads that others saw from a place: a file, a folder of files, or an address with http:// or
// https://. It returns them by their files or address.
func ReadHeads(ctx context.Context, place string, options logclient.Options) (map[string][][]byte, error) {
	found := map[string][][]byte{}
	if strings.HasPrefix(place, "https://") || strings.HasPrefix(place, "http://") {
		content, err := logclient.Get(ctx, place, maxHeads, options)
		if err != nil {
			return nil, err
		}
		found[place] = SplitHeads(content)
		return found, nil
	}
	info, err := os.Stat(place)
	if err != nil {
		return nil, fmt.Errorf("audit: %w", err)
	}
	names := []string{place}
	if info.IsDir() {
		entries, err := os.ReadDir(place)
		if err != nil {
			return nil, fmt.Errorf("audit: %w", err)
		}
		names = nil
		for _, entry := range entries {
			if entry.Type().IsRegular() {
				names = append(names, filepath.Join(place, entry.Name()))
			}
		}
		if len(names) > maxHeadFiles {
			return nil, fmt.Errorf("audit: %s has %d files, and at most %d are read (name a smaller folder)", place, len(names),
				maxHeadFiles)
		}
	}
	for _, name := range names {
		content, err := readFile(name)
		if err != nil {
			return nil, err
		}
		found[name] = SplitHeads(content)
	}
	return found, nil
}

// readFile returns the bytes of a file, or an error if it is too long.
func readFile(name string) ([]byte, error) {
	file, err := os.Open(name)
	if err != nil {
		return nil, fmt.Errorf("audit: %w", err)
	}
	defer file.Close()
	content, err := io.ReadAll(io.LimitReader(file, maxHeads+1))
	if err != nil {
		return nil, fmt.Errorf("audit: %w", err)
	}
	if len(content) > maxHeads {
		return nil, fmt.Errorf("audit: %s has more than %d bytes", name, maxHeads)
	}
	return content, nil
}

// CompareViews compares a head of a log, which was accepted or which the log just returned, with the heads that others
// saw, by their files or addresses. The view of a head that the log's key did not sign has an error. Two heads that
// contradict each other are evidence. So are heads between which the log gives no proof, which accuses nobody.
func CompareViews(ctx context.Context, reader *watch.Reader, mine watch.Head, seen map[string][][]byte,
	options logclient.Options) (views []View) {
	clock := options.Clock
	if clock == nil {
		clock = logclient.MachineClock{}
	}
	for where, heads := range seen {
		for _, signed := range heads {
			view := View{Where: where}
			if view.Head, view.Err = reader.OpenHead(signed); view.Err == nil {
				view.compare(ctx, reader, mine, clock.Now())
			}
			views = append(views, view)
		}
	}
	return views
}

// compare compares the head of a view with another one of its log.
func (v *View) compare(ctx context.Context, reader *watch.Reader, mine watch.Head, now time.Time) {
	found, err := reader.Compare(ctx, mine, v.Head)
	if v.Err = err; found == nil {
		return
	}
	evidence, err := watch.NewEvidence(reader.Log, now, found.Verdict, found.Text, found.Files)
	if v.Err = err; err == nil {
		v.Evidence = &evidence
		v.Err = &watch.AccusedError{Verdict: found.Verdict, Text: found.Text}
	}
}
