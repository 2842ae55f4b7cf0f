package main

import (
	"fmt"
	"net/url"
	"os"
	"path/filepath"
	"sync"

	"wagtenib/internal/blob"
	"wagtenib/internal/command/eventlog"
	"wagtenib/internal/watch"
)

// acceptedFolder is a watch.Keeper that also writes the newest accepted head of each tiled log to a folder, as the log
// signed it. A witness reads it there (ctwitness --accepted-by).
type acceptedFolder struct {
	watch.Keeper
	folder string
	lines  *eventlog.Lines
	mutex  sync.Mutex
	shown  map[watch.LogID]uint64 // the timestamp of the head in the folder, by log
}

// newAcceptedFolder creates the folder, unless it exists.
func newAcceptedFolder(keeper watch.Keeper, folder string, lines *eventlog.Lines) (*acceptedFolder, error) {
	if err := os.MkdirAll(folder, 0o755); err != nil {
		return nil, fmt.Errorf("ctwatch: accepted-folder: %w", err)
	}
	return &acceptedFolder{Keeper: keeper, folder: folder, lines: lines, shown: map[watch.LogID]uint64{}}, nil
}

// acceptedName returns the name of a log's file, which is the log's origin with %2F instead of each slash.
func acceptedName(origin string) string { return url.PathEscape(origin) }

// Keep stores what was read, and then writes the accepted head to the folder. If the file cannot be written, Keep only
// logs this: a witness then refuses newer heads until the next accepted head is written.
func (a *acceptedFolder) Keep(log watch.Log, next watch.State, entries []watch.Entry) error {
	if err := a.Keeper.Keep(log, next, entries); err != nil {
		return err
	}
	head := next.Accepted
	a.mutex.Lock()
	defer a.mutex.Unlock()
	if !log.IsTiled() || len(head.Signed) == 0 || a.shown[log.ID] == head.Timestamp {
		return nil
	}
	if err := blob.ShowFile(filepath.Join(a.folder, acceptedName(log.Origin)), head.Signed); err != nil {
		a.lines.Error("accepted-folder", "log", log.Name, "fault", err)
		return nil
	}
	a.shown[log.ID] = head.Timestamp
	return nil
}
