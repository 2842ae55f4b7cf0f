package main

import (
	"encoding/hex"
	"path/filepath"

	"wagtenib/internal/logclient"
	"wagtenib/internal/watch"
	"wagtenib/internal/watch/mirror"
)

// mirrors returns a function that opens the mirror of a tiled log below a folder. It returns nil if there is no such
// folder. The mirror's folder is named after the log's ID, which no other log has.
func mirrors(folder string, client logclient.Options) func(watch.Log) (watch.Mirror, error) {
	if folder == "" {
		return nil
	}
	return func(log watch.Log) (watch.Mirror, error) {
		return mirror.Open(filepath.Join(folder, hex.EncodeToString(log.ID[:])), log, client)
	}
}
