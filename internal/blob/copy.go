package blob

import (
	"context"
	"fmt"
	"os"
	"path/filepath"
	"strings"
)

// Copy writes objects as files below a folder, and returns how many it wrote. It leaves out the objects whose names
// begin with one of the prefixes.
func Copy(ctx context.Context, from Objects, folder string, exceptPrefixes ...string) (count int, err error) {
	for after := ""; ; {
		names, err := from.List(ctx, "", after, MaxListed)
		if err != nil {
			return count, err
		}
		for _, name := range names {
			if after = name; beginsWithAny(name, exceptPrefixes) {
				continue
			}
			content, err := from.Get(ctx, name, MaxObject)
			if err != nil {
				return count, err
			}
			path := filepath.Join(folder, filepath.FromSlash(name))
			if err := os.MkdirAll(filepath.Dir(path), folderMode(name)); err != nil {
				return count, fmt.Errorf("stores: copy: %w", err)
			}
			if err := os.WriteFile(path, content, fileMode(name)); err != nil {
				return count, fmt.Errorf("stores: copy: %w", err)
			}
			count++
		}
		if len(names) < MaxListed {
			return count, nil
		}
	}
}

func beginsWithAny(name string, prefixes []string) bool {
	for _, prefix := range prefixes {
		if strings.HasPrefix(name, prefix) {
			return true
		}
	}
	return false
}
