// Command index measures the deduplication index in a folder: index FOLDER STEP ENTRIES. It adds ENTRIES entries, STEP
// in each call, to an index in FOLDER, which must not exist. At each power of ten it prints the bytes per entry that
// the kernel wrote for this process, the bytes of the index per entry, the memory of this process, and the bytes that
// it read for a look-up of an unknown identity. At the end it opens the index again, and prints how long that took.
package main

import (
	"context"
	"crypto/sha256"
	"encoding/binary"
	"errors"
	"fmt"
	"io/fs"
	"os"
	"path/filepath"
	"strconv"
	"strings"
	"time"

	"wagtenib/internal/blob"
)

// first is the timestamp of the first entry. Each further entry is a millisecond later.
const first = 1767225600000

// lookups is the number of unknown identities that are looked up at each size.
const lookups = 2000

func stop(err error) {
	if err != nil {
		fmt.Fprintln(os.Stderr, "index:", err)
		os.Exit(1)
	}
}

// hash returns the identity, or the leaf hash, of an entry.
func hash(of byte, entry int) blob.Identity {
	return sha256.Sum256(binary.BigEndian.AppendUint64([]byte{of}, uint64(entry)))
}

// kernel returns a number about this process from a file of the kernel.
func kernel(file, name string) (number float64) {
	content, err := os.ReadFile("/proc/self/" + file)
	stop(err)
	for _, line := range strings.Split(string(content), "\n") {
		if value, ok := strings.CutPrefix(line, name+":"); ok {
			number, err = strconv.ParseFloat(strings.Fields(value)[0], 64)
			stop(err)
			return number
		}
	}
	stop(fmt.Errorf("/proc/self/%s has no %s", file, name))
	return 0
}

// size returns the number of bytes of all files in a folder.
func size(folder string) (bytes int64) {
	stop(filepath.WalkDir(folder, func(path string, file fs.DirEntry, err error) error {
		if errors.Is(err, fs.ErrNotExist) {
			// LevelDB may have deleted a table meanwhile.
			return nil
		}
		if err != nil || file.IsDir() {
			return err
		}
		if info, err := file.Info(); err == nil {
			bytes += info.Size()
		}
		return nil
	}))
	return bytes
}

// add adds the entries from one index up to another.
func add(index blob.Index, from, to int) {
	rows := make([]blob.Row, 0, to-from)
	for entry := from; entry < to; entry++ {
		rows = append(rows, blob.Row{Identity: hash('i', entry), Leaf: hash('l', entry),
			Place: blob.Place{Index: uint64(entry), Timestamp: first + uint64(entry)}})
	}
	stop(index.Add(context.Background(), rows))
}

// read returns the number of bytes that a look-up of an unknown identity reads.
func read(index blob.Index) float64 {
	before := kernel("io", "rchar")
	for entry := range lookups {
		_, err := index.Find(context.Background(), []blob.Identity{hash('u', entry)})
		stop(err)
	}
	return (kernel("io", "rchar") - before) / lookups
}

func main() {
	if len(os.Args) != 4 {
		fmt.Fprintln(os.Stderr, "index: FOLDER STEP ENTRIES")
		os.Exit(2)
	}
	folder := os.Args[1]
	step, err := strconv.Atoi(os.Args[2])
	stop(err)
	entries, err := strconv.Atoi(os.Args[3])
	stop(err)
	if _, err := os.Stat(folder); err == nil {
		stop(fmt.Errorf("%s exists", folder))
	}
	index, err := blob.OpenLevelDB(context.Background(), folder)
	stop(err)
	fmt.Println("entries, bytes written an entry, bytes of the index an entry, memory in MB, bytes read a look-up")
	next := 1000
	for at := 0; at < entries; {
		to := min(at+step, entries)
		add(index, at, to)
		if at = to; at >= next || at == entries {
			written := kernel("io", "write_bytes")
			fmt.Printf("%d %.0f %.0f %.0f %.0f\n", at, written/float64(at), float64(size(folder))/float64(at),
				kernel("status", "VmRSS")/1024, read(index))
			next *= 10
		}
	}
	stop(index.Close())
	start := time.Now()
	index, err = blob.OpenLevelDB(context.Background(), folder)
	stop(err)
	fmt.Printf("opened again in %v\n", time.Since(start).Round(time.Millisecond))
	stop(index.Close())
}
