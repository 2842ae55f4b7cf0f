package main

import (
	"crypto/sha256"
	"encoding/base64"
	"encoding/binary"
	"fmt"
	"os"
	"path/filepath"
	"sync"
	"syscall"
	"time"
)

const (
	// width is the number of hashes or entries of a full tile (C2SP tlog-tiles), and height the number of levels of the
	// tree in a tile.
	width, height = 256, 8
)

// tree is the right edge of the log. Only the loop uses it.
type tree struct {
	size uint64
	// subtrees has the roots of the perfect subtrees, largest first.
	subtrees []subtree
	// levels has the partial hash tiles by their levels, and data is the partial data tile.
	levels [][]byte
	data   []byte
	// synced has the folders that exist.
	synced map[string]bool
}

// subtree is the root of a perfect subtree with 2^height leaves.
type subtree struct {
	height int
	hash   hash
}

// object is a file that a step writes.
type object struct {
	name    string
	content []byte
}

// append adds an entry and returns the tiles that became full.
func (t *tree) append(e *entry) (full []object) {
	leaf := e.leaf()
	t.data = append(append(t.data, leaf[2:]...), e.extra...)
	t.size++
	if t.size%width == 0 {
		full = append(full, object{"tile/data/" + number(t.size/width-1), t.data})
		t.data = nil
	}
	for n := (subtree{0, sha256.Sum256(append([]byte{0}, leaf...))}); ; {
		if n.height%height == 0 {
			full = append(full, t.addHash(n)...)
		}
		last := len(t.subtrees) - 1
		if last < 0 || t.subtrees[last].height != n.height {
			t.subtrees = append(t.subtrees, n)
			return full
		}
		n = subtree{n.height + 1, node(t.subtrees[last].hash, n.hash)}
		t.subtrees = t.subtrees[:last]
	}
}

// addHash adds a subtree's root to the hash tile of its level, and returns the tile if it became full.
func (t *tree) addHash(n subtree) []object {
	level := n.height / height
	if level == len(t.levels) {
		t.levels = append(t.levels, nil)
	}
	t.levels[level] = append(t.levels[level], n.hash[:]...)
	if len(t.levels[level]) < width*sha256.Size {
		return nil
	}
	full := object{fmt.Sprintf("tile/%d/%s", level, number(t.size>>(height*(level+1))-1)), t.levels[level]}
	t.levels[level] = nil
	return []object{full}
}

// partial returns the partial tiles.
func (t *tree) partial() (objects []object) {
	if count := t.size % width; count > 0 {
		objects = append(objects, object{fmt.Sprintf("tile/data/%s.p/%d", number(t.size/width), count), t.data})
	}
	for level, hashes := range t.levels {
		if n := t.size >> (height * level); n%width > 0 {
			name := fmt.Sprintf("tile/%d/%s.p/%d", level, number(n/width), n%width)
			objects = append(objects, object{name, append([]byte{}, hashes...)})
		}
	}
	return objects
}

// root returns the root of the tree (RFC 6962, section 2.1).
func (t *tree) root() hash {
	if len(t.subtrees) == 0 {
		return sha256.Sum256(nil)
	}
	root := t.subtrees[len(t.subtrees)-1].hash
	for i := len(t.subtrees) - 2; i >= 0; i-- {
		root = node(t.subtrees[i].hash, root)
	}
	return root
}

// node returns the hash of a node over its children (RFC 6962, section 2.1).
func node(left, right hash) hash {
	return sha256.Sum256(append(append([]byte{1}, left[:]...), right[:]...))
}

// number returns a tile's number as C2SP tlog-tiles writes it.
func number(n uint64) string {
	text := fmt.Sprintf("%03d", n%1000)
	for n /= 1000; n > 0; n /= 1000 {
		text = fmt.Sprintf("x%03d/", n%1000) + text
	}
	return text
}

// write writes a file and syncs it. The caller syncs its folder.
func write(path string, content []byte) {
	file, err := os.OpenFile(path, os.O_CREATE|os.O_WRONLY|os.O_TRUNC, 0o644)
	if os.IsNotExist(err) {
		must(os.MkdirAll(filepath.Dir(path), 0o755))
		file, err = os.OpenFile(path, os.O_CREATE|os.O_WRONLY|os.O_TRUNC, 0o644)
	}
	must(err)
	_, err = file.Write(content)
	must(err)
	must(file.Sync())
	must(file.Close())
}

// syncFolder syncs a folder, so that its new names are on the disk.
func syncFolder(path string) {
	folder, err := os.Open(path)
	must(err)
	must(folder.Sync())
	must(folder.Close())
}

// writeAll writes objects at the same time and syncs them. Then it syncs each folder that has a new name.
func (s *server) writeAll(objects []object) {
	var all sync.WaitGroup
	folders := map[string]bool{}
	for _, o := range objects {
		for folder := filepath.Dir(o.name); ; folder = filepath.Dir(folder) {
			isKnown := s.tree.synced[folder]
			s.tree.synced[folder], folders[folder] = true, true
			if isKnown || folder == "." {
				break
			}
		}
		all.Add(1)
		go func() {
			defer all.Done()
			write(filepath.Join(s.folder, o.name), o.content)
		}()
	}
	all.Wait()
	for folder := range folders {
		all.Add(1)
		go func() {
			defer all.Done()
			syncFolder(filepath.Join(s.folder, folder))
		}()
	}
	all.Wait()
}

// checkpoint returns the signed checkpoint of the tree (C2SP tlog-checkpoint, static-ct-api).
func (s *server) checkpoint(timestamp uint64) []byte {
	root := s.tree.root()
	message := binary.BigEndian.AppendUint64([]byte{0, 1}, timestamp)
	message = append(binary.BigEndian.AppendUint64(message, s.tree.size), root[:]...)
	id := sha256.Sum256(append([]byte(origin+"\n\x05"), s.logID[:]...))
	signature := append(binary.BigEndian.AppendUint64(id[:4:4], timestamp), sign(s.key, message)...)
	text := base64.StdEncoding.EncodeToString
	return fmt.Appendf(nil, "%s\n%d\n%s\n\n— %s %s\n", origin, s.tree.size, text(root[:]), origin, text(signature))
}

// store appends rows to the file of places and syncs it.
func (p *places) store(rows []byte) {
	_, err := p.file.Write(rows)
	must(err)
	must(syscall.Fdatasync(int(p.file.Fd())))
}

// add adds the places of entries that are now in the log.
func (p *places) add(entries []*entry) {
	p.mu.Lock()
	defer p.mu.Unlock()
	for _, e := range entries {
		p.byID[e.id] = e.place
	}
}

// step adds entries to the log. It returns after everything that it wrote is on the disk.
func (s *server) step(entries []*entry) {
	timestamp := uint64(time.Now().UnixMilli())
	var objects []object
	var rows []byte
	for i, e := range entries {
		e.place = place{s.tree.size + uint64(i), timestamp}
		close(e.placed)
	}
	for _, e := range entries {
		objects = append(objects, s.tree.append(e)...)
		rows = binary.BigEndian.AppendUint64(append(rows, e.id[:]...), e.index)
	}
	objects = append(objects, s.tree.partial()...)
	checkpoint := s.checkpoint(timestamp)
	stored := make(chan struct{})
	go func() {
		defer close(stored)
		s.places.store(rows)
	}()
	s.writeAll(objects)
	<-stored
	next := filepath.Join(s.folder, "checkpoint.new")
	write(next, checkpoint)
	must(os.Rename(next, filepath.Join(s.folder, "checkpoint")))
	syncFolder(s.folder)
	s.places.add(entries)
	s.size.Store(int64(s.tree.size))
	s.steps.Add(1)
	for _, e := range entries {
		close(e.published)
	}
}

// loop makes one step after the other.
func (s *server) loop() {
	for range s.queue.wake {
		if entries := s.queue.take(); len(entries) > 0 {
			s.step(entries)
		}
	}
}
