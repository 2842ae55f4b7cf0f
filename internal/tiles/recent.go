package tiles

import (
	"bytes"
	"sync"
)

// maxRecent is the maximum number of bytes of full tiles that a Comparer remembers.
const maxRecent = 32 << 20

// recent remembers full tiles that were compared, with their contents. Tiles that were not used while half of its
// capacity was filled are forgotten.
type recent struct {
	mu          sync.Mutex
	young, aged map[string][]byte
	// bytes is the number of bytes in young.
	bytes int
}

// contains reports whether a tile with this content was compared.
func (r *recent) contains(name string, content []byte) bool {
	r.mu.Lock()
	known, isYoung := r.young[name]
	if !isYoung {
		known = r.aged[name]
	}
	r.mu.Unlock()
	if known == nil || !bytes.Equal(known, content) {
		return false
	}
	if !isYoung {
		r.remember(name, known)
	}
	return true
}

// remember adds a tile, whose content must not change.
func (r *recent) remember(name string, content []byte) {
	r.mu.Lock()
	defer r.mu.Unlock()
	if r.young == nil || r.bytes+len(content) > maxRecent/2 {
		r.young, r.aged, r.bytes = map[string][]byte{}, r.young, 0
	}
	r.bytes += len(content) - len(r.young[name])
	r.young[name] = content
}
