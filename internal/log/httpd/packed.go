package httpd

import (
	"bytes"
	"compress/gzip"
	"net/http"
	"strconv"
	"strings"
	"sync"
)

const (
	// minPacked and maxPacked are the minimum and maximum number of bytes of an answer that is compressed. Compressing
	// fewer is of no use, and compressing more occupies a processor for too long.
	minPacked, maxPacked = 1 << 10, 8 << 20
	inGzip               = "gzip"
)

// packers is a pool of gzip writers.
var packers = sync.Pool{New: func() any {
	packer, err := gzip.NewWriterLevel(nil, gzip.BestSpeed)
	if err != nil {
		panic(err)
	}
	return packer
}}

// acceptsGzip reports whether a client accepts an answer in gzip (RFC 9110, section 12.5.3).
func acceptsGzip(r *http.Request) bool {
	for _, value := range r.Header.Values("Accept-Encoding") {
		for _, one := range strings.Split(value, ",") {
			coding, weight, weighted := strings.Cut(one, ";")
			if coding = strings.TrimSpace(coding); !strings.EqualFold(coding, inGzip) {
				continue
			}
			if !weighted {
				return true
			}
			name, value, _ := strings.Cut(strings.TrimSpace(weight), "=")
			q, err := strconv.ParseFloat(value, 64)
			return strings.EqualFold(name, "q") && err == nil && q > 0
		}
	}
	return false
}

// writePacked answers with a content, compressed by gzip for a client that accepts it. The compressed bytes then count
// instead of the bytes that were read. At most as many contents are compressed at once as chains are checked.
func (f *Front) writePacked(w http.ResponseWriter, r *http.Request, kind string, content []byte) {
	w.Header().Set("Vary", "Accept-Encoding")
	if len(content) < minPacked || len(content) > maxPacked || !acceptsGzip(r) {
		write(w, http.StatusOK, kind, content)
		return
	}
	select {
	case f.uses.packs <- struct{}{}:
	default:
		// It does not wait, because a waiting answer would hold its content for longer.
		write(w, http.StatusOK, kind, content)
		return
	}
	packed := pack(content)
	<-f.uses.packs
	if len(packed) >= len(content) || heldIn(r.Context()).change(int64(len(packed))) != nil {
		write(w, http.StatusOK, kind, content)
		return
	}
	w.Header().Set("Content-Encoding", inGzip)
	write(w, http.StatusOK, kind, packed)
}

func pack(content []byte) []byte {
	var packed bytes.Buffer
	packer := packers.Get().(*gzip.Writer)
	defer packers.Put(packer)
	packer.Reset(&packed)
	// A write to a buffer cannot fail.
	packer.Write(content)
	packer.Close()
	return packed.Bytes()
}
