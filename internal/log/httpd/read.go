package httpd

import (
	"context"
	"crypto/sha256"
	"encoding/hex"
	"errors"
	"fmt"
	"net/http"
	"strings"

	"wagtenib/internal/blob"
	"wagtenib/internal/ct"
	"wagtenib/internal/log"
)

// The headers for caches, which say how long they may keep an answer, and for browsers.
const (
	forEver    = "public, max-age=31536000, immutable"
	forAWhile  = "public, max-age=60"
	forASecond = "public, max-age=1"
	anyOrigin  = "*"
)

func (f *Front) reading(r *http.Request) (context.Context, context.CancelFunc) {
	return context.WithTimeout(r.Context(), f.limits.Reading)
}

// The number of bytes that a data tile, or another object, counts until its length is known.
const (
	likelyEntries = 1 << 20
	likelyOther   = 8 << 10
)

// read reads an object of the log. Its bytes count from before the read until the request is answered. An error is the
// store's fault, unless the object is missing or there is no time or memory.
func (f *Front) read(ctx context.Context, name string) ([]byte, error) {
	held, likely := heldIn(ctx), int64(likelyOther)
	if strings.HasPrefix(name, ct.DataTilePrefix) {
		likely = likelyEntries
	}
	if err := held.change(likely); err != nil {
		return nil, err
	}
	content, err := f.log.Object(ctx, name, likely)
	var long blob.TooLong
	if errors.As(err, &long) && long.Length > likely {
		// The object is longer. Its bytes must be counted before they are read.
		if err := held.change(long.Length - likely); err != nil {
			return nil, err
		}
		likely = long.Length
		content, err = f.log.Object(ctx, name, likely)
	}
	if err == nil {
		if err := held.change(int64(len(content)) - likely); err != nil {
			return nil, err
		}
		return content, nil
	}
	_ = held.change(-likely)
	switch {
	case ctx.Err() != nil:
		return nil, ctx.Err()
	case errors.Is(err, blob.ErrAbsent), errors.Is(err, blob.ErrName):
		return nil, fmt.Errorf("%s: %w", name, err)
	}
	return nil, fmt.Errorf("%w: %s: %v", log.ErrStore, name, err)
}

// missing makes the error of an object that must exist: if the object is missing, that is a fault of the store.
func missing(err error) error {
	if errors.Is(err, blob.ErrAbsent) || errors.Is(err, blob.ErrName) {
		return fmt.Errorf("%w: %v", log.ErrStore, err)
	}
	return err
}

// checkpoint answers with the newest published head as a signed note.
func (f *Front) checkpoint(w http.ResponseWriter, r *http.Request) error {
	ctx, cancel := f.reading(r)
	defer cancel()
	head, err := f.log.Checkpoint(ctx)
	if err != nil {
		return err
	}
	hash := sha256.Sum256(head.Signed)
	tag := `"` + hex.EncodeToString(hash[:]) + `"`
	w.Header().Set("ETag", tag)
	if r.Header.Get("If-None-Match") != "" && hasTag(r.Header.Values("If-None-Match"), tag) {
		w.Header().Set("Cache-Control", forASecond)
		w.WriteHeader(http.StatusNotModified)
		return nil
	}
	w.Header().Set("Cache-Control", forASecond)
	write(w, http.StatusOK, "text/plain; charset=utf-8", head.Signed)
	return nil
}

// hasTag reports whether a list of tags contains a tag, or "*" (RFC 9110, section 13.1.2). A tag that a proxy made weak
// counts as the tag.
func hasTag(lists []string, tag string) bool {
	for _, list := range lists {
		for _, one := range strings.Split(list, ",") {
			if one = strings.TrimSpace(one); one == "*" || strings.TrimPrefix(one, "W/") == tag {
				return true
			}
		}
	}
	return false
}

// tile answers with a tile of hashes or of entries, after checking that it has the width of its name. A cache may keep
// a full tile for ever. A partial tile never changes either, but it is deleted after the full tile was stored.
func (f *Front) tile(w http.ResponseWriter, r *http.Request) error {
	of, ok := readTileName(strings.TrimPrefix(r.URL.Path, "/"))
	if !ok {
		return refusal{status: http.StatusNotFound, name: "no-such-path", detail: "this is not the name of a tile"}
	}
	ctx, cancel := f.reading(r)
	defer cancel()
	name, isData := r.URL.Path[1:], of.L < 0
	isPacked := isData && !asksForParts(r) && acceptsGzip(r)
	var packed *blob.Packed
	if isPacked {
		ctx, packed = blob.WithPacked(ctx)
	}
	content, err := f.read(ctx, name)
	if err != nil {
		return err
	}
	if !isOf(of, content) {
		return fmt.Errorf("%w: %s is not a tile of %d", log.ErrStore, name, of.W)
	}
	keep := forEver
	if of.W != ct.TileWidth {
		keep = forAWhile
	}
	w.Header().Set("Cache-Control", keep)
	if isData {
		w.Header().Set("Vary", "Accept-Encoding")
		w.Header().Set("Accept-Ranges", "bytes")
	}
	if isPacked && packed.Name == name {
		// The tile is sent as it is stored.
		w.Header().Set("Content-Encoding", inGzip)
		write(w, http.StatusOK, "application/octet-stream", packed.Gzip)
		return nil
	}
	if isData && !asksForParts(r) {
		f.writePacked(w, r, "application/octet-stream", content)
		return nil
	}
	return writeParts(w, r, "application/octet-stream", content)
}

// issuer answers with the issuer's certificate that has a fingerprint.
func (f *Front) issuer(w http.ResponseWriter, r *http.Request) error {
	fingerprint := strings.TrimPrefix(r.URL.Path, "/issuer/")
	if !isFingerprint(fingerprint) {
		return refusal{status: http.StatusNotFound, name: "no-such-path", detail: "this is not the name of an issuer"}
	}
	ctx, cancel := f.reading(r)
	defer cancel()
	content, err := f.read(ctx, "issuer/"+fingerprint)
	if err != nil {
		return err
	}
	if hash := sha256.Sum256(content); hex.EncodeToString(hash[:]) != fingerprint {
		return fmt.Errorf("%w: issuer/%s has another content", log.ErrStore, fingerprint)
	}
	w.Header().Set("Cache-Control", forEver)
	return writeParts(w, r, "application/pkix-cert", content)
}
