package httpd

import (
	"bytes"
	"fmt"
	"net/http"
	"strings"
	"time"
)

// asksForParts reports whether a request asks for byte ranges of a content. A range in another unit is ignored (RFC
// 9110, section 14.2).
func asksForParts(r *http.Request) bool {
	asked := r.Header.Values("Range")
	return r.Method == http.MethodGet && len(asked) == 1 && strings.HasPrefix(asked[0], "bytes=")
}

// writeParts answers with a whole content or its requested parts. It does not compress parts, since a part of a
// compressed content is useless.
func writeParts(w http.ResponseWriter, r *http.Request, kind string, content []byte) error {
	w.Header().Set("Accept-Ranges", "bytes")
	if !asksForParts(r) {
		write(w, http.StatusOK, kind, content)
		return nil
	}
	w.Header().Set("Content-Type", kind)
	// The content has no date and no tag, so the headers that compare these are left out.
	asked := &http.Request{Method: r.Method, Header: http.Header{"Range": r.Header["Range"],
		"If-Range": r.Header["If-Range"]}}
	within := &rangeWriter{ResponseWriter: w}
	http.ServeContent(within, asked, "", time.Time{}, bytes.NewReader(content))
	if within.isUnsatisfiable {
		w.Header().Set("Content-Range", fmt.Sprintf("bytes */%d", len(content)))
		return refusal{status: http.StatusRequestedRangeNotSatisfiable, name: "range",
			detail: fmt.Sprintf("it has %d bytes", len(content))}
	}
	return nil
}

// rangeWriter discards the answer of net/http to ranges outside the content. The front then refuses the request as any
// other, so that no cache keeps the answer.
type rangeWriter struct {
	http.ResponseWriter
	isUnsatisfiable bool
}

func (u *rangeWriter) WriteHeader(status int) {
	if u.isUnsatisfiable = status == http.StatusRequestedRangeNotSatisfiable; !u.isUnsatisfiable {
		u.ResponseWriter.WriteHeader(status)
	}
}

func (u *rangeWriter) Write(some []byte) (int, error) {
	if u.isUnsatisfiable {
		return len(some), nil
	}
	return u.ResponseWriter.Write(some)
}
