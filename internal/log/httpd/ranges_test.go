package httpd

import (
	"bytes"
	"fmt"
	"io"
	"mime"
	"mime/multipart"
	"net/http/httptest"
	"testing"
)

// TestParts checks that byte ranges of a tile or an issuer can be requested. They are never compressed, and are cached
// as long as the whole. Ranges that do not exist are refused and not cached. A request without ranges gets the whole.
func TestParts(t *testing.T) {
	f := newFixture(t, 0, nil)
	f.fill(260)
	ask := func(method, path string, headers ...string) *httptest.ResponseRecorder {
		w, r := httptest.NewRecorder(), httptest.NewRequest(method, path, nil)
		for i := 0; i < len(headers); i += 2 {
			r.Header.Add(headers[i], headers[i+1])
		}
		f.front.ServeHTTP(w, r)
		return w
	}
	issuer := "/issuer/" + fingerprintOf(f.authority.Root.Raw)
	for path, keep := range map[string]string{"/tile/data/000": forEver, "/tile/0/000": forEver,
		"/tile/0/001.p/4": forAWhile, "/tile/data/001.p/4": forAWhile, issuer: forEver} {
		plain := ask("GET", path)
		whole, kind, size := plain.Body.Bytes(), plain.Header().Get("Content-Type"), plain.Body.Len()
		if plain.Header().Get("Accept-Ranges") != "bytes" || plain.Header().Get("Content-Length") != fmt.Sprint(size) ||
			plain.Header().Get("Cache-Control") != keep || size < 100 {
			t.Errorf("%s: %d bytes: %v", path, size, plain.Header())
		}
		for asked, part := range map[string][2]int{
			"bytes=0-0": {0, 1}, "bytes=7-20": {7, 21}, fmt.Sprintf("bytes=%d-", size-3): {size - 3, size},
			"bytes=-5": {size - 5, size}, fmt.Sprintf("bytes=9-%d", 2*size): {9, size},
			fmt.Sprintf("bytes=-%d", 2*size): {0, size},
		} {
			w := ask("GET", path, "Range", asked, "Accept-Encoding", "gzip")
			of := fmt.Sprintf("bytes %d-%d/%d", part[0], part[1]-1, size)
			if w.Code != 206 || !bytes.Equal(w.Body.Bytes(), whole[part[0]:part[1]]) ||
				w.Header().Get("Content-Range") != of || w.Header().Get("Content-Encoding") != "" {
				t.Errorf("%s, %s: %d, %d bytes: %v", path, asked, w.Code, w.Body.Len(), w.Header())
			}
			if w.Header().Get("Cache-Control") != keep || w.Header().Get("Content-Type") != kind ||
				w.Header().Get("Vary") != plain.Header().Get("Vary") {
				t.Errorf("%s, %s: %v", path, asked, w.Header())
			}
		}
		for _, asked := range []string{fmt.Sprintf("bytes=%d-", size), fmt.Sprintf("bytes=%d-%d", size, size+7),
			"bytes=5-4", "bytes=x", "bytes=-"} {
			w := ask("GET", path, "Range", asked)
			refused(t, path+" "+asked, w, 416, "range")
			if w.Header().Get("Content-Range") != fmt.Sprintf("bytes */%d", size) {
				t.Errorf("%s, %s: %v", path, asked, w.Header())
			}
		}
		// These are an unknown unit, a condition that cannot be met, ranges with more bytes than the whole, two lists
		// of ranges, and two headers that compare tags.
		for _, headers := range [][]string{{"Range", "entries=0-1"}, {"Range", "bytes=0-5", "If-Range", `"another"`},
			{"Range", "bytes=0-,0-,0-"}, {"Range", "bytes=0-1", "Range", "bytes=2-3"}, {"If-None-Match", "*"},
			{"If-Match", `"another"`}} {
			if w := ask("GET", path, headers...); w.Code != 200 || !bytes.Equal(w.Body.Bytes(), whole) {
				t.Errorf("%s, %s: %d, %d bytes", path, headers, w.Code, w.Body.Len())
			}
		}
		if w := ask("HEAD", path, "Range", "bytes=0-1"); w.Code != 200 ||
			w.Header().Get("Content-Length") != fmt.Sprint(size) {
			t.Errorf("HEAD %s: %d, %v", path, w.Code, w.Header())
		}
		w := ask("GET", path, "Range", "bytes=0-1,50-53")
		_, parameters, err := mime.ParseMediaType(w.Header().Get("Content-Type"))
		if err != nil || w.Code != 206 {
			t.Fatalf("%s: two parts: %d %v", path, w.Code, w.Header())
		}
		for parts, expected := multipart.NewReader(w.Body, parameters["boundary"]),
			[][]byte{whole[:2], whole[50:54]}; len(expected) > 0; expected = expected[1:] {
			part, err := parts.NextPart()
			if err != nil {
				t.Fatal(err)
			}
			if got, err := io.ReadAll(part); err != nil || !bytes.Equal(got, expected[0]) {
				t.Errorf("%s: two parts: %q, %v", path, got, err)
			}
		}
	}
	refused(t, "a tile that does not exist", ask("GET", "/tile/data/009", "Range", "bytes=0-1"), 404, "absent")
	if used := f.front.uses.answers.used.Load(); used != 0 {
		t.Errorf("%d bytes of answers are held", used)
	}
}
