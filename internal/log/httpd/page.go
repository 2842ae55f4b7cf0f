package httpd

import (
	"bytes"
	"crypto/sha256"
	_ "embed"
	"encoding/base64"
	"net/http"
)

//go:embed page.html
var pageText []byte

// pagePolicy allows the page to run its own script and to call this log, and nothing else.
var pagePolicy = func() string {
	_, script, _ := bytes.Cut(pageText, []byte("<script>"))
	script, _, _ = bytes.Cut(script, []byte("</script>"))
	hash := sha256.Sum256(script)
	return "default-src 'none'; connect-src 'self'; style-src 'unsafe-inline'; base-uri 'none'; form-action 'none'; " +
		"frame-ancestors 'none'; " +
		"script-src 'sha256-" + base64.StdEncoding.EncodeToString(hash[:]) + "'"
}()

func (f *Front) page(w http.ResponseWriter, r *http.Request) error {
	w.Header().Set("Content-Security-Policy", pagePolicy)
	w.Header().Set("Cache-Control", "public, max-age=60")
	write(w, http.StatusOK, "text/html; charset=utf-8", pageText)
	return nil
}
