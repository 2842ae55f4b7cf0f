package httpd

import (
	"encoding/pem"
	"net/http"
	"time"
)

// About has what a log publishes about itself besides its tree. A nil field is not served.
type About struct {
	// Key is the log's public key, its SubjectPublicKeyInfo in DER.
	Key []byte
	// Entry is the log's entry in a log list (log list schema v3, of one log), in JSON, with two further fields,
	// version and notice.
	Entry []byte
	// MaxMergeDelay is the maximum merge delay that the log publishes. /metrics shows it with the age of the newest
	// head. It is 0 for an archive, which makes no new head.
	MaxMergeDelay time.Duration
}

func (f *Front) key(w http.ResponseWriter, r *http.Request) error {
	if f.options.About.Key == nil {
		return refusal{status: http.StatusNotFound, name: "no-such-path"}
	}
	of := &pem.Block{Type: "PUBLIC KEY", Bytes: f.options.About.Key}
	return f.writeAbout(w, "application/x-pem-file", pem.EncodeToMemory(of))
}

func (f *Front) entry(w http.ResponseWriter, r *http.Request) error {
	if f.options.About.Entry == nil {
		return refusal{status: http.StatusNotFound, name: "no-such-path"}
	}
	return f.writeAbout(w, "application/json", f.options.About.Entry)
}

func (f *Front) writeAbout(w http.ResponseWriter, kind string, text []byte) error {
	w.Header().Set("Cache-Control", forAWhile)
	write(w, http.StatusOK, kind, text)
	return nil
}
