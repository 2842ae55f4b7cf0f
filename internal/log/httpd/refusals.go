package httpd

import (
	"context"
	"encoding/json"
	"errors"
	"fmt"
	"net/http"
	"strconv"
	"strings"

	"wagtenib/bindings/go/wagtenib"
	"wagtenib/internal/blob"
	"wagtenib/internal/log"
	"wagtenib/internal/log/chain"
)

// refusal is an error that a client gets as an answer: a status, a name, and a detail in words.
type refusal struct {
	status int
	name   string
	detail string
	// after is the number of seconds after which the client may ask again (Retry-After). 0 sends no such header.
	after int
	// closes closes the connection, because the bytes that follow on it may be no request.
	closes bool
	// why is logged for the operator. The client does not get it.
	why error
}

func (r refusal) Error() string { return fmt.Sprintf("%d %s", r.status, r.name) }

// refusalOf makes a refusal from an error of the log, of the checker or of this package.
func refusalOf(err error) refusal {
	var known refusal
	if errors.As(err, &known) {
		return known
	}
	if name := chain.RefusalOf(err); name != "" {
		return refusal{status: http.StatusBadRequest, name: string(name),
			detail: strings.TrimPrefix(err.Error(), string(name)+": ")}
	}
	r := refusal{status: http.StatusServiceUnavailable, why: err}
	switch {
	case errors.Is(err, log.ErrBusy), errors.Is(err, wagtenib.ErrMemory):
		r.name, r.after = "busy", 1
	case errors.Is(err, log.ErrTooLarge):
		r.status, r.name = http.StatusBadRequest, "entry-too-large"
		// The log's error has the size of the entry and the maximum, which the client may know.
		if _, sizes, hasSizes := strings.Cut(err.Error(), log.ErrTooLarge.Error()+": "); hasSizes {
			r.detail = sizes
		}
	case errors.Is(err, log.ErrEnded):
		r.name, r.after = "ended", 10
	case errors.Is(err, log.ErrClock):
		r.name, r.after = "clock", 10
	case errors.Is(err, log.ErrStore):
		r.name, r.after = "store", 5
	case errors.Is(err, context.DeadlineExceeded):
		r.name, r.after = "late", 5
	case errors.Is(err, blob.ErrAbsent):
		r.status, r.name = http.StatusNotFound, "absent"
	case errors.Is(err, blob.ErrName):
		r.status, r.name = http.StatusNotFound, "no-such-path"
	default:
		r.status, r.name = http.StatusInternalServerError, "internal"
	}
	return r
}

// statusGone is the status that is counted if a client goes away before it is answered. It is no fault of the log, and
// no client gets it.
const statusGone = 499

// gone is the refusal of a client that no longer waits, for whatever reason the log failed its request after that.
var gone = refusal{status: statusGone, name: "gone"}

// refuse answers with a refusal if nothing was written yet.
func (f *Front) refuse(a *answer, r refusal) {
	a.refusal, a.detail = r.name, r.detail
	if r.why != nil {
		a.detail = r.why.Error()
	}
	if a.status != 0 {
		return
	}
	header := a.Header()
	for _, name := range []string{"ETag", "Content-Length", "Content-Encoding", "Vary", "Content-Security-Policy"} {
		header.Del(name)
	}
	header.Set("Cache-Control", "no-store")
	if r.after > 0 {
		header.Set("Retry-After", strconv.Itoa(r.after))
	}
	if r.closes {
		header.Set("Connection", "close")
	}
	writeJSON(a, r.status, struct {
		Message string `json:"error_message"`
		Detail  string `json:"detail,omitempty"`
	}{r.name, r.detail})
}

// writeJSON answers with a value in JSON. A failed write concerns only the client.
func writeJSON(w http.ResponseWriter, status int, value any) {
	text, err := json.Marshal(value)
	if err != nil {
		panic(err)
	}
	write(w, status, "application/json", append(text, '\n'))
}

func write(w http.ResponseWriter, status int, kind string, content []byte) {
	w.Header().Set("Content-Type", kind)
	w.Header().Set("Content-Length", strconv.Itoa(len(content)))
	w.WriteHeader(status)
	w.Write(content)
}
