package probe

import (
	"bytes"
	"cmp"
	"context"
	"fmt"
	"io"
	"maps"
	"math"
	"mime"
	"net/http"
	"slices"
	"strconv"
	"strings"
	"sync"
	"time"

	"wagtenib/internal/logclient"
)

// The kinds of requests for which there are special rules. Each other kind has the name of its call.
const (
	kindCheckpoint = "checkpoint"
	kindHashTile   = "hash tile"
	kindDataTile   = "data tile"
	kindIssuer     = "issuer"
	kindSTH        = "get-sth"
)

const (
	// maxBody is the maximum number of bytes of an answer that are read. Package logclient accepts no longer answer.
	maxBody = 64 << 20
	// maxDurations is the number of the last durations of a call from which the percentiles are computed.
	maxDurations = 1 << 20
	// minTileAge is the minimum time for which a cache must be allowed to store full tiles and issuers, which never
	// change.
	minTileAge = 24 * time.Hour
	// pageOrigin is the origin of the web page that the requests pretend to be from, so that the answers show whether web
	// pages may read them.
	pageOrigin = "https://ct-probe.example"
)

// kindOf returns the kind of a request by its path, and whether it is for a partial tile.
func kindOf(path string) (kind string, isPartial bool) {
	parts := strings.Split(strings.Trim(path, "/"), "/")
	last := parts[len(parts)-1]
	if position := slices.Index(parts, "tile"); position >= 0 && len(parts) > position+2 {
		isPartial = strings.Contains(path, ".p/")
		if parts[position+1] == "data" {
			return kindDataTile, isPartial
		}
		return kindHashTile, isPartial
	}
	if len(parts) > 1 && parts[len(parts)-2] == "issuer" {
		return kindIssuer, false
	}
	return last, false
}

// mediaTypes holds the media types of answers other than JSON (RFC 6962, section 4; C2SP static-ct-api).
var mediaTypes = map[string]string{kindCheckpoint: "text/plain", kindHashTile: "application/octet-stream",
	kindDataTile: "application/octet-stream", kindIssuer: "application/pkix-cert"}

// measurements holds the numbers and durations of one kind of request.
type measurements struct {
	requests, failed int
	durations        []time.Duration // of the answered requests, at most maxDurations
	failures         map[string]int
	lastFailure      string
}

// meter is a transport that makes the requests of a probe. It counts and times the answers, and judges their headers.
type meter struct {
	ctx           context.Context // the context of the whole probe
	next          http.RoundTripper
	clock         logclient.Clock
	maxMergeDelay time.Duration

	mutex    sync.Mutex
	calls    map[string]*measurements // by the kind of request
	recorder *recorder
}

// RoundTrip makes a request and reads its whole answer, so that the measured time includes the body.
func (m *meter) RoundTrip(request *http.Request) (*http.Response, error) {
	request = request.Clone(request.Context())
	request.Header.Set("Origin", pageOrigin)
	kind, isPartial := kindOf(request.URL.Path)
	began := m.clock.Now()
	response, err := m.next.RoundTrip(request)
	var content []byte
	if err == nil {
		content, err = io.ReadAll(io.LimitReader(response.Body, maxBody+1))
		response.Body.Close()
		response.Body = io.NopCloser(bytes.NewReader(content))
	}
	duration := m.clock.Now().Sub(began)
	m.mutex.Lock()
	defer m.mutex.Unlock()
	failure := ""
	switch {
	case err != nil && m.ctx.Err() != nil:
		return nil, err // The caller ended the probe, so this is not a failure of the log.
	case err != nil:
		failure = "no answer"
	case response.StatusCode == http.StatusTooManyRequests || response.StatusCode >= http.StatusInternalServerError:
		failure = fmt.Sprintf("status %d", response.StatusCode)
	}
	m.count(kind, failure, duration)
	if failure != "" {
		m.calls[kind].lastFailure = fmt.Sprintf("%s: %s", m.clock.Now().UTC().Format(time.RFC3339),
			cmp.Or(textOf(err), failure))
	}
	if err != nil {
		return nil, err
	}
	if response.StatusCode == http.StatusOK && request.Method == http.MethodGet {
		m.judgeHeaders(kind, request.URL.Path, isPartial, response.Header)
	}
	return response, nil
}

// textOf returns the text of an error, or "" if there is none.
func textOf(err error) string {
	if err == nil {
		return ""
	}
	return err.Error()
}

func (m *meter) count(kind, failure string, duration time.Duration) {
	call := m.calls[kind]
	if call == nil {
		call = &measurements{failures: map[string]int{}}
		m.calls[kind] = call
	}
	call.requests++
	if failure != "" {
		call.failed++
		call.failures[failure]++
		return
	}
	if len(call.durations) < maxDurations {
		call.durations = append(call.durations, duration)
	} else {
		call.durations[call.requests%maxDurations] = duration
	}
}

// judgeHeaders judges the headers of an answer with status 200.
func (m *meter) judgeHeaders(kind, path string, isPartial bool, header http.Header) {
	if why := m.faultOfCaching(kind, isPartial, header.Get("Cache-Control")); why != "" {
		m.recorder.fail(CheckCacheHeaders, nil, "%s: %s", path, why)
	} else {
		m.recorder.pass(CheckCacheHeaders, "%s: Cache-Control: %s", path, header.Get("Cache-Control"))
	}
	if allowed := header.Get("Access-Control-Allow-Origin"); allowed != "*" && allowed != pageOrigin {
		m.recorder.fail(CheckCORS, nil, "%s: Access-Control-Allow-Origin is %q, so a page of %s cannot read the answer "+
			"(answer with *)", path, allowed, pageOrigin)
	} else {
		m.recorder.pass(CheckCORS, "%s: Access-Control-Allow-Origin: %s", path, allowed)
	}
	want := cmp.Or(mediaTypes[kind], "application/json")
	if media, _, err := mime.ParseMediaType(header.Get("Content-Type")); err != nil || media != want {
		m.recorder.fail(CheckContentType, nil, "%s: the media type is %q, and %s is expected", path,
			header.Get("Content-Type"), want)
	} else {
		m.recorder.pass(CheckContentType, "%s: %s", path, media)
	}
}

// faultOfCaching returns what is wrong with the Cache-Control of an answer, or "".
func (m *meter) faultOfCaching(kind string, isPartial bool, text string) string {
	if text == "" {
		return "there is no Cache-Control, so each cache decides by itself how long it stores the answer"
	}
	age, mayKeep := maxAge(text)
	isFixed := kind == kindIssuer || (kind == kindHashTile || kind == kindDataTile) && !isPartial
	switch {
	case isFixed && (!mayKeep || age < minTileAge):
		return fmt.Sprintf("Cache-Control is %q, but this answer never changes (allow at least one day)", text)
	case (kind == kindCheckpoint || kind == kindSTH) && mayKeep && age > m.maxMergeDelay:
		return fmt.Sprintf("Cache-Control is %q, so a cache can answer with heads that are older than the merge delay of %v",
			text, m.maxMergeDelay)
	}
	return ""
}

// maxAge reads a Cache-Control (RFC 9111, section 5.2.2). It returns whether a shared cache may store the answer, and
// for how long.
func maxAge(text string) (age time.Duration, mayKeep bool) {
	shared := false
	for _, part := range strings.Split(text, ",") {
		name, value, _ := strings.Cut(strings.ToLower(strings.TrimSpace(part)), "=")
		seconds, err := strconv.ParseUint(strings.Trim(value, `"`), 10, 31)
		switch {
		case name == "no-store" || name == "no-cache" || name == "private":
			return 0, false
		case err == nil && name == "s-maxage":
			age, shared, mayKeep = time.Duration(seconds)*time.Second, true, true
		case err == nil && name == "max-age" && !shared:
			age, mayKeep = time.Duration(seconds)*time.Second, true
		}
	}
	return age, mayKeep
}

// judge records whether each call was answered often enough and fast enough, and returns the numbers of each call.
func (m *meter) judge(bounds Bounds) (calls []Call) {
	m.mutex.Lock()
	defer m.mutex.Unlock()
	for _, name := range slices.Sorted(maps.Keys(m.calls)) {
		call := m.calls[name]
		slices.Sort(call.durations)
		percentile := func(part float64) time.Duration {
			if len(call.durations) == 0 {
				return 0
			}
			return call.durations[int(math.Ceil(part*float64(len(call.durations))))-1]
		}
		milliseconds := func(part float64) float64 { return float64(percentile(part).Microseconds()) / 1000 }
		calls = append(calls, Call{Name: name, Requests: call.requests, Failed: call.failed, Median: milliseconds(0.5),
			P95: milliseconds(0.95), P99: milliseconds(0.99), Longest: milliseconds(1), Failures: call.failures,
			LastFailure: call.lastFailure})
		// One request may always fail: if there are few requests, one is more than the allowed share.
		allowed := max(1, int((1-bounds.Availability)*float64(call.requests)))
		if share := 100 * float64(call.requests-call.failed) / float64(call.requests); call.failed > allowed {
			m.recorder.fail(CheckAvailability, nil, "%s: %.2f %% of %d requests were answered, and %.2f %% are "+
				"required", name, share, call.requests, 100*bounds.Availability)
		} else {
			m.recorder.pass(CheckAvailability, "%s: %.2f %% of %d requests were answered", name, share, call.requests)
		}
		if len(call.durations) == 0 {
			continue
		}
		if percentile(0.99) > bounds.Latency {
			m.recorder.fail(CheckLatency, nil, "%s: 99 of 100 answers took up to %v, and at most %v is allowed", name,
				percentile(0.99), bounds.Latency)
		} else {
			m.recorder.pass(CheckLatency, "%s: 99 of 100 answers took up to %v", name, percentile(0.99))
		}
	}
	return calls
}
