package probe_test

import (
	"bytes"
	"encoding/json"
	"net/http"
	"net/http/httptest"
	"slices"
	"strings"
	"testing"
	"time"

	"wagtenib/internal/audit/probe"
	"wagtenib/internal/testkit"
)

// atMinute returns true once, half a minute after this number of minutes. At that time, the probe requests only heads.
func atMinute(s *server, minute time.Duration, done *bool) bool {
	if *done || s.clock.Now().Sub(s.began) < minute*time.Minute+30*time.Second {
		return false
	}
	*done = true
	return true
}

// damaged returns a copy of bytes in which one bit of the byte at an offset is changed.
func damaged(content []byte, offset int) []byte {
	content = bytes.Clone(content)
	content[offset] ^= 1
	return content
}

// breaches holds the faults that the probe must find, with the checks that must fail. All other checks must pass.
var breaches = map[string]struct {
	fails []string
	plant func(p *probed)
}{
	"heads that are older than the merge delay": {[]string{probe.CheckCheckpointFresh, probe.CheckSTHFresh},
		func(p *probed) {
			p.options.Schedule.Submit = time.Hour // This submits only one chain, at the beginning.
			p.planted.publishes = func(s *server) bool { return s.clock.Now().Sub(s.began) < 2*time.Minute }
		}},
	"a checkpoint of the future": {[]string{probe.CheckSTHFresh}, func(p *probed) {
		p.planted.before = func(s *server, w http.ResponseWriter, r *http.Request) bool {
			if r.URL.Path != "/ct/v1/get-sth" || s.clock.Now().Sub(s.began) < 9*time.Minute {
				return false
			}
			fork := s.log.Fork(s.log.Size())
			fork.Publish(fork.Size(), uint64(s.clock.Now().Add(time.Minute).UnixMilli()))
			headersOf(w, "application/json")
			fork.ServeHTTP(w, r)
			return true
		}
	}},
	"a root that is missing": {[]string{probe.CheckRoots}, func(p *probed) { p.roots = p.roots[:1] }},
	"a wrong signature of an SCT": {[]string{probe.CheckSCTSignature}, func(p *probed) {
		p.planted.sct = func(s *server, number int, sct map[string]any) {
			if number == 3 {
				sct["timestamp"] = sct["timestamp"].(uint64) + 1
			}
		}
	}},
	"an SCT of another log": {[]string{probe.CheckSCTSignature}, func(p *probed) {
		p.planted.sct = func(s *server, number int, sct map[string]any) {
			if number == 3 {
				sct["id"] = damaged(sct["id"].([]byte), 0)
			}
		}
	}},
	"an SCT of another time": {[]string{probe.CheckSCTTimestamp}, func(p *probed) {
		p.planted.timestamp = func(s *server) time.Time {
			if s.log.Size() == 1 {
				return s.clock.Now().Add(-time.Hour)
			}
			return s.clock.Now()
		}
	}},
	"SCTs whose entries come too late": {[]string{probe.CheckMergeDelay}, func(p *probed) {
		p.planted.size = func(s *server) uint64 { return min(s.log.Size(), 2) }
	}},
	"an SCT with the index of another entry": {[]string{probe.CheckSCTIndex}, func(p *probed) {
		p.planted.sct = func(s *server, number int, sct map[string]any) {
			if number == 5 || number == 6 {
				for fingerprint, index := range s.indexes {
					if index == 2 {
						entry, other := s.known[fingerprint], uint64(0)
						entry.Index = &other
						for name, value := range s.sctOf(entry, 0) {
							sct[name] = value
						}
					}
				}
			}
		}
	}},
	"an SCT without an index": {[]string{probe.CheckSCTIndex}, func(p *probed) {
		p.planted.sct = func(s *server, number int, sct map[string]any) {
			if number == 5 {
				s.signWithout(sct)
			}
		}
	}},
	"a second SCT that differs": {[]string{probe.CheckSCTRepeat}, func(p *probed) {
		p.planted.sct = func(s *server, number int, sct map[string]any) {
			if number == 4 {
				for fingerprint, index := range s.indexes {
					if index == 1 {
						entry := s.known[fingerprint]
						entry.Timestamp++
						for name, value := range s.sctOf(entry, 1) {
							sct[name] = value
						}
					}
				}
			}
		}
	}},
	"a chain that is refused": {[]string{probe.CheckSubmission}, func(p *probed) {
		p.planted.before = func(s *server, w http.ResponseWriter, r *http.Request) bool {
			refuses := r.URL.Path == "/ct/v1/add-pre-chain" && s.count["/ct/v1/add-pre-chain"] == 3
			if refuses {
				http.Error(w, `{"error_message":"unknown-root"}`, http.StatusBadRequest)
			}
			return refuses
		}
	}},
	"a redirect of submissions": {[]string{probe.CheckSubmission}, func(p *probed) {
		p.planted.before = func(s *server, w http.ResponseWriter, r *http.Request) bool {
			redirects := r.URL.Path == "/ct/v1/add-chain" && s.count[r.URL.Path] == 3
			if redirects {
				w.Header().Set("Location", "https://other.example/2027h1/ct/v1/add-chain")
				w.WriteHeader(http.StatusTemporaryRedirect)
			}
			return redirects
		}
	}},
	"5xx above the allowed share": {[]string{probe.CheckAvailability}, func(p *probed) {
		p.planted.before = func(s *server, w http.ResponseWriter, r *http.Request) bool {
			fails := r.URL.Path == "/ct/v1/get-sth" && s.count["/ct/v1/get-sth"]%20 == 10
			if fails {
				w.WriteHeader(http.StatusServiceUnavailable)
			}
			return fails
		}
	}},
	"429 above the allowed share": {[]string{probe.CheckAvailability}, func(p *probed) {
		p.planted.before = func(s *server, w http.ResponseWriter, r *http.Request) bool {
			fails := r.URL.Path == "/checkpoint" && s.count["/checkpoint"]%20 == 10
			if fails {
				w.WriteHeader(http.StatusTooManyRequests)
			}
			return fails
		}
	}},
	"slow answers": {[]string{probe.CheckLatency}, func(p *probed) {
		p.planted.before = func(s *server, w http.ResponseWriter, r *http.Request) bool {
			if r.URL.Path == "/ct/v1/get-sth" && s.count["/ct/v1/get-sth"]%20 == 10 {
				_ = s.clock.Wait(r.Context(), 2*time.Second)
			}
			return false
		}
	}},
	"a checkpoint that goes back": {[]string{probe.CheckCheckpointForward}, func(p *probed) {
		var old []byte
		done := false
		p.planted.after = func(s *server, r *http.Request, answer *httptest.ResponseRecorder) {
			if r.URL.Path != "/checkpoint" {
				return
			}
			if s.clock.Now().Sub(s.began) > 9*time.Minute+5*time.Second && old == nil {
				old = bytes.Clone(answer.Body.Bytes())
			}
			if atMinute(s, 9, &done) {
				replace(answer, old)
			}
		}
	}},
	"an STH with a smaller tree": {[]string{probe.CheckSTHForward}, func(p *probed) {
		done := false
		p.planted.before = func(s *server, w http.ResponseWriter, r *http.Request) bool {
			if r.URL.Path != "/ct/v1/get-sth" || !atMinute(s, 9, &done) {
				return false
			}
			fork := s.log.Fork(2)
			fork.Publish(2, uint64(s.clock.Now().UnixMilli()))
			headersOf(w, "application/json")
			fork.ServeHTTP(w, r)
			return true
		}
	}},
	"a second tree of the same size": {[]string{probe.CheckConsistencyByTiles, probe.CheckConsistencyByCalls},
		func(p *probed) {
			p.planted.before = forked(9, 0)
		}},
	// The log then returns to its own history, and has no paths in the other one.
	"a larger tree of another history": {[]string{probe.CheckConsistencyByTiles, probe.CheckConsistencyByCalls,
		probe.CheckSTHForward,
		probe.CheckInclusionByHash}, func(p *probed) { p.planted.before = forked(7, 1) }},
	"a checkpoint that another key signed": {[]string{probe.CheckCheckpointSignature}, func(p *probed) {
		done := false
		p.planted.after = func(s *server, r *http.Request, answer *httptest.ResponseRecorder) {
			if r.URL.Path == "/checkpoint" && atMinute(s, 5, &done) {
				text := answer.Body.String()
				offset := strings.LastIndex(text, " ") + 40
				replace(answer, []byte(text[:offset]+flipped(text[offset])+text[offset+1:]))
			}
		}
	}},
	"an STH that another key signed": {[]string{probe.CheckSTHSignature}, func(p *probed) {
		done := false
		p.planted.after = func(s *server, r *http.Request, answer *httptest.ResponseRecorder) {
			if r.URL.Path == "/ct/v1/get-sth" && atMinute(s, 5, &done) {
				replace(answer, []byte(strings.Replace(answer.Body.String(), `"tree_size":`, `"tree_size":1`, 1)))
			}
		}
	}},
	"a hash tile that differs": {[]string{probe.CheckInclusionByTiles, probe.CheckConsistencyByTiles}, func(p *probed) {
		p.planted.after = func(s *server, r *http.Request, answer *httptest.ResponseRecorder) {
			if strings.HasPrefix(r.URL.Path, "/tile/0/") && answer.Code == http.StatusOK {
				replace(answer, damaged(answer.Body.Bytes(), 0))
			}
		}
	}},
	"a data tile that differs": {[]string{probe.CheckDataTile}, func(p *probed) {
		p.planted.after = func(s *server, r *http.Request, answer *httptest.ResponseRecorder) {
			if strings.HasPrefix(r.URL.Path, "/tile/data/") && answer.Code == http.StatusOK {
				replace(answer, damaged(answer.Body.Bytes(), 7)) // This byte is in the first entry's timestamp.
			}
		}
	}},
	"get-entries that differs": {[]string{probe.CheckGetEntries}, func(p *probed) {
		p.planted.after = func(s *server, r *http.Request, answer *httptest.ResponseRecorder) {
			if r.URL.Path == "/ct/v1/get-entries" && r.URL.Query().Get("start") == "1" {
				replace(answer, changedLeaf(s, answer.Body.Bytes()))
			}
		}
	}},
	"a path that leads elsewhere": {[]string{probe.CheckInclusionByHash}, func(p *probed) {
		p.planted.after = func(s *server, r *http.Request, answer *httptest.ResponseRecorder) {
			if r.URL.Path == "/ct/v1/get-proof-by-hash" {
				replace(answer, []byte(strings.Replace(answer.Body.String(), `"leaf_index":1`, `"leaf_index":0`, 1)))
			}
		}
	}},
	"an issuer that is missing": {[]string{probe.CheckIssuers}, func(p *probed) {
		p.planted.before = func(s *server, w http.ResponseWriter, r *http.Request) bool {
			if strings.HasPrefix(r.URL.Path, "/issuer/") && s.count[r.URL.Path] == 2 {
				http.NotFound(w, r)
				return true
			}
			return false
		}
	}},
	"tiles without Cache-Control": {[]string{probe.CheckCacheHeaders}, without("Cache-Control", "/tile/")},
	"an issuer without Cache-Control": {[]string{probe.CheckCacheHeaders}, without("Cache-Control",
		"/issuer/")},
	"a checkpoint without Cache-Control": {[]string{probe.CheckCacheHeaders}, without("Cache-Control",
		"/checkpoint")},
	"a checkpoint that a cache keeps": {[]string{probe.CheckCacheHeaders}, with("Cache-Control",
		"public, max-age=61", "/checkpoint")},
	"an STH that a cache keeps": {[]string{probe.CheckCacheHeaders}, with("Cache-Control",
		"max-age=1, s-maxage=3600", "/ct/v1/get-sth")},
	"an issuer that no cache may keep": {[]string{probe.CheckCacheHeaders}, with("Cache-Control", "no-store",
		"/issuer/")},
	"tiles without CORS": {[]string{probe.CheckCORS}, without("Access-Control-Allow-Origin",
		"/tile/")},
	"calls that only one page of others reads": {[]string{probe.CheckCORS}, with("Access-Control-Allow-Origin",
		"https://other.example", "/ct/v1/get-sth")},
	"a checkpoint of another media type": {[]string{probe.CheckContentType}, with("Content-Type",
		"application/octet-stream", "/checkpoint")},
	"another mmd in log.v3.json": {[]string{probe.CheckListedMergeDelay},
		func(p *probed) { p.listed["mmd"] = 86400 }},
	"another interval in log.v3.json": {[]string{probe.CheckListedInterval}, func(p *probed) {
		p.listed["temporal_interval"] = map[string]string{"start_inclusive": "2027-01-01T00:00:00Z",
			"end_exclusive": "2028-01-01T00:00:00Z"}
	}},
	"another submission prefix in log.v3.json": {[]string{probe.CheckListedOrigin}, func(p *probed) {
		p.listed["submission_url"] = "https://log.example/2027h2/"
	}},
	"another monitoring prefix in log.v3.json": {[]string{probe.CheckListedURL}, func(p *probed) {
		p.listed["monitoring_url"] = "https://cdn.example/2027h1/"
	}},
	"another key in log.v3.json": {[]string{probe.CheckListedLogID}, func(p *probed) {
		other := testkit.NewLog("log.example/2027h1")
		other2 := &server{t: p.t, log: other}
		p.listed["key"], p.listed["log_id"] = other.PublicKey(), other2.id()
	}},
	"a log_id that is no hash of the key": {[]string{probe.CheckListed, probe.CheckListedOrigin, probe.CheckListedLogID,
		probe.CheckListedMergeDelay, probe.CheckListedInterval, probe.CheckListedURL}, func(p *probed) {
		p.listed["log_id"] = damaged(p.id(), 0)
	}},
}

// TestFindsBreaches: each breach makes exactly the expected checks fail.
func TestFindsBreaches(t *testing.T) {
	for name, breach := range breaches {
		t.Run(name, func(t *testing.T) {
			t.Parallel()
			p := newProbed(t)
			breach.plant(&p)
			report := p.run()
			if failed := report.FailedChecks(); report.Passed || !sameNames(failed, breach.fails) {
				t.Errorf("%v failed, and %v are expected\n%s", failed, breach.fails, report.Text())
			}
			for _, check := range report.Checks {
				if check.Verdict == probe.Failed && (len(check.Faults) == 0 || check.Faults[0].Text == "" ||
					check.Faults[0].Time.Before(p.began)) {
					t.Errorf("%s has no fault with a text and a time: %+v", check.Name, check)
				}
			}
		})
	}
}

func sameNames(a, b []string) bool {
	a, b = slices.Clone(a), slices.Clone(b)
	slices.Sort(a)
	slices.Sort(b)
	return slices.Equal(a, b)
}

func headersOf(w http.ResponseWriter, media string) {
	w.Header().Set("Access-Control-Allow-Origin", "*")
	w.Header().Set("Cache-Control", "max-age=1")
	w.Header().Set("Content-Type", media)
}

// forked returns a function that lets get-sth answer once with the head of another history, whose tree is larger by
// some entries.
func forked(minute time.Duration, larger int) func(s *server, w http.ResponseWriter, r *http.Request) bool {
	done := false
	return func(s *server, w http.ResponseWriter, r *http.Request) bool {
		if r.URL.Path != "/ct/v1/get-sth" || !atMinute(s, minute, &done) {
			return false
		}
		fork := s.log.Fork(s.log.Size() - 1)
		for range 1 + larger {
			fork.Add(testkit.Entry{Timestamp: uint64(s.began.UnixMilli()), Certificate: []byte("another certificate")})
		}
		fork.Publish(fork.Size(), uint64(s.clock.Now().UnixMilli()))
		headersOf(w, "application/json")
		fork.ServeHTTP(w, r)
		return true
	}
}

// flipped returns a different character of base64.
func flipped(character byte) string {
	if character == 'A' {
		return "B"
	}
	return "A"
}

// without removes a header from the answers to paths with a prefix.
func without(header, path string) func(p *probed) { return with(header, "", path) }

// with sets a header in the answers to paths with a prefix, or removes it if the value is empty.
func with(header, value, path string) func(p *probed) {
	return func(p *probed) {
		p.planted.after = func(_ *server, r *http.Request, answer *httptest.ResponseRecorder) {
			if strings.HasPrefix(r.URL.Path, path) {
				headers := answer.Result().Header // These are the headers of the answer that the server sends.
				headers.Del(header)
				if value != "" {
					headers.Set(header, value)
				}
			}
		}
	}
}

// changedLeaf returns an answer to get-entries whose leaf has another timestamp.
func changedLeaf(s *server, answer []byte) []byte {
	var read struct {
		Entries []map[string][]byte `json:"entries"`
	}
	if err := json.Unmarshal(answer, &read); err != nil || len(read.Entries) == 0 {
		s.t.Errorf("get-entries: %v", err)
		return answer
	}
	read.Entries[0]["leaf_input"] = damaged(read.Entries[0]["leaf_input"], 9)
	content, err := json.Marshal(read)
	if err != nil {
		s.t.Error(err)
	}
	return content
}
