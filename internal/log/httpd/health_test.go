package httpd

import (
	"context"
	"encoding/json"
	"errors"
	"fmt"
	"net/http/httptest"
	"strconv"
	"strings"
	"testing"
	"time"

	"wagtenib/internal/blob"
	"wagtenib/internal/testkit"
)

func TestMetricsAndHealth(t *testing.T) {
	f := newFixture(t, 0, func(o *Options) { o.LogRequests, o.About.MaxMergeDelay = true, 90*time.Second })
	began := time.Now()
	f.fill(5)
	f.get("/checkpoint")
	f.get("/nothing/of/this")
	f.do("POST", "/ct/v1/add-chain", []byte("{}"))
	// In this store, one put of three is too late, and the object of the get does not exist.
	folder, err := blob.OpenFolder(t.TempDir())
	if err != nil {
		t.Fatal(err)
	}
	defer folder.Close()
	objects, late := f.front.options.Stores.Objects(folder), context.Background()
	late, cancel := context.WithDeadline(late, time.Now().Add(-time.Second))
	defer cancel()
	for _, ctx := range []context.Context{context.Background(), late, context.Background()} {
		if err := objects.Put(ctx, "tile/0/000", []byte("content")); (err != nil) != (ctx == late) {
			t.Fatalf("a put: %v", err)
		}
	}
	if _, err := objects.Get(context.Background(), "tile/0/001", 1); !errors.Is(err, blob.ErrAbsent) {
		t.Fatalf("a get: %v", err)
	}
	ask := func(path string) *httptest.ResponseRecorder {
		w := httptest.NewRecorder()
		f.front.Operator().ServeHTTP(w, httptest.NewRequest("GET", path, nil))
		return w
	}
	w := ask("/metrics")
	for _, line := range []string{
		`ctserve_requests_total{call="checkpoint",status="200"} 1`,
		`ctserve_requests_total{call="none",status="404"} 1`,
		`ctserve_refusals_total{call="add-chain",refusal="empty-chain"} 1`,
		`ctserve_request_seconds_count{call="checkpoint"} 1`,
		"ctserve_entries 5", "ctserve_max_merge_delay_seconds 90", "ctserve_queue 0",
		`ctserve_build_info{commit="unknown",version="unreleased"} 1`, "ctserve_queue_capacity 1024",
		"ctserve_lost_swaps_total 3", "ctserve_fault 0", "ctserve_ready 1", "ctserve_roots 1",
		"ctserve_deleted_tiles_total 4", "ctserve_deleted_heads_total 8", "ctserve_scrubbed_tiles_total 5",
		"ctserve_damaged_tiles 6", "ctserve_written_bytes_total 16", `ctserve_step_seconds_sum{phase="stage"} 1.5`,
		`ctserve_step_seconds_count{phase="stage"} 17`, "ctserve_deleted_batches_total 11", "ctserve_staged_batches 12",
		"ctserve_janitor_failures_total 13", "ctserve_damaged_issuers 9", "ctserve_repaired_objects_total 10",
		"ctserve_signer_starts_total 7", "ctserve_wrong_signatures_total 22", "ctserve_queued_bytes 0",
		`ctserve_sct_signatures_total{verified="true"} 23`, `ctserve_sct_signatures_total{verified="false"} 24`,
		"ctserve_response_bytes 0",
		`ctserve_connections_refused_total{bound="address"} 0`,
		"ctserve_unpublished_entries 18", "ctserve_round_age_seconds 2.5", "ctserve_partial_tiles_deleted_to 512",
		"ctserve_scrub_next_tile 19", "ctserve_faults_total 0",
		`ctserve_step_submissions_bucket{le="1"} 18`, `ctserve_step_submissions_bucket{le="8"} 20`,
		`ctserve_step_submissions_bucket{le="+Inf"} 20`, "ctserve_step_submissions_sum 21",
		"ctserve_step_submissions_count 20",
		`ctserve_store_seconds_count{call="put",store="objects"} 3`,
		`ctserve_store_failures_total{call="put",store="objects"} 1`,
		`ctserve_store_seconds_count{call="get",store="objects"} 1`,
		`ctserve_store_failures_total{call="get",store="objects"} 0`,
		`ctserve_store_seconds_count{call="swap",store="lock"} 0`,
		`ctserve_store_failures_total{call="find",store="index"} 0`,
		fmt.Sprintf(`ctserve_store_seconds_sum{call="put",store="objects"} %v`,
			f.front.options.Stores.All()[0].Duration.Seconds()),
		`ctserve_witness_lag{witness="w.example"} 14`, `ctserve_witness_cosignatures_total{witness="w.example"} 15`,
		`ctserve_witness_ahead{witness="w.example"} 1`,
	} {
		if !strings.Contains(w.Body.String(), line+"\n") {
			t.Errorf("/metrics lacks %s", line)
		}
	}
	_, text, _ := strings.Cut(w.Body.String(), "\nctserve_head_age_seconds ")
	text, _, _ = strings.Cut(text, "\n")
	if age, err := strconv.ParseFloat(text, 64); err != nil || age < 0 || age > time.Since(began).Seconds() {
		t.Errorf("/metrics has %q for the head's age", text)
	}
	for path, text := range map[string]string{"/healthz": "ok\n", "/readyz": "ready\n"} {
		path := path
		if w := unlessLate(func() *httptest.ResponseRecorder { return ask(path) }); w.Code != 200 ||
			w.Body.String() != text {
			t.Errorf("%s: %d %s", path, w.Code, w.Body)
		}
	}
	// An operator does not count as a client.
	f.front.uses.requests.max = 0
	refused(t, "a client above its bound", f.get("/healthz"), 429, "too-many-requests")
	if w := ask("/healthz"); w.Code != 200 {
		t.Errorf("an operator at an address that is above its bound as a client: %d", w.Code)
	}
	f.front.uses.requests.max = 64
	f.front.Refuse()
	refused(t, "/readyz", ask("/readyz"), 503, "ended")
	refused(t, "add-chain", f.do("POST", "/ct/v1/add-chain", testkit.Submission(f.issue(false))), 503, "ended")
	for _, line := range strings.Split(strings.TrimSpace(f.lines.String()), "\n") {
		var fields map[string]any
		if err := json.Unmarshal([]byte(line), &fields); err != nil || fields["event"] != "request" ||
			fields["time"] == "" {
			t.Errorf("a line: %s: %v", line, err)
		}
	}
}

// TestLogsFaultsAndDamage checks that damage in the log is logged with its name, and does not make the log unready. A
// fault that stops the log does. Each is logged once, and its end is logged once.
func TestLogsFaultsAndDamage(t *testing.T) {
	f := newFixture(t, 0, nil)
	f.fill(1)
	ctx, cancel := context.WithCancel(context.Background())
	done := make(chan struct{})
	go func() {
		defer close(done)
		f.front.LogFaults(ctx, time.Millisecond)
	}()
	logs := func(what string) {
		t.Helper()
		eventually(t, "it is logged: "+what, func() bool { return strings.Contains(f.lines.String(), what) })
	}
	hasMetric := func(line string) {
		t.Helper()
		w := httptest.NewRecorder()
		f.front.Operator().ServeHTTP(w, httptest.NewRequest("GET", "/metrics", nil))
		if !strings.Contains(w.Body.String(), "\n"+line+"\n") {
			t.Errorf("/metrics lacks %s", line)
		}
	}
	f.log.SetDamage("tile/data/007 is missing")
	logs(`"level":"error","event":"damage","detail":"tile/data/007 is missing","tiles":6,"issuers":9}`)
	logs(`"level":"warn","event":"tend","failures":13,"detail":"nothing is deleted"}`)
	logs(`"level":"error","event":"witness-seen-more","witness":"w.example","detail":"it has seen 7 entries"}`)
	logs(`"level":"warn","event":"made-again","objects":10,"last":"issuer/07"}`)
	if w := f.ready(); w.Code != 200 {
		t.Errorf("/readyz with a damaged tile: %d %s", w.Code, w.Body)
	}
	hasMetric("ctserve_fault 0")
	f.log.SetFault(errors.New("no disk"))
	logs(`"level":"error","event":"fault","detail":"no disk"}`)
	refused(t, "/readyz", f.get("/readyz"), 503, "fault")
	hasMetric("ctserve_fault 1")
	hasMetric("ctserve_ready 0")
	f.log.SetFault(nil)
	f.log.SetDamage("")
	logs(`"event":"mended","detail":"no disk"}`)
	logs(`"event":"mended","detail":"tile/data/007 is missing"}`)
	hasMetric("ctserve_faults_total 1")
	// A fault that ends before the next check is logged too.
	f.log.AddPastFault("no disk for half a second")
	logs(`"level":"error","event":"fault","detail":"no disk for half a second"}`)
	logs(`"event":"mended","detail":"no disk for half a second"}`)
	hasMetric("ctserve_faults_total 2")
	cancel()
	<-done
	for event, expected := range map[string]int{"fault": 2, "damage": 1, "made-again": 1, "tend": 1,
		"witness-seen-more": 1} {
		if count := strings.Count(f.lines.String(), `"event":"`+event+`"`); count != expected {
			t.Errorf("%s is logged %d times", event, count)
		}
	}
}

// TestReloadsAreCounted checks that each reload is counted by what was reloaded and how it ended.
func TestReloadsAreCounted(t *testing.T) {
	f := newFixture(t, 0, nil)
	for i, err := range []error{nil, errors.New("no file"), nil} {
		f.front.Reloaded("roots", err)
		if i == 0 {
			f.front.Reloaded("certificate", errors.New("no key"))
		}
	}
	w := httptest.NewRecorder()
	f.front.Operator().ServeHTTP(w, httptest.NewRequest("GET", "/metrics", nil))
	for _, line := range []string{`{of="roots",outcome="done"} 2`, `{of="roots",outcome="failed"} 1`,
		`{of="certificate",outcome="failed"} 1`} {
		if !strings.Contains(w.Body.String(), "\nctserve_reloads_total"+line+"\n") {
			t.Errorf("/metrics lacks %s", line)
		}
	}
	if strings.Contains(w.Body.String(), `{of="certificate",outcome="done"}`) {
		t.Error("a failed reload is counted as done")
	}
}
