package watch_test

import (
	"bytes"
	"context"
	"errors"
	"net/http"
	"net/http/httptest"
	"os"
	"path/filepath"
	"slices"
	"strings"
	"sync/atomic"
	"testing"
	"time"

	"wagtenib/internal/audit/judge"
	"wagtenib/internal/logclient"
	"wagtenib/internal/testkit"
	"wagtenib/internal/watch"
)

// clock is a clock that the test sets. Wait returns at once, and moves the clock.
type clock struct{ now atomic.Int64 }

func newClock(milliseconds int64) *clock {
	c := &clock{}
	c.now.Store(milliseconds)
	return c
}

func (c *clock) Now() time.Time { return time.UnixMilli(c.now.Load()) }

func (c *clock) Wait(ctx context.Context, d time.Duration) error {
	c.now.Add(max(d.Milliseconds(), 1))
	return ctx.Err()
}

// checkEvidence writes each piece of evidence against a log to a folder, and checks that the independent judge confirms
// it, and refuses it with a changed head.
func checkEvidence(t *testing.T, k *keeper, log watch.Log) {
	t.Helper()
	for _, evidence := range k.accused[log.ID] {
		folder := writeEvidence(t, evidence)
		shown, err := judge.Evidence(folder, log.PublicKey)
		if err != nil || shown == "" {
			t.Errorf("%s: the judge says %q, %v", evidence.Verdict, shown, err)
		}
		checkNoOtherVerdict(t, folder, evidence, log.PublicKey)
		if evidence.Verdict == watch.VerdictSigner {
			continue
		}
		head := filepath.Join(folder, watch.FileHead)
		content := evidence.Files[watch.FileHead]
		changed := bytes.Replace(content, []byte("\n"), []byte("\n1"), 1)
		if !log.IsTiled() {
			changed = bytes.Replace(content, []byte(`"tree_size":`), []byte(`"tree_size":1`), 1)
		}
		if bytes.Equal(changed, content) || os.WriteFile(head, changed, 0o600) != nil {
			t.Fatal("the head cannot be changed")
		}
		if _, err := judge.Evidence(folder, log.PublicKey); !errors.Is(err, judge.ErrEvidence) {
			t.Errorf("%s: the judge accepts a changed head: %v", evidence.Verdict, err)
		}
	}
}

// strongVerdicts are the verdicts that the files of evidence show without this monitor, and an unknown one.
var strongVerdicts = []string{watch.VerdictFork, watch.VerdictShrunk, watch.VerdictNotLater, watch.VerdictLateMerge,
	watch.VerdictLaterEntry, watch.VerdictWrongIndex, watch.VerdictNoLeaf, watch.VerdictDamagedTile, watch.VerdictSigner,
	watch.VerdictOtherHistory, watch.VerdictPromise, watch.VerdictFewCosigned, watch.VerdictFuture,
	watch.VerdictOverdue,
	"no such verdict"}

// checkNoOtherVerdict checks that the judge refuses the files of evidence under every other verdict.
func checkNoOtherVerdict(t *testing.T, folder string, evidence watch.Evidence, key []byte) {
	t.Helper()
	about := filepath.Join(folder, watch.FileAbout)
	own := evidence.Files[watch.FileAbout]
	quoted := []byte(`"verdict": "` + evidence.Verdict + `"`)
	for _, verdict := range strongVerdicts {
		if verdict == evidence.Verdict {
			continue
		}
		changed := bytes.Replace(own, quoted, []byte(`"verdict": "`+verdict+`"`), 1)
		if bytes.Equal(changed, own) || os.WriteFile(about, changed, 0o600) != nil {
			t.Fatal("the verdict cannot be changed")
		}
		if shown, err := judge.Evidence(folder, key); !errors.Is(err, judge.ErrEvidence) {
			t.Errorf("the evidence of %q also shows %q: %s, %v", evidence.Verdict, verdict, shown, err)
		}
	}
	if err := os.WriteFile(about, own, 0o600); err != nil {
		t.Fatal(err)
	}
}

func writeEvidence(t *testing.T, evidence watch.Evidence) (folder string) {
	t.Helper()
	folder = t.TempDir()
	for name, content := range evidence.Files {
		if err := os.WriteFile(filepath.Join(folder, name), content, 0o600); err != nil {
			t.Fatal(err)
		}
	}
	return folder
}

// scene holds a log and its follower, after a first pass that accepted the log's head.
type scene struct {
	log      *testkit.Log
	watched  watch.Log
	keeper   *keeper
	clock    *clock
	follower *watch.Follower
}

// options returns the options of the scene's followers.
func (s *scene) options() watch.Options {
	return watch.Options{FromStart: true, Client: logclient.Options{Clock: s.clock}}
}

// newScene follows a log of 300 entries from its start.
func newScene(t *testing.T, kind string, mmd time.Duration) *scene {
	t.Helper()
	s := &scene{log: newLog(t, 300), keeper: newKeeper(), clock: newClock(epoch + 300_000)}
	s.watched = serve(t, s.log, kind)
	s.watched.MaxMergeDelay = mmd
	s.follower = newFollower(t, s.watched, s.keeper, s.options())
	if err := s.follower.Pass(context.Background()); err != nil {
		t.Fatal(err)
	}
	return s
}

// checkAccused makes a pass, and checks that it accuses the log with this verdict.
func (s *scene) checkAccused(t *testing.T, verdict string) {
	t.Helper()
	var accused *watch.AccusedError
	if err := s.follower.Pass(context.Background()); !errors.As(err, &accused) || accused.Verdict != verdict {
		t.Fatalf("the pass ends with %v, and the verdict %q is expected", err, verdict)
	}
	if status := s.keeper.statuses[s.watched.ID]; !errors.As(status.Fault, &accused) {
		t.Errorf("the status has the fault %v", status.Fault)
	}
}

// heads holds the lies that a dishonest log signs after 300 entries, by the verdict on each.
var heads = map[string]func(*testkit.Log){
	watch.VerdictFork:     func(log *testkit.Log) { log.PublishRoot(300, epoch+310_000, [32]byte{1}) },
	watch.VerdictShrunk:   func(log *testkit.Log) { log.Publish(299, epoch+310_000) },
	watch.VerdictNotLater: func(log *testkit.Log) { log.Add(makeEntries(300, 1)...); log.Publish(301, epoch+300_000) },
	watch.VerdictOtherRoot: func(log *testkit.Log) {
		log.Add(makeEntries(300, 5)...)
		log.PublishRoot(305, epoch+310_000, [32]byte{1})
	},
}

func TestAccusesByHeads(t *testing.T) {
	for _, kind := range kinds {
		for verdict, lie := range heads {
			t.Run(kind+" "+verdict, func(t *testing.T) {
				s := newScene(t, kind, 0)
				lie(s.log)
				s.checkAccused(t, verdict)
				// The same answer again adds no evidence, but the pass still fails.
				if err := s.follower.Pass(context.Background()); err == nil {
					t.Error("the second pass accepts the same lie")
				}
				checkVerdicts(t, s.keeper, s.watched.ID, verdict)
				checkEvidence(t, s.keeper, s.watched)
				// The log is followed again after it has signed an honest head.
				s.log.Add(makeEntries(s.log.Size(), 10)...)
				s.log.Publish(s.log.Size(), epoch+400_000)
				if err := s.follower.Pass(context.Background()); err != nil {
					t.Fatal(err)
				}
				if state := s.keeper.states[s.watched.ID]; state.Accepted.Root != s.log.Root(s.log.Size()) {
					t.Errorf("%d leaves are accepted", state.Accepted.TreeSize)
				}
				if found := s.keeper.indexes(s.watched.ID); !slices.Equal(slices.Compact(slices.Sorted(slices.Values(found))),
					numbers(0, s.log.Size())) {
					t.Error("an entry was left out")
				}
			})
		}
	}
}

// A log whose later entries belong to another history is accused by the proof before they are read, and by their root
// afterwards.
func TestAccusesRewrittenHistory(t *testing.T) {
	for _, kind := range kinds {
		t.Run(kind, func(t *testing.T) {
			s := newScene(t, kind, 0)
			other := s.log.Fork(200)
			other.Add(makeEntries(1_000_000, 3000)...)
			other.Publish(3200, epoch+5_000_000_000)
			server := httptest.NewServer(other)
			t.Cleanup(server.Close)
			s.watched.URL = server.URL
			s.follower = newFollower(t, s.watched, s.keeper, s.options())
			s.checkAccused(t, watch.VerdictOtherRoot)
			checkVerdicts(t, s.keeper, s.watched.ID, watch.VerdictOtherHistory, watch.VerdictOtherRoot)
			checkEvidence(t, s.keeper, s.watched)
			// All entries that the log gave were searched, including those of the last batch.
			if found := s.keeper.indexes(s.watched.ID); found[len(found)-1] != 3199 {
				t.Errorf("the last entry that was searched is %d", found[len(found)-1])
			}
		})
	}
}

// A log is accused of an entry that it must not have, and the entry is searched like the others.
func TestAccusesByEntries(t *testing.T) {
	index := uint64(7)
	for verdict, entry := range map[string]testkit.Entry{
		watch.VerdictLateMerge:  {Timestamp: epoch + 100, Certificate: []byte{1}},
		watch.VerdictLaterEntry: {Timestamp: epoch + 900_000, Certificate: []byte{1}},
		watch.VerdictWrongIndex: {Timestamp: epoch + 305_000, Certificate: []byte{1}, Index: &index},
		watch.VerdictNoLeaf:     {Leaf: []byte("no leaf")},
	} {
		for _, kind := range kinds {
			if kind == "RFC 6962" && verdict == watch.VerdictWrongIndex || kind == "tiled" && verdict == watch.VerdictNoLeaf {
				continue // Only a tiled log's leaves name indexes, and a data tile can hold only leaves.
			}
			t.Run(kind+" "+verdict, func(t *testing.T) {
				s := newScene(t, kind, 2*time.Minute)
				s.log.Add(makeEntries(300, 9)...)
				s.log.Add(entry)
				s.log.Publish(310, epoch+310_000)
				if err := s.follower.Pass(context.Background()); err != nil {
					t.Fatal(err)
				}
				checkVerdicts(t, s.keeper, s.watched.ID, verdict)
				checkEvidence(t, s.keeper, s.watched)
				checkEntries(t, s.keeper, s.watched.ID, numbers(0, 310))
				if last := s.keeper.entries[s.watched.ID][309]; (last.Fault != nil) != (verdict == watch.VerdictNoLeaf) {
					t.Errorf("the last entry has the fault %v", last.Fault)
				}
			})
		}
	}
}

// An entry is late only if the accepted head was signed after the entry's maximum merge delay.
func TestLateByTheMaximumMergeDelay(t *testing.T) {
	for _, kind := range kinds {
		for timestamp, expected := range map[uint64][]string{epoch + 180_000: nil,
			epoch + 179_999: {watch.VerdictLateMerge}} {
			s := newScene(t, kind, 2*time.Minute) // The timestamp of its head is 300 s after epoch.
			s.log.Add(testkit.Entry{Timestamp: timestamp, Certificate: []byte{1}})
			s.log.Publish(301, epoch+310_000)
			if err := s.follower.Pass(context.Background()); err != nil {
				t.Fatal(err)
			}
			checkVerdicts(t, s.keeper, s.watched.ID, expected...)
			// After a later head over the same entries, an entry with a later timestamp is late too.
			s.log.Publish(301, epoch+400_000)
			if err := s.follower.Pass(context.Background()); err != nil {
				t.Fatal(err)
			}
			s.log.Add(testkit.Entry{Timestamp: timestamp + 60_000, Certificate: []byte{2}})
			s.log.Publish(302, epoch+410_000)
			if err := s.follower.Pass(context.Background()); err != nil {
				t.Fatal(err)
			}
			if found := s.keeper.verdicts(s.watched.ID); len(found) != len(expected)+1 {
				t.Errorf("after a later head: %q", found)
			}
		}
	}
}

// The evidence names a data tile whose leaves are not those of the log's tree, and no head is accepted with it. After
// the log gives the right tile, the head is accepted.
func TestAccusesDamagedTile(t *testing.T) {
	s := newScene(t, "tiled", 0)
	grow(s.log, 500)
	var damage atomic.Value // the certificate that replaces the one of entry 529; empty for none
	s.log.Intercept(func(w http.ResponseWriter, r *http.Request) bool {
		certificate := damage.Load().(string)
		if certificate == "" || r.URL.Path != "/tile/data/002" {
			return false
		}
		other := s.log.Fork(512)
		other.Add(makeEntries(9000, 256)...)
		recorded := httptest.NewRecorder()
		forged := other.Fork(512)
		entries := makeEntries(512, 256)
		entries[17].Certificate = []byte(certificate)
		forged.Add(entries...)
		forged.Publish(768, epoch+800_000)
		forged.ServeHTTP(recorded, httptest.NewRequest(http.MethodGet, "/tile/data/002", nil))
		_, err := w.Write(recorded.Body.Bytes())
		return err == nil
	})
	damage.Store("forged")
	s.checkAccused(t, watch.VerdictOtherRoot)
	// The entries that the log gives in the second pass are searched too, although they are another lie.
	damage.Store("another")
	s.checkAccused(t, watch.VerdictDamagedTile)
	for _, certificate := range []string{"forged", "another"} {
		if !slices.ContainsFunc(s.keeper.entries[s.watched.ID], func(one watch.Entry) bool {
			return one.Index == 529 && string(one.Certificate) == certificate
		}) {
			t.Errorf("the entry with the certificate %q was not searched", certificate)
		}
	}
	checkVerdicts(t, s.keeper, s.watched.ID, watch.VerdictOtherRoot, watch.VerdictDamagedTile)
	checkEvidence(t, s.keeper, s.watched)
	if text := s.keeper.accused[s.watched.ID][1].Text; !strings.Contains(text, "entry 529 ") {
		t.Errorf("the evidence says %q", text)
	}
	damage.Store("")
	if err := s.follower.Pass(context.Background()); err != nil {
		t.Fatal(err)
	}
	if state := s.keeper.states[s.watched.ID]; state.Accepted.TreeSize != 800 || state.Accepted.Root != s.log.Root(800) {
		t.Errorf("%d leaves are accepted", state.Accepted.TreeSize)
	}
}

// While the entries of a head cannot be read, the next head is compared with the waiting one, and the evidence has it.
func TestAccusesByTheWaitingHead(t *testing.T) {
	for _, kind := range kinds {
		for verdict, lie := range map[string]func(*testkit.Log){
			watch.VerdictFork:     func(log *testkit.Log) { log.PublishRoot(320, epoch+330_000, [32]byte{1}) },
			watch.VerdictShrunk:   func(log *testkit.Log) { log.Publish(310, epoch+330_000) },
			watch.VerdictNotLater: func(log *testkit.Log) { log.Add(makeEntries(320, 1)...); log.Publish(321, epoch+320_000) },
		} {
			t.Run(kind+" "+verdict, func(t *testing.T) {
				s := newScene(t, kind, 0)
				s.log.Intercept(func(w http.ResponseWriter, r *http.Request) bool {
					isEntries := strings.Contains(r.URL.Path, "/data/") || strings.HasSuffix(r.URL.Path, "get-entries")
					if isEntries {
						w.WriteHeader(http.StatusForbidden)
					}
					return isEntries
				})
				grow(s.log, 20)
				if err := s.follower.Pass(context.Background()); !errors.Is(err, logclient.ErrStatus) {
					t.Fatal(err)
				}
				waiting := s.keeper.states[s.watched.ID].Waiting
				lie(s.log)
				s.checkAccused(t, verdict)
				checkVerdicts(t, s.keeper, s.watched.ID, verdict)
				if first := s.keeper.accused[s.watched.ID][0].Files[watch.FileFirst]; waiting.TreeSize != 320 ||
					!bytes.Equal(first, waiting.Signed) {
					t.Errorf("the evidence has %q as the head that was known", first)
				}
				checkEvidence(t, s.keeper, s.watched)
			})
		}
	}
}

// A head that the log's key did not sign is evidence, and does not change the state.
func TestAccusesOtherSigner(t *testing.T) {
	for _, kind := range kinds {
		t.Run(kind, func(t *testing.T) {
			s := newScene(t, kind, 0)
			other := newLog(t, 400)
			server := httptest.NewServer(other)
			t.Cleanup(server.Close)
			s.watched.URL = server.URL
			s.follower = newFollower(t, s.watched, s.keeper, s.options())
			s.checkAccused(t, watch.VerdictSigner)
			checkEvidence(t, s.keeper, s.watched)
			checkEntries(t, s.keeper, s.watched.ID, numbers(0, 300))
		})
	}
}

// A log that signs no new head is accused after its maximum merge delay, and one that is frozen is not.
func TestAccusesOldHead(t *testing.T) {
	for _, kind := range kinds {
		s := newScene(t, kind, time.Hour)
		s.clock.now.Store(epoch + 300_000 + 3_600_000)
		if err := s.follower.Pass(context.Background()); err != nil {
			t.Errorf("%s: a head of an hour: %v", kind, err)
		}
		s.clock.now.Store(epoch + 300_000 + 3_600_000 + 60_000)
		s.checkAccused(t, watch.VerdictOldHead)
		checkEvidence(t, s.keeper, s.watched)
		s.watched.State = "readonly"
		s.follower = newFollower(t, s.watched, s.keeper, watch.Options{Client: logclient.Options{Clock: s.clock}})
		if err := s.follower.Pass(context.Background()); err != nil {
			t.Errorf("%s: a frozen log: %v", kind, err)
		}
	}
}
