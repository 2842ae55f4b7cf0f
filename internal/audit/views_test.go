package audit_test

import (
	"context"
	"crypto/ed25519"
	"crypto/rand"
	"crypto/sha256"
	"encoding/base64"
	"encoding/binary"
	"errors"
	"fmt"
	"io"
	"net/http"
	"net/http/httptest"
	"os"
	"path/filepath"
	"slices"
	"strings"
	"testing"

	"golang.org/x/mod/sumdb/tlog"

	"wagtenib/internal/audit"
	"wagtenib/internal/ct"
	"wagtenib/internal/testkit"
	"wagtenib/internal/watch"
	"wagtenib/internal/witness"
)

// cosigner is a witness with its key.
type cosigner struct {
	name string
	key  ed25519.PrivateKey
}

func newCosigner(t testing.TB, name string) cosigner {
	t.Helper()
	_, key, err := ed25519.GenerateKey(rand.Reader)
	if err != nil {
		t.Fatal(err)
	}
	return cosigner{name, key}
}

// public returns the bytes of the algorithm and the public key (C2SP tlog-cosignature).
func (c cosigner) public() []byte { return append([]byte{4}, c.key.Public().(ed25519.PublicKey)...) }

func (c cosigner) id() []byte {
	sum := sha256.Sum256(append([]byte(c.name+"\n"), c.public()...))
	return sum[:4]
}

// verifierKey returns NAME+ID+KEY (C2SP signed-note).
func (c cosigner) verifierKey() string {
	return fmt.Sprintf("%s+%x+%s", c.name, c.id(), base64.StdEncoding.EncodeToString(c.public()))
}

// line returns the signature line with a cosignature of a checkpoint.
func (c cosigner) line(checkpoint []byte) string {
	text, _, _ := strings.Cut(string(checkpoint), "\n\n")
	const time = 1_800_000_000
	signed := ed25519.Sign(c.key, fmt.Appendf(nil, "cosignature/v1\ntime %d\n%s\n", time, text))
	content := append(binary.BigEndian.AppendUint64(slices.Clone(c.id()), time), signed...)
	return "— " + c.name + " " + base64.StdEncoding.EncodeToString(content) + "\n"
}

// A policy counts each of its witnesses once, and counts no other witness.
func TestPolicyCountsEachWitnessOnce(t *testing.T) {
	a, b, c, stranger := newCosigner(t, "a.example"), newCosigner(t, "b.example"), newCosigner(t,
		"c.example"), newCosigner(t, "a.example")
	keys := "# the witnesses\n" + a.verifierKey() + "\n\n" + b.verifierKey() + "\n" + c.verifierKey() + "\n"
	log := newLog(t, others(10), epoch)
	watched := serve(t, log, "tiled")
	plain := log.Checkpoint()
	damaged := strings.Replace(b.line(plain), "A", "B", 1)
	for what, lines := range map[string][]string{
		"":                    {},
		"a.example":           {a.line(plain), a.line(plain), stranger.line(plain), damaged},
		"a.example b.example": {stranger.line(plain), b.line(plain), a.line(plain)},
	} {
		policy, err := audit.NewPolicy([]byte(keys), 2)
		if err != nil {
			t.Fatal(err)
		}
		head := watch.Head{Signed: []byte(string(plain) + strings.Join(lines, ""))}
		if names := policy.Cosigners(head.Signed); strings.Join(names, " ") != what {
			t.Errorf("%q cosigned, and %q is expected", names, what)
		}
		err = policy.Check(head)
		var missed *watch.PolicyError
		if strings.Count(what, " ") == 1 {
			if err != nil {
				t.Error(err)
			}
			continue
		}
		if !errors.As(err, &missed) {
			t.Fatalf("%s: %v", what, err)
		}
		log.SetCheckpoint(head.Signed)
		checkFewCosigned(t, watched, policy)
	}
	for _, wrong := range []struct {
		keys   string
		quorum int
	}{{keys, 0}, {keys, 4}, {"", 1}, {keys + a.verifierKey(), 1}, {keys + stranger.verifierKey(),
		1}, {"a.example+00000000+" + base64.StdEncoding.EncodeToString(a.public()), 1}, {"nonsense", 1}} {
		if _, err := audit.NewPolicy([]byte(wrong.keys), wrong.quorum); !errors.Is(err, audit.ErrPolicy) {
			t.Errorf("%d of %.60q: %v", wrong.quorum, wrong.keys, err)
		}
	}
}

// accuser implements watch.Keeper, and keeps only the last evidence.
type accuser struct{ evidence watch.Evidence }

func (*accuser) Load(watch.LogID) (watch.State, error)            { return watch.State{}, nil }
func (*accuser) Keep(watch.Log, watch.State, []watch.Entry) error { return nil }
func (k *accuser) Accuse(_ watch.Log, _ watch.State, e watch.Evidence) error {
	k.evidence = e
	return nil
}
func (*accuser) Report(watch.Status) {}

// checkFewCosigned follows a log under a policy that it does not meet, and checks that the independent judge confirms
// the evidence.
func checkFewCosigned(t *testing.T, watched watch.Log, policy *audit.Policy) {
	t.Helper()
	k := &accuser{}
	watched.MaxMergeDelay = 0
	f, err := watch.NewFollower(watched, k, watch.Options{FromStart: true, Policy: policy.Check})
	if err != nil {
		t.Fatal(err)
	}
	var accused *watch.AccusedError
	if err := f.Pass(context.Background()); !errors.As(err, &accused) || accused.Verdict != watch.VerdictFewCosigned {
		t.Fatalf("the pass ends with %v", err)
	}
	checkEvidence(t, &k.evidence, watched.PublicKey)
}

// CompareViews compares the heads that others saw with the newest head, for each kind of log.
func TestComparesViews(t *testing.T) {
	for _, kind := range kinds {
		t.Run(kind, func(t *testing.T) {
			log := newLog(t, others(500), epoch+500)
			reader, err := watch.NewReader(serve(t, log, kind), quick)
			if err != nil {
				t.Fatal(err)
			}
			mine, err := reader.Head(context.Background())
			if err != nil {
				t.Fatal(err)
			}
			earlier, forked, longer := log.Fork(300), log.Fork(300), log.Fork(300)
			earlier.Publish(300, epoch+300)
			forked.Add(others(7)...)
			forked.Publish(307, epoch+307)
			longer.Add(others(200)...)
			longer.PublishRoot(500, epoch+600, [32]byte{1})
			stranger := newLog(t, others(300), epoch)
			folder := t.TempDir()
			for name, seen := range map[string]func() []byte{"earlier": head(t, earlier, kind), "forked": head(t, forked, kind),
				"longer":   head(t, longer, kind),
				"stranger": head(t, stranger, kind), "same": head(t, log,
					kind), "nonsense": func() []byte { return []byte("<html>\n\n— a b\n") }} {
				if err := os.WriteFile(filepath.Join(folder, name), seen(), 0o600); err != nil {
					t.Fatal(err)
				}
			}
			seen, err := audit.ReadHeads(context.Background(), folder, quick)
			if err != nil {
				t.Fatal(err)
			}
			views := audit.CompareViews(context.Background(), reader, mine, seen, quick)
			if len(views) != 6 {
				t.Errorf("%d views", len(views))
			}
			for _, view := range views {
				checkView(t, log, view)
			}
		})
	}
}

// checkView checks the outcome of a view by the name of its file.
func checkView(t *testing.T, log *testkit.Log, view audit.View) {
	t.Helper()
	name := filepath.Base(view.Where)
	var accused *watch.AccusedError
	switch name {
	case "forked", "longer":
		if !errors.As(view.Err, &accused) {
			t.Errorf("%s: %v", name, view.Err)
			return
		}
		checkEvidence(t, view.Evidence, log.PublicKey())
	default:
		expected := map[string]error{"stranger": ct.ErrSigner, "nonsense": ct.ErrForm}[name]
		if !errors.Is(view.Err, expected) {
			t.Errorf("%s: %v, and %v is expected", name, view.Err, expected)
		}
	}
}

// head returns a function that returns the bytes of a log's newest head.
func head(t *testing.T, log interface {
	ServeHTTP(http.ResponseWriter, *http.Request)
}, kind string) func() []byte {
	path := "/checkpoint"
	if kind != "tiled" {
		path = "/ct/v1/get-sth"
	}
	recorded := httptest.NewRecorder()
	log.ServeHTTP(recorded, httptest.NewRequest(http.MethodGet, path, nil))
	if recorded.Code != http.StatusOK {
		t.Fatal("there is no head")
	}
	return recorded.Body.Bytes
}

// ReadHeads separates several heads in one file or at one address.
func TestSplitsHeads(t *testing.T) {
	a := newCosigner(t, "a.example")
	log := newLog(t, others(3), epoch)
	first := log.Checkpoint()
	second := []byte(string(first) + a.line(first))
	for what, content := range map[string]string{"one after the other": string(first) + string(second),
		"with empty lines": string(first) + "\n" + string(second)} {
		found := audit.SplitHeads([]byte(content))
		if len(found) != 2 || string(found[0]) != string(first) || string(found[1]) != string(second) {
			t.Errorf("%s: %q", what, found)
		}
	}
	if found := audit.SplitHeads([]byte("{\"a\":1}\n{\"b\":2}\n")); len(found) != 2 {
		t.Errorf("%q", found)
	}
	// The error of Write is ignored: it means that the client has closed the connection, and the test sees that.
	server := httptest.NewServer(http.HandlerFunc(func(w http.ResponseWriter, _ *http.Request) { _, _ = w.Write(second) }))
	defer server.Close()
	if found, err := audit.ReadHeads(context.Background(), server.URL+"/heads.txt", quick); err != nil ||
		len(found[server.URL+"/heads.txt"]) != 1 {
		t.Errorf("%q, %v", found, err)
	}
	if _, err := audit.ReadHeads(context.Background(), filepath.Join(t.TempDir(), "none"), quick); !errors.Is(err,
		os.ErrNotExist) {
		t.Errorf("no such folder: %v", err)
	}
}

// A witness that cosigned an earlier tree gets a proof from that tree. Its line is accepted only if its key signed it.
func TestCosigns(t *testing.T) {
	log := newLog(t, others(700), epoch)
	reader, err := watch.NewReader(serve(t, log, "tiled"), quick)
	if err != nil {
		t.Fatal(err)
	}
	mine, err := reader.Head(context.Background())
	if err != nil {
		t.Fatal(err)
	}
	own, other := newCosigner(t, "w.example"), newCosigner(t, "w.example")
	for what, test := range map[string]struct {
		size     uint64 // of the tree that the witness cosigned last
		root     [32]byte
		signer   cosigner
		expected error
	}{
		"at first":           {0, [32]byte{}, own, nil},
		"from an older tree": {300, log.Root(300), own, nil},
		"the same again":     {700, log.Root(700), own, nil},
		"another history":    {300, [32]byte{1}, own, audit.ErrWitnessSaw},
		"another root":       {700, [32]byte{1}, own, audit.ErrWitnessSaw},
		"a larger tree":      {800, log.Root(700), own, audit.ErrWitnessRefuses},
		"another key":        {0, [32]byte{}, other, audit.ErrWitnessRefuses},
	} {
		t.Run(what, func(t *testing.T) {
			server := httptest.NewServer(http.HandlerFunc(func(w http.ResponseWriter,
				r *http.Request) {
				addCheckpoint(t, w, r, test.size, test.root, test.signer)
			}))
			defer server.Close()
			one, err := witness.ReadOne(server.URL + "," + own.verifierKey())
			if err != nil {
				t.Fatal(err)
			}
			cosigned, err := audit.Cosign(context.Background(), reader, mine, witness.Client{One: one, HTTP: server.Client()})
			if !errors.Is(err, test.expected) ||
				err == nil && string(cosigned) != string(mine.Signed)+own.line(mine.Signed) {
				t.Errorf("%q, %v", cosigned, err)
			}
		})
	}
}

// addCheckpoint answers as a witness that last cosigned a tree with this size and root (C2SP tlog-witness). It checks
// the proof with tlog.
func addCheckpoint(t *testing.T, w http.ResponseWriter, r *http.Request, last uint64, root [32]byte, signer cosigner) {
	body, err := io.ReadAll(r.Body)
	if err != nil || r.URL.Path != "/add-checkpoint" {
		t.Errorf("%s: %v", r.URL.Path, err)
		return
	}
	lines := strings.Split(strings.SplitN(string(body), "\n\n", 2)[0], "\n")
	note := []byte(strings.SplitN(string(body), "\n\n", 2)[1])
	noteLines := strings.Split(string(note), "\n")
	var size int64
	if _, err := fmt.Sscan(noteLines[1], &size); err != nil {
		t.Error(err)
	}
	if lines[0] != fmt.Sprintf("old %d", last) {
		w.WriteHeader(http.StatusConflict)
		fmt.Fprintf(w, "%d\n", last)
		return
	}
	given, err := tlog.ParseHash(noteLines[2])
	if err != nil {
		t.Error(err)
	}
	var proof tlog.TreeProof
	for _, line := range lines[1:] {
		hash, err := tlog.ParseHash(line)
		if err != nil {
			t.Error(err)
		}
		proof = append(proof, hash)
	}
	if last == uint64(size) && root != given {
		w.WriteHeader(http.StatusConflict)
		fmt.Fprintf(w, "%d\n", last)
		return
	}
	if last > 0 && last < uint64(size) && tlog.CheckTree(proof, size, given, int64(last), tlog.Hash(root)) != nil {
		w.WriteHeader(http.StatusUnprocessableEntity)
		return
	}
	fmt.Fprint(w, signer.line(note))
}

// Two heads are compared in both directions. The evidence shows a contradiction to others. A refusal is none.
func TestComparesBothDirections(t *testing.T) {
	for _, kind := range kinds {
		log := newLog(t, others(500), epoch+500)
		watched := serve(t, log, kind)
		reader, err := watch.NewReader(watched, quick)
		if err != nil {
			t.Fatal(err)
		}
		mine, err := reader.Head(context.Background())
		if err != nil {
			t.Fatal(err)
		}
		forked := log.Fork(300)
		forked.Add(others(50)...)
		for what, test := range map[string]struct {
			seen    *testkit.Log
			size    uint64
			at      uint64
			root    []byte
			verdict string
		}{
			"smaller and earlier":       {log.Fork(300), 300, epoch + 300, nil, ""},
			"the same, signed again":    {log.Fork(500), 500, epoch + 900, nil, ""},
			"smaller and later":         {log.Fork(300), 300, epoch + 501, nil, watch.VerdictShrunk},
			"smaller at the same time":  {log.Fork(300), 300, epoch + 500, nil, watch.VerdictShrunk},
			"larger and earlier":        {forked, 510, epoch + 400, []byte{1}, watch.VerdictNotLater},
			"another root":              {log.Fork(500), 500, epoch + 1, []byte{1}, watch.VerdictFork},
			"a fork that lags":          {forked, 350, epoch + 350, nil, watch.VerdictOtherHistory},
			"another root that lags":    {log.Fork(256), 256, epoch + 256, []byte{1}, watch.VerdictOtherHistory},
			"the empty tree":            {log.Fork(0), 0, epoch, nil, ""},
			"no leaves, another root":   {log.Fork(0), 0, epoch, []byte{1}, watch.VerdictOtherHistory},
			"no leaves, and later":      {log.Fork(0), 0, epoch + 501, nil, watch.VerdictShrunk},
			"larger than the log shows": {forked, 600, epoch + 900, []byte{1}, watch.VerdictNotProved},
		} {
			if test.root == nil {
				test.seen.Publish(test.size, test.at)
			} else {
				test.seen.PublishRoot(test.size, test.at, [32]byte(append(test.root, make([]byte, 31)...)))
			}
			seen := map[string][][]byte{what: {head(t, test.seen, kind)()}}
			views := audit.CompareViews(context.Background(), reader, mine, seen, quick)
			if len(views) != 1 || (views[0].Evidence != nil) != (test.verdict != "") {
				t.Errorf("%s %s: %+v", kind, what, views)
				continue
			}
			if view := views[0]; test.verdict == "" && view.Err != nil || test.verdict != "" &&
				view.Evidence.Verdict != test.verdict {
				t.Errorf("%s %s: %v, and %q is expected", kind, what, view.Err, test.verdict)
			} else if test.verdict != "" {
				checkEvidence(t, view.Evidence, log.PublicKey())
			}
		}
	}
}
