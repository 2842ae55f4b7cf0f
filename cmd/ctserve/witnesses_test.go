package main

import (
	"context"
	"crypto/ed25519"
	"crypto/rand"
	"encoding/base64"
	"errors"
	"fmt"
	"io"
	"net/http/httptest"
	"os"
	"os/exec"
	"path/filepath"
	"strings"
	"syscall"
	"testing"
	"time"

	"golang.org/x/mod/sumdb/note"

	"wagtenib/internal/blob"
	"wagtenib/internal/ct"
	"wagtenib/internal/log/signer"
	"wagtenib/internal/testkit"
	"wagtenib/internal/witness"
)

// aWitness starts a witness of the place's log over HTTP. It returns the witness as a setting has it, which is its URL,
// a comma and its verifier key, and the verifier of its cosignatures.
func (p *place) aWitness(name string, with ...func(log *witness.Log)) (one string, key note.Verifier) {
	p.t.Helper()
	must := func(err error) { p.t.Helper(); testkit.Must(p.t, err) }
	public, private, err := ed25519.GenerateKey(rand.Reader)
	must(err)
	s, err := witness.New(witness.Options{Name: name, Key: private})
	must(err)
	state, err := blob.OpenFile(p.path(name))
	must(err)
	p.t.Cleanup(func() { state.Close() })
	of, err := signer.OpenKey(p.path("log.pem"))
	must(err)
	log := witness.Log{Origin: "log.example/test", Keys: []note.Verifier{ct.LogVerifier("log.example/test",
		of.Key())}, State: state}
	must(log.Create(context.Background()))
	for _, more := range with {
		more(&log)
	}
	s.SetLogs([]witness.Log{log})
	over := httptest.NewServer(s)
	p.t.Cleanup(over.Close)
	return over.URL + "," + s.VerifierKey(), witness.OfCosigner(name, public)
}

// comesIn submits a certificate again until it is answered. If a witness is late on a slow machine, the answer is a 503
// although the entry may be in the log.
func (p *place) comesIn(at *program) {
	p.t.Helper()
	submission := p.submission()
	for until := testkit.Limited(p.t, testkit.Longest); ; time.Sleep(50 * time.Millisecond) {
		status, answer := post(at.clients, submission)
		if status == 200 {
			return
		}
		if status != 503 || until.Err() != nil {
			p.t.Fatalf("%d %s", status, answer)
		}
	}
}

// TestWitnessedLog checks that the log's checkpoint has cosignatures, and that its metrics show its witnesses. If all
// parts of the log are rolled back together, the start is refused.
func TestWitnessedLog(t *testing.T) {
	t.Parallel()
	at := newPlace(t)
	first, firstKey := at.aWitness("v.example")
	second, secondKey := at.aWitness("w.example")
	arguments := at.realArguments("--signing-key", at.path("log.pem"))
	arguments = append(arguments, "--witnesses", first+" "+second, "--faulty-witnesses", "1")
	p := started(t, "", append(arguments, "--create")...)
	submitted := func() { t.Helper(); at.comesIn(p) }
	submitted()
	_, checkpoint := read(p.clients, "/checkpoint")
	if opened, err := note.Open([]byte(checkpoint), note.VerifierList(firstKey, secondKey)); err != nil ||
		len(opened.Sigs) != 2 || len(opened.UnverifiedSigs) != 1 {
		t.Errorf("%q: %v", checkpoint, err)
	}
	p.signal(syscall.SIGTERM)
	if status := p.ends(); status != 0 {
		t.Errorf("ctserve ended with status %d", status)
	}
	parts := []string{"log", "log.guard", "log.latest-head"}
	for _, part := range parts {
		if output, err := exec.Command("cp", "-a", at.path(part), at.path("old-"+part)).CombinedOutput(); err != nil {
			t.Fatalf("%v: %s", err, output)
		}
	}
	p = started(t, "", arguments...)
	submitted()
	_, metrics := get(p.operator, "/metrics")
	for _, line := range []string{`ctserve_witness_lag{witness="v.example"} 0`,
		`ctserve_witness_ahead{witness="w.example"} 0`, `ctserve_witness_cosignatures_total{witness="w.example"} `} {
		if !strings.Contains(metrics, line) {
			t.Errorf("/metrics lacks %s", line)
		}
	}
	p.signal(syscall.SIGTERM)
	p.ends()
	for until := time.Now().Add(testkit.Patience); ; {
		for _, part := range parts {
			if err := os.RemoveAll(at.path(part)); err != nil {
				t.Fatal(err)
			}
			if output, err := exec.Command("cp", "-a", at.path("old-"+part), at.path(part)).CombinedOutput(); err != nil {
				t.Fatalf("%v: %s", err, output)
			}
		}
		p, line := launched(t, "", arguments...)
		serves, output := line["event"] == "serving", fmt.Sprint(line["fault"])
		if serves {
			p.signal(syscall.SIGKILL)
		}
		status := p.ends()
		// The witnesses have a limit of some seconds. If both are late, the log serves and accepts no submissions.
		if (serves || isLate(output)) && time.Now().Before(until) {
			continue
		}
		if status != statusRolledBack || !strings.Contains(output, "has seen 2 entries, and the head has 1") {
			t.Errorf("all parts are rolled back: status %d: %v", status, line)
		}
		return
	}
}

// TestWatchedWitness runs ctwatch over a log whose head a quorum of witnesses cosigned. ctwatch reads the entries, and
// then ctaudit asks a third witness to cosign the head. This witness cosigns only heads that ctwatch accepted.
func TestWatchedWitness(t *testing.T) {
	t.Parallel()
	at := newPlace(t)
	first, _ := at.aWitness("v.example")
	second, _ := at.aWitness("w.example")
	file := filepath.Join(at.path("accepted"), "log.example%2Ftest")
	third, thirdKey := at.aWitness("x.example", func(log *witness.Log) {
		log.Accepted = func() (uint64, [32]byte, error) { return witness.AcceptedBy(file, log.Origin, log.Keys) }
	})
	p := started(t, "", append(at.realArguments("--signing-key", at.path("log.pem")), "--witnesses", first+" "+second,
		"--create")...)
	programs := at.path("programs") + "/"
	if output, err := exec.Command("go", "build", "-o", programs, "wagtenib/cmd/ctwatch",
		"wagtenib/cmd/ctaudit").CombinedOutput(); err != nil {
		t.Fatalf("go build: %v: %s", err, output)
	}
	key, err := signer.OpenKey(at.path("log.pem"))
	testkit.Must(t, err)
	of := []string{"--folder", at.path("store"), "--log", "tiled+http://" + p.clients + " " +
		base64.StdEncoding.EncodeToString(key.Key()) + " log.example/test"}
	_, one, _ := strings.Cut(first, ",")
	_, two, _ := strings.Cut(second, ",")
	_, three, _ := strings.Cut(third, ",")
	runs := func(program string, arguments ...string) (status int, text string) {
		t.Helper()
		command := exec.Command(programs+program, append(arguments, of...)...)
		output, _ := command.CombinedOutput()
		return command.ProcessState.ExitCode(), string(output)
	}
	watches := func(keys string) (status int, text string) {
		t.Helper()
		at.write("witnesses", []byte(keys))
		return runs("ctwatch", "run", "--once", "--listen=", "--from-start", "--name", "a.example", "--unread", "none",
			"--accepted-folder", at.path("accepted"),
			"--witnesses", at.path("witnesses"), "--quorum", "2")
	}
	for entries := 1; entries < 4; entries++ {
		at.comesIn(p)
		if entries > 1 {
			if status, output := runs("ctaudit", "cosign", third, "--into", at.path("cosigned")); status != 0 ||
				!strings.Contains(output, fmt.Sprintf("%d leaves", entries-1)) {
				t.Fatalf("before the entries are read: status %d: %s", status, output)
			}
		}
		if status, output := watches(one + "\n" + two + "\n"); status != 0 {
			t.Fatalf("with %d entries: status %d: %s", entries, status, output)
		}
		if status, output := runs("ctaudit", "cosign", third, "--into", at.path("cosigned")); status != 0 ||
			!strings.Contains(output, fmt.Sprintf("%d leaves are cosigned by x.example", entries)) {
			t.Fatalf("with %d entries: status %d: %s", entries, status, output)
		}
		kept, err := os.ReadFile(at.path("cosigned"))
		testkit.Must(t, err)
		if opened, err := note.Open(kept, note.VerifierList(thirdKey)); err != nil || len(opened.Sigs) != 1 ||
			len(opened.UnverifiedSigs) != 3 {
			t.Errorf("%q: %v", kept, err)
		}
	}
	if status, output := watches(one + "\n" + three + "\n"); status != 3 {
		t.Errorf("with one cosignature of two: status %d: %s", status, output)
	}
	p.signal(syscall.SIGTERM)
	p.ends()
}

// TestWitnessesSettings checks that impossible witnesses and quorums are refused at the start, and that quorums that
// are not set get their defaults.
func TestWitnessesSettings(t *testing.T) {
	at := newPlace(t)
	var ones []string
	for _, name := range []string{"a", "b", "c"} {
		public, _, err := ed25519.GenerateKey(rand.Reader)
		if err != nil {
			t.Fatal(err)
		}
		ones = append(ones, "https://"+name+".example,"+witness.VerifierKey(name, public))
	}
	three := strings.Join(ones, " ")
	for _, test := range []struct {
		arguments []string
		why       string
	}{
		{[]string{"--witnesses", "https://a.example"}, "not a verifier key"},
		{[]string{"--witnesses", three + " x"}, "a witness is a URL"},
		{[]string{"--witnesses", three + " " + ones[0]}, "one name, key or URL"},
		{[]string{"--publish-quorum", "2"}, "need --witnesses"},
		{[]string{"--start-quorum", "2"}, "need --witnesses"},
		{[]string{"--faulty-witnesses", "1"}, "need --witnesses"},
		{[]string{"--witnesses", three, "--publish-quorum", "1"}, "must be below 2 + 1"},
		{[]string{"--witnesses", three, "--publish-quorum", "2", "--start-quorum", "2", "--faulty-witnesses", "1"},
			"3 + 1 must be below 2 + 2"},
		{[]string{"--witnesses", three, "--publish-quorum", "4"}, "impossible quorums"},
		{[]string{"--witnesses", three, "--faulty-witnesses", "3"}, "impossible quorums"},
		{[]string{"--witnesses", three, "--faulty-witnesses", "-1"}, "impossible quorums"},
	} {
		if _, err := parse(at.arguments(test.arguments...), io.Discard); !errors.Is(err, errUsage) ||
			!strings.Contains(err.Error(), test.why) {
			t.Errorf("%q: %v", test.arguments, err)
		}
	}
	for _, test := range []struct {
		arguments []string
		quorums   witness.Quorums
	}{
		{[]string{"--witnesses", three}, witness.Quorums{Publish: 2, Start: 2}},
		{[]string{"--witnesses", three, "--faulty-witnesses", "1"}, witness.Quorums{Publish: 3, Start: 3, Faults: 1}},
		{[]string{"--witnesses", three, "--publish-quorum", "3", "--faulty-witnesses", "1", "--start-quorum", "2"},
			witness.Quorums{Publish: 3, Start: 2, Faults: 1}},
		{[]string{"--witnesses", ones[0]}, witness.Quorums{Publish: 1, Start: 1}},
	} {
		s, err := parse(at.arguments(test.arguments...), io.Discard)
		if err != nil || s.node.quorums != test.quorums {
			t.Errorf("%q: %v", test.arguments, err)
		}
	}
	at.write("settings", []byte("witnesses "+three+"\nstart-quorum 3\n"))
	s, err := parse(at.arguments("--config", filepath.Join(at.folder, "settings")), io.Discard)
	if err != nil || len(s.node.witnesses) != 3 || s.node.quorums != (witness.Quorums{Publish: 2, Start: 3}) {
		t.Errorf("%v", err)
	}
}
