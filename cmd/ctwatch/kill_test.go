package main

import (
	"bytes"
	"encoding/json"
	"flag"
	"fmt"
	"math/rand/v2"
	"net/http"
	"os"
	"path/filepath"
	"strings"
	"testing"
	"time"

	"wagtenib/internal/audit/judge"
	"wagtenib/internal/testkit"
	"wagtenib/internal/watch/alert"
)

// A long run is: go test ./cmd/ctwatch -run Killed -v -args -kills 200
var (
	kills = flag.Int("kills", 8, "how often the program is killed")
	seed  = flag.Uint64("seed", 1, "seed of the moments")
)

// TestKillsLoseNoAlert kills ctwatch by SIGKILL at random times while it reads two logs, one of which forks in the
// middle. At the end, each issuance has its alert, and an alert that was sent twice has Again set. The fork has one
// alert, and the judge of ctaudit confirms its evidence.
func TestKillsLoseNoAlert(t *testing.T) {
	authority, random, folder := testkit.NewAuthority("Test CA 1"), rand.New(rand.NewPCG(*seed, 0)), t.TempDir()
	first, second := serveLog(t, "a.example"), serveLog(t, "b.example")
	asked, wanted, isGrowing, forked := make(chan struct{}, 1<<16), map[string]bool{}, true, false
	turn := make(chan struct{}, 1) // It is a mutex for `wanted`, isGrowing and forked.
	turn <- struct{}{}
	grow := func(log served) {
		<-turn
		defer func() { turn <- struct{}{} }()
		if !isGrowing || forked && log.Log == second.Log {
			return
		}
		for range 3 {
			host := fmt.Sprintf("h%d.example.org", len(wanted))
			wanted[host] = true
			one := authority.Issue(host)
			first.add(authority, one)
			if !forked {
				second.add(authority, one)
			}
		}
	}
	for _, log := range []served{first, second} {
		log.add(authority, authority.Issue("other.net"))
		log.Intercept(func(_ http.ResponseWriter, r *http.Request) bool {
			if strings.HasSuffix(r.URL.Path, "checkpoint") || strings.HasSuffix(r.URL.Path, "get-sth") {
				grow(log)
			}
			asked <- struct{}{}
			return false
		})
	}
	alerts := filepath.Join(folder, "alerts")
	arguments := []string{"run", "--from-start", "--name", "example.org", "--folder", folder, "--pause", "1s", "--listen",
		"", "--json", alerts, "--log", first.setting(true), "--log", second.setting(false)}
	for round := range *kills {
		if round == *kills/2 {
			<-turn
			forked = true
			turn <- struct{}{}
			// The last head before the fork is accepted, so that the next one has another root of the same size.
			if status, out, faults := ctwatch(t, append(arguments, "--once")...); status != statusFoundByOnce {
				t.Fatalf("before the fork: status %d: %s%s", status, out, faults)
			}
			second.PublishRoot(second.Size(), uint64(time.Now().UnixMilli())+1, [32]byte{1})
		}
		killAt(t, arguments, asked, 1+random.IntN(6), time.Duration(random.IntN(60))*time.Millisecond)
	}
	<-turn
	isGrowing = false
	turn <- struct{}{}
	if status, out, faults := ctwatch(t, append(arguments, "--once")...); status != statusAccused {
		t.Errorf("the last run: status %d: %s%s", status, out, faults)
	}
	again, cut := judgeAlerts(t, alerts, wanted, 1)
	if cut > *kills {
		t.Errorf("%d lines are cut off, and only %d programs were killed", cut, *kills)
	}
	t.Logf("%d kills, %d issuances, %d alerts again, %d lines cut off", *kills, len(wanted), again, cut)
	judgeFork(t, folder, second.PublicKey())
}

// judgeFork checks that the judge of ctaudit confirms the first evidence of a store.
func judgeFork(t *testing.T, folder string, key []byte) {
	t.Helper()
	evidence := filepath.Join(folder, "evidence")
	status, out, faults := ctwatch(t, "evidence", "1", evidence, "--folder", folder)
	if status != 0 || !strings.Contains(out, "fork") {
		t.Fatalf("the evidence: status %d: %s%s", status, out, faults)
	}
	if shown, err := judge.Evidence(evidence, key); err != nil || !strings.Contains(shown, "two roots") {
		t.Errorf("the judge says %q, %v", shown, err)
	}
}

// killAt starts the program, and kills it some time after it has made this number of requests. The program must not end
// before.
func killAt(t *testing.T, arguments []string, asked chan struct{}, requests int, later time.Duration) {
	t.Helper()
	for len(asked) > 0 {
		<-asked
	}
	program := testkit.Program(t, arguments...)
	var faults bytes.Buffer
	program.Stderr = &faults
	must(t, program.Start())
	ended := make(chan error, 1)
	go func() { ended <- program.Wait() }()
	for range requests {
		select {
		case <-asked:
		case err := <-ended:
			t.Fatalf("the program ended by itself: %v: %s", err, faults.String())
		}
	}
	time.Sleep(later) // The sleep only chooses the time of the kill. The test does not rely on it.
	must(t, program.Process.Kill())
	<-ended
}

// judgeAlerts checks the lines of the alerts. Each host must have one alert, and `accused` alerts must be about logs.
// It returns the number of alerts with Again, and the number of lines that are cut off.
func judgeAlerts(t *testing.T, path string, wanted map[string]bool, accused int) (again, cut int) {
	t.Helper()
	content, err := os.ReadFile(path)
	must(t, err)
	sent, hosts, accusations := map[int64]bool{}, map[string]int64{}, map[int64]bool{}
	for _, line := range bytes.Split(bytes.TrimSpace(content), []byte("\n")) {
		var one alert.Alert
		if json.Unmarshal(line, &one) != nil {
			cut++
			continue
		}
		if sent[one.ID] && !one.Again {
			t.Errorf("alert %d was sent twice, and Again is not set", one.ID)
		}
		if one.Again {
			again++
		}
		sent[one.ID] = true
		if one.Kind == alert.Evidence {
			accusations[one.ID] = true
			continue
		}
		host := one.Certificate.Names[0]
		if id, found := hosts[host]; found && id != one.ID || !wanted[host] {
			t.Errorf("%s has the alerts %d and %d", host, id, one.ID)
		}
		hosts[host] = one.ID
	}
	if len(hosts) != len(wanted) || len(accusations) != accused {
		t.Errorf("%d hosts of %d have an alert, and there are %d alerts about logs", len(hosts), len(wanted),
			len(accusations))
	}
	return again, cut
}
