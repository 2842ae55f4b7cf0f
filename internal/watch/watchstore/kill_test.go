package watchstore_test

import (
	"bufio"
	"bytes"
	"context"
	"encoding/json"
	"fmt"
	"math/rand/v2"
	"os"
	"os/exec"
	"path/filepath"
	"strconv"
	"testing"

	"wagtenib/internal/testkit"
	"wagtenib/internal/watch"
	"wagtenib/internal/watch/alert"
	"wagtenib/internal/watch/watchstore"
)

// The environment variables of a child process: its folder, and the number of entries that it stores.
const (
	childFolder = "WATCHSTORE_CHILD_FOLDER"
	childTotal  = "WATCHSTORE_CHILD_TOTAL"
)

// kills is the maximum number of times that the child is killed. issuances is the number of issuances that it stores,
// which is large enough that the child rarely ends before it is killed.
const (
	kills     = 200
	issuances = 3 * kills
)

// TestMain runs the tests, or is the child process of a test.
func TestMain(m *testing.M) {
	if os.Getenv(childFolder) == "" {
		os.Exit(m.Run())
	}
	if err := keepAndSend(os.Getenv(childFolder)); err != nil {
		fmt.Fprintln(os.Stderr, err)
		os.Exit(1)
	}
	os.Exit(0)
}

// keepAndSend stores the entries after those of the stored state, two in each call, and writes each alert to a file. It
// prints a dot before each step, so that its parent can kill it between any two steps.
func keepAndSend(folder string) error {
	total, err := strconv.ParseUint(os.Getenv(childTotal), 10, 64)
	if err != nil {
		return err
	}
	content, err := os.ReadFile(filepath.Join(folder, "entries"))
	if err != nil {
		return err
	}
	var entries []watch.Entry
	if err := json.Unmarshal(content, &entries); err != nil {
		return err
	}
	store, err := watchstore.Open(filepath.Join(folder, "store"), watchstore.Options{Searcher: searcher("example.org")})
	if err != nil {
		return err
	}
	output, _, err := alert.OpenJSON(filepath.Join(folder, "alerts"))
	if err != nil {
		return err
	}
	if err := store.UseOutputs([]string{output.Name()}); err != nil {
		return err
	}
	for {
		fmt.Print(".")
		state, err := store.Load(logOf(0).ID)
		if err != nil {
			return err
		}
		if state.Read < total {
			next := watch.State{Read: state.Read + 2}
			if err := store.Keep(logOf(0), next, entries[state.Read:next.Read]); err != nil {
				return err
			}
			fmt.Print(".")
		}
		if err := alert.Deliver(context.Background(), store, output); err != nil {
			return err
		}
		if state.Read >= total {
			return store.Close()
		}
	}
}

// TestSendsAllAlertsDespiteKills kills a process that stores entries and sends alerts, again and again. The last
// process ends by itself. Each alert was then sent, and an alert that was sent twice has Again set.
func TestSendsAllAlertsDespiteKills(t *testing.T) {
	folder := t.TempDir()
	authority := testkit.NewAuthority("Test CA 1")
	var entries []watch.Entry
	missing := map[string]bool{}
	for i := range issuances {
		host := fmt.Sprintf("h%d.example.org", i)
		missing[host] = true
		entries = append(entries, entriesOf(authority.Issue(host), uint64(2*i))...)
	}
	content, err := json.Marshal(entries)
	must(t, err)
	must(t, os.WriteFile(filepath.Join(folder, "entries"), content, 0o600))
	killed := 0
	for round := 0; round < kills && !runChild(t, folder, len(entries), 1+rand.IntN(4)); round++ {
		killed++
	}
	if killed < kills/2 {
		t.Fatalf("only %d processes were killed", killed)
	}
	for !runChild(t, folder, len(entries), -1) {
		t.Fatal("the last process did not end by itself")
	}
	sent := map[int64]bool{}
	alerts, err := os.Open(filepath.Join(folder, "alerts"))
	must(t, err)
	defer alerts.Close()
	lines := bufio.NewScanner(alerts)
	lines.Buffer(nil, 1<<20)
	again, cut := 0, 0
	for lines.Scan() {
		var one alert.Alert
		if json.Unmarshal(lines.Bytes(), &one) != nil {
			cut++
			continue
		}
		if sent[one.ID] && !one.Again {
			t.Errorf("alert %d was sent twice, and does not say so", one.ID)
		}
		if one.Again {
			again++
		}
		sent[one.ID] = true
		delete(missing, one.Certificate.Names[0])
	}
	must(t, lines.Err())
	if len(missing) > 0 || len(sent) != issuances {
		t.Errorf("%d issuances were never sent: %v", len(missing), missing)
	}
	if cut > killed {
		t.Errorf("%d lines are cut off, and only %d processes were killed", cut, killed)
	}
	t.Logf("%d processes killed, %d alerts sent again, %d lines cut off", killed, again, cut)
}

// runChild runs the child until it has printed this number of dots, and kills it. It reports whether the child ended by
// itself.
func runChild(t *testing.T, folder string, total, dots int) bool {
	t.Helper()
	child := exec.Command(os.Args[0])
	child.Env = append(os.Environ(), childFolder+"="+folder, childTotal+"="+strconv.Itoa(total))
	var faults bytes.Buffer
	child.Stderr = &faults
	out, err := child.StdoutPipe()
	must(t, err)
	must(t, child.Start())
	reader, ended := bufio.NewReader(out), false
	for n := 0; n != dots; n++ {
		if _, err := reader.ReadByte(); err != nil {
			ended = true
			break
		}
	}
	if !ended {
		must(t, child.Process.Kill())
	}
	err = child.Wait()
	if faults.Len() > 0 {
		t.Fatalf("the child says: %s", faults.String())
	}
	return err == nil
}
