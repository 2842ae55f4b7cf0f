package main

import (
	"bufio"
	"crypto/sha256"
	"encoding/json"
	"errors"
	"io"
	"net/http"
	"net/http/httptest"
	"os"
	"os/exec"
	"path/filepath"
	"strings"
	"sync/atomic"
	"syscall"
	"testing"

	"wagtenib/internal/testkit"
)

// refusingList serves a log list with one log. It refuses every request until isOpen is set.
type refusingList struct {
	address string
	isOpen  atomic.Bool
	asked   atomic.Int64
}

// listOfOneLog returns a log list with one log, which it serves.
func listOfOneLog(t *testing.T) []byte {
	t.Helper()
	log, authority := serveLog(t, "a.example"), testkit.NewAuthority("Test CA 1")
	log.add(authority, authority.Issue("other.net"))
	return listOf(t, log)
}

// listOf returns a log list with one log.
func listOf(t *testing.T, log served) []byte {
	t.Helper()
	return listOfStates(t, map[string]served{"usable": log})
}

// listOfStates returns a log list with a log in each of these states.
func listOfStates(t *testing.T, states map[string]served) []byte {
	t.Helper()
	var logs []any
	for state, log := range states {
		id := sha256.Sum256(log.PublicKey())
		logs = append(logs, map[string]any{"description": "a log", "key": log.PublicKey(), "log_id": id[:], "mmd": 86400,
			"url": log.address + "/", "state": map[string]any{state: map[string]any{"timestamp": "2026-01-01T00:00:00Z"}}})
	}
	list, err := json.Marshal(map[string]any{"version": "1", "log_list_timestamp": "2026-11-01T12:00:00Z",
		"operators": []any{map[string]any{"name": "Operator", "logs": logs}}})
	must(t, err)
	return list
}

func serveRefusingList(t *testing.T) *refusingList {
	t.Helper()
	list := listOfOneLog(t)
	one := &refusingList{}
	server := httptest.NewServer(http.HandlerFunc(func(w http.ResponseWriter, _ *http.Request) {
		one.asked.Add(1)
		if !one.isOpen.Load() {
			w.WriteHeader(http.StatusServiceUnavailable)
			return
		}
		if _, err := w.Write(list); err != nil {
			t.Error(err)
		}
	}))
	t.Cleanup(server.Close)
	one.address = server.URL + "/list.json"
	return one
}

// event is a line of the log of ctwatch run.
type event struct {
	Event, Page, Fault, Next, Address, List string
	Logs                                    int
}

// nextEvent returns the next line with this event.
func nextEvent(t *testing.T, from *bufio.Scanner, name string) event {
	t.Helper()
	for from.Scan() {
		var one event
		if json.Unmarshal(from.Bytes(), &one) == nil && one.Event == name {
			return one
		}
	}
	t.Fatalf("no line has the event %s: %v", name, from.Err())
	return event{}
}

// started starts the program, and returns a scanner of its standard error.
func started(t *testing.T, arguments ...string) (*exec.Cmd, *bufio.Scanner) {
	t.Helper()
	program := testkit.Program(t, arguments...)
	lines, err := program.StderrPipe()
	must(t, err)
	must(t, program.Start())
	return program, bufio.NewScanner(lines)
}

// TestReportsTheFirstFailureAtOnce: a command for people reports at once that a server refuses, and that it tries
// again. It continues to try, and prints only one line about the refusals of one server.
func TestReportsTheFirstFailureAtOnce(t *testing.T) {
	folder := t.TempDir()
	for _, arguments := range [][]string{{"show", "https://a.example", "1"},
		{"run", "--once", "--name", "example.org", "--folder", folder}} {
		list := serveRefusingList(t)
		program, lines := started(t, append(arguments, "--log-list", list.address)...)
		if !lines.Scan() || !strings.Contains(lines.Text(), list.address) ||
			!strings.Contains(lines.Text(), "status 503") || !strings.Contains(lines.Text(), "it is tried again") {
			t.Errorf("%s: the first line is %q", arguments[0], lines.Text())
		}
		testkit.Eventually(t, "the list is asked for three times", func() bool { return list.asked.Load() >= 3 })
		list.isOpen.Store(true)
		for lines.Scan() {
			if strings.Contains(lines.Text(), "it is tried again") {
				t.Errorf("%s: one more line: %s", arguments[0], lines.Text())
			}
		}
		if err := program.Wait(); err != nil && !errors.As(err, new(*exec.ExitError)) {
			t.Error(err)
		}
	}
}

// healthOf requests /healthz.
func healthOf(t *testing.T, page string) (status int, line string) {
	t.Helper()
	answer, err := http.Get(page + "healthz")
	must(t, err)
	defer answer.Body.Close()
	content, err := io.ReadAll(answer.Body)
	must(t, err)
	return answer.StatusCode, string(content)
}

// TestReportsAListThatWasNeverRead: while the server of the log list refuses, ctwatch logs the first refusal at once,
// /healthz answers with 503, and ctwatch health ends with status 5. Both name the list. After the list was read,
// /healthz answers with 200.
func TestReportsAListThatWasNeverRead(t *testing.T) {
	list, folder := serveRefusingList(t), t.TempDir()
	program, lines := started(t, "run", "--name", "example.org", "--folder", folder, "--log-list", list.address,
		"--listen", "127.0.0.1:0", "--pause", "1s")
	first := nextEvent(t, lines, "watching")
	if first.List != list.address || first.Logs != 0 {
		t.Errorf("the first line is %+v", first)
	}
	page := first.Page
	if one := nextEvent(t, lines, "log-list"); one.Address != list.address || one.Next != "it is tried again in 1s" ||
		!strings.Contains(one.Fault, "status 503") {
		t.Errorf("the first line is %+v", one)
	}
	const expected = "0 logs: the log list was not read yet"
	if status, line := healthOf(t, page); status != http.StatusServiceUnavailable ||
		!strings.HasPrefix(line, expected+": ") || !strings.Contains(line, "status 503") {
		t.Errorf("/healthz: %d %s", status, line)
	}
	if status, out, faults := ctwatch(t, "health", "--folder", folder); status != statusUnread ||
		!strings.HasPrefix(out, expected+": ") || !strings.Contains(out, "status 503") ||
		!strings.Contains(faults, "no log is watched yet") {
		t.Errorf("ctwatch health: status %d: %s%s", status, out, faults)
	}
	list.isOpen.Store(true)
	if one := nextEvent(t, lines, "log-list"); one.Logs != 1 || one.Fault != "" || one.List != list.address {
		t.Errorf("the line of the list that was read is %+v", one)
	}
	testkit.Eventually(t, "/healthz is well", func() bool {
		status, line := healthOf(t, page)
		return status == http.StatusOK && strings.HasPrefix(line, "1 log; all are read")
	})
	must(t, program.Process.Signal(syscall.SIGTERM))
	for lines.Scan() {
		continue
	}
	must(t, program.Wait())
}

// TestReadsAListThatAppearsLater: a list that cannot be read at the start is read soon after it exists. The line of log
// about the failure says when the next attempt is.
func TestReadsAListThatAppearsLater(t *testing.T) {
	folder := t.TempDir()
	list := filepath.Join(folder, "list.json")
	program, lines := started(t, "run", "--name", "example.org", "--folder", filepath.Join(folder, "store"),
		"--log-list", list, "--listen", "")
	if one := nextEvent(t, lines, "log-list"); one.Address != list || one.Next != "it is tried again in 1s" ||
		!strings.Contains(one.Fault, "no such file") {
		t.Errorf("the first line is %+v", one)
	}
	must(t, os.WriteFile(list+".new", listOfOneLog(t), 0o600))
	must(t, os.Rename(list+".new", list))
	one := nextEvent(t, lines, "log-list")
	for one.Fault != "" && strings.HasPrefix(one.Next, "it is tried again in ") {
		one = nextEvent(t, lines, "log-list")
	}
	if one.Logs != 1 || one.Fault != "" || one.List != list {
		t.Errorf("the line of the list that was read is %+v", one)
	}
	must(t, program.Process.Signal(syscall.SIGTERM))
	for lines.Scan() {
		continue
	}
	must(t, program.Wait())
}

// watchingList holds the paths of a log list, of a store, of settings that name both, and of the alerts. It also has
// the log of the list.
type watchingList struct {
	list, store, config, alerts string
	authority                   *testkit.Authority
	log                         served
}

func newWatchingList(t *testing.T) watchingList {
	t.Helper()
	folder := t.TempDir()
	w := watchingList{filepath.Join(folder, "list.json"), filepath.Join(folder, "store"), filepath.Join(folder, "config"),
		filepath.Join(folder, "alerts"), testkit.NewAuthority("Test CA 1"), serveLog(t, "a.example")}
	must(t, os.WriteFile(w.config, []byte("name example.org\nfolder "+w.store+"\nlog-list "+w.list+
		"\nlisten 127.0.0.1:0\npause 1s\njson "+w.alerts+"\n"), 0o600))
	w.add("other.net")
	return w
}

// add adds a certificate to the log.
func (w watchingList) add(name string) { w.log.add(w.authority, w.authority.Issue(name)) }

// write replaces the log list.
func (w watchingList) write(t *testing.T, content []byte) {
	t.Helper()
	must(t, os.WriteFile(w.list+".new", content, 0o600))
	must(t, os.Rename(w.list+".new", w.list))
}

// checkUnwell checks the status of a health report, and that its line names the list that cannot be read.
func (w watchingList) checkUnwell(t *testing.T, status, expected int, line string) {
	t.Helper()
	if status != expected || !strings.HasPrefix(line, "1 log; the log list CANNOT BE USED: "+w.list+": ") ||
		!strings.Contains(line, "it was read last at ") {
		t.Errorf("the health has the status %d, and %d is expected: %s", status, expected, line)
	}
}

// TestOnceReadsTheLogsOfTheLastList: if the list cannot be read, --once reads the logs of the list that was last read,
// sends its alerts, and ends with status 5. ctwatch health also ends with 5 until the list can be read again.
func TestOnceReadsTheLogsOfTheLastList(t *testing.T) {
	w := newWatchingList(t)
	arguments := []string{"run", "--once", "--name", "example.org", "--folder", w.store, "--log-list", w.list}
	w.write(t, listOf(t, w.log))
	if status, out, faults := ctwatch(t, arguments...); status != 0 {
		t.Fatalf("status %d: %s%s", status, out, faults)
	}
	w.write(t, []byte("<html>"))
	w.add("shop.example.org")
	status, out, faults := ctwatch(t, arguments...)
	if status != statusUnread || !strings.Contains(out, "FOUND example.org: shop.example.org") ||
		!strings.Contains(faults, "the log list cannot be read: ") {
		t.Errorf("status %d: %s%s", status, out, faults)
	}
	status, out, faults = ctwatch(t, "health", "--folder", w.store)
	w.checkUnwell(t, status, statusUnread, out)
	if !strings.Contains(faults, "logs that joined it are not watched") {
		t.Error(faults)
	}
	w.write(t, listOf(t, w.log))
	if status, out, faults = ctwatch(t, arguments...); status != 0 {
		t.Errorf("the list is correct again: status %d: %s%s", status, out, faults)
	}
	if status, out, _ = ctwatch(t, "health", "--folder", w.store); status != 0 {
		t.Errorf("the list is correct again: status %d: %s", status, out)
	}
}

// TestWatchesTheLogsOfTheLastList: if the list cannot be read at a start or at a reload, the logs of the list that was
// last read are watched. /healthz answers with 503 until the list can be read again.
func TestWatchesTheLogsOfTheLastList(t *testing.T) {
	w := newWatchingList(t)
	w.write(t, listOf(t, w.log))
	if status, out, faults := ctwatch(t, "run", "--once", "--config", w.config); status != 0 {
		t.Fatalf("status %d: %s%s", status, out, faults)
	}
	w.write(t, []byte("<html>"))
	w.add("start.example.org")
	program, lines := started(t, "run", "--config", w.config)
	var found []string
	page := ""
	for _, name := range []string{"start.example.org", "reload.example.org"} {
		page = nextEvent(t, lines, "watching").Page
		if one := nextEvent(t, lines, "log-list-kept"); one.Logs != 1 || one.List != w.list {
			t.Errorf("the line of the list is %+v", one)
		}
		found = append(found, name)
		checkHosts(t, w.alerts, found...)
		status, line := healthOf(t, page)
		w.checkUnwell(t, status, http.StatusServiceUnavailable, line)
		if name == "start.example.org" {
			w.add("reload.example.org")
			must(t, program.Process.Signal(syscall.SIGHUP))
		}
	}
	w.write(t, listOf(t, w.log))
	testkit.Eventually(t, "/healthz is well", func() bool {
		status, line := healthOf(t, page)
		return status == http.StatusOK && strings.HasPrefix(line, "1 log; all are read")
	})
	must(t, program.Process.Signal(syscall.SIGTERM))
	for lines.Scan() {
		continue
	}
	must(t, program.Wait())
}

// TestForgetsThePreviousList: if the settings name another list, which cannot be read, no log of the previous list is
// watched.
func TestForgetsThePreviousList(t *testing.T) {
	w := newWatchingList(t)
	w.write(t, listOf(t, w.log))
	if status, out, faults := ctwatch(t, "run", "--once", "--config", w.config); status != 0 {
		t.Fatalf("status %d: %s%s", status, out, faults)
	}
	w.add("shop.example.org")
	status, out, faults := ctwatch(t, "run", "--once", "--config", w.config, "--log-list", w.list+".other")
	if status != statusUnread || out != "" {
		t.Errorf("status %d: %s%s", status, out, faults)
	}
}

// TestFindsWhatABreakMissed: while ctwatch does not run, a log retires and another one joins the list, and both have a
// new certificate. The next run finds neither. A run that names the retired log, and a run that reads the other log for
// the first time with --from-start, find them, as docs/WATCH.md says.
func TestFindsWhatABreakMissed(t *testing.T) {
	w := newWatchingList(t)
	joined := serveLog(t, "b.example")
	joined.add(w.authority, w.authority.Issue("joined.example.org"))
	w.write(t, listOf(t, w.log))
	arguments := []string{"run", "--once", "--name", "example.org", "--log-list", w.list, "--folder"}
	for _, store := range []string{w.store, w.store + "-2"} {
		if status, out, faults := ctwatch(t, append(arguments, store)...); status != 0 {
			t.Fatalf("status %d: %s%s", status, out, faults)
		}
	}
	w.add("retired.example.org")
	w.write(t, listOfStates(t, map[string]served{"retired": w.log, "usable": joined}))
	if status, out, faults := ctwatch(t, append(arguments, w.store)...); status != 0 || out != "" {
		t.Errorf("after the break: status %d: %s%s", status, out, faults)
	}
	status, out, faults := ctwatch(t, append(arguments, w.store, "--from-start", "--log", w.log.setting(false))...)
	if status != statusFoundByOnce || strings.Count(out, "\n") != 1 || !strings.Contains(out, "retired.example.org") {
		t.Errorf("the retired log is named: status %d: %s%s", status, out, faults)
	}
	status, out, faults = ctwatch(t, append(arguments, w.store+"-2", "--from-start")...)
	if status != statusFoundByOnce || strings.Count(out, "\n") != 1 || !strings.Contains(out, "joined.example.org") {
		t.Errorf("the first run after the break is from the start: status %d: %s%s", status, out, faults)
	}
}
