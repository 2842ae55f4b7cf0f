package alert_test

import (
	"bytes"
	"cmp"
	"context"
	"encoding/json"
	"errors"
	"fmt"
	"io"
	"mime"
	"mime/quotedprintable"
	"net/http"
	"net/http/httptest"
	"net/mail"
	"os"
	"path/filepath"
	"slices"
	"strings"
	"testing"
	"time"
	"unicode"
	"unicode/utf8"

	"wagtenib/internal/watch/alert"
)

// hostile holds texts that a certificate may have, and that must not reach a terminal, a mail, a shell or HTML
// unchanged.
var hostile = []string{
	"\x1b]0;owned\x07\x1b[2J", "a\r\nBcc: victim@example.net\r\n\r\nbody", "\n.\n",
	"$(touch owned)`touch owned`;touch owned", "<script>alert(1)</script>",
	"nul\x00nul", "\u202egro.elpmaxe", "\xff\xfe", "\u2028", "'\"><img src=x>", strings.Repeat("a", 100_000),
	"\u0085\u009b31m", "%s%n", "-oQ/tmp", "",
}

// certificateOf returns an alert about a certificate that has this text in each of its fields that can have a text.
func certificateOf(text string) alert.Alert {
	safe := alert.Safe(text)
	return alert.Alert{ID: 7, Kind: alert.Found, Time: time.Unix(1_770_000_000, 0).UTC(),
		Certificate: &alert.Certificate{
			Matches: []alert.Match{{Name: "example.org", Place: "san", Proved: true, Hosts: []string{"shop.example.org",
				safe}}},
			Names: []string{"shop.example.org", safe}, NameCount: 25,
			Fields: alert.Fields{Subject: safe, Issuer: safe, SerialNumber: "0a01", NotBefore: time.Unix(1_770_000_000,
				0), NotAfter: time.Unix(1_780_000_000, 0), KeySHA256: "aa"},
			SHA256: "bb", TBSSHA256: "cc", Sightings: []alert.Sighting{{Log: safe, URL: safe, Index: 44,
				Timestamp: time.Unix(1_770_000_000, 0), Type: "precertificate"}},
			Kept: "ctwatch certificate bb prints it"}}
}

// TestSafe: the result of Safe is printable, has no line end, is UTF-8 and has a bounded length.
func TestSafe(t *testing.T) {
	for _, text := range hostile {
		checkSafe(t, text, alert.Safe(text))
	}
	for text, want := range map[string]string{"bücher.example": "bücher.example", `a\b`: `a\\b`, "a\nb": `a\u{a}b`,
		"\xff": `\xff`, "\x00": `\u{0}`} {
		if got := alert.Safe(text); got != want {
			t.Errorf("%q becomes %q, and not %q", text, got, want)
		}
	}
}

func checkSafe(t *testing.T, text, safe string) {
	t.Helper()
	if !utf8.ValidString(safe) || len(safe) > 400 || strings.ContainsFunc(safe,
		func(one rune) bool { return !unicode.IsPrint(one) }) {
		t.Errorf("%.100q becomes %.500q", text, safe)
	}
}

// FuzzSafe checks the result of Safe for any bytes.
func FuzzSafe(f *testing.F) {
	for _, text := range hostile {
		f.Add(text)
	}
	f.Fuzz(func(t *testing.T, text string) { checkSafe(t, text, alert.Safe(text)) })
}

// TestLineIsOneLine: whatever a certificate contains, its alert is one line of printable characters.
func TestLineIsOneLine(t *testing.T) {
	for _, text := range hostile {
		var out bytes.Buffer
		terminal := alert.NewTerminal(&out)
		if sent, _, err := terminal.Send(context.Background(), []alert.Alert{certificateOf(text)}); sent != 1 ||
			err != nil {
			t.Fatal(sent, err)
		}
		line, found := strings.CutSuffix(out.String(), "\n")
		if !found || strings.ContainsFunc(line, func(one rune) bool { return !unicode.IsPrint(one) }) ||
			!strings.HasPrefix(line, "FOUND example.org: shop.example.org") {
			t.Errorf("%.300q", out.String())
		}
	}
}

// TestMailIsPlainText: net/mail reads one mail, only to the addresses of the owner. Its text has the names, and no line
// that a certificate has put there.
func TestMailIsPlainText(t *testing.T) {
	for _, text := range hostile {
		folder := t.TempDir()
		path := program(t, folder, "sendmail", `echo "$@" > "`+folder+`/arguments"; cat > "`+folder+`/mail"`)
		output, err := alert.NewMail("owner@example.org", []string{"owner@example.org", "other@example.org"},
			path)
		must(t, err)
		if sent, _, err := output.Send(context.Background(), []alert.Alert{certificateOf(text),
			certificateOf(text)}); sent != 2 || err != nil {
			t.Fatal(sent, err)
		}
		if arguments := read(t, folder, "arguments"); arguments != "-oi -f owner@example.org -- owner@example.org "+
			"other@example.org\n" {
			t.Errorf("sendmail is called with %q", arguments)
		}
		checkMail(t, read(t, folder, "mail"))
	}
}

func checkMail(t *testing.T, content string) {
	t.Helper()
	message, err := mail.ReadMessage(strings.NewReader(content))
	must(t, err)
	if to, err := message.Header.AddressList("To"); err != nil || len(to) != 2 || len(message.Header["Bcc"]) != 0 ||
		len(message.Header) != 9 {
		t.Errorf("headers %v %v", message.Header, err)
	}
	subject, err := new(mime.WordDecoder).DecodeHeader(message.Header.Get("Subject"))
	if err != nil || subject != "[ctwatch] certificate for shop.example.org and 1 more alert" {
		t.Errorf("subject %q %v", subject, err)
	}
	for _, line := range strings.Split(content, "\n") {
		if len(line) > 998 || strings.ContainsFunc(line, func(one rune) bool {
			return one > '~' || one < ' ' &&
				one != '\t'
		}) {
			t.Errorf("line %.100q", line)
		}
	}
	body, err := io.ReadAll(quotedprintable.NewReader(message.Body))
	must(t, err)
	for _, part := range []string{"shop.example.org", "More names:            23", "Certificate, SHA-256:  bb",
		"entry 44, precertificate", "Serial number:         0a01"} {
		if !strings.Contains(string(body), part) {
			t.Errorf("the mail does not have %q: %s", part, body)
		}
	}
	for _, line := range strings.Split(strings.ReplaceAll(string(body), "\r\n", "\n"), "\n") {
		if line == "." || strings.HasPrefix(line, "Bcc") || strings.ContainsFunc(line,
			func(one rune) bool { return !unicode.IsPrint(one) }) {
			t.Errorf("the mail has the line %.100q", line)
		}
	}
}

// TestRefusesMailAddresses: NewMail refuses a text that is not an address, or that sendmail would take for an option.
func TestRefusesMailAddresses(t *testing.T) {
	for _, address := range []string{"", "owner", "-oQ@example.org", "a@example.org\nBcc: b@example.org",
		"A <a@example.org>", "a@example.org, b@example.org"} {
		if _, err := alert.NewMail("owner@example.org", []string{address}, "/bin/true"); err == nil ||
			!strings.Contains(err.Error(), "write NAME@HOST") {
			t.Errorf("%q: %v", address, err)
		}
	}
	if _, err := alert.NewMail("owner@example.org", []string{"owner@example.org"},
		"/does/not/exist"); err == nil ||
		!strings.Contains(err.Error(), "smtp://127.0.0.1:25") {
		t.Error(err)
	}
}

// TestCommandGetsVariables: the program gets the alert in its environment and on its standard input, and no part of the
// alert is run.
func TestCommandGetsVariables(t *testing.T) {
	for _, text := range hostile {
		folder := t.TempDir()
		path := program(t, folder, "tell", `env > "$1/environment"; cat > "$1/input"`)
		output, err := alert.NewCommand([]string{path, folder, "$(touch owned)"})
		must(t, err)
		if sent, _, err := output.Send(context.Background(), []alert.Alert{certificateOf(text)}); sent != 1 ||
			err != nil {
			t.Fatal(sent, err)
		}
		variables := strings.Split(read(t, folder, "environment"), "\n")
		for _, want := range []string{"CTWATCH_KIND=found", "CTWATCH_WATCHED=example.org", "CTWATCH_AGAIN=no",
			"CTWATCH_INDEX=44", "CTWATCH_NAME_COUNT=25",
			"CTWATCH_CERTIFICATE_SHA256=bb", "CTWATCH_ISSUER=" + alert.Safe(text)} {
			if !slices.Contains(variables, want) {
				t.Errorf("there is no variable %.200s", want)
			}
		}
		var given alert.Alert
		if err := json.Unmarshal([]byte(read(t, folder, "input")), &given); err != nil ||
			given.Certificate.Fields.Issuer != alert.Safe(text) {
			t.Errorf("%v: %+v", err, given)
		}
		if files, err := os.ReadDir(folder); err != nil || len(files) != 3 {
			t.Errorf("%v %v: a part of the alert was run", files, err)
		}
	}
}

// TestCommandNeedNotReadItsInput: an alert counts as sent even if the program ends without reading its input, which has
// more bytes than a pipe holds.
func TestCommandNeedNotReadItsInput(t *testing.T) {
	output, err := alert.NewCommand([]string{program(t, t.TempDir(), "tell", "exit 0")})
	must(t, err)
	large := certificateOf("a")
	large.Certificate.Sightings = slices.Repeat(large.Certificate.Sightings, 10_000)
	if sent, _, err := output.Send(context.Background(), []alert.Alert{large}); sent != 1 || err != nil {
		t.Errorf("%d sent: %v", sent, err)
	}
}

// TestManyMatchesDoNotStopAnOutput: a log can have a certificate with every watched name. A command gets its alert
// although Linux bounds the length of variables, and its line and its mail stay short enough for people.
func TestManyMatchesDoNotStopAnOutput(t *testing.T) {
	one := certificateOf("a")
	one.Certificate.Matches = nil
	for i := range 10_000 {
		name := fmt.Sprintf("w%d.example.org", i)
		one.Certificate.Matches = append(one.Certificate.Matches, alert.Match{Name: name, Place: "san", Proved: i%2 == 0,
			Hosts: []string{strings.Repeat("long.", 70) + name}})
	}
	output, err := alert.NewCommand([]string{program(t, t.TempDir(), "tell", `test -n "$CTWATCH_HOSTS"`)})
	must(t, err)
	if sent, _, err := output.Send(context.Background(), []alert.Alert{one}); sent != 1 || err != nil {
		t.Errorf("%d sent: %v", sent, err)
	}
	if line := alert.Line(one); len(line) > 10_000 || !strings.HasPrefix(line, "FOUND w0.example.org, w1.example.org, ") ||
		!strings.Contains(line, "w19.example.org and 9980 more: ") || strings.Contains(line, "w20.") {
		t.Errorf("the line has %d bytes: %.500s", len(line), line)
	}
	if text := alert.Paragraphs(one); len(text) > 40_000 || !strings.Contains(text, "More watched names:    9980\n") {
		t.Errorf("the mail has %d bytes", len(text))
	}
}

// TestEndsALineThatWasCutOff: after a kill in the middle of a line, the next alert has its own line. There is no empty
// line after a complete one.
func TestEndsALineThatWasCutOff(t *testing.T) {
	path := filepath.Join(t.TempDir(), "alerts")
	for _, before := range []string{"", `{"id":6}` + "\n", `{"id":6,"ki`} {
		must(t, os.WriteFile(path, []byte(before), 0o600))
		output, file, err := alert.OpenJSON(path)
		must(t, err)
		if sent, _, err := output.Send(context.Background(), []alert.Alert{certificateOf("a")}); sent != 1 || err != nil {
			t.Fatal(sent, err)
		}
		must(t, file.Close())
		lines := strings.Split(read(t, filepath.Dir(path), "alerts"), "\n")
		var one alert.Alert
		if err := json.Unmarshal([]byte(lines[len(lines)-2]), &one); err != nil || one.ID != 7 ||
			len(lines) != strings.Count(before+"x", "{")+2 || lines[len(lines)-1] != "" {
			t.Errorf("after %q the file has the lines %q: %v", before, lines, err)
		}
	}
}

// TestReportsFailedCommand: if a program fails or does not exist, the alert does not count as sent, and the error says
// why.
func TestReportsFailedCommand(t *testing.T) {
	path := program(t, t.TempDir(), "tell", "echo no disk >&2; exit 7")
	output, err := alert.NewCommand([]string{path})
	must(t, err)
	sent, tried, err := output.Send(context.Background(), []alert.Alert{certificateOf("a"), certificateOf("b")})
	if sent != 0 || tried == 0 || err == nil || !strings.Contains(err.Error(), "status 7") ||
		!strings.Contains(err.Error(), "no disk") {
		t.Errorf("%d sent, %d tried: %v", sent, tried, err)
	}
	// The programs after the tenth run until the tenth has ended. There are so many alerts that Send sees the tenth's
	// failure long before it starts the last program.
	folder := t.TempDir()
	path = program(t, folder, "tell", `case "$CTWATCH_ISSUER" in
no) echo $$ > "$1/failing"; exit 1;;
after) until [ -s "$1/failing" ] && read -r failing < "$1/failing" && ! kill -0 "$failing" 2> "$1/gone"
do sleep 0.01; done;;
esac`)
	output, err = alert.NewCommand([]string{path, folder})
	must(t, err)
	var some []alert.Alert
	for i := range 2000 {
		some = append(some, certificateOf(map[int]string{-1: "before", 0: "no", 1: "after"}[cmp.Compare(i, 9)]))
	}
	if sent, tried, err = output.Send(context.Background(), some); sent != 9 || tried < 10 || tried == 2000 || err == nil {
		t.Errorf("the tenth of 2,000 fails: %d sent, %d tried: %v", sent, tried, err)
	}
	if _, err := alert.NewCommand([]string{"/does/not/exist"}); err == nil || !strings.Contains(err.Error(),
		"write the path of a program") {
		t.Error(err)
	}
	if _, err := alert.NewCommand(nil); err == nil {
		t.Error("an empty command is accepted")
	}
}

// TestPostsToAWebhook: each alert is posted as JSON. Sending stops at a status that is not 200 to 299, and a redirect
// is not followed.
func TestPostsToAWebhook(t *testing.T) {
	var posted []alert.Alert
	statuses := []int{http.StatusNoContent, http.StatusOK, http.StatusFound}
	server := httptest.NewServer(http.HandlerFunc(func(w http.ResponseWriter, r *http.Request) {
		var one alert.Alert
		if err := json.NewDecoder(r.Body).Decode(&one); err != nil || r.Method != http.MethodPost ||
			r.Header.Get("User-Agent") != "ctwatch/test" || r.URL.Path != "/hook" {
			t.Errorf("%v %s %s", err, r.Method, r.URL)
		}
		w.Header().Set("Location", "/elsewhere")
		w.WriteHeader(statuses[len(posted)])
		posted = append(posted, one)
	}))
	defer server.Close()
	output, err := alert.NewWebhook(server.URL+"/hook?token=secret", "ctwatch/test")
	must(t, err)
	if strings.Contains(output.Name(), "secret") {
		t.Errorf("the name %q contains a secret", output.Name())
	}
	sent, tried, err := output.Send(context.Background(), []alert.Alert{certificateOf("a"), certificateOf("b"),
		certificateOf("c"), certificateOf("d")})
	if sent != 2 || tried != 3 || err == nil || !strings.Contains(err.Error(), "302") || len(posted) != 3 {
		t.Errorf("%d sent, %d tried, %d posted: %v", sent, tried, len(posted), err)
	}
	server.Close()
	if _, _, err := output.Send(context.Background(), []alert.Alert{certificateOf("a")}); err == nil ||
		strings.Contains(err.Error(), "secret") {
		t.Errorf("a webhook that does not answer: %v", err)
	}
	for _, address := range []string{"", "hook.example", "ftp://hook.example", "https://"} {
		if _, err := alert.NewWebhook(address, "a"); err == nil {
			t.Errorf("%q is accepted", address)
		}
	}
}

// queue implements alert.Queue in memory, for one output.
type queue struct {
	alerts      []alert.Alert
	done, begun int64
	fault       error
}

func (q *queue) Next(_ string, limit int) ([]alert.Alert, error) {
	var next []alert.Alert
	for _, one := range q.alerts {
		if one.ID > q.done && len(next) < limit {
			one.Again = one.ID <= q.begun
			next = append(next, one)
		}
	}
	return next, nil
}

func (q *queue) Begin(_ string, last int64) error { q.begun = max(q.begun, last); return nil }
func (q *queue) Done(_ string, last int64) error  { q.done = last; return nil }
func (q *queue) Failed(_ string, last int64, fault error) error {
	q.begun, q.fault = max(q.done, last), fault
	return nil
}

// output is an alert.Output that fails after `capacity` alerts.
type output struct {
	capacity int
	got      []alert.Alert
}

func (o *output) Name() string { return "test" }
func (o *output) Batch() int   { return 3 }
func (o *output) Send(_ context.Context, alerts []alert.Alert) (sent, tried int, err error) {
	for i, one := range alerts {
		if len(o.got) == o.capacity {
			return i, i + 1, errors.New("it is full")
		}
		o.got = append(o.got, one)
	}
	return len(alerts), len(alerts), nil
}

// TestDeliversEachOnce: an output that fails gets the other alerts later. Again is set only in the alert that failed.
func TestDeliversEachOnce(t *testing.T) {
	q := &queue{}
	for id := int64(1); id <= 10; id++ {
		q.alerts = append(q.alerts, alert.Alert{ID: id, Kind: alert.Silent, Log: &alert.Log{}})
	}
	o := &output{capacity: 4}
	if err := alert.Deliver(context.Background(), q, o); err == nil || q.done != 4 || q.fault == nil {
		t.Fatalf("%v: done %d, fault %v", err, q.done, q.fault)
	}
	o.capacity = 100
	must(t, alert.Deliver(context.Background(), q, o))
	for i, one := range o.got {
		if one.ID != int64(i+1) || one.Again != (one.ID == 5) {
			t.Errorf("alert %d is the %dth, again %v", one.ID, i+1, one.Again)
		}
	}
	if len(o.got) != 10 || q.done != 10 {
		t.Errorf("%d alerts, done %d", len(o.got), q.done)
	}
}

// unreachable is an alert.Output that fails before it tries anything.
type unreachable struct{ output }

func (*unreachable) Send(context.Context, []alert.Alert) (sent, tried int, err error) {
	return 0, 0, errors.New("it cannot be reached")
}

// TestFirstAlertAlwaysCountsAsTried: the first alert counts as tried even if the output reports that it tried none.
func TestFirstAlertAlwaysCountsAsTried(t *testing.T) {
	q := &queue{alerts: []alert.Alert{{ID: 7, Kind: alert.Silent, Log: &alert.Log{}},
		{ID: 8, Kind: alert.Silent, Log: &alert.Log{}}}}
	err := alert.Deliver(context.Background(), q, &unreachable{})
	if err == nil || q.done != 0 || q.begun != 7 || q.fault == nil {
		t.Errorf("%v: done %d, begun %d, fault %v", err, q.done, q.begun, q.fault)
	}
}

// program writes a shell script that a test runs as a program, and returns its path.
func program(t *testing.T, folder, name, script string) string {
	t.Helper()
	path := filepath.Join(folder, name)
	must(t, os.WriteFile(path, []byte("#!/bin/sh\n"+script+"\n"), 0o755))
	return path
}

func read(t *testing.T, folder, name string) string {
	t.Helper()
	content, err := os.ReadFile(filepath.Join(folder, name))
	must(t, err)
	return string(content)
}

func must(t testing.TB, err error) {
	t.Helper()
	if err != nil {
		t.Fatal(err)
	}
}
