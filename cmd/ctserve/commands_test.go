package main

import (
	"bytes"
	"crypto/sha256"
	"encoding/base64"
	"encoding/json"
	"encoding/pem"
	"fmt"
	"io"
	"os"
	"os/exec"
	"path/filepath"
	"regexp"
	"strings"
	"testing"
	"time"

	"wagtenib/internal/testkit"
)

// does runs a command in this process.
func does(arguments ...string) (status int, stdout, stderr string) {
	var out, faults bytes.Buffer
	status = runCommand(arguments[0], arguments[1:], &out, &faults)
	return status, out.String(), faults.String()
}

// settingsFile writes a config file with a new root and a new key. It returns the folder and the file.
func settingsFile(t *testing.T, lines ...string) (folder, file string) {
	t.Helper()
	folder = t.TempDir()
	authority := testkit.NewAuthority("an authority")
	if err := os.WriteFile(filepath.Join(folder, "roots.pem"), authority.PEM(), 0o600); err != nil {
		t.Fatal(err)
	}
	if status, _, stderr := does("key", filepath.Join(folder, "log.key")); status != 0 {
		t.Fatalf("no key: %s", stderr)
	}
	text := []string{"origin log.example/2027h1", "signing-key " + folder + "/log.key", "roots " + folder +
		"/roots.pem", "folder " + folder + "/log",
		"not-after-start 2027-01-01", "not-after-limit 2027-07-01"}
	file = filepath.Join(folder, "settings")
	if err := os.WriteFile(file, []byte(strings.Join(append(text, lines...), "\n")), 0o600); err != nil {
		t.Fatal(err)
	}
	return folder, file
}

// TestKey checks that a key is made once, that only its owner may read it, and that openssl computes the public key
// that is printed.
func TestKey(t *testing.T) {
	path := filepath.Join(t.TempDir(), "log.key")
	status, stdout, stderr := does("key", path)
	if status != 0 {
		t.Fatalf("status %d: %s", status, stderr)
	}
	info, err := os.Stat(path)
	if err != nil || info.Mode().Perm() != 0o400 {
		t.Errorf("the key's file: %v, %v", info, err)
	}
	public, err := exec.Command("openssl", "ec", "-in", path, "-pubout", "-outform", "DER").Output()
	if err != nil {
		t.Fatal(err)
	}
	id := sha256.Sum256(public)
	for _, expected := range []string{"log id      " + base64.StdEncoding.EncodeToString(id[:]) + "\n", "public key  " +
		base64.StdEncoding.EncodeToString(public) + "\n",
		string(pem.EncodeToMemory(&pem.Block{Type: "PUBLIC KEY", Bytes: public}))} {
		if !strings.Contains(stdout, expected) {
			t.Errorf("%q is not in %q", expected, stdout)
		}
	}
	before, _ := os.ReadFile(path)
	if status, _, _ := does("key", path); status != 1 {
		t.Errorf("made where a key exists: status %d", status)
	}
	if after, _ := os.ReadFile(path); !bytes.Equal(before, after) {
		t.Error("an existing key was changed")
	}
	if status, shown, _ := does("key", "--show", path); status != 0 || shown != stdout {
		t.Errorf("shown: status %d, %q", status, shown)
	}
	if status, _, _ := does("key", "--show", path+".absent"); status != 1 {
		t.Errorf("shown where no key exists: status %d", status)
	}
	if _, err := os.Stat(path + ".absent"); err == nil {
		t.Error("--show made a key")
	}
	if status, _, _ := does("key"); status != 2 {
		t.Errorf("no file: status %d", status)
	}
	if status, _, _ := does("key", filepath.Join(path, "below", "a", "file")); status != 1 {
		t.Error("made below a file")
	}
}

// TestListEntry compares an entry with the public key that openssl computes.
func TestListEntry(t *testing.T) {
	folder, file := settingsFile(t)
	status, stdout, stderr := does("list-entry", "--config", file, "--operator", "An operator", "--email",
		"a@log.example,b@log.example")
	if status != 0 {
		t.Fatalf("status %d: %s", status, stderr)
	}
	public, err := exec.Command("openssl", "ec", "-in", folder+"/log.key", "-pubout", "-outform", "DER").Output()
	if err != nil {
		t.Fatal(err)
	}
	id := sha256.Sum256(public)
	expected := map[string]any{"operators": []any{map[string]any{"name": "An operator",
		"email": []any{"a@log.example", "b@log.example"}, "logs": []any{}, "tiled_logs": []any{map[string]any{
			"description": "log.example/2027h1", "log_id": base64.StdEncoding.EncodeToString(id[:]),
			"key":            base64.StdEncoding.EncodeToString(public),
			"submission_url": "https://log.example/2027h1/",
			"monitoring_url": "https://log.example/2027h1/", "mmd": 60.0,
			"temporal_interval": map[string]any{"start_inclusive": "2027-01-01T00:00:00Z",
				"end_exclusive": "2027-07-01T00:00:00Z"},
		}}}}}
	var found any
	if err := json.Unmarshal([]byte(stdout), &found); err != nil || fmt.Sprint(found) != fmt.Sprint(expected) {
		t.Errorf("%v: %s", err, stdout)
	}
	s, err := parse([]string{"--config", file, "--notice", "a \"notice\""}, io.Discard)
	if err != nil {
		t.Fatal(err)
	}
	about, err := aboutOf(s, public)
	one := expected["operators"].([]any)[0].(map[string]any)["tiled_logs"].([]any)[0].(map[string]any)
	one["version"], one["notice"] = "unreleased (commit unknown)", "a \"notice\""
	if json.Unmarshal(about.Entry, &found) != nil || err != nil || fmt.Sprint(found) != fmt.Sprint(one) ||
		string(about.Key) != string(public) {
		t.Errorf("the log publishes about itself: %v, %s", err, about.Entry)
	}
	if about, err := aboutOf(s, nil); err != nil || about.Key != nil || about.Entry != nil {
		t.Errorf("a log without a key publishes about itself: %v, %v", about, err)
	}
	if err := os.WriteFile(folder+"/public.pem", pem.EncodeToMemory(&pem.Block{Type: "PUBLIC KEY", Bytes: public}),
		0o600); err != nil {
		t.Fatal(err)
	}
	more := []string{"--operator", "o", "--email", "e"}
	if status, other, stderr := does(append([]string{"list-entry", "--config", file, "--key", folder + "/public.pem"},
		more...)...); status != 0 ||
		!strings.Contains(other, base64.StdEncoding.EncodeToString(id[:])) ||
		!strings.Contains(other, `"https://log.example/2027h1/"`) {
		t.Errorf("with the public key: status %d, %s%s", status, other, stderr)
	}
	for _, arguments := range [][]string{{"--config", file}, {"--config", file, "--operator", "o", "--email",
		"e", "more"}} {
		if status, _, _ := does(append([]string{"list-entry"}, arguments...)...); status != 2 {
			t.Errorf("%q: status %d", arguments, status)
		}
	}
	if status, _, _ := does("list-entry", "--config", file, "--operator", "o", "--email", "e", "--key", folder+
		"/roots.pem"); status != 1 {
		t.Errorf("a certificate in place of a key: status %d", status)
	}
}

// TestCheck checks that each wrong setting is reported, and that nothing is created.
func TestCheck(t *testing.T) {
	folder, file := settingsFile(t)
	status, stdout, stderr := does("check", file)
	if status != 0 || stderr != "" {
		t.Fatalf("status %d: %s%s", status, stdout, stderr)
	}
	for _, expected := range []string{"log.example/2027h1", "1 roots", "guard            on\n"} {
		if !strings.Contains(stdout, expected) {
			t.Errorf("%q is not printed: %s", expected, stdout)
		}
	}
	if _, err := os.Stat(folder + "/log"); err == nil {
		t.Error("the log's folder was made")
	}
	for _, c := range []struct {
		line, expected string
		status         int
	}{
		{"tls-certificate " + folder + "/absent\ntls-key " + folder + "/absent", "tls-certificate  WRONG: ", 1},
		{"roots " + folder + "/log.key", "", 2},
		{"no-such-setting 1", "", 2},
		{"store S3://a.example/b", "store            WRONG: ", 1},
		{"store s3:/b", "store            WRONG: ", 1},
		{"store s3://a.example/b", "store            WRONG: ", 1},
		{"store s3://key:secret@a.example/b", "store            s3, not opened", 0},
		{"lock file:", "lock             WRONG: ", 1},
		{"lock folder:" + folder, "lock             WRONG: ", 1},
		{"guard false", "guard            off: the signer signs whatever it is asked for", 0},
		{"guard none", "", 2},
		{"guard-state folder:" + folder, "guard-state      WRONG: ", 1},
		{"index http://a.example/", "index            WRONG: ", 1},
		{"index postgres://a.example/b?log=one", "index            postgres, not opened", 0},
	} {
		_, file := settingsFile(t, c.line)
		status, stdout, _ := does("check", file)
		if status != c.status || !strings.Contains(stdout, c.expected) {
			t.Errorf("%q: status %d, %s", c.line, status, stdout)
		}
	}
	for _, name := range []string{"roots.pem", "log.key"} {
		folder, file := settingsFile(t)
		if err := os.Remove(filepath.Join(folder, name)); err != nil {
			t.Fatal(err)
		}
		if status, stdout, stderr := does("check", file); status != 1 || strings.Count(stdout, "WRONG") != 1 ||
			!strings.Contains(stderr, "wrong settings: 1") {
			t.Errorf("without %s: status %d, %s%s", name, status, stdout, stderr)
		}
	}
}

// TestCheckOfAFolder checks that check refuses a file in place of the log's folder, as a start does.
func TestCheckOfAFolder(t *testing.T) {
	folder, file := settingsFile(t)
	if err := os.WriteFile(filepath.Join(folder, "log"), nil, 0o600); err != nil {
		t.Fatal(err)
	}
	if status, stdout, _ := does("check", file); status != 1 || !strings.Contains(stdout, "is not a folder") {
		t.Errorf("a file in the folder's place: status %d, %s", status, stdout)
	}
}

// TestClock checks that the day of the machine's clock is stored where the log's node reads it. Another day is refused,
// and so are wrong settings.
func TestClock(t *testing.T) {
	folder, file := settingsFile(t)
	now := time.Now().UTC()
	today := now.Format("2006-01-02")
	status, stdout, stderr := does("clock", file, today)
	if status != 0 || stderr != "" || !strings.HasPrefix(stdout, "log.example/2027h1: on "+today+
		" the log continues. This machine's clock says "+now.Format("2006-01")) {
		t.Fatalf("status %d: %s%s", status, stdout, stderr)
	}
	s, err := parse([]string{"--config", file}, io.Discard)
	if err != nil || s.node.namedDay != folder+"/log.day" {
		t.Fatalf("%v: %s", err, s.node.namedDay)
	}
	named, err := os.ReadFile(s.node.namedDay)
	if err != nil || string(named) != today+"\n" {
		t.Fatalf("%v: %q", err, named)
	}
	for _, c := range []struct {
		arguments []string
		status    int
		expected  string
	}{
		{[]string{file, now.AddDate(1, 0, 0).Format("2006-01-02")}, 1, "this machine's clock says " +
			now.Format("2006-01")},
		{[]string{file, now.AddDate(0, 0, -3).Format("2006-01-02")}, 1, "this machine's clock says " +
			now.Format("2006-01")},
		{[]string{file, "today"}, 1, "is no day"},
		{[]string{file}, 2, "--help"},
		{[]string{folder + "/absent", today}, 2, "absent"},
	} {
		if status, stdout, stderr := does(append([]string{"clock"}, c.arguments...)...); status != c.status || stdout != "" ||
			!strings.Contains(stderr, c.expected) {
			t.Errorf("%q: status %d, %s%s", c.arguments, status, stdout, stderr)
		}
	}
	if after, err := os.ReadFile(s.node.namedDay); err != nil || !bytes.Equal(after, named) {
		t.Errorf("%v: %q", err, after)
	}
	if s, err := parse([]string{"--config", file, "--latest-head", folder + "/kept"}, io.Discard); err != nil ||
		s.node.namedDay != folder+"/kept.day" {
		t.Errorf("%v: %s", err, s.node.namedDay)
	}
}

// TestCommandLine checks that the arguments lead to the commands, and that the version is printed on standard output.
func TestCommandLine(t *testing.T) {
	for _, c := range []struct {
		arguments []string
		status    int
		out       string
	}{{[]string{"--version"}, 0, "ctserve unreleased (commit unknown)\n"}, {[]string{"key"}, 2, ""},
		{[]string{"check", "--help"}, 0, ""}} {
		command := exec.Command(os.Args[0], c.arguments...)
		command.Env = append(os.Environ(), childKey+"=1")
		var out bytes.Buffer
		command.Stdout = &out
		timer := time.AfterFunc(testkit.Longest, func() { command.Process.Kill() })
		command.Run()
		timer.Stop()
		if status := command.ProcessState.ExitCode(); status != c.status || out.String() != c.out {
			t.Errorf("%q: status %d, %q", c.arguments, status, out.String())
		}
	}
}

// TestHelpOfCommands checks that each command that the help of ctserve names has a help of its own, which begins with
// the name of the command. A wrong flag prints the command's help too, and not the one of ctserve.
func TestHelpOfCommands(t *testing.T) {
	named := regexp.MustCompile(`(?m)^  ctserve ([a-z-]+)`).FindAllStringSubmatch(page, -1)
	if len(named) != len(commands)+1 {
		t.Errorf("the help names %d commands, and ctserve has %d and signer", len(named), len(commands))
	}
	for _, each := range named {
		for flag, expected := range map[string]int{"--help": 0, "--no-such-flag": 2} {
			var stderr bytes.Buffer
			status := run([]string{each[1], flag}, &stderr, openNode)
			help := regexp.MustCompile(`(?m)^ctserve ` + each[1] + ` `).MatchString(stderr.String())
			if status != expected || !help || strings.Contains(stderr.String(), "Other commands") {
				t.Errorf("%s %s: status %d: %s", each[1], flag, status, stderr.String())
			}
		}
	}
}
