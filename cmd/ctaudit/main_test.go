package main

import (
	"bytes"
	"context"
	"regexp"
	"strings"
	"testing"

	"wagtenib/internal/testkit"
)

var must = testkit.Must

// TestMain runs the tests, or is the program itself.
func TestMain(m *testing.M) { testkit.Main(m, main) }

// ctaudit runs a command, and returns its exit status, its output and its standard error.
func ctaudit(t *testing.T, arguments ...string) (status int, out, faults string) {
	t.Helper()
	var stdout, stderr bytes.Buffer
	status = program().Run(context.Background(), arguments, &stdout, &stderr)
	return status, stdout.String(), stderr.String()
}

// TestHelp checks that the help of the program lists each command, and that the help of a command says how it is
// called, on standard output and with status 0. A wrong call has status 2 and says the same on standard error.
func TestHelp(t *testing.T) {
	calls := map[string]string{"fsck": "FOLDER|s3://.. KEY.PEM [ANSWERS..]", "evidence": "FOLDER KEY.PEM", "probe": "URL",
		"sct": "CERTIFICATE", "compare": "PLACE", "cosign": "URL,KEY"}
	_, all, _ := ctaudit(t, "--help")
	if listed := regexp.MustCompile(`(?m)^  ctaudit [a-z]+ +`).FindAllString(all, -1); len(listed) != len(calls) {
		t.Errorf("the help lists %q", listed)
	}
	for name, call := range calls {
		if !regexp.MustCompile(`(?m)^  ctaudit ` + name + ` +` + regexp.QuoteMeta(call) + ` `).MatchString(all) {
			t.Errorf("the help does not list %s %s: %s", name, call, all)
		}
		for _, flag := range []string{"--help", "-h"} {
			if status, out, faults := ctaudit(t, name, flag); status != 0 || faults != "" ||
				!strings.HasPrefix(out, "ctaudit "+name+" "+call+"\n\n") {
				t.Errorf("%s %s: status %d, %q and %q", name, flag, status, out, faults)
			}
		}
		for _, arguments := range [][]string{{name}, {name, "--no-such-flag"}} {
			if status, out, faults := ctaudit(t, arguments...); status != statusUsage || out != "" ||
				!strings.HasPrefix(faults, "ctaudit "+name+": ") {
				t.Errorf("%q: status %d, %q and %q", arguments, status, out, faults)
			}
		}
		if _, _, faults := ctaudit(t, name); !strings.Contains(faults, "write ctaudit "+name+" "+call+";") {
			t.Errorf("%s without arguments: %s", name, faults)
		}
	}
	if status, out, _ := testkit.Runs(t, "--version"); status != 0 || !strings.HasPrefix(out, "ctaudit ") {
		t.Errorf("--version: status %d, %q", status, out)
	}
}
