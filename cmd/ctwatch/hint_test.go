package main

import (
	"errors"
	"os/exec"
	"strings"
	"testing"

	"wagtenib/internal/testkit"
)

// TestHintNamesTheProgramAsItWasCalled: an alert says how to get the certificate, with the path by which the program
// was called. A path with characters that are special in a shell is replaced with the program's name.
func TestHintNamesTheProgramAsItWasCalled(t *testing.T) {
	authority, log := testkit.NewAuthority("Test CA 1"), serveLog(t, "a.example")
	log.add(authority, authority.Issue("shop.example.org"))
	for called, hint := range map[string]string{"cmd/out/ctwatch": "; cmd/out/ctwatch certificate ",
		"/usr/bin/ctwatch": "; /usr/bin/ctwatch certificate ", "ctwatch": "; ctwatch certificate ",
		"/a folder/ctwatch": "; ctwatch certificate ", "/a$b/ctwatch": "; ctwatch certificate "} {
		program := testkit.Program(t, "run", "--once", "--from-start", "--name", "example.org", "--folder", t.TempDir(),
			"--log", log.setting(true))
		program.Args[0] = called
		out, err := program.Output()
		if err != nil && !errors.As(err, new(*exec.ExitError)) || !strings.Contains(string(out), hint) {
			t.Errorf("called as %s: %v: %s", called, err, out)
		}
	}
}
