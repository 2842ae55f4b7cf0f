//go:build !wagtenib_sha_instructions

package version

import "testing"

func TestLine(t *testing.T) {
	if line := Line("ctserve"); line != "ctserve unreleased (commit unknown)\n" {
		t.Errorf("of a build without a version: %q", line)
	}
	number, commit = "1.2.3", "0123456789ab"
	defer func() { number, commit = "", "" }()
	if line := Line("ctwatch"); line != "ctwatch 1.2.3 (commit 0123456789ab)\n" {
		t.Errorf("%q", line)
	}
}

func TestAsked(t *testing.T) {
	for _, arguments := range [][]string{{"--version"}, {"-version"}, {"-V"}} {
		if !Asked(arguments) {
			t.Errorf("%q is not accepted", arguments)
		}
	}
	for _, arguments := range [][]string{nil, {"version"}, {"--version", "--create"}, {"--config", "--version"}} {
		if Asked(arguments) {
			t.Errorf("%q is accepted", arguments)
		}
	}
}
