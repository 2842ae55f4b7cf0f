//go:build wagtenib_sha_instructions

package version_test

import (
	"testing"

	"wagtenib/internal/command/version"
)

func TestLineNamesTheSHAInstructions(t *testing.T) {
	if got, expected := version.Line("ctserve"),
		"ctserve unreleased (commit unknown, with SHA instructions, which are not proved)\n"; got != expected {
		t.Errorf("with the build tag: %q, expected %q", got, expected)
	}
}
