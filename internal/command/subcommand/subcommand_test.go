package subcommand_test

import (
	"bytes"
	"context"
	"errors"
	"flag"
	"io"
	"slices"
	"strings"
	"testing"

	"wagtenib/internal/command/subcommand"
)

// run runs a program whose command `add` fails unless its arguments are one word and the flag -n.
func run(arguments ...string) (status int, out, faults string) {
	program := subcommand.Program{Name: "prog", About: "prog adds.", Begin: "prog add 1",
		Status: func(error) int { return 9 },
		Commands: map[string]subcommand.Command{"add": {Help: "WORD adds a word",
			Run: func(_ context.Context, arguments []string, out io.Writer) error {
				flags := flag.NewFlagSet("prog add", flag.ContinueOnError)
				number := flags.Int("n", 0, "`number` of times")
				others, err := subcommand.Parse(flags, "prog add WORD", arguments, out)
				if err == nil && (*number != 7 || !slices.Equal(others, []string{"word"})) {
					err = errors.New("other arguments")
				}
				return err
			}}}}
	var stdout, stderr bytes.Buffer
	status = program.Run(context.Background(), arguments, &stdout, &stderr)
	return status, stdout.String(), stderr.String()
}

// TestRunsTheCommand checks the status and the output of each kind of command line.
func TestRunsTheCommand(t *testing.T) {
	for arguments, expected := range map[string]struct {
		status      int
		out, faults string
	}{
		"add word -n 7":     {0, "", ""},
		"add -n=7 word":     {0, "", ""},
		"add word":          {9, "", "other arguments\n"},
		"add -n seven word": {9, "", `--n: "seven" is not a whole number`},
		"add --help":        {0, "prog add WORD\n  -n number", ""},
		"add word -h":       {0, "prog add WORD\n  -n number", ""},
		"--help":            {0, "prog adds.\n\n  prog add          WORD adds a word\n\nprog COMMAND --help", ""},
		"-h":                {0, "prog adds.", ""},
		"help":              {0, "prog adds.", ""},
		"--version":         {0, "prog ", ""},
		"":                  {2, "", "prog adds."},
		"take":              {2, "", `prog: there is no command "take" (prog --help lists them)`},
	} {
		status, out, faults := run(strings.Fields(arguments)...)
		if status != expected.status || !strings.HasPrefix(out, expected.out) || (out == "") != (expected.out == "") ||
			!strings.HasPrefix(faults, expected.faults) || (faults == "") != (expected.faults == "") {
			t.Errorf("%q: status %d, %q and %q", arguments, status, out, faults)
		}
	}
}

// TestNamesMovedCommands checks that the message for a command that moved names its new program in one line, and that
// there is no message for other commands.
func TestNamesMovedCommands(t *testing.T) {
	for command, now := range map[[2]string]string{{"ctserve", "audit"}: "ctaudit probe", {"ctwatch", "audit"}: "ctaudit sct",
		{"ctwatch", "compare"}: "ctaudit compare", {"ctwatch", "cosign"}: "ctaudit cosign"} {
		line := subcommand.Moved(command[0], command[1])
		if !strings.HasPrefix(line, command[0]+": the command "+command[1]) || !strings.Contains(line, "write "+now+";") ||
			strings.Contains(line, "\n") {
			t.Errorf("%v: %q", command, line)
		}
	}
	for _, command := range [][2]string{{"ctserve", "compare"}, {"ctwatch", "run"}, {"ctaudit", "sct"}, {"ctserve", ""}} {
		if line := subcommand.Moved(command[0], command[1]); line != "" {
			t.Errorf("%v: %q", command, line)
		}
	}
}
