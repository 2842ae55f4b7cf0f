// Command ctaudit audits Certificate Transparency logs for whoever does not run them.
//
// `ctaudit fsck` judges what a log published, `probe` looks at a log from outside, `sct` asks logs whether they keep the
// promises in a certificate, and `compare` compares their heads with those that others saw. `evidence` checks evidence
// against a log, and `cosign` asks a witness to cosign a head (docs/AUDIT.md).
package main

import (
	"errors"
	"flag"
	"fmt"
	"io"
	"strings"

	"wagtenib/internal/command/subcommand"
	"wagtenib/internal/watch"
	"wagtenib/internal/watch/watchstore"
)

// The statuses with which ctaudit ends.
const (
	statusFault      = 1 // something failed, or what was audited is wrong; standard error says what
	statusUsage      = subcommand.StatusUsage
	statusAccused    = 3 // a log did something wrong, or the store is damaged
	statusUnread     = 5 // a log, a log list or a witness does not answer, or gives no proof
	statusNotYet     = 6 // a log does not have an entry, but may still add it
	statusUnknownLog = 7 // none of the given logs has the key of a timestamp or of a head
)

// errUsage means that the command line is wrong.
var errUsage = errors.New("ctaudit")

// statusError is an error with the exit status of ctaudit.
type statusError struct {
	status int
	text   string
}

// Error returns the text of the error.
func (e *statusError) Error() string { return e.text }

func main() { program().Main() }

// program returns ctaudit as its commands.
func program() subcommand.Program {
	return subcommand.Program{
		Name: "ctaudit", About: "ctaudit audits Certificate Transparency logs.", Begin: "ctaudit sct chain.pem",
		Commands: map[string]subcommand.Command{
			"fsck":     {Help: "FOLDER|s3://.. KEY.PEM [ANSWERS..] judges what a log published", Run: runFsck},
			"evidence": {Help: "FOLDER KEY.PEM checks evidence against a log", Run: runEvidence},
			"probe":    {Help: "URL looks at a log from outside, as a browser programme's monitor does", Run: runProbe},
			"sct": {Help: "CERTIFICATE asks logs whether they keep the promises (SCTs) in a certificate",
				Run: runSCT},
			"compare": {Help: "PLACE compares the heads of logs with those that others saw, in a file, a folder or at a URL",
				Run: runCompare},
			"cosign": {Help: "URL,KEY asks a witness to cosign the newest head of a tiled log that ctwatch run accepted",
				Run: runCosign},
		},
		Status: statusOf,
	}
}

// statusOf returns the exit status for an error.
func statusOf(err error) int {
	var known *statusError
	switch {
	case errors.As(err, &known):
		return known.status
	case errors.Is(err, errUsage), errors.Is(err, watch.ErrNotNew):
		return statusUsage
	case errors.Is(err, watchstore.ErrDamaged), errors.Is(err, watchstore.ErrOther):
		return statusAccused
	}
	return statusFault
}

// flagsOf returns the flags of a command.
func flagsOf(name string) *flag.FlagSet {
	return flag.NewFlagSet("ctaudit "+name, flag.ContinueOnError)
}

// parseFlags reads the flags of a command, and returns its other arguments, of which there must be at least `least`,
// and at most `most` unless that is negative. The first line of the command's page is how the command is called.
func parseFlags(flags *flag.FlagSet, page string, arguments []string, least, most int, out io.Writer) ([]string, error) {
	others, err := subcommand.Parse(flags, page, arguments, out)
	command := strings.TrimPrefix(flags.Name(), "ctaudit ")
	switch {
	case errors.Is(err, flag.ErrHelp):
		return nil, err
	case err != nil:
		return nil, fmt.Errorf("%w %s: %w", errUsage, command, err)
	case len(others) < least || most >= 0 && len(others) > most:
		called, _, _ := strings.Cut(page, "\n")
		return nil, fmt.Errorf("%w %s: wrong number of arguments (write %s; ctaudit %s --help explains them)", errUsage,
			command, called, command)
	}
	return others, nil
}
