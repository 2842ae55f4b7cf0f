// Command ctwatch watches Certificate Transparency logs for the names of an owner, and sends an alert for each
// certificate with one of them.
//
// `ctwatch run` follows logs until SIGTERM or SIGINT, which end it with status 0. Other commands read its store, or show
// entries of logs (docs/WATCH.md).
package main

import (
	"context"
	"errors"
	"flag"
	"fmt"
	"io"

	"wagtenib/internal/command/subcommand"
	"wagtenib/internal/watch"
	"wagtenib/internal/watch/watchstore"
)

// The statuses with which ctwatch ends.
const (
	statusFault       = 1 // something failed; standard error says what
	statusUsage       = subcommand.StatusUsage
	statusAccused     = 3 // a log did something wrong, or the store is damaged; a restart does not help
	statusUnread      = 5 // a log or the log list could not be read
	statusInUse       = 7 // another ctwatch run uses the store
	statusFoundByOnce = 8 // ctwatch run --once stored an alert about a certificate
)

// errUsage means that the command line or the config file is wrong.
var errUsage = errors.New("ctwatch")

// statusError is an error with the exit status of ctwatch.
type statusError struct {
	status int
	text   string
}

// Error returns the text of the error.
func (e *statusError) Error() string { return e.text }

// commands holds the commands, by their names. Each file that implements one calls addCommand.
var commands = map[string]subcommand.Command{}

// addCommand adds a command. It returns a value, so that the initialization of a package variable can call it.
func addCommand(name, help string, run func(ctx context.Context, arguments []string, out io.Writer) error) bool {
	commands[name] = subcommand.Command{Help: help, Run: run}
	return true
}

func main() { program().Main() }

// program returns ctwatch as its commands.
func program() subcommand.Program {
	return subcommand.Program{Name: "ctwatch", Begin: "ctwatch run --name example.org", Commands: commands, Status: statusOf,
		About: "ctwatch watches Certificate Transparency logs, and sends an alert for each certificate for your names."}
}

// statusOf returns the exit status for an error.
func statusOf(err error) int {
	var known *statusError
	switch {
	case errors.As(err, &known):
		return known.status
	case errors.Is(err, errUsage), errors.Is(err, watch.ErrNotNew):
		return statusUsage
	case errors.Is(err, watchstore.ErrDamaged), errors.Is(err, watchstore.ErrOther):
		return statusAccused
	case errors.Is(err, watchstore.ErrInUse):
		return statusInUse
	}
	return statusFault
}

// flagsOf returns the flags of a command. Its errors are only returned, and not printed.
func flagsOf(name string) *flag.FlagSet {
	flags := flag.NewFlagSet("ctwatch "+name, flag.ContinueOnError)
	flags.SetOutput(io.Discard)
	flags.Usage = func() {}
	return flags
}

// parseFlags reads the flags of a command, and returns its other arguments, of which there must be `count`. Flags may
// follow other arguments.
func parseFlags(flags *flag.FlagSet, arguments []string, count int, out io.Writer) ([]string, error) {
	others, err := subcommand.Parse(flags, flags.Name()+":", arguments, out)
	switch {
	case errors.Is(err, flag.ErrHelp):
		return nil, err
	case err != nil:
		return nil, fmt.Errorf("%w: %s: %w", errUsage, flags.Name(), err)
	case len(others) != count:
		return nil, fmt.Errorf("%w: %s needs %d arguments after its name, and has %d (%s --help lists them)",
			errUsage, flags.Name(), count, len(others), flags.Name())
	}
	return others, nil
}

// folderFlag adds the flag for the folder of the store.
func folderFlag(flags *flag.FlagSet) *string {
	return flags.String("folder", watchstore.DefaultFolder(), "`folder` of the store")
}
