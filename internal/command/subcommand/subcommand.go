// Package subcommand runs a program that consists of commands. It finds the command that the command line names, prints
// the help, and turns the error of the command into the exit status.
package subcommand

import (
	"context"
	"errors"
	"flag"
	"fmt"
	"io"
	"os"
	"os/signal"
	"slices"
	"strings"
	"syscall"

	"wagtenib/internal/command/settingsfile"
	"wagtenib/internal/command/version"
)

// StatusUsage is the exit status if the command line is wrong.
const StatusUsage = 2

// Command is a command of a program.
type Command struct {
	Help string // the arguments, and what the command does, in one line
	Run  func(ctx context.Context, arguments []string, out io.Writer) error
}

// Program is a program that consists of commands.
type Program struct {
	Name     string
	About    string              // the first line of the help
	Begin    string              // the call with which a reader of the help can begin
	Commands map[string]Command  // by their names
	Status   func(err error) int // returns the exit status for the error of a command
}

// Main runs the program with the arguments of its process, and ends the process. SIGTERM and SIGINT end the context of
// the command.
func (p Program) Main() {
	// If nobody reads standard error any more, a write to it must fail, and must not end the program.
	signal.Notify(make(chan os.Signal, 1), syscall.SIGPIPE)
	ctx, stop := signal.NotifyContext(context.Background(), syscall.SIGTERM, syscall.SIGINT)
	status := p.Run(ctx, os.Args[1:], os.Stdout, os.Stderr)
	stop()
	os.Exit(status)
}

// Run runs the command that the arguments name, and returns the exit status. Help goes to out.
func (p Program) Run(ctx context.Context, arguments []string, out, faults io.Writer) int {
	if version.Asked(arguments) {
		fmt.Fprint(out, version.Line(p.Name))
		return 0
	}
	if len(arguments) == 0 {
		fmt.Fprint(faults, p.help())
		return StatusUsage
	}
	if slices.Contains([]string{"help", "--help", "-help", "-h"}, arguments[0]) {
		fmt.Fprint(out, p.help())
		return 0
	}
	command, found := p.Commands[arguments[0]]
	if !found {
		line := Moved(p.Name, arguments[0])
		if line == "" {
			line = fmt.Sprintf("%s: there is no command %q (%s --help lists them)", p.Name, arguments[0], p.Name)
		}
		fmt.Fprintln(faults, line)
		return StatusUsage
	}
	err := command.Run(ctx, arguments[1:], out)
	if err == nil || errors.Is(err, flag.ErrHelp) {
		return 0
	}
	fmt.Fprintln(faults, err)
	return p.Status(err)
}

// help returns the help text of the program.
func (p Program) help() string {
	var text strings.Builder
	fmt.Fprintf(&text, "%s\n\n", p.About)
	var names []string
	for name := range p.Commands {
		names = append(names, name)
	}
	slices.Sort(names)
	for _, name := range names {
		fmt.Fprintf(&text, "  %s %-12s %s\n", p.Name, name, p.Commands[name].Help)
	}
	fmt.Fprintf(&text, "\n%s COMMAND --help lists the arguments of a command. Begin with: %s\n", p.Name, p.Begin)
	return text.String()
}

// Parse reads the flags of a command, and returns its other arguments. Flags may follow other arguments. If help is
// requested, Parse prints the page and each flag, and returns flag.ErrHelp.
func Parse(flags *flag.FlagSet, page string, arguments []string, out io.Writer) (others []string, err error) {
	flags.SetOutput(io.Discard) // The errors are returned.
	flags.Usage = func() {}
	for {
		if err := settingsfile.ParseArguments(flags, arguments); errors.Is(err, flag.ErrHelp) {
			fmt.Fprintln(out, page)
			flags.SetOutput(out)
			flags.PrintDefaults()
			return nil, err
		} else if err != nil {
			return nil, err
		}
		if flags.NArg() == 0 {
			return others, nil
		}
		others, arguments = append(others, flags.Arg(0)), flags.Args()[1:]
	}
}
