// Package version returns the version of the build, from the file VERSION, and the commit from which it was built.
package version

import "fmt"

// number and commit are set by cmd/build.sh (go build -ldflags "-X ..").
var number, commit string

// Number returns the version, for example 0.1.0. It is "unreleased" if the build did not set it.
func Number() string { return or(number, "unreleased") }

// Commit returns the first 12 digits of the commit, followed by + if files differed from it. It is "unknown" if the
// build did not set it.
func Commit() string { return or(commit, "unknown") }

// Line returns what a program prints for --version. It mentions the build tag wagtenib_sha_instructions if the build
// has it.
func Line(program string) string {
	return fmt.Sprintf("%s %s (commit %s%s)\n", program, Number(), Commit(), option)
}

// Asked reports whether the arguments of a command line ask only for the version.
func Asked(arguments []string) bool {
	return len(arguments) == 1 && (arguments[0] == "--version" || arguments[0] == "-version" || arguments[0] == "-V")
}

func or(text, other string) string {
	if text == "" {
		return other
	}
	return text
}
