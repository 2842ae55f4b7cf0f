package testkit

import (
	"bytes"
	"errors"
	"os"
	"os/exec"
	"testing"
)

// asProgram is the environment variable that makes a test process run as the program that it tests, with its arguments.
const asProgram = "TRIAL_PROGRAM"

// Main implements TestMain for the tests of a program. It runs the tests or, in a process that Program or Runs started,
// the program itself.
func Main(m *testing.M, program func()) {
	if os.Getenv(asProgram) != "" {
		program()
		os.Exit(0)
	}
	os.Exit(m.Run())
}

// Program returns a command that runs the tested program (see Main) with these arguments. The command is not started
// yet. It ends with the test at the latest.
func Program(t testing.TB, arguments ...string) *exec.Cmd {
	t.Helper()
	program, err := os.Executable()
	Must(t, err)
	command := exec.CommandContext(Limited(t, Longest), program, arguments...)
	command.Env = append(os.Environ(), asProgram+"=1")
	return command
}

// Runs runs the tested program (see Main) with these arguments until it ends. It returns its status, standard output
// and standard error.
func Runs(t testing.TB, arguments ...string) (status int, stdout, stderr string) {
	t.Helper()
	command := Program(t, arguments...)
	var output, problems bytes.Buffer
	command.Stdout, command.Stderr = &output, &problems
	if err := command.Run(); err != nil && !errors.As(err, new(*exec.ExitError)) {
		t.Fatal(err)
	}
	return command.ProcessState.ExitCode(), output.String(), problems.String()
}
