package alert

import (
	"bytes"
	"context"
	"encoding/json"
	"errors"
	"fmt"
	"os"
	"os/exec"
	"strconv"
	"strings"
	"sync"
	"sync/atomic"
	"syscall"
	"time"
)

// The bounds of a command.
const (
	commandsPerBatch = 50
	commandTimeout   = time.Minute
	waitDelay        = 5 * time.Second
	maxStderr        = 300 // bytes of the program's standard error that a message shows
)

// Command runs a program for each alert. The program gets the alert in variables of its environment (CTWATCH_..), and
// as a line of JSON on its standard input. No shell is run, and no argument comes from a certificate.
type Command struct {
	arguments []string // the first one is the program
	timeout   time.Duration
}

// NewCommand returns an output that runs a program. The first argument is the program.
func NewCommand(arguments []string) (*Command, error) {
	if len(arguments) == 0 {
		return nil, errors.New("command is empty (write a program, for example /usr/local/bin/tell)")
	}
	path, err := exec.LookPath(arguments[0])
	if err != nil {
		return nil, fmt.Errorf("command %q cannot be run: %w (write the path of a program)", arguments[0], err)
	}
	return &Command{append([]string{path}, arguments[1:]...), commandTimeout}, nil
}

// Name returns the name of this output, which no other output has.
func (c *Command) Name() string { return "command " + strings.Join(c.arguments, " ") }

// Batch returns the maximum number of alerts that are sent before they are marked.
func (c *Command) Batch() int { return commandsPerBatch }

// maxRunning is the maximum number of programs that run at a time. Most of a program's time is its start, so one
// program after the other would be slow.
const maxRunning = 4

// Send runs the program for each alert, a few at a time. Status 0 means that the program has handled the alert. After a
// failure, Send starts no other program, and the alerts after the one that failed do not count as sent.
func (c *Command) Send(ctx context.Context, alerts []Alert) (sent, tried int, err error) {
	faults := make([]error, len(alerts))
	var running sync.WaitGroup
	var failed atomic.Bool
	slots := make(chan struct{}, maxRunning)
	for ; tried < len(alerts) && !failed.Load(); tried++ {
		slots <- struct{}{}
		running.Add(1)
		go func(number int) {
			defer running.Done()
			if faults[number] = c.run(ctx, alerts[number]); faults[number] != nil {
				failed.Store(true)
			}
			<-slots
		}(tried)
	}
	running.Wait()
	for sent = range alerts {
		if faults[sent] != nil {
			return sent, tried, faults[sent]
		}
	}
	return len(alerts), tried, nil
}

func (c *Command) run(ctx context.Context, alert Alert) error {
	input, err := json.Marshal(alert)
	if err != nil {
		return err
	}
	limited, cancel := context.WithTimeout(ctx, c.timeout)
	defer cancel()
	command := exec.CommandContext(limited, c.arguments[0], c.arguments[1:]...)
	command.Stdin = bytes.NewReader(append(input, '\n'))
	command.Env = append(os.Environ(), Environment(alert)...)
	// The program and its children are killed together, so that none of them runs after the timeout.
	command.SysProcAttr = &syscall.SysProcAttr{Setpgid: true}
	command.Cancel = func() error { return syscall.Kill(-command.Process.Pid, syscall.SIGKILL) }
	command.WaitDelay = waitDelay
	stderr := &bounded{left: maxStderr}
	command.Stderr = stderr
	// Run returns no error if the program does not read its input.
	if err := command.Run(); err != nil {
		return fmt.Errorf("%s: %w: %s (it must end with status 0 within %v)", c.arguments[0], err,
			Safe(stderr.text.String()), c.timeout)
	}
	return nil
}

// bounded is a writer that keeps only the first bytes.
type bounded struct {
	text bytes.Buffer
	left int
}

func (b *bounded) Write(data []byte) (int, error) {
	kept := data[:min(len(data), b.left)]
	b.left -= len(kept)
	b.text.Write(kept)
	return len(data), nil
}

// Environment returns the environment variables for an alert. No value contains a NUL or a line end.
func Environment(a Alert) []string {
	found := []string{"CTWATCH_KIND=" + string(a.Kind), "CTWATCH_SUMMARY=" + Line(a), "CTWATCH_ID=" +
		strconv.FormatInt(a.ID, 10)}
	add := func(name, value string) { found = append(found, name+"="+value) }
	add("CTWATCH_AGAIN", map[bool]string{true: "yes", false: "no"}[a.Again])
	if a.Log != nil {
		add("CTWATCH_LOG", a.Log.Name)
		add("CTWATCH_VERDICT", a.Log.Verdict)
		add("CTWATCH_TEXT", a.Log.Text)
		return found
	}
	c := a.Certificate
	if a.Text != "" {
		add("CTWATCH_TEXT", a.Text)
	}
	// Linux runs no program with a variable of more than 128 KiB.
	matches := c.Matches[:min(len(c.Matches), MaxNames)]
	add("CTWATCH_WATCHED", strings.Join(watched(matches), " "))
	hostNames := hosts(c)
	add("CTWATCH_HOSTS", strings.Join(hostNames[:min(len(hostNames), MaxNames)], " "))
	add("CTWATCH_NAMES", strings.Join(c.Names, " "))
	add("CTWATCH_NAME_COUNT", strconv.Itoa(c.NameCount))
	add("CTWATCH_SUBJECT", c.Fields.Subject)
	add("CTWATCH_ISSUER", c.Fields.Issuer)
	add("CTWATCH_SERIAL_NUMBER", c.Fields.SerialNumber)
	add("CTWATCH_NOT_BEFORE", day(c.Fields.NotBefore))
	add("CTWATCH_NOT_AFTER", day(c.Fields.NotAfter))
	add("CTWATCH_KEY_SHA256", c.Fields.KeySHA256)
	add("CTWATCH_CERTIFICATE_SHA256", c.SHA256)
	add("CTWATCH_TBS_SHA256", c.TBSSHA256)
	for _, sighting := range c.Sightings[:min(len(c.Sightings), 1)] {
		add("CTWATCH_LOG", sighting.Log)
		add("CTWATCH_INDEX", strconv.FormatUint(sighting.Index, 10))
		add("CTWATCH_TYPE", sighting.Type)
	}
	return found
}
