package main

import (
	"context"
	"errors"
	"fmt"
	"io"
	"slices"
	"strings"

	"wagtenib/internal/audit"
	"wagtenib/internal/logclient"
	"wagtenib/internal/watch"
	"wagtenib/internal/watch/alert"
)

// comparePage is what `ctaudit compare --help` prints before the flags.
const comparePage = `ctaudit compare PLACE

Compares the heads of logs with those that others saw. PLACE is a file, a folder of files or a URL, with checkpoints one
after the other, or answers to get-sth, one a line. The status is 3 if heads contradict each other.
`

// runCompare compares logs with the heads that others saw. Each head is compared with the log whose key signed it.
func runCompare(ctx context.Context, arguments []string, out io.Writer) error {
	a, flags := &asking{}, flagsOf("compare")
	a.define(flags)
	arguments, err := parseFlags(flags, comparePage, arguments, 1, 1, out)
	if err != nil {
		return err
	}
	isURL := strings.HasPrefix(arguments[0], "https://") || strings.HasPrefix(arguments[0], "http://")
	if err := checkExists(arguments[0]); !isURL && err != nil {
		return err
	}
	client, logs, err := a.open(ctx)
	if err != nil {
		return err
	}
	seen, err := audit.ReadHeads(ctx, arguments[0], client)
	switch {
	case err != nil && isURL:
		return &statusError{statusUnread, fmt.Sprintf("ctaudit: %s: %v", arguments[0], err)}
	case err != nil:
		return err
	case !hasHead(seen):
		return fmt.Errorf("%w: %s has no tree head (give checkpoints, or answers to get-sth)", errUsage, arguments[0])
	}
	c := comparison{asking: a, client: client, out: out, left: seen}
	for _, log := range logs {
		if err := c.compare(ctx, log); err != nil {
			return err
		}
	}
	return c.end()
}

// hasHead reports whether a place has a head.
func hasHead(seen map[string][][]byte) bool {
	for _, heads := range seen {
		if len(heads) > 0 {
			return true
		}
	}
	return false
}

// comparison holds the state of a run of ctaudit compare.
type comparison struct {
	*asking
	client       logclient.Options
	out          io.Writer
	left         map[string][][]byte // the heads for which no signing log was found yet, by their file or address
	consistent   int                 // the number of heads that are consistent with their log
	inconsistent int                 // the number of heads that show a fault of a log
	notProved    int                 // the number of heads for which their log gives no proof
	faults       []error
}

// compare compares the heads that a log signed with the log's newest head.
func (c *comparison) compare(ctx context.Context, log watch.Log) error {
	reader, err := watch.NewReader(log, c.client)
	if err != nil {
		return err
	}
	own, count := map[string][][]byte{}, 0
	for place, heads := range c.left {
		c.left[place] = slices.DeleteFunc(heads, func(signed []byte) bool {
			if _, err := reader.OpenHead(signed); err != nil {
				return false
			}
			own[place], count = append(own[place], signed), count+1
			return true
		})
	}
	if count == 0 {
		return nil
	}
	head, err := reader.Head(ctx)
	if err != nil {
		c.faults = append(c.faults, fmt.Errorf("%s: %w", alert.Safe(log.Name), err))
		return nil
	}
	for _, view := range audit.CompareViews(ctx, reader, head, own, c.client) {
		if view.Err == nil {
			c.consistent++
			continue
		}
		fmt.Fprintf(c.out, "%s: %s: %s\n", alert.Safe(log.Name), alert.Safe(view.Where), alert.Safe(view.Err.Error()))
		if view.Evidence == nil {
			c.faults = append(c.faults, fmt.Errorf("%s: a head of %d leaves could not be compared", alert.Safe(log.Name),
				view.Head.TreeSize))
			continue
		}
		if view.Evidence.Verdict == watch.VerdictNotProved {
			c.notProved++
		} else {
			c.inconsistent++
		}
		if err := c.writeEvidence(fmt.Sprint(c.inconsistent+c.notProved), view.Evidence); err != nil {
			return err
		}
	}
	return nil
}

// end prints the outcome, and returns the error with the exit status.
func (c *comparison) end() error {
	unknown := 0
	for _, heads := range c.left {
		unknown += len(heads)
	}
	fmt.Fprintf(c.out, "%d heads are consistent with their logs, %d are not, %d are not proved, and %d are signed by no "+
		"log that was given\n", c.consistent, c.inconsistent, c.notProved, unknown)
	switch {
	case c.inconsistent > 0:
		return &statusError{statusAccused, "ctaudit: a log signed heads that contradict each other (--evidence FOLDER " +
			"keeps the evidence)"}
	case c.notProved > 0:
		return &statusError{statusUnread, "ctaudit: a log gave no proof for a head that others saw, which is no accusation " +
			"(ask again, and keep the head)"}
	case len(c.faults) > 0:
		return &statusError{statusUnread, errors.Join(c.faults...).Error()}
	case c.consistent == 0:
		return &statusError{statusUnknownLog, "ctaudit: no log that was given signed any of these heads (name a " +
			"log that has checkpoints as tiled+ADDRESS, with its origin, and one that has get-sth without tiled+)"}
	}
	return nil
}
