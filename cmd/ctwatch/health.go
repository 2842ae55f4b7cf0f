package main

import (
	"context"
	"fmt"
	"io"
	"time"

	"wagtenib/internal/watch/alert"
	"wagtenib/internal/watch/watchstore"
)

var _ = addCommand("health", "prints the health as one line, and ends with a status for cron", runHealth)

// maxAccusations is the maximum number of alerts about evidence that are listed.
const maxAccusations = 20

// runHealth prints the health of all logs and outputs. The exit status is 0 if all is well, statusAccused if there is
// evidence against a log, statusUnread if a log was not read for too long or the log list cannot be read, and
// statusFault if alerts could not be sent.
func runHealth(_ context.Context, arguments []string, out io.Writer) (err error) {
	flags := flagsOf("health")
	folder := folderFlag(flags)
	silent := flags.Duration("silent-after", 24*time.Hour, "time after which a log that was not read is silent")
	if _, err := parseFlags(flags, arguments, 0, out); err != nil {
		return err
	}
	store, err := watchstore.OpenToRead(*folder)
	if err != nil {
		return err
	}
	defer func() {
		if closed := store.Close(); err == nil {
			err = closed
		}
	}()
	health, err := store.Health(*silent)
	if err != nil {
		return err
	}
	if _, err := fmt.Fprintln(out, health); err != nil {
		return err
	}
	accusations, err := store.Accusations(maxAccusations)
	if err != nil {
		return err
	}
	for _, one := range accusations {
		if _, err := fmt.Fprintln(out, alert.Line(one)); err != nil {
			return err
		}
	}
	return healthStatus(health, *silent)
}

func healthStatus(health watchstore.Health, silent time.Duration) error {
	switch {
	case health.Evidence > 0:
		return &statusError{statusAccused,
			"ctwatch: there is evidence against a log (ctwatch evidence NUMBER FOLDER writes its files)"}
	case health.Logs == 0:
		return &statusError{statusUnread, "ctwatch: no log is watched yet (the lines of ctwatch run say why)"}
	case time.Since(health.Reported) > silent:
		return &statusError{statusUnread, fmt.Sprintf("ctwatch: no log was read for %v (check that ctwatch run runs)",
			silent)}
	case health.List != "":
		return &statusError{statusUnread, "ctwatch: the log list cannot be used, so logs that joined it are not watched " +
			"(check its address and the network; it is tried again)"}
	case len(health.Silent) > 0:
		return &statusError{statusUnread, "ctwatch: some logs cannot be read (the page of ctwatch run says why)"}
	case health.Unproved > 0:
		return &statusError{statusUnread, "ctwatch: a log gave no proof for a head that it signed, which is no accusation " +
			"(ctwatch evidence NUMBER FOLDER writes its files)"}
	case len(health.Outputs) > 0:
		return &statusError{statusFault, "ctwatch: some alerts could not be sent (the lines of ctwatch run say why)"}
	}
	return nil
}
