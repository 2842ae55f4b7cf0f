package main

import (
	"context"
	"flag"
	"fmt"
	"os"
	"path/filepath"

	"wagtenib/internal/logclient"
	"wagtenib/internal/watch"
	"wagtenib/internal/watch/logflags"
)

// asking holds the flags of a command that asks logs, and can write evidence against them.
type asking struct {
	logflags.Logs
	evidence string // the folder to which evidence is written; empty to write none
}

// define defines the flags.
func (a *asking) define(flags *flag.FlagSet) {
	a.Define(flags)
	flags.StringVar(&a.evidence, "evidence", "", "new `folder` that gets the evidence against logs, for ctaudit evidence")
}

// open returns the options for requests to logs, and the logs. It asks none of them if the folder for evidence is not
// new.
func (a *asking) open(ctx context.Context) (client logclient.Options, logs []watch.Log, err error) {
	if a.evidence != "" {
		if err := watch.CheckNew(a.evidence); err != nil {
			return client, nil, fmt.Errorf("%w: --evidence: %w", errUsage, err)
		}
	}
	if client, err = clientOf(&a.Logs); err != nil {
		return client, nil, err
	}
	if logs, err = a.All(ctx, client); err != nil {
		return client, nil, &statusError{statusUnread, fmt.Sprintf("ctaudit: %v", err)}
	}
	return client, logs, nil
}

// clientOf returns the options for requests to the logs of flags.
func clientOf(logs *logflags.Logs) (logclient.Options, error) {
	client, err := logs.Client("ctaudit")
	if err != nil {
		return client, fmt.Errorf("%w: --contact: %w", errUsage, err)
	}
	client.Retrying = logflags.PrintRetries("ctaudit", os.Stderr)
	return client, nil
}

// writeEvidence writes evidence into a new folder below the one of the flags, if there is one.
func (a *asking) writeEvidence(name string, evidence *watch.Evidence) error {
	if a.evidence == "" {
		return nil
	}
	return evidence.Write(filepath.Join(a.evidence, name))
}
