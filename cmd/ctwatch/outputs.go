package main

import (
	"flag"
	"fmt"
	"io"
	"strings"

	"wagtenib/internal/command/version"
	"wagtenib/internal/logclient"
	"wagtenib/internal/watch/alert"
)

// outputSettings holds the settings that say where alerts are sent.
type outputSettings struct {
	mail               []string
	mailFrom           string
	sendmail           string
	webhooks, commands []string
	json               string
}

// define defines the flags of the outputs.
func (o *outputSettings) define(flags *flag.FlagSet) {
	flags.Func("mail", "mail `address` for alerts. May be given several times", appendTo(&o.mail))
	flags.StringVar(&o.mailFrom, "mail-from", "", "mail `address` of the sender; by default the first --mail")
	flags.StringVar(&o.sendmail, "sendmail", "/usr/sbin/sendmail",
		"`program` with the interface of sendmail, or smtp://127.0.0.1:25 for a mail server of this machine")
	flags.Func("webhook", "`URL` to which each alert is posted as JSON. May be given several times",
		appendTo(&o.webhooks))
	flags.Func("command", "`program` and its arguments, separated by spaces, that is run for each alert without a "+
		"shell. May be given several times", appendTo(&o.commands))
	flags.StringVar(&o.json, "json", "",
		"`file` to which each alert is appended as a line of JSON; - is standard output")
}

// open opens the outputs. The caller must call close, also after an error.
func (o outputSettings) open(out io.Writer, contact string) (outputs []alert.Output, close func() error, err error) {
	close = func() error { return nil }
	if o.json == "-" {
		outputs = append(outputs, alert.NewJSON("json -", out))
	} else if o.json != "" {
		lines, file, err := alert.OpenJSON(o.json)
		if err != nil {
			return nil, close, fmt.Errorf("%w: --json: %w", errUsage, err)
		}
		close = file.Close
		outputs = append(outputs, lines)
	}
	if o.json != "-" {
		outputs = append(outputs, alert.NewTerminal(out))
	}
	add := func(output alert.Output, err error) error {
		if err != nil {
			return fmt.Errorf("%w: %w", errUsage, err)
		}
		outputs = append(outputs, output)
		return nil
	}
	if len(o.mail) > 0 {
		from := o.mailFrom
		if from == "" {
			from = o.mail[0]
		}
		if err := add(alert.NewMail(from, o.mail, o.sendmail)); err != nil {
			return nil, close, err
		}
	}
	agent, err := logclient.UserAgent("ctwatch", version.Number(), contact)
	if err != nil {
		return nil, close, fmt.Errorf("%w: %w", errUsage, err)
	}
	for _, address := range o.webhooks {
		if err := add(alert.NewWebhook(address, agent)); err != nil {
			return nil, close, err
		}
	}
	for _, command := range o.commands {
		if err := add(alert.NewCommand(strings.Fields(command))); err != nil {
			return nil, close, err
		}
	}
	return outputs, close, nil
}
