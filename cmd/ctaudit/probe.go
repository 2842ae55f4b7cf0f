package main

import (
	"cmp"
	"context"
	"errors"
	"flag"
	"fmt"
	"io"
	"net/url"
	"os"
	"strings"
	"time"

	"wagtenib/internal/audit/probe"
	"wagtenib/internal/command/settingsfile"
	"wagtenib/internal/command/version"
	"wagtenib/internal/log/chain"
	"wagtenib/internal/logclient"
	"wagtenib/internal/watch/logflags"
)

// probePage is what `ctaudit probe --help` prints before the flags.
const probePage = `ctaudit probe URL

Looks at the log with the submission prefix URL from outside, as the compliance monitor of a browser's programme does.
It submits chains (--issuer and --issuer-key, or --chains), follows each SCT into the log, compares all tree heads, and
counts and times each answer. It prints a report. The exit status is 0 if the log passed each check, 1 if it did not,
and 2 if the arguments are wrong.
`

// errFailed reports that a log did not pass.
var errFailed = errors.New("ctaudit: the log did not pass")

// probeFlags are the flags of `ctaudit probe`.
type probeFlags struct {
	monitoring, listEntry, roots, ca, contact, report string
	issuer, issuerKey, chains                         string
	availability                                      float64
	latency                                           time.Duration
	schedule                                          probe.Schedule
}

func (p *probeFlags) add(to *flag.FlagSet) {
	to.StringVar(&p.monitoring, "monitoring-url", "", "monitoring prefix of the log, a `URL` (default: that of the "+
		"list entry, if URL is its submission prefix, and otherwise URL)")
	to.StringVar(&p.listEntry, "list-entry", "", "`file` with the entry of the log in a log list, as ctserve "+
		"list-entry writes it. Without it the log's own /log.v3.json is believed")
	to.StringVar(&p.issuer, "issuer", "", "`file` in PEM with the certificate of a test CA, and its issuers after it")
	to.StringVar(&p.issuerKey, "issuer-key", "", "`file` in PEM with the private key of the test CA")
	to.StringVar(&p.chains, "chains", "", "`folder` of chains to submit, one in each file .pem, instead of those "+
		"of a test CA")
	to.StringVar(&p.roots, "wanted-roots", "", "comma-separated `files` with the roots that get-roots must have: "+
		"PEM, CSV of CCADB, or folders with such files")
	to.StringVar(&p.ca, "ca-file", "", "`file` in PEM with the CA of the log's TLS certificate (default: the CAs "+
		"of the system)")
	to.StringVar(&p.contact, "contact", "", "`address` at which the operator of the log reaches you, for the "+
		"header User-Agent")
	to.StringVar(&p.report, "report", "", "`file` for the report as text, and with .json after its name for the "+
		"one in JSON")
	to.DurationVar(&p.schedule.For, "for", 10*time.Minute,
		"`time` for which chains are submitted. The last SCT is followed after that until its merge delay ends")
	to.DurationVar(&p.schedule.Poll, "poll-interval", 5*time.Second, "`time` between two looks at the tree heads")
	to.DurationVar(&p.schedule.Submit, "submit-interval", 30*time.Second, "`time` between two chains")
	to.Float64Var(&p.availability, "min-availability", 99,
		"`percentage` of the requests of each call that must be answered. One request of a call may always fail")
	to.DurationVar(&p.latency, "max-latency", 10*time.Second,
		"`time` within which 99 of 100 answers to each call must come")
}

// runProbe checks a log from outside.
func runProbe(ctx context.Context, arguments []string, out io.Writer) error {
	flags := flagsOf("probe")
	var given probeFlags
	given.add(flags)
	arguments, err := parseFlags(flags, probePage, arguments, 1, 1, out)
	if err != nil {
		return err
	}
	options, err := given.options(arguments[0])
	if err != nil {
		return fmt.Errorf("%w: %v", errUsage, err)
	}
	options.Notify = func(check string, fault probe.Fault) {
		fmt.Fprintf(os.Stderr, "%s %s: %s\n", fault.Time.UTC().Format(time.RFC3339), check, fault.Text)
	}
	report, err := probe.Run(ctx, options)
	if err != nil {
		return fmt.Errorf("ctaudit: %w", err)
	}
	fmt.Fprint(out, report.Text())
	if err := given.write(report); err != nil {
		return fmt.Errorf("ctaudit: %w", err)
	}
	if !report.Passed {
		return fmt.Errorf("%w: %s", errFailed, strings.Join(report.FailedChecks(), ", "))
	}
	return nil
}

// write writes the report into its two files.
func (p *probeFlags) write(report probe.Report) error {
	if p.report == "" {
		return nil
	}
	content, err := report.JSON()
	if err != nil {
		return err
	}
	if err := os.WriteFile(p.report, []byte(report.Text()), 0o644); err != nil {
		return err
	}
	return os.WriteFile(p.report+".json", content, 0o644)
}

// options returns the options that the flags set. The error names the flag that is wrong.
func (p *probeFlags) options(address string) (options probe.Options, err error) {
	options = probe.Options{SubmissionURL: address, MonitoringURL: p.monitoring, Schedule: p.schedule,
		Bounds: probe.Bounds{Availability: p.availability / 100, Latency: p.latency}}
	options.Schedule.Slow = time.Minute
	if err := p.check(address); err != nil {
		return options, err
	}
	if options.Submitter, err = p.submitter(); err != nil {
		return options, err
	}
	if options.Client, err = logclient.OptionsOf("ctaudit", version.Number(), p.ca, p.contact); err != nil {
		return options, err
	}
	options.Client.Retrying = logflags.PrintRetries("ctaudit", os.Stderr)
	if p.roots != "" {
		roots, err := chain.RootFiles{Paths: strings.Split(p.roots, ",")}.Load()
		if err != nil {
			return options, fmt.Errorf("--wanted-roots: %w", err)
		}
		options.Roots = roots.Certificates()
	}
	err = p.expects(address, &options)
	return options, err
}

// check returns an error if an address, a duration or a percentage among the flags is wrong.
func (p *probeFlags) check(address string) error {
	for name, given := range map[string]string{"URL": address, "--monitoring-url": p.monitoring} {
		if at, err := url.Parse(given); given != "" && (err != nil || at.Scheme != "https" && at.Scheme != "http" ||
			at.Host == "") {
			return fmt.Errorf("%s %q is not an address (write https://HOST/PATH)", name, given)
		}
	}
	for name, given := range map[string]time.Duration{"for": p.schedule.For, "poll-interval": p.schedule.Poll,
		"submit-interval": p.schedule.Submit, "max-latency": p.latency} {
		if err := settingsfile.Positive(name, given); err != nil {
			return err
		}
	}
	return settingsfile.Percentage("min-availability", p.availability)
}

// expects reads the log's entry in a log list into the options.
func (p *probeFlags) expects(address string, options *probe.Options) error {
	if p.listEntry == "" {
		return nil
	}
	content, err := os.ReadFile(p.listEntry)
	if err != nil {
		return fmt.Errorf("--list-entry: %w", err)
	}
	expected, err := probe.ReadExpected(content)
	if err != nil {
		return fmt.Errorf("--list-entry %s: %w", p.listEntry, err)
	}
	options.Expected, options.Source = &expected, p.listEntry
	if strings.TrimRight(address, "/") == "https://"+expected.Origin {
		options.MonitoringURL = cmp.Or(p.monitoring, expected.URL)
	}
	return nil
}

// submitter returns the source of the chains.
func (p *probeFlags) submitter() (probe.Submitter, error) {
	switch hasIssuer := p.issuer != "" || p.issuerKey != ""; {
	case p.chains != "" && hasIssuer:
		return nil, errors.New("--chains and --issuer are two kinds of chains (give one of them)")
	case p.chains != "":
		return asSubmitter(probe.NewFolder(p.chains))
	case !hasIssuer:
		return nil, errors.New("there is nothing to submit (give --issuer and --issuer-key, or --chains)")
	case p.issuer == "" || p.issuerKey == "":
		return nil, errors.New("--issuer and --issuer-key are only of use together")
	}
	certificates, err := os.ReadFile(p.issuer)
	if err != nil {
		return nil, fmt.Errorf("--issuer: %w", err)
	}
	key, err := os.ReadFile(p.issuerKey)
	if err != nil {
		return nil, fmt.Errorf("--issuer-key: %w", err)
	}
	return asSubmitter(probe.NewAuthority(certificates, key))
}

// asSubmitter returns a submitter, or a nil interface if there is an error.
func asSubmitter[S probe.Submitter](of S, err error) (probe.Submitter, error) {
	if err != nil {
		return nil, err
	}
	return of, nil
}
