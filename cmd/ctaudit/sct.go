package main

import (
	"context"
	"errors"
	"fmt"
	"io"
	"os"
	"strings"

	"wagtenib/internal/audit"
	"wagtenib/internal/ct"
	"wagtenib/internal/watch/alert"
)

// sctStatuses holds the exit status for each outcome.
var sctStatuses = map[audit.Outcome]int{audit.Included: 0, audit.NotYet: statusNotYet,
	audit.UnknownLog: statusUnknownLog, audit.NoAnswer: statusUnread,
	audit.Unreadable: statusFault, audit.Overdue: statusAccused, audit.Future: statusAccused,
	audit.LaterEntry: statusAccused, audit.Never: statusAccused}

// maxCertificateFile is the maximum number of bytes of a file with certificates or timestamps.
const maxCertificateFile = 16 << 20

// sctPage is what `ctaudit sct --help` prints before the flags.
const sctPage = `ctaudit sct CERTIFICATE

Asks logs whether they keep the promises (SCTs) in a certificate. CERTIFICATE is a file with the certificate and that of
its issuer after it, in PEM. It prints the outcome for each timestamp. The status is that of the gravest outcome.
`

// runSCT audits the timestamps in a certificate, or those in a file. The exit status is the one of the gravest outcome.
func runSCT(ctx context.Context, arguments []string, out io.Writer) error {
	a, flags := &asking{}, flagsOf("sct")
	a.define(flags)
	issuerFile := flags.String("issuer", "",
		"`file` with the certificate of the issuer, if it does not follow in the same file")
	sctFile := flags.String("sct", "", "`file` with timestamps that you hold for the certificate, which are audited in "+
		"place of those in it: the answer of a log to add-chain or add-pre-chain, or an SCT or a list of them as TLS has it")
	arguments, err := parseFlags(flags, sctPage, arguments, 1, 1, out)
	if err != nil {
		return err
	}
	certificate, issuer, err := readPair(arguments[0], *issuerFile)
	if err != nil {
		return err
	}
	var scts []ct.SCT
	if *sctFile != "" {
		content, err := readSmall(*sctFile)
		if err != nil {
			return err
		}
		if scts, err = ct.ReadSCTs(content); err != nil {
			return fmt.Errorf("%w: --sct %s: %w", errUsage, *sctFile, err)
		}
	}
	client, logs, err := a.open(ctx)
	if err != nil {
		return err
	}
	auditor := audit.New(logs, client)
	var results []audit.Result
	if scts != nil {
		results, err = auditor.SCTs(ctx, scts, certificate, issuer)
	} else {
		results, err = auditor.Certificate(ctx, certificate, issuer)
	}
	switch {
	case errors.Is(err, audit.ErrNoSCTs):
		return fmt.Errorf("%w: %s: %w (give timestamps that you hold for it by --sct)", errUsage, arguments[0], err)
	case err != nil:
		return fmt.Errorf("ctaudit: %s: %w", arguments[0], err)
	}
	return a.printResults(results, out)
}

// readPair returns a certificate and the certificate of its issuer, in DER. The issuer is nil if no file has it.
func readPair(certificateFile, issuerFile string) (certificate, issuer []byte, err error) {
	content, err := readSmall(certificateFile)
	if err != nil {
		return nil, nil, err
	}
	chain, err := audit.Certificates(content)
	if err != nil {
		return nil, nil, unreadable(certificateFile, err)
	}
	if issuerFile != "" {
		if content, err = readSmall(issuerFile); err != nil {
			return nil, nil, err
		}
		issuers, err := audit.Certificates(content)
		if err != nil {
			return nil, nil, unreadable(issuerFile, err)
		}
		return chain[0], issuers[0], nil
	}
	if len(chain) > 1 {
		issuer = chain[1]
	}
	return chain[0], issuer, nil
}

// unreadable returns the error for a file without a certificate.
func unreadable(file string, err error) error {
	return fmt.Errorf("%w: %s: %w (give a file with the certificate, and that of its issuer after it, in PEM)", errUsage,
		file, err)
}

// readSmall returns the bytes of a file, or an error if it is too long.
func readSmall(name string) ([]byte, error) {
	file, err := os.Open(name)
	if err != nil {
		return nil, fmt.Errorf("%w: %w", errUsage, err)
	}
	defer file.Close()
	content, err := io.ReadAll(io.LimitReader(file, maxCertificateFile+1))
	if err == nil && len(content) > maxCertificateFile {
		err = fmt.Errorf("%w: %s has more than %d bytes", errUsage, name, maxCertificateFile)
	}
	return content, err
}

// printResults prints a line for each timestamp, and writes the evidence. Its error has the exit status of the gravest
// outcome.
func (a *asking) printResults(results []audit.Result, out io.Writer) error {
	gravest := audit.Included
	var faults []error
	for number, result := range results {
		name := result.Log.Name
		if name == "" {
			name = fmt.Sprintf("log %x", result.SCT.LogID[:8])
		}
		if _, err := fmt.Fprintf(out, "%s: %s: %s\n", alert.Safe(name), strings.ToUpper(result.Outcome.String()),
			alert.Safe(result.Text)); err != nil {
			return err
		}
		gravest = max(gravest, result.Outcome)
		if result.Outcome == audit.Unreadable && len(results) > 0 {
			faults = append(faults, errors.New("ctaudit: give the certificate of the issuer by --issuer, or after the "+
				"certificate in the same file"))
		}
		if result.Evidence != nil {
			faults = append(faults, a.writeEvidence(fmt.Sprint(number+1), result.Evidence))
		}
	}
	if err := errors.Join(faults...); err != nil {
		return err
	}
	if gravest == audit.Included {
		return nil
	}
	return &statusError{sctStatuses[gravest], fmt.Sprintf("ctaudit: the gravest outcome of %d timestamps is: %v",
		len(results), gravest)}
}
