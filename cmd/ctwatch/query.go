package main

import (
	"context"
	"encoding/json"
	"encoding/pem"
	"errors"
	"fmt"
	"io"
	"strconv"
	"strings"
	"time"

	"wagtenib/internal/watch/alert"
	"wagtenib/internal/watch/namesearch"
	"wagtenib/internal/watch/watchstore"
)

var (
	_ = addCommand("query", "NAME lists the certificates in the store for a name", runQuery)
	_ = addCommand("certificate", "HASH prints a certificate that is in the store, in PEM", runCertificate)
	_ = addCommand("evidence", "NUMBER FOLDER writes the files of evidence against a log", runEvidence)
)

// maxQueryBatch is the maximum number of certificates that are read from the store at a time.
const maxQueryBatch = 500

// runQuery prints the certificates in the store for a name, the newest first.
func runQuery(_ context.Context, arguments []string, out io.Writer) error {
	flags := flagsOf("query")
	folder := folderFlag(flags)
	isValid := flags.Bool("valid", false, "only certificates that are valid now")
	asJSON := flags.Bool("json", false, "a line of JSON for each certificate")
	limit := flags.Int("limit", 0, "maximum `number` of certificates; 0 for all")
	arguments, err := parseFlags(flags, arguments, 1, out)
	if err != nil {
		return err
	}
	name, err := namesearch.ParseName(arguments[0])
	if err != nil {
		return fmt.Errorf("%w: %w", errUsage, err)
	}
	store, err := watchstore.OpenToRead(*folder)
	if err != nil {
		return err
	}
	query := watchstore.Query{Name: &name}
	if *isValid {
		query.ValidAt = time.Now()
	}
	return errors.Join(printFound(store, query, *limit, *asJSON, out), store.Close())
}

func printFound(store *watchstore.Store, query watchstore.Query, limit int, asJSON bool, out io.Writer) error {
	printed := 0
	for {
		query.Limit = maxQueryBatch
		if limit > 0 {
			query.Limit = min(maxQueryBatch, limit-printed)
		}
		found, err := store.Find(query)
		if err != nil || len(found) == 0 {
			return err
		}
		for _, one := range found {
			line := alert.Alert{Kind: alert.Found, ID: one.ID, Time: one.At, Certificate: one.Certificate}
			if err := printOne(line, asJSON, out); err != nil {
				return err
			}
			query.Before, printed = one.ID, printed+1
		}
		if limit > 0 && printed >= limit {
			return nil
		}
	}
}

func printOne(line alert.Alert, asJSON bool, out io.Writer) error {
	if asJSON {
		return json.NewEncoder(out).Encode(line.Certificate)
	}
	_, err := fmt.Fprintln(out, alert.Describe(line.Certificate))
	return err
}

// runCertificate prints a certificate in PEM.
func runCertificate(_ context.Context, arguments []string, out io.Writer) error {
	flags := flagsOf("certificate")
	folder := folderFlag(flags)
	arguments, err := parseFlags(flags, arguments, 1, out)
	if err != nil {
		return err
	}
	store, err := watchstore.OpenToRead(*folder)
	if err != nil {
		return err
	}
	der, err := store.Certificate(strings.ToLower(arguments[0]))
	if err == nil {
		err = pem.Encode(out, &pem.Block{Type: "CERTIFICATE", Bytes: der})
	}
	return errors.Join(err, store.Close())
}

// runEvidence writes the files of evidence into a folder, and prints what happened.
func runEvidence(_ context.Context, arguments []string, out io.Writer) error {
	flags := flagsOf("evidence")
	folder := folderFlag(flags)
	arguments, err := parseFlags(flags, arguments, 2, out)
	if err != nil {
		return err
	}
	number, err := strconv.ParseInt(arguments[0], 10, 64)
	if err != nil {
		return fmt.Errorf("%w: %q is not the number of evidence (ctwatch health lists the evidence)", errUsage, arguments[0])
	}
	store, err := watchstore.OpenToRead(*folder)
	if err != nil {
		return err
	}
	evidence, log, err := store.Evidence(number)
	if err == nil {
		err = evidence.Write(arguments[1])
	}
	if err == nil {
		// Now that the files are written, the evidence counts as seen.
		err = store.MarkSeen(number)
	}
	if err == nil {
		fmt.Fprintf(out, "%s: %s, %s\n%s\n", alert.Safe(log), alert.Safe(evidence.Verdict),
			evidence.Time.UTC().Format(time.RFC3339), alert.Safe(evidence.Text))
	}
	return errors.Join(err, store.Close())
}
