package main

import (
	"context"
	"errors"
	"flag"
	"fmt"
	"io"
	"net/http"
	"os"
	"strings"
	"time"

	"wagtenib/internal/command/settingsfile"
	"wagtenib/internal/command/version"
	"wagtenib/internal/log/chain"
	"wagtenib/internal/log/roots"
	"wagtenib/internal/logclient"
)

// rootsPage is what `ctserve roots --help` prints before the flags.
const rootsPage = `ctserve roots --into FOLDER TABLE.. writes the roots of tables of CCADB (CSV, each a file or an
address that begins with https://) into the file ccadb.pem of a log's folder of roots: those whose trust bits are for
TLS servers and whose status is Included. Other files in the folder stay as they are. It prints what changed. The exit
status is 0 if the file has the roots of the tables now, 1 if it stays as it was, and 2 if the arguments are wrong.`

// rootsFlags are the flags of `ctserve roots`.
type rootsFlags struct {
	into, ca    string
	maxFall     float64
	allIncluded bool
}

func (r *rootsFlags) add(to *flag.FlagSet) {
	to.StringVar(&r.into, "into", "", "`folder` of the log's roots, which the setting roots names")
	to.Float64Var(&r.maxFall, "max-fall", 5, "`percentage` of the roots in ccadb.pem that may go at once")
	to.BoolVar(&r.allIncluded, "all-included", false, "the tables have only roots that are included, so they need no "+
		"column of statuses")
	to.StringVar(&r.ca, "ca-file", "", "`file` in PEM with the CA of the addresses (default: the CAs of the system)")
}

// tableWithin is the maximum time to fetch a table.
const tableWithin = 5 * time.Minute

// runRoots writes the roots of tables of CCADB into a file.
func runRoots(arguments []string, stdout, stderr io.Writer) error {
	flags := commandFlags("roots", rootsPage, stderr)
	var given rootsFlags
	given.add(flags)
	if err := parseArguments(flags, arguments); err != nil {
		return err
	}
	if given.into == "" || flags.NArg() == 0 || settingsfile.Percentage("max-fall", given.maxFall) != nil {
		return fmt.Errorf("%w: roots needs --into, a table, and a percentage as --max-fall (see ctserve roots --help)",
			errUsage)
	}
	if about, err := os.Stat(given.into); err != nil || !about.IsDir() {
		return fmt.Errorf("%w: --into %s is not a folder", errUsage, given.into)
	}
	var from []roots.Source
	for _, table := range flags.Args() {
		text, err := given.table(table)
		if err != nil {
			return fmt.Errorf("%s: %w", table, err)
		}
		from = append(from, roots.Source{Name: table, Text: text, AllIncluded: given.allIncluded})
	}
	change, err := roots.Update(given.into, from, given.maxFall)
	printChange(stdout, change)
	if err != nil {
		return fmt.Errorf("%s stays as it was: %w", roots.File(given.into), err)
	}
	fmt.Fprintf(stdout, "%s: %d roots, %d added, %d removed\n", roots.File(given.into), change.Roots, len(change.Added),
		len(change.Removed))
	return nil
}

// printChange prints the roots that changed, or would have changed.
func printChange(to io.Writer, change roots.Change) {
	for _, root := range change.Added {
		fmt.Fprintln(to, "added", root)
	}
	for _, root := range change.Removed {
		fmt.Fprintln(to, "removed", root)
	}
	for _, row := range change.Damaged {
		fmt.Fprintln(to, "damaged", row)
	}
	fmt.Fprintf(to, "left out: %d not for TLS servers, %d not included\n", change.OtherPurpose, change.OtherStatus)
}

// table reads a table from a file, or from an address.
func (r *rootsFlags) table(from string) ([]byte, error) {
	if !strings.Contains(from, "://") {
		return os.ReadFile(from)
	}
	if !strings.HasPrefix(from, "https://") {
		return nil, errors.New("the address must begin with https:// (otherwise others on the network could add roots)")
	}
	options, err := logclient.OptionsOf("ctserve-roots", version.Number(), r.ca, "")
	if err != nil {
		return nil, err
	}
	ctx, cancel := context.WithTimeout(context.Background(), tableWithin)
	defer cancel()
	request, err := http.NewRequestWithContext(ctx, http.MethodGet, from, nil)
	if err != nil {
		return nil, err
	}
	request.Header.Set("User-Agent", options.UserAgent)
	checkRedirect := func(next *http.Request, before []*http.Request) error {
		if next.URL.Scheme != "https" || len(before) > 3 {
			return fmt.Errorf("it redirects to %s", next.URL)
		}
		return nil
	}
	client := http.Client{Transport: options.Transport, CheckRedirect: checkRedirect}
	answer, err := client.Do(request)
	if err != nil {
		return nil, err
	}
	defer answer.Body.Close()
	if answer.StatusCode != http.StatusOK {
		return nil, fmt.Errorf("status %d", answer.StatusCode)
	}
	// ReadTable refuses a table that is longer.
	return io.ReadAll(io.LimitReader(answer.Body, chain.MaxRootBytes+1))
}
