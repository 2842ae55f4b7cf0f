package main

import (
	"context"
	"fmt"
	"io"

	"wagtenib/internal/watch/namesearch"
)

var _ = addCommand("names", "FILE checks a watch list, and prints what it covers", runNames)

// runNames checks a watch list.
func runNames(_ context.Context, arguments []string, out io.Writer) error {
	flags := flagsOf("names")
	ofCertspotter := flags.Bool("certspotter", false, "the file is a watch list of certspotter")
	arguments, err := parseFlags(flags, arguments, 1, out)
	if err != nil {
		return err
	}
	parse := namesearch.ParseList
	if *ofCertspotter {
		parse = namesearch.ParseCertspotterList
	}
	names, err := readNames(arguments[0], parse)
	if err != nil {
		return fmt.Errorf("%w: %w", errUsage, err)
	}
	for _, name := range names {
		if _, err := fmt.Fprintf(out, "%s\t%s\n", name, name.Covers()); err != nil {
			return err
		}
	}
	return nil
}
