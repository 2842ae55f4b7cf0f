package main

import (
	"fmt"
	"net/netip"
	"strconv"
	"strings"
	"time"

	"wagtenib/internal/command/settingsfile"
	"wagtenib/internal/log/httpd"
)

func prefixes(text string) (found []netip.Prefix, err error) {
	for _, part := range strings.Split(text, ",") {
		prefix, err := prefixOf(part)
		if err != nil {
			return nil, err
		}
		found = append(found, prefix)
	}
	return found, nil
}

// prefixOf parses a prefix, or an address as the prefix with only this address.
func prefixOf(text string) (netip.Prefix, error) {
	text = strings.TrimSpace(text)
	if address, err := netip.ParseAddr(text); err == nil {
		return address.Prefix(address.BitLen())
	}
	prefix, err := netip.ParsePrefix(text)
	return prefix.Masked(), err
}

// submitters parses prefixes, each with a bound. No prefix may occur twice.
func submitters(text string) (found []httpd.Submitter, err error) {
	for _, part := range strings.Split(text, ",") {
		of, number, _ := strings.Cut(part, "=")
		prefix, err := prefixOf(of)
		if err != nil {
			return nil, err
		}
		bound, err := strconv.Atoi(strings.TrimSpace(number))
		if err != nil || bound < 1 {
			return nil, fmt.Errorf("%s has no bound above 0 (write PREFIX=NUMBER)", strings.TrimSpace(part))
		}
		for _, other := range found {
			if other.Prefix == prefix {
				return nil, fmt.Errorf("%s occurs twice", prefix)
			}
		}
		found = append(found, httpd.Submitter{Prefix: prefix, Max: bound})
	}
	return found, nil
}

// boolean returns a function that parses true or false.
func boolean(into **bool) func(string) error {
	return func(text string) error {
		on, err := strconv.ParseBool(text)
		if err != nil {
			return fmt.Errorf("%q is neither true nor false (the guard is part of this program, and on if nothing is set)", text)
		}
		*into = &on
		return nil
	}
}

// positiveDuration returns a function that parses a duration above 0.
func positiveDuration(into *time.Duration) func(string) error {
	return func(text string) error {
		set, err := settingsfile.Duration(text)
		if err == nil && set <= 0 {
			err = fmt.Errorf("%v is not above 0 (write for example 50ms or 30s)", set)
		}
		*into = set
		return err
	}
}

func timestamp(into *time.Time) func(string) error {
	return func(text string) (err error) {
		if *into, err = time.Parse("2006-01-02", text); err != nil {
			*into, err = time.Parse(time.RFC3339, text)
		}
		return err
	}
}
