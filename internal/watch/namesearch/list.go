package namesearch

import (
	"bufio"
	"errors"
	"fmt"
	"io"
	"strings"
	"time"
)

// maxLine is the maximum number of bytes of a line of a watch list.
const maxLine = 64 << 10

// ParseList reads a watch list of ctwatch, which has one name in each line. It ignores empty lines, lines that begin
// with # and repeated names. It reports all wrong lines in one error, each with its number.
func ParseList(from io.Reader) ([]Name, error) { return parseList(from, ParseName) }

// ParseCertspotterList reads a watch list of SSLMate's certspotter: ".example.org" covers the name and all names below
// it, "example.org" covers only that name, and "." covers every certificate. A name may be followed by a valid date, as
// in "valid_at:2026-01-02". It is not used, because ctwatch sends an alert when a certificate is logged.
func ParseCertspotterList(from io.Reader) ([]Name, error) { return parseList(from, parseCertspotter) }

func parseCertspotter(line string) (Name, error) {
	fields := strings.Fields(line)
	for _, option := range fields[1:] {
		date, found := strings.CutPrefix(option, "valid_at:")
		if _, err := time.Parse(time.DateOnly, date); !found || err != nil {
			return Name{}, fmt.Errorf("%w %.300q: %.100q is no option of a watch list (write "+
				"valid_at:YEAR-MONTH-DAY)", ErrName, fields[0], option)
		}
	}
	text, below := strings.CutPrefix(fields[0], ".")
	if below && text == "" {
		return Name{text: "."}, nil
	}
	name, err := parse(text, !below)
	if err != nil {
		return Name{}, fmt.Errorf("%w %.300q: %w", ErrName, fields[0], err)
	}
	return name, nil
}

func parseList(from io.Reader, parse func(string) (Name, error)) ([]Name, error) {
	lines := bufio.NewScanner(from)
	lines.Buffer(nil, maxLine)
	var names []Name
	var faults []error
	seen := map[string]bool{}
	for number := 1; lines.Scan(); number++ {
		line := strings.TrimSpace(lines.Text())
		if line == "" || line[0] == '#' {
			continue
		}
		name, err := parse(line)
		if err != nil {
			faults = append(faults, fmt.Errorf("line %d: %w", number, err))
		} else if !seen[name.text] {
			seen[name.text] = true
			names = append(names, name)
		}
	}
	if err := lines.Err(); err != nil {
		faults = append(faults, err)
	}
	if len(faults) == 0 && len(names) == 0 {
		faults = append(faults, errors.New("there is no name in it (write a domain a line, for example example.org)"))
	}
	return names, errors.Join(faults...)
}
