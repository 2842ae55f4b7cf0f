package chain

import (
	"bytes"
	"encoding/csv"
	"encoding/hex"
	"errors"
	"fmt"
	"io"
	"regexp"
	"strings"
)

// The reasons for which a root of a table of CCADB is not accepted, or a table cannot be used. Use errors.Is.
var (
	// ErrPurpose means that the trust bits of a root do not include TLS servers.
	ErrPurpose = errors.New("its trust bits are not for TLS servers")
	// ErrStatus means that no root program includes the root now.
	ErrStatus = errors.New("its status is not Included")
	// ErrColumn means that a table lacks a column that is needed.
	ErrColumn = errors.New("a column is missing")
)

// TableRow is a root of a table of CCADB.
type TableRow struct {
	// Name is the name of the root in the table, and PEM its certificate.
	Name string
	PEM  []byte
	// Fingerprint is the SHA-256 fingerprint in the table. It is nil if the table has no such column, and empty if the
	// value is not hexadecimal.
	Fingerprint []byte
	// Why is ErrPurpose or ErrStatus if the root is not for TLS servers or not included, and otherwise nil. A column
	// that the table does not have is not checked.
	Why error
}

// Table is a table of CCADB.
type Table struct {
	Rows []TableRow
	// HasPurposes and HasStatuses are whether the table has columns of trust bits and of statuses.
	HasPurposes, HasStatuses bool
	// Columns are the names of all columns.
	Columns []string
}

// The columns of CCADB's reports, by their names. The reports differ: that of Mozilla has "Trust Bits", that of
// Microsoft "Microsoft EKUs", and the one over all programs "Status of Root Cert" and a status for each program.
var (
	purposeColumn = regexp.MustCompile(`(?i)trust bits|\bekus?\b|use case`)
	statusColumn  = regexp.MustCompile(`(?i)^(status of root cert|(mozilla|microsoft|apple|google chrome|chrome) status)$`)
	nameColumn    = regexp.MustCompile(`(?i)certificate name`)
	hashColumn    = regexp.MustCompile(`(?i)^sha-?256 fingerprint$`)
	pemColumn     = regexp.MustCompile(`PEM`)
)

// columns holds the indexes of the columns of a table, or -1 for a column that the table does not have.
type columns struct {
	pem, name, hash    int
	purposes, statuses []int
}

// columnsOf finds the columns by their names. If there are several columns of trust bits or of statuses, all of them
// count. If there are several columns of another kind, the first one counts.
func columnsOf(header []string) columns {
	found := columns{pem: -1, name: -1, hash: -1}
	setFirst := func(index *int, matches bool, column int) {
		if matches && *index < 0 {
			*index = column
		}
	}
	for at, name := range header {
		name = strings.TrimSpace(strings.TrimPrefix(name, "\ufeff"))
		setFirst(&found.pem, pemColumn.MatchString(name), at)
		setFirst(&found.name, nameColumn.MatchString(name), at)
		setFirst(&found.hash, hashColumn.MatchString(name), at)
		if purposeColumn.MatchString(name) {
			found.purposes = append(found.purposes, at)
		}
		if statusColumn.MatchString(name) {
			found.statuses = append(found.statuses, at)
		}
	}
	return found
}

// items returns the parts of a value of CCADB, in lower case and without spaces.
func items(value string) (found []string) {
	for _, part := range strings.FieldsFunc(value, func(char rune) bool { return char == ';' || char == ',' }) {
		found = append(found, strings.ToLower(strings.Join(strings.Fields(part), "")))
	}
	return found
}

// hasServers reports whether trust bits include TLS servers, which CCADB calls Websites or Server Authentication.
func hasServers(value string) bool {
	for _, item := range items(value) {
		if item == "websites" || strings.HasPrefix(item, "serverauth") {
			return true
		}
	}
	return false
}

// isIncluded reports whether a status says that a root program includes the root. The status column of all programs
// names each program: "Apple: Included; Mozilla: Removed".
func isIncluded(value string) bool {
	for _, item := range items(value) {
		if _, status, named := strings.Cut(item, ":"); named {
			item = status
		}
		if item == "included" {
			return true
		}
	}
	return false
}

// ReadTable reads a table of CCADB (.csv). Its first line has the names of the columns. The column of certificates has
// PEM in its name, and its values may be between apostrophes. If there is no such column, the error wraps ErrColumn.
func ReadTable(text []byte) (*Table, error) {
	if len(text) > MaxRootBytes {
		return nil, fmt.Errorf("chains: roots: more than %d bytes", MaxRootBytes)
	}
	lines := csv.NewReader(bytes.NewReader(text))
	lines.LazyQuotes = true
	header, err := lines.Read()
	if err != nil {
		return nil, err
	}
	at := columnsOf(header)
	if at.pem < 0 {
		return nil, fmt.Errorf("%w: no column has PEM in its name", ErrColumn)
	}
	table := &Table{HasPurposes: len(at.purposes) > 0, HasStatuses: len(at.statuses) > 0, Columns: header}
	for {
		row, err := lines.Read()
		if err == io.EOF {
			return table, nil
		}
		if err != nil {
			return nil, err
		}
		table.Rows = append(table.Rows, at.row(row))
	}
}

// row reads the values of one line of a table.
func (c columns) row(values []string) TableRow {
	row := TableRow{PEM: []byte(strings.Trim(values[c.pem], "' \n"))}
	if c.name >= 0 {
		row.Name = values[c.name]
	}
	if c.hash >= 0 {
		// A value that is not hexadecimal is no error here, since it never equals the certificate's fingerprint.
		text := strings.ToLower(strings.ReplaceAll(strings.TrimSpace(values[c.hash]), ":", ""))
		row.Fingerprint, _ = hex.DecodeString(text)
		if row.Fingerprint == nil {
			row.Fingerprint = []byte{}
		}
	}
	// isAny reports whether a condition holds for any of the columns, or there are no such columns.
	isAny := func(columns []int, holds func(string) bool) bool {
		for _, at := range columns {
			if holds(values[at]) {
				return true
			}
		}
		return len(columns) == 0
	}
	switch {
	case !isAny(c.purposes, hasServers):
		row.Why = ErrPurpose
	case !isAny(c.statuses, isIncluded):
		row.Why = ErrStatus
	}
	return row
}
