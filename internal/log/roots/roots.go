// Package roots keeps a file with the roots of tables of CCADB. A log accepts these roots in addition to those that its
// operator added.
//
// The package replaces only its own file, as a whole. It does not replace it if too many roots would be removed: a log
// must not lose roots because a table was cut off, or because a column has another meaning.
package roots

import (
	"bytes"
	"crypto/sha256"
	"crypto/x509"
	"encoding/pem"
	"errors"
	"fmt"
	"path/filepath"
	"slices"
	"strings"

	"wagtenib/internal/blob"
	"wagtenib/internal/log/chain"
)

// The reasons for which the file is not replaced. Use errors.Is.
var (
	// ErrFall means that more roots would be removed than the limit allows.
	ErrFall = errors.New("roots: too many roots would be removed")
	// ErrNone means that the tables have no root that is included and for TLS servers.
	ErrNone = errors.New("roots: the tables have no root that is for TLS servers and included")
	// ErrFile means that this package did not write the file.
	ErrFile = errors.New("roots: the file was not written by this program (move it to another name in the folder)")
)

// Source is a table of CCADB. The user gives its name, which is used in messages.
type Source struct {
	Name string
	Text []byte
	// AllIncluded is whether all roots of the table are included, so that the table needs no column of statuses.
	AllIncluded bool
}

// Root is a root of the file.
type Root struct {
	Fingerprint [sha256.Size]byte
	Name        string // the name in the table
	der         []byte
}

func (r Root) String() string { return fmt.Sprintf("%x %s", r.Fingerprint, r.Name) }

// Damaged is a row of a table whose certificate cannot be read, or has another fingerprint than the row.
type Damaged struct {
	Source string
	Row    int // from 1, without the header
	Name   string
	Why    error
	// Stays is whether the file has a root with the fingerprint of the row. Such a root is kept.
	Stays bool

	fingerprint []byte
}

func (d Damaged) String() string {
	return fmt.Sprintf("%s, row %d (%.80q): %v", d.Source, d.Row, d.Name, d.Why)
}

// Change holds how a file was changed, or how it would be changed.
type Change struct {
	Roots                     int // in the file after the change
	Added, Removed            []Root
	OtherPurpose, OtherStatus int // rows that were left out
	Damaged                   []Damaged
}

// wanted collects the roots of tables that the file must have.
type wanted struct {
	roots  map[[sha256.Size]byte]Root
	change Change
}

// fileName is the name of the file in the folder of roots. firstLine is its first line.
const (
	fileName  = "ccadb.pem"
	firstLine = "# Written by ctserve roots. The next run replaces it: add other roots in files of their own.\n"
)

// File returns the path of the file in a folder of roots.
func File(folder string) string { return filepath.Join(folder, fileName) }

// Update replaces the roots in the file of a folder by those roots of the tables that are included and for TLS servers.
// maxFall is the maximum percentage of the file's roots that may be removed. If Update fails, it does not change the
// file, and the returned Change says how the file would have been changed.
func Update(folder string, sources []Source, maxFall float64) (Change, error) {
	w := &wanted{roots: map[[sha256.Size]byte]Root{}}
	for _, source := range sources {
		if err := w.add(source); err != nil {
			return Change{}, err
		}
	}
	change := &w.change
	before, err := read(File(folder))
	if err != nil {
		return Change{}, err
	}
	for i := range change.Damaged {
		row := &change.Damaged[i]
		if len(row.fingerprint) != sha256.Size {
			continue
		}
		if root, ok := before[[sha256.Size]byte(row.fingerprint)]; ok {
			row.Stays = true
			w.roots[root.Fingerprint] = root
		}
	}
	for fingerprint, root := range w.roots {
		if _, ok := before[fingerprint]; !ok {
			change.Added = append(change.Added, root)
		}
	}
	for fingerprint, root := range before {
		if _, ok := w.roots[fingerprint]; !ok {
			change.Removed = append(change.Removed, root)
		}
	}
	sortRoots(change.Added)
	sortRoots(change.Removed)
	change.Roots = len(w.roots)
	if len(w.roots) == 0 {
		return *change, ErrNone
	}
	if fall := 100 * float64(len(change.Removed)) / float64(max(len(before), 1)); fall > maxFall {
		return *change, fmt.Errorf("%w: %d of %d, and at most %g %% may be removed (check the tables, or raise "+
			"--max-fall)", ErrFall, len(change.Removed), len(before), maxFall)
	}
	if len(change.Added)+len(change.Removed) == 0 && len(before) > 0 {
		return *change, nil
	}
	return *change, blob.ShowFile(File(folder), w.file())
}

// add adds the roots of a table.
func (w *wanted) add(source Source) error {
	table, err := chain.ReadTable(source.Text)
	if err != nil {
		return fmt.Errorf("roots: %s: %w", source.Name, err)
	}
	columns := strings.Join(table.Columns, ", ")
	if !table.HasPurposes {
		return fmt.Errorf("roots: %s: %w: no column of trust bits is among %s", source.Name, chain.ErrColumn, columns)
	}
	if !table.HasStatuses && !source.AllIncluded {
		return fmt.Errorf("roots: %s: %w: no column of statuses is among %s (if all roots of the table are included, "+
			"give --all-included)", source.Name, chain.ErrColumn, columns)
	}
	for at, row := range table.Rows {
		switch {
		case errors.Is(row.Why, chain.ErrPurpose):
			w.change.OtherPurpose++
		case errors.Is(row.Why, chain.ErrStatus):
			w.change.OtherStatus++
		default:
			root, err := rootOf(row)
			if err != nil {
				w.change.Damaged = append(w.change.Damaged, Damaged{Source: source.Name, Row: at + 1, Name: row.Name,
					Why: err, fingerprint: row.Fingerprint})
				continue
			}
			w.roots[root.Fingerprint] = root
		}
	}
	return nil
}

// rootOf returns the root in a row.
func rootOf(row chain.TableRow) (Root, error) {
	block, rest := pem.Decode(row.PEM)
	if block == nil || block.Type != "CERTIFICATE" || len(bytes.TrimSpace(rest)) > 0 {
		return Root{}, errors.New("it has no certificate in PEM, or more than one")
	}
	if _, err := x509.ParseCertificate(block.Bytes); err != nil {
		return Root{}, err
	}
	fingerprint := sha256.Sum256(block.Bytes)
	if row.Fingerprint != nil && !bytes.Equal(row.Fingerprint, fingerprint[:]) {
		return Root{}, fmt.Errorf("its certificate has another SHA-256 fingerprint, %x", fingerprint)
	}
	return Root{fingerprint, oneLine(row.Name), block.Bytes}, nil
}

// oneLine returns a name with spaces in place of all characters that could end its line in the file.
func oneLine(name string) string {
	return strings.Map(func(char rune) rune {
		if char < ' ' || char == 0x7f {
			return ' '
		}
		return char
	}, name)
}

func sortRoots(roots []Root) {
	slices.SortFunc(roots, func(a, b Root) int { return bytes.Compare(a.Fingerprint[:], b.Fingerprint[:]) })
}

// file returns the content of the file. It depends only on the roots.
func (w *wanted) file() []byte {
	roots := make([]Root, 0, len(w.roots))
	for _, root := range w.roots {
		roots = append(roots, root)
	}
	sortRoots(roots)
	content := []byte(firstLine)
	for _, root := range roots {
		content = fmt.Appendf(content, "# %s\n", root)
		content = append(content, pem.EncodeToMemory(&pem.Block{Type: "CERTIFICATE", Bytes: root.der})...)
	}
	return content
}

// read returns the roots in a file that Update wrote, or none if there is no file.
func read(path string) (map[[sha256.Size]byte]Root, error) {
	content, err := blob.KeptFile(path)
	if errors.Is(err, blob.ErrAbsent) {
		return nil, nil
	}
	if err != nil {
		return nil, fmt.Errorf("roots: %w", err)
	}
	if !bytes.HasPrefix(content, []byte(firstLine)) {
		return nil, fmt.Errorf("%w: %s", ErrFile, path)
	}
	names := map[string]string{}
	for _, line := range strings.Split(string(content), "\n") {
		if fingerprint, name, ok := strings.Cut(strings.TrimPrefix(line, "# "), " "); ok {
			names[fingerprint] = name
		}
	}
	found := map[[sha256.Size]byte]Root{}
	for block, rest := pem.Decode(content); block != nil; block, rest = pem.Decode(rest) {
		fingerprint := sha256.Sum256(block.Bytes)
		found[fingerprint] = Root{fingerprint, names[fmt.Sprintf("%x", fingerprint)], block.Bytes}
	}
	return found, nil
}
