package roots_test

import (
	"bytes"
	"crypto/sha256"
	"crypto/x509"
	"encoding/csv"
	"encoding/pem"
	"errors"
	"fmt"
	"os"
	"path/filepath"
	"slices"
	"strings"
	"testing"

	"wagtenib/internal/log/chain"
	"wagtenib/internal/log/roots"
	"wagtenib/internal/testkit"
)

// quoted returns a certificate as CCADB writes it: in PEM, between apostrophes.
func quoted(der []byte) string {
	return "'" + string(pem.EncodeToMemory(&pem.Block{Type: "CERTIFICATE", Bytes: der})) + "'"
}

// world holds the certificates of the tables by their names, and a folder of roots.
type world struct {
	t      *testing.T
	der    map[string][]byte
	folder string
}

func newWorld(t *testing.T, names ...string) *world {
	t.Helper()
	w := &world{t: t, der: map[string][]byte{}, folder: t.TempDir()}
	for _, name := range names {
		w.der[name] = testkit.NewAuthority(name).Root.Raw
	}
	return w
}

// row returns a line of the table of all root programs.
func (w *world) row(name, bits, status string) []string {
	return []string{"An owner", name, fmt.Sprintf("%X", sha256.Sum256(w.der[name])), bits, status, quoted(w.der[name])}
}

// header is the first line of that table.
var header = []string{"CA Owner", "Certificate Name", "SHA-256 Fingerprint", "Trust Bits for Root Cert",
	"Status of Root Cert", "X.509 Certificate (PEM)"}

// table returns the text of a table.
func table(rows ...[]string) []byte {
	var text bytes.Buffer
	_ = csv.NewWriter(&text).WriteAll(rows) // Writing to a buffer never fails.
	return text.Bytes()
}

func (w *world) update(maxFall float64, rows ...[]string) (roots.Change, error) {
	return roots.Update(w.folder, []roots.Source{{Name: "table", Text: table(rows...)}}, maxFall)
}

// wantRoots checks which roots a log loads from the folder.
func (w *world) wantRoots(names ...string) {
	w.t.Helper()
	loaded, err := chain.RootFiles{Paths: []string{w.folder}}.Load()
	testkit.Must(w.t, err)
	var found []string
	for _, der := range loaded.Certificates() {
		parsed, err := x509.ParseCertificate(der)
		testkit.Must(w.t, err)
		found = append(found, parsed.Subject.CommonName)
	}
	slices.Sort(found)
	if strings.Join(found, " ") != strings.Join(names, " ") {
		w.t.Errorf("the roots are %v, and %v are expected", found, names)
	}
}

func namesOf(all []roots.Root) string {
	var names []string
	for _, root := range all {
		names = append(names, root.Name)
	}
	slices.Sort(names)
	return strings.Join(names, " ")
}

// TestKeepsTheRootsOfServers: the roots of a table that are included and for TLS servers are kept. The roots of other
// files do not change.
func TestKeepsTheRootsOfServers(t *testing.T) {
	w := newWorld(t, "a", "b", "c", "mail", "code", "removed", "pending", "own")
	testkit.Must(t, os.WriteFile(filepath.Join(w.folder, "own.pem"), []byte(strings.Trim(quoted(w.der["own"]), "'")), 0o644))
	damaged := w.row("c", "Websites", "Mozilla: Included")
	damaged[5] = strings.Replace(damaged[5], "MII", "M\x00I", 1)
	change, err := w.update(5, header,
		w.row("a", "Websites;Email", "Apple: Included; Mozilla: Included"),
		w.row("b", "Server Authentication", "Apple: Removed; Google Chrome: Included"),
		damaged,
		w.row("mail", "Email", "Mozilla: Included"),
		w.row("code", "Code Signing;Client Authentication", "Microsoft: Included"),
		w.row("removed", "Websites", "Apple: Removed; Mozilla: Removed"),
		w.row("pending", "Websites", "Apple: Not Included; Mozilla: Pending"))
	testkit.Must(t, err)
	if change.Roots != 2 || namesOf(change.Added) != "a b" || len(change.Removed) != 0 || change.OtherPurpose != 2 ||
		change.OtherStatus != 2 || len(change.Damaged) != 1 || change.Damaged[0].Row != 3 || change.Damaged[0].Name != "c" {
		t.Errorf("%+v", change)
	}
	w.wantRoots("a", "b", "own")
	// The same table again changes nothing, and writes nothing.
	before, err := os.Stat(roots.File(w.folder))
	testkit.Must(t, err)
	change, err = w.update(5, header, w.row("b", "Websites", "Mozilla: Included"),
		w.row("a", "Websites", "Mozilla: Included"))
	testkit.Must(t, err)
	if after, err := os.Stat(roots.File(w.folder)); err != nil || !os.SameFile(before, after) ||
		len(change.Added)+len(change.Removed) != 0 {
		t.Errorf("%+v %v", change, err)
	}
}

// TestColumnsOfOtherReports: the columns of Mozilla's and Microsoft's reports are found although their names differ. A
// table without statuses is accepted only if the user says that all of its roots are included.
func TestColumnsOfOtherReports(t *testing.T) {
	w := newWorld(t, "a", "b", "mail", "disabled")
	hash := func(name string) string { return fmt.Sprintf("%X", sha256.Sum256(w.der[name])) }
	mozilla := roots.Source{Name: "mozilla", Text: table(
		[]string{"Owner", "Common Name or Certificate Name", "SHA-256 Fingerprint", "Trust Bits", "PEM Info"},
		[]string{"An owner", "a", hash("a"), "Email;Websites", quoted(w.der["a"])},
		[]string{"An owner", "mail", hash("mail"), "Email", quoted(w.der["mail"])})}
	microsoft := roots.Source{Name: "microsoft", Text: table(
		[]string{"Microsoft Status", "CA Common Name or Certificate Name", "SHA-256 Fingerprint", "Microsoft EKUs", "PEM"},
		[]string{"Included", "b", hash("b"), "Client Authentication;Server Authentication", quoted(w.der["b"])},
		[]string{"Disabled", "disabled", hash("disabled"), "Server Authentication", quoted(w.der["disabled"])})}
	if _, err := roots.Update(w.folder, []roots.Source{mozilla, microsoft}, 5); !errors.Is(err, chain.ErrColumn) {
		t.Errorf("%v", err)
	}
	mozilla.AllIncluded = true
	change, err := roots.Update(w.folder, []roots.Source{mozilla, microsoft}, 5)
	testkit.Must(t, err)
	if namesOf(change.Added) != "a b" || change.OtherPurpose != 1 || change.OtherStatus != 1 {
		t.Errorf("%+v", change)
	}
	w.wantRoots("a", "b")
}

// TestRefusesAFall: a table that would remove too many roots changes nothing, whatever is wrong with it.
func TestRefusesAFall(t *testing.T) {
	var names []string
	for i := range 20 {
		names = append(names, fmt.Sprintf("root-%02d", i))
	}
	w := newWorld(t, names...)
	rows := [][]string{header}
	for _, name := range names {
		rows = append(rows, w.row(name, "Websites", "Mozilla: Included"))
	}
	_, err := w.update(5, rows...)
	testkit.Must(t, err)
	before, err := os.ReadFile(roots.File(w.folder))
	testkit.Must(t, err)
	without := func(column int) (other [][]string) {
		for _, row := range rows {
			other = append(other, slices.Delete(slices.Clone(row), column, column+1))
		}
		return other
	}
	for what, test := range map[string]struct {
		rows     [][]string
		expected error
	}{
		"half of the rows":      {rows[:11], roots.ErrFall},
		"no rows":               {rows[:1], roots.ErrNone},
		"two of twenty":         {rows[:19], roots.ErrFall},
		"no trust bits":         {without(3), chain.ErrColumn},
		"no statuses":           {without(4), chain.ErrColumn},
		"no certificates":       {without(5), chain.ErrColumn},
		"other trust bits":      {replaced(rows, "Websites", "TLS"), roots.ErrNone},
		"a row that is cut off": {append(slices.Clone(rows), []string{"An owner"}), csv.ErrFieldCount},
	} {
		if _, err := w.update(5, test.rows...); !errors.Is(err, test.expected) {
			t.Errorf("%s: %v, and %v is expected", what, err, test.expected)
		}
		if after, err := os.ReadFile(roots.File(w.folder)); err != nil || !bytes.Equal(after, before) {
			t.Errorf("%s: the file has changed: %v", what, err)
		}
	}
	// One of twenty is five per cent.
	change, err := w.update(5, rows[:20]...)
	testkit.Must(t, err)
	if namesOf(change.Removed) != "root-19" || change.Roots != 19 {
		t.Errorf("%+v", change)
	}
	change, err = w.update(100, rows[:2]...)
	testkit.Must(t, err)
	if len(change.Removed) != 18 || change.Roots != 1 {
		t.Errorf("%+v", change)
	}
}

func replaced(rows [][]string, from, to string) (other [][]string) {
	for _, row := range rows {
		row = slices.Clone(row)
		for i := range row {
			row[i] = strings.ReplaceAll(row[i], from, to)
		}
		other = append(other, row)
	}
	return other
}

// TestDamagedRowKeepsItsRoot: if the certificate of a row is damaged, or is not the one of its fingerprint, the file
// keeps its root with that fingerprint.
func TestDamagedRowKeepsItsRoot(t *testing.T) {
	w := newWorld(t, "a", "b", "stranger")
	_, err := w.update(5, header, w.row("a", "Websites", "Mozilla: Included"), w.row("b", "Websites", "Mozilla: Included"))
	testkit.Must(t, err)
	swapped := w.row("a", "Websites", "Mozilla: Included")
	swapped[5] = quoted(w.der["stranger"])
	change, err := w.update(0, header, swapped, w.row("b", "Websites", "Mozilla: Included"))
	testkit.Must(t, err)
	if len(change.Damaged) != 1 || !change.Damaged[0].Stays || len(change.Added)+len(change.Removed) != 0 {
		t.Errorf("%+v", change)
	}
	w.wantRoots("a", "b")
}

// TestKeepsForeignFile: a file with the same name that another program wrote is not replaced.
func TestKeepsForeignFile(t *testing.T) {
	w := newWorld(t, "a", "own")
	own := []byte(strings.Trim(quoted(w.der["own"]), "'"))
	testkit.Must(t, os.WriteFile(roots.File(w.folder), own, 0o644))
	if _, err := w.update(100, header, w.row("a", "Websites", "Mozilla: Included")); !errors.Is(err, roots.ErrFile) {
		t.Errorf("%v", err)
	}
	w.wantRoots("own")
}
