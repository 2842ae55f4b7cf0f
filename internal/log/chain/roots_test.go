package chain

import (
	"bytes"
	"crypto/sha256"
	"encoding/csv"
	"fmt"
	"os"
	"path/filepath"
	"reflect"
	"strings"
	"testing"

	"wagtenib/internal/testkit"
)

// fileWriter returns a function that writes a file in a folder, and returns its path.
func fileWriter(t *testing.T, folder string) func(name string, text []byte) string {
	return func(name string, text []byte) string {
		t.Helper()
		path := filepath.Join(folder, name)
		testkit.Must(t, os.MkdirAll(filepath.Dir(path), 0o700))
		testkit.Must(t, os.WriteFile(path, text, 0o600))
		return path
	}
}

// TestRootFiles: the roots of all files are read. A certificate that is left out is named, and no other is lost.
func TestRootFiles(t *testing.T) {
	a := opensslCertificates(t)
	root, other := a.pem(t, "root"), a.pem(t, "other")
	both := a.chain(t, "root", "other")
	folder := t.TempDir()
	put := fileWriter(t, folder)
	// CCADB writes PEM between apostrophes, in a column with PEM in its name.
	var ccadb bytes.Buffer
	rows := csv.NewWriter(&ccadb)
	rows.WriteAll([][]string{{"CA Owner", "Common Name or Certificate Name", "PEM Info"},
		{"An owner", "A root", "'" + string(root) + "'"},
		{"An owner", "A strange one", "'" + string(inPEM([]byte("strange"))) + "'"},
		{"An owner", "Another root", "'" + string(other) + "'"}})
	strange, fingerprint := inPEM([]byte("strange")), sha256.Sum256([]byte("strange"))
	removed := sha256.Sum256(both[0])
	pemAt, otherAt, table := put("root.pem", root), put("other.pem", other), put("all.csv", ccadb.Bytes())
	put("dir/1.crt", root)
	put("dir/2.pem", append(append([]byte{}, strange...), other...))
	put("dir/read.me", []byte("-----BEGIN nothing"))
	list := put("without", []byte(fmt.Sprintf("# a removed root\n%X  # in capitals\n", removed)))
	colons := put("colons", []byte(strings.TrimSuffix(strings.ReplaceAll(fmt.Sprintf("% x", removed), " ", ":"), ":")))
	for _, c := range []struct {
		files   RootFiles
		roots   [][]byte
		leftOut string
	}{
		{RootFiles{Paths: []string{pemAt}}, both[:1], "[]"},
		{RootFiles{Paths: []string{pemAt, otherAt, pemAt}}, both, "[]"},
		{RootFiles{Paths: []string{table}}, both, fmt.Sprintf(
			`[%s, certificate 2 ("A strange one", sha256 %x): x509: malformed certificate]`, table, fingerprint)},
		{RootFiles{Paths: []string{filepath.Join(folder, "dir")}}, both,
			fmt.Sprintf(`[%s, certificate 1 (sha256 %x): x509: malformed certificate]`,
				filepath.Join(folder, "dir", "2.pem"), fingerprint)},
		{RootFiles{Paths: []string{pemAt, otherAt}, Without: list}, both[1:],
			fmt.Sprintf(`[%s, certificate 1 (sha256 %x): the list of removed roots contains its fingerprint]`, pemAt,
				removed)},
		{RootFiles{Paths: []string{otherAt}, Without: colons}, both[1:], "[]"},
	} {
		roots, err := c.files.Load()
		if err != nil {
			t.Errorf("%v: %v", c.files, err)
			continue
		}
		if got := roots.Certificates(); !reflect.DeepEqual(got, c.roots) {
			t.Errorf("%v: %d roots", c.files, len(got))
		}
		if got := fmt.Sprint(roots.LeftOut()); got != c.leftOut {
			t.Errorf("%v: left out are %s", c.files, got)
		}
	}
	for what, files := range map[string]RootFiles{
		"none":              {},
		"an absent file":    {Paths: []string{pemAt, filepath.Join(folder, "absent")}},
		"an empty file":     {Paths: []string{pemAt, put("empty.pem", nil)}},
		"none that is read": {Paths: []string{put("strange.pem", strange)}},
		"all removed":       {Paths: []string{pemAt}, Without: list},
		"a key": {Paths: []string{put("key.pem",
			append(append([]byte{}, root...), read(t, a.path("root.key"))...))}},
		"cut off": {Paths: []string{put("cut.pem",
			append(append([]byte{}, root...), other[:200]...))}},
		"too long":               {Paths: []string{put("long.pem", append(make([]byte, MaxRootBytes), root...))}},
		"a table without PEM":    {Paths: []string{put("none.csv", []byte("a,b\n1,2\n"))}},
		"a table of uneven rows": {Paths: []string{put("rows.csv", []byte("a,PEM\n1\n"))}},
		"a table without rows":   {Paths: []string{pemAt, put("head.csv", []byte("a,PEM\n"))}},
		"a table with one cut off": {Paths: []string{pemAt,
			put("cut.csv", []byte("PEM\n\"'"+string(other[:200])+"'\"\n"))}},
		"a folder without roots":     {Paths: []string{filepath.Dir(put("bare/read.me", nil))}},
		"an absent list":             {Paths: []string{pemAt}, Without: filepath.Join(folder, "absent")},
		"a list with another line":   {Paths: []string{pemAt}, Without: put("words", []byte("root\n"))},
		"a list with a short line":   {Paths: []string{pemAt}, Without: put("short", []byte("00ff\n"))},
		"a file in a folder cut off": {Paths: []string{filepath.Dir(put("second/cut.pem", other[:200]))}},
	} {
		if roots, err := files.Load(); err == nil {
			t.Errorf("%s: %d roots are read", what, len(roots.Certificates()))
		}
	}
}
