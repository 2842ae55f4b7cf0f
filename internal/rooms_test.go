package internal_test

import (
	"fmt"
	"go/parser"
	"go/token"
	"io/fs"
	"os"
	"path"
	"slices"
	"strconv"
	"strings"
	"testing"
	"testing/fstest"
)

const module = "wagtenib/"

// rule says what the packages of some folders must not import. Folders and imports are paths in the module, and each
// includes what is below it.
type rule struct {
	folders, except, forbidden []string
	why                        string
}

// rules are the rules of the rooms (README.md).
var rules = []rule{
	{folders: []string{"internal/ct", "internal/tiles", "internal/blob"},
		forbidden: []string{"internal/log", "internal/watch", "internal/audit", "internal/witness", "internal/sim",
			"internal/testkit"},
		why: "every room uses these packages"},
	{folders: []string{"internal/watch", "internal/audit", "internal/witness"}, forbidden: []string{"internal/log"},
		why: "only the operator of a log needs the log's packages"},
	{folders: []string{"internal", "cmd"}, except: []string{"internal/testkit", "cmd/ctload"},
		forbidden: []string{"internal/testkit"}, why: "a program must not contain what tests share"},
	{folders: []string{"internal/audit/judge"}, forbidden: []string{""},
		why: "the judge would share the faults of the package"},
}

// isBelow reports whether a path is one of some folders, or below one. The folder "" has everything.
func isBelow(name string, folders []string) bool {
	return slices.ContainsFunc(folders, func(folder string) bool {
		return folder == "" || name == folder || strings.HasPrefix(name, folder+"/")
	})
}

// breaches returns a line for each import in a module that a rule forbids, and the number of files that it read. It
// leaves tests out.
func breaches(module fs.FS) (lines []string, files int, err error) {
	for _, top := range []string{"internal", "cmd"} {
		err := fs.WalkDir(module, top, func(name string, entry fs.DirEntry, err error) error {
			if err != nil || entry.IsDir() || !strings.HasSuffix(name, ".go") || strings.HasSuffix(name, "_test.go") {
				return err
			}
			files++
			content, err := fs.ReadFile(module, name)
			if err != nil {
				return err
			}
			found, err := breachesIn(name, content)
			lines = append(lines, found...)
			return err
		})
		if err != nil {
			return nil, files, err
		}
	}
	return lines, files, nil
}

// breachesIn returns a line for each import of a file that a rule forbids.
func breachesIn(name string, content []byte) (lines []string, err error) {
	file, err := parser.ParseFile(token.NewFileSet(), name, content, parser.ImportsOnly)
	if err != nil {
		return nil, err
	}
	for _, one := range file.Imports {
		imported, err := strconv.Unquote(one.Path.Value)
		if err != nil {
			return nil, err
		}
		own, isOwn := strings.CutPrefix(imported, module)
		for _, r := range rules {
			folder := path.Dir(name)
			if isOwn && isBelow(folder, r.folders) && !isBelow(folder, r.except) && isBelow(own, r.forbidden) {
				lines = append(lines, fmt.Sprintf("%s imports %s: %s", name, imported, r.why))
			}
		}
	}
	return lines, nil
}

// TestRooms checks that no package imports one that its room must not use.
func TestRooms(t *testing.T) {
	lines, files, err := breaches(os.DirFS(".."))
	if err != nil {
		t.Fatal(err)
	}
	if files < 100 {
		t.Errorf("only %d files were read", files)
	}
	for _, line := range lines {
		t.Error(line)
	}
}

// TestNamesWrongImports checks that a wrong import is reported with its file, and no right one.
func TestNamesWrongImports(t *testing.T) {
	file := func(imported string) *fstest.MapFile {
		return &fstest.MapFile{Data: []byte("package x\n\nimport _ " + strconv.Quote(imported) + "\n")}
	}
	lines, files, err := breaches(fstest.MapFS{
		"cmd/ctload/main.go":             file("wagtenib/internal/testkit/memorylog"),
		"cmd/ctserve/main.go":            file("wagtenib/internal/log/service"),
		"cmd/ctserve/fake.go":            file("wagtenib/internal/testkit/memorylog"),
		"internal/audit/judge/judge.go":  file("wagtenib/bindings/go/wagtenib"),
		"internal/audit/judge/tlog.go":   file("golang.org/x/mod/sumdb/tlog"),
		"internal/blob/blob.go":          file("wagtenib/internal/ct"),
		"internal/blob/signed.go":        file("wagtenib/internal/log/signer"),
		"internal/ct/ct_test.go":         file("wagtenib/internal/testkit"),
		"internal/sim/sim.go":            file("wagtenib/internal/log/node"),
		"internal/testkit/trial.go":      file("wagtenib/internal/testkit/memorylog"),
		"internal/tiles/leaf.go":         file("wagtenib/internal/watch"),
		"internal/watch/mirror/front.go": file("wagtenib/internal/log"),
		"internal/watch/watch.go":        file("wagtenib/internal/logclient"),
		"internal/witness/note.go":       file("wagtenib/internal/log/signer"),
	})
	if err != nil || files != 13 {
		t.Fatalf("%d files, %v", files, err)
	}
	var got []string
	for _, line := range lines {
		name, rest, _ := strings.Cut(line, " imports ")
		imported, _, _ := strings.Cut(rest, ": ")
		got = append(got, name+" "+strings.TrimPrefix(imported, module))
	}
	slices.Sort(got)
	expected := []string{
		"cmd/ctserve/fake.go internal/testkit/memorylog",
		"internal/audit/judge/judge.go bindings/go/wagtenib",
		"internal/blob/signed.go internal/log/signer",
		"internal/tiles/leaf.go internal/watch",
		"internal/watch/mirror/front.go internal/log",
		"internal/witness/note.go internal/log/signer",
	}
	if !slices.Equal(got, expected) {
		t.Errorf("these are wrong:\n%s\nand these are expected:\n%s", strings.Join(got, "\n"), strings.Join(expected, "\n"))
	}
}
