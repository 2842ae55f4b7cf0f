package sim_test

import (
	"encoding/json"
	"fmt"
	"os"
	"os/exec"
	"path/filepath"
	"regexp"
	"slices"
	"strings"
	"testing"
)

// edit replaces one text of a file, which the file must have once. A file without a folder is one of internal/log/node.
type edit struct{ file, old, new string }

// in returns the file with its folder in internal.
func (e edit) in() string {
	if strings.Contains(e.file, "/") {
		return e.file
	}
	return "log/node/" + e.file
}

// planted is a fault in the node.
type planted struct {
	name  string
	edits []edit
}

// TestPlanted plants each fault into a copy of the node, and has the histories find it. It is for a long run:
// SIM_PLANTED says how many seeds each one gets, and SIM_ONLY which faults, by a regular expression.
func TestPlanted(t *testing.T) {
	seeds := os.Getenv("SIM_PLANTED")
	if seeds == "" {
		t.Skip("SIM_PLANTED says how many seeds each planted fault gets")
	}
	only, err := regexp.Compile(os.Getenv("SIM_ONLY"))
	if err != nil {
		t.Fatalf("SIM_ONLY: %v", err)
	}
	copies := &copies{folder: t.TempDir(), replaced: map[string]string{}}
	for at, p := range slices.Concat(all, remembered, mistakes) {
		if only.MatchString(p.name) {
			copies.plant(t, at, p)
		}
	}
	overlay := copies.finish(t)
	binary := filepath.Join(copies.folder, "planted.test")
	build := exec.Command("go", "test", "-c", "-vet=off", "-trimpath", "-o", binary, "-overlay", overlay,
		"wagtenib/internal/planted")
	if said, err := build.CombinedOutput(); err != nil {
		t.Fatalf("%v: %s", err, said)
	}
	command := exec.Command(binary, "-test.v", "-test.timeout=3h")
	command.Env = append(os.Environ(), "SIM_PLANTED="+seeds)
	command.Stdout, command.Stderr = os.Stdout, os.Stderr
	if err := command.Run(); err != nil {
		t.Errorf("some planted faults are not found: %v", err)
	}
}

// TestPlantedFit: the text that a planted fault replaces is in its file, once.
func TestPlantedFit(t *testing.T) {
	copies := &copies{folder: t.TempDir(), replaced: map[string]string{}}
	for at, p := range slices.Concat(all, remembered, mistakes) {
		copies.plant(t, at, p)
	}
}

// copies are the copies of node and sim, each with one planted fault. They exist only in the overlay of one go command.
type copies struct {
	folder         string
	replaced       map[string]string
	imports, cases strings.Builder
}

// plant adds the copies of one fault.
func (c *copies) plant(t *testing.T, at int, p planted) {
	t.Helper()
	name := fmt.Sprintf("p%02d", at)
	edits := p.edits
	for _, of := range []string{"log/node", "log/node/janitor", "sim"} {
		sources, err := filepath.Glob(filepath.Join("..", of, "*.go"))
		if err != nil {
			t.Fatal(err)
		}
		for _, source := range sources {
			if strings.HasSuffix(source, "_test.go") {
				continue
			}
			content, err := os.ReadFile(source)
			if err != nil {
				t.Fatal(err)
			}
			text := string(content)
			for _, e := range edits {
				if e.in() != of+"/"+filepath.Base(source) {
					continue
				}
				if times := strings.Count(text, e.old); times != 1 {
					t.Fatalf("%s: %s has %d times: %s", p.name, e.file, times, e.old)
				}
				text = strings.Replace(text, e.old, e.new, 1)
			}
			for _, copied := range []string{"log/node", "log/node/janitor"} {
				text = strings.ReplaceAll(text, fmt.Sprintf("%q", "wagtenib/internal/"+copied),
					fmt.Sprintf("%q", "wagtenib/internal/planted/"+name+"/"+copied))
			}
			c.write(t, filepath.Join(name, of, filepath.Base(source)), text)
		}
	}
	fmt.Fprintf(&c.imports, "\t%snode \"wagtenib/internal/planted/%s/log/node\"\n\t%s "+
		"\"wagtenib/internal/planted/%s/sim\"\n", name, name, name, name)
	fmt.Fprintf(&c.cases, "\tfinds(t, %q, func(seed int64) string {\n\t\tr := %s.Run(%s.NewPlan(seed), "+
		"%snode.Proved{Decider: next, Steps: steps}, false)\n"+
		"\t\tif r.Violation == nil {\n\t\t\treturn \"\"\n\t\t}\n\t\treturn r.Violation.Rule\n\t})\n", p.name, name, name,
		name)
}

// write adds a file of the folder internal/planted, which does not exist, to the overlay.
func (c *copies) write(t *testing.T, name, text string) {
	t.Helper()
	file := filepath.Join(c.folder, strings.ReplaceAll(name, string(filepath.Separator), "-"))
	path, err := filepath.Abs(filepath.Join("..", "planted", name))
	if err == nil {
		err = os.WriteFile(file, []byte(text), 0o600)
	}
	if err != nil {
		t.Fatal(err)
	}
	c.replaced[path] = file
}

// finish writes the test that runs all copies, and returns the overlay's file.
func (c *copies) finish(t *testing.T) string {
	t.Helper()
	c.write(t, "planted_test.go", "package planted\n\nimport (\n\t\"os\"\n\t\"strconv\"\n\t\"testing\"\n\n"+
		c.imports.String()+
		"\n\t\"wagtenib/internal/sim\"\n\t\"wagtenib/internal/log/node/decider\"\n\t\"wagtenib/internal/log/node/step\"\n)\n"+runner+
		"\nfunc TestAll(t *testing.T) {\n"+c.cases.String()+"}\n")
	c.write(t, "planted.go", "package planted\n")
	overlay, err := json.Marshal(map[string]any{"Replace": c.replaced})
	file := filepath.Join(c.folder, "overlay.json")
	if err == nil {
		err = os.WriteFile(file, overlay, 0o600)
	}
	if err != nil {
		t.Fatal(err)
	}
	return file
}

// runner runs the histories of one copy until one breaks a rule.
const runner = `
var next, steps = decider.New(), step.New(sim.Origin)

func finds(t *testing.T, name string, broken func(seed int64) string) {
	seeds, err := strconv.Atoi(os.Getenv("SIM_PLANTED"))
	if err != nil {
		t.Fatal(err)
	}
	for seed := range int64(seeds) {
		if rule := broken(seed); rule != "" {
			t.Logf("| %s | %s | %d |", name, rule, seed)
			return
		}
	}
	t.Errorf("| %s | not found | %d |", name, seeds)
}
`
