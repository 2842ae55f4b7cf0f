package main

import (
	"os"
	"os/exec"
	"regexp"
	"strings"
	"testing"
)

// The patterns of code in a page, and of flags in a help text and in code.
var (
	code       = regexp.MustCompile("`([^`\n]+)`|(?m)^ {4,}(.*)$")
	flagInHelp = regexp.MustCompile(`(?m)^  -([a-z-]+)`)
	flagInCode = regexp.MustCompile(`(?:^|\s)--([a-z-]+)`)
)

// TestPageNamesRealFlags: each flag of a call of ctaudit on docs/AUDIT.md is one of that command. Each other flag is one
// of a command of ctaudit or of ctwatch run.
func TestPageNamesRealFlags(t *testing.T) {
	watch, err := exec.Command("go", "run", "wagtenib/cmd/ctwatch", "run", "--help").Output()
	must(t, err)
	of, any := map[string]map[string]bool{}, map[string]bool{"help": true}
	for _, found := range flagInHelp.FindAllStringSubmatch(string(watch), -1) {
		any[found[1]] = true
	}
	for name := range program().Commands {
		of[name] = map[string]bool{"help": true}
		_, out, _ := ctaudit(t, name, "--help")
		for _, found := range flagInHelp.FindAllStringSubmatch(out, -1) {
			of[name][found[1]], any[found[1]] = true, true
		}
	}
	page, err := os.ReadFile("../../docs/AUDIT.md")
	must(t, err)
	calls := 0
	for _, span := range code.FindAllStringSubmatch(string(page), -1) {
		text, known := span[1]+span[2], any
		if _, call, isCall := strings.Cut(text, "ctaudit "); isCall {
			name, _, _ := strings.Cut(call, " ")
			if known = of[name]; known == nil {
				t.Errorf("%q calls no command", text)
			}
			calls++
		}
		for _, found := range flagInCode.FindAllStringSubmatch(text, -1) {
			if !known[found[1]] {
				t.Errorf("%q has the flag --%s, which the command does not have", text, found[1])
			}
		}
	}
	if calls < 6 {
		t.Errorf("the page has %d calls of ctaudit", calls)
	}
}
