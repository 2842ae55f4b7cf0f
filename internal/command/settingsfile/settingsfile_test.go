package settingsfile

import (
	"errors"
	"flag"
	"fmt"
	"io"
	"math"
	"os"
	"path/filepath"
	"strings"
	"testing"
	"time"
)

// TestParse checks that the command line counts before the file, that lines of a flag that may have several add up, and
// that the error for a wrong line names it.
func TestParse(t *testing.T) {
	rules := Rules{Only: []string{"config"}, Several: []string{"log"},
		Removed: map[string]string{"weight": "write size"}}
	for _, c := range []struct{ text, arguments, size, logs, fault string }{
		{"size 3 # three\n\n# a comment\nlog a\nlog  b c ", "", "3", "[a b c]", ""},
		{"size 3\nlog a", "--size 4 --log z", "4", "[z a]", ""},
		{"config x", "", "0", "[]", `line 1: there is no setting "config"`},
		{"size 3\nother 4", "", "3", "[]", `line 2: there is no setting "other"`},
		{"size 3\n\nsize 4", "", "3", "[]", "line 3: size is in line 1 already"},
		{"size three", "", "0", "[]", "line 1: size: "},
		{"size 3\nweight 4", "", "3", "[]", "line 2: there is no setting weight any more (write size)"},
		{"weight 4", "--size 4", "4", "[]", "line 1: there is no setting weight any more (write size)"},
		{"size 3", "--weight=4", "0", "[]", "there is no setting --weight any more (write size)"},
		{"size 3", "-weight 4", "0", "[]", "there is no setting --weight any more (write size)"},
		{"size 3\n" + strings.Repeat("x", 1<<17), "", "3", "[]", "token too long"},
		{"size 3", "--size 4 more", "4", "[]", `"more" is not expected`},
		{"size 3", "--other", "0", "[]", "there is no flag --other (see --help)"},
	} {
		flags, size, logs := made()
		path := filepath.Join(t.TempDir(), "settings")
		if err := os.WriteFile(path, []byte(c.text), 0o600); err != nil {
			t.Fatal(err)
		}
		err := rules.Parse(flags, append([]string{"--config", path}, strings.Fields(c.arguments)...))
		if (err == nil) != (c.fault == "") || err != nil && !strings.Contains(err.Error(), c.fault) ||
			fmt.Sprint(*size) != c.size || fmt.Sprint(*logs) != c.logs {
			t.Errorf("%.40q: %v, %d, %v", c.text, err, *size, *logs)
		}
	}
}

// TestPercentage checks that a percentage is a number from 0 to 100.
func TestPercentage(t *testing.T) {
	for value, isRight := range map[float64]bool{0: true, 99.5: true, 100: true, -0.1: false, 100.1: false} {
		if err := Percentage("min", value); (err == nil) != isRight {
			t.Errorf("%v: %v", value, err)
		}
	}
	if err := Percentage("min", math.NaN()); err == nil || !strings.HasPrefix(err.Error(), "--min NaN ") {
		t.Errorf("NaN: %v", err)
	}
}

// TestParseWithoutFile checks that without a file, only the arguments count. A missing file is an error, and help is
// flag.ErrHelp.
func TestParseWithoutFile(t *testing.T) {
	flags, size, _ := made()
	if err := (Rules{}).Parse(flags, []string{"--size", "4"}); err != nil || *size != 4 {
		t.Errorf("without a file: %v, %d", err, *size)
	}
	flags, _, _ = made()
	if err := (Rules{}).Parse(flags, []string{"--config", filepath.Join(t.TempDir(), "absent")}); !os.IsNotExist(err) {
		t.Errorf("a missing file: %v", err)
	}
	flags, _, _ = made()
	if err := (Rules{}).Parse(flags, []string{"--help"}); !errors.Is(err, flag.ErrHelp) {
		t.Errorf("a request for help: %v", err)
	}
}

// TestParseAndValidate checks that an error in the arguments or in the settings is the program's usage error. If help
// is requested, nothing is validated.
func TestParseAndValidate(t *testing.T) {
	usage, invalid := errors.New("program"), errors.New("4 is too much")
	for _, c := range []struct {
		arguments, message string
		validations        int
		wanted             error
	}{
		{"--size 3", "", 1, nil},
		{"--size 4", "program: 4 is too much", 1, usage},
		{"--size three", `program: --size: "three" is not a whole number (write digits only)`, 0, usage},
		{"--help", "flag: help requested", 0, flag.ErrHelp},
	} {
		flags, size, _ := made()
		validations := 0
		err := (Rules{}).ParseAndValidate(flags, strings.Fields(c.arguments), func() error {
			validations++
			if *size > 3 {
				return invalid
			}
			return nil
		}, usage)
		if !errors.Is(err, c.wanted) || err != nil && err.Error() != c.message || validations != c.validations {
			t.Errorf("%s: %v, validated %d times", c.arguments, err, validations)
		}
	}
}

// TestPositive checks that a duration that is not above 0 is refused with the name of its flag.
func TestPositive(t *testing.T) {
	for value, expected := range map[time.Duration]string{
		1: "", 0: "--pause 0s is not above 0 (write for example 30s, or leave --pause out)",
		-time.Minute: "--pause -1m0s is not above 0 (write for example 30s, or leave --pause out)"} {
		if err := Positive("pause", value); (err == nil) != (expected == "") || err != nil && err.Error() != expected {
			t.Errorf("%v: %v", value, err)
		}
	}
}

// TestFlags checks that help is a program's page with each flag after it, and that it is also written for a wrong
// argument.
func TestFlags(t *testing.T) {
	for _, c := range []struct{ arguments, output string }{
		{"--size 3", ""},
		{"--help", "100% of it\n\n  -size int\n"},
		{"--size three", "invalid value \"three\" for flag -size: parse error\n100% of it\n\n  -size int\n"},
	} {
		var output strings.Builder
		flags := Flags("program", "100% of it", &output)
		flags.Int("size", 0, "")
		if err := flags.Parse(strings.Fields(c.arguments)); (err == nil) != (c.output == "") {
			t.Errorf("%s: %v", c.arguments, err)
		}
		if strings.TrimSpace(output.String()) != strings.TrimSpace(c.output) || flags.Name() != "program" {
			t.Errorf("%s: %s writes %q", c.arguments, flags.Name(), output.String())
		}
	}
}

// TestEnds checks that a program with right arguments does not end, and that a request for help is not an error.
func TestEnds(t *testing.T) {
	for _, c := range []struct {
		err    error
		output string
		status int
		ends   bool
	}{
		{nil, "", 0, false},
		{flag.ErrHelp, "", 0, true},
		{fmt.Errorf("program: %w", flag.ErrHelp), "", 0, true},
		{errors.New("program: 4 is too much"), "program: 4 is too much\n", 2, true},
	} {
		var output strings.Builder
		if status, ends := Ends(c.err, &output); status != c.status || ends != c.ends || output.String() != c.output {
			t.Errorf("%v: %d, %v, and it writes %q", c.err, status, ends, output.String())
		}
	}
}

// made returns flags, and the variables that they set.
func made() (flags *flag.FlagSet, size *int, logs *[]string) {
	flags, logs = Flags("", "", io.Discard), &[]string{}
	size = flags.Int("size", 0, "")
	flags.String("config", "", "")
	flags.Func("log", "", func(text string) error { *logs = append(*logs, text); return nil })
	return flags, size, logs
}

// TestNamesWrongValues checks that the error for a value that a flag refuses has the name, the value and what to write,
// on the command line and in the file. The reason of a flag that has one of its own stays as it is, whatever is in it.
func TestNamesWrongValues(t *testing.T) {
	const either = `"maybe" is neither true nor false (write `
	for _, c := range []struct{ name, value, expected string }{
		{"pause", "2 seconds", `"2 seconds" is not a duration (write a duration such as 2s, 5m or 24h)`},
		{"pause", "", `"" is not a duration (write a duration such as 2s, 5m or 24h)`},
		{"pause", `"a" for flag -size: b`,
			`"\"a\" for flag -size: b" is not a duration (write a duration such as 2s, 5m or 24h)`},
		{"on", "maybe", either + "on true, or on false)"},
		{"size", "3 KiB", `"3 KiB" is not a whole number (write digits only)`},
		{"size", "99999999999999999999", `"99999999999999999999" is out of range (write a number with fewer digits)`},
		{"share", "half", `"half" is not a number (write for example 99.5)`},
		{"own", "x", `it is "x" for flag -size: and more (write y)`},
	} {
		flags, _, _ := made()
		flags.Duration("pause", 0, "")
		flags.Bool("on", false, "")
		flags.Float64("share", 0, "")
		flags.Func("own", "", func(text string) error {
			return fmt.Errorf("it is %q for flag -size: and more (write y)", text)
		})
		expected := strings.Replace(c.expected, either+"on true, or on false)", either+"--on, or --on=false)", 1)
		if err := ParseArguments(flags, []string{"--" + c.name + "=" + c.value}); err == nil ||
			err.Error() != "--"+c.name+": "+expected {
			t.Errorf("the flag: %v, and not %s", err, expected)
		}
		path := filepath.Join(t.TempDir(), "settings")
		if err := os.WriteFile(path, []byte(c.name+" "+c.value), 0o600); err != nil {
			t.Fatal(err)
		}
		if err := (Rules{}).Parse(flags, []string{"--config", path}); err == nil ||
			err.Error() != path+", line 1: "+c.name+": "+c.expected {
			t.Errorf("the file: %v, and not %s", err, c.expected)
		}
	}
}
