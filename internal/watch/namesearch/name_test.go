package namesearch_test

import (
	"bytes"
	"errors"
	"strings"
	"testing"

	"wagtenib/internal/watch/namesearch"
)

// TestParsesNames: ParseName reads each text of a watch list as documented. It reads the result's String as the same
// name.
func TestParsesNames(t *testing.T) {
	for text, want := range map[string]string{
		"example.org":               "example.org",
		" Example.ORG. ":            "example.org",
		".example.org":              "example.org",
		"192.0.2.7.":                "192.0.2.7",
		"=１92.0.2.7":                "192.0.2.7",
		"=www.example.org":          "=www.example.org",
		"bücher.example":            "xn--bcher-kva.example",
		"BÜCHER.example":            "xn--bcher-kva.example",
		"_dmarc.example.org":        "_dmarc.example.org",
		"192.0.2.7":                 "192.0.2.7",
		"2001:0DB8::0001":           "2001:db8::1",
		"org":                       "org",
		strings.Repeat("a", 63):     strings.Repeat("a", 63),
		"=xn--bcher-kva.example.":   "=xn--bcher-kva.example",
		"a-b.1-2.example.org":       "a-b.1-2.example.org",
		"=\tmail.sub.example.org\t": "=mail.sub.example.org",
	} {
		name, err := namesearch.ParseName(text)
		if err != nil || name.String() != want {
			t.Errorf("%q: %q %v", text, name, err)
			continue
		}
		if again, err := namesearch.ParseName(name.String()); err != nil || again != name {
			t.Errorf("%q is read again as %+v %v", name, again, err)
		}
	}
}

// TestRefusesNames: ParseName refuses a text that cannot match anything. The error says what to write instead.
func TestRefusesNames(t *testing.T) {
	for text, remedy := range map[string]string{
		"":                              "write a domain",
		"   ":                           "write a domain",
		".":                             "write a domain",
		"=":                             "write a domain",
		"*.example.org":                 "write example.org",
		"www.*.org":                     "write a domain",
		"ex?mple.org":                   "write a domain",
		"https://www.example.org":       "write its host: www.example.org",
		"https://www.example.org:8/a/b": "write its host: www.example.org",
		"https://[2001:db8::1]:8/":      "write its host: 2001:db8::1",
		"www.example.org/path":          "write its host: www.example.org",
		"192.0.2.0/24":                  "write its host: 192.0.2.0",
		"www.example.org:443":           "write www.example.org",
		"[2001:db8::1]:443":             "write 2001:db8::1",
		"[2001:db8::1]":                 "write 2001:db8::1",
		"owner@example.org":             "write its domain: example.org",
		"a.example b.example":           "write one name",
		"a..example.org":                "write one dot",
		"..example.org":                 "write one dot",
		"-a.example.org":                "begins or ends with a hyphen",
		"a-.example.org":                "begins or ends with a hyphen",
		"ex$mple.org":                   "write letters",
		"a\x00.example.org":             "write letters",
		"fe80::1%eth0":                  "without it",
		strings.Repeat("a", 64):         "at most 63",
		strings.Repeat("a.", 127) + "b": "at most 253",
		"\xff.example.org":              "as in DNS",
	} {
		name, err := namesearch.ParseName(text)
		if !errors.Is(err, namesearch.ErrName) || !strings.Contains(err.Error(), remedy) {
			t.Errorf("%q: %q %v, and not %q", text, name, err, remedy)
		}
	}
}

// TestReadsLists: ParseList ignores comments, empty lines and repeated names. Its error names each wrong line.
func TestReadsLists(t *testing.T) {
	names, err := namesearch.ParseList(strings.NewReader("\ufeff# names\r\n\r\nexample.org\r\n =www.example.net " +
		"\nexample.org.\n"))
	if err == nil {
		t.Errorf("a byte order mark is read as a name: %v", names)
	}
	names, err = namesearch.ParseList(strings.NewReader("# names\r\n\r\nexample.org\r\n =www.example.net " +
		"\nexample.org.\n"))
	if err != nil || len(names) != 2 || names[0].String() != "example.org" || names[1].String() != "=www.example.net" {
		t.Errorf("%v %v", names, err)
	}
	_, err = namesearch.ParseList(strings.NewReader("*.a.example\nok.example\nhttps://b.example/"))
	for _, part := range []string{"line 1", "write a.example", "line 3", "write its host: b.example"} {
		if err == nil || !strings.Contains(err.Error(), part) {
			t.Errorf("%v does not say %q", err, part)
		}
	}
	for _, empty := range []string{"", "# nothing\n"} {
		if _, err := namesearch.ParseList(strings.NewReader(empty)); err == nil || !strings.Contains(err.Error(),
			"there is no name") {
			t.Errorf("%q: %v", empty, err)
		}
	}
	if _, err := namesearch.ParseList(strings.NewReader(strings.Repeat("a", 1<<17))); err == nil {
		t.Error("a line without end is read")
	}
}

// TestReadsListsOfCertspotter: a name with a dot in front covers the names below it, a name without one is exact, and a
// date may follow (certspotter(8), WATCH LIST).
func TestReadsListsOfCertspotter(t *testing.T) {
	names, err := namesearch.ParseCertspotterList(strings.NewReader("# mine\nexample.org\n.example.net " +
		"valid_at:2026-01-02\nbücher.example\n.\n"))
	want := []string{"=example.org", "example.net", "=xn--bcher-kva.example", "."}
	if err != nil || len(names) != len(want) {
		t.Fatalf("%v %v", names, err)
	}
	for i, name := range names {
		if name.String() != want[i] {
			t.Errorf("%q, and not %q", name, want[i])
		}
	}
	if !names[3].IsEverything() || names[1].IsEverything() {
		t.Error("a dot is every certificate")
	}
	for _, line := range []string{"example.org valid_at:yesterday", "example.org other", "*.example.org"} {
		if _, err := namesearch.ParseCertspotterList(strings.NewReader(line)); !errors.Is(err, namesearch.ErrName) {
			t.Errorf("%q: %v", line, err)
		}
	}
}

// FuzzLists: a watch list of either kind is refused, or each name in the result is there once, can be written and read
// again, and covers something.
func FuzzLists(f *testing.F) {
	for _, text := range []string{"example.org\n# a comment\n=www.example.org\n",
		".example.org\nexample.org valid_at:2026-01-02", ".", "192.0.2.7\n2001:db8::1\n::ffff:192.0.2.7",
		"bücher.example\nxn--bcher-kva.example", "*.a.b\nhttps://a.b/\n\x00",
		"ß.example\nẞ.example\n。example", "fe80::1%eth0"} {
		f.Add([]byte(text), true)
		f.Add([]byte(text), false)
	}
	f.Fuzz(func(t *testing.T, content []byte, ofCertspotter bool) {
		parse := namesearch.ParseList
		if ofCertspotter {
			parse = namesearch.ParseCertspotterList
		}
		names, err := parse(bytes.NewReader(content))
		if err != nil {
			return
		}
		seen := map[namesearch.Name]bool{}
		for _, name := range names {
			again, err := namesearch.ParseName(name.String())
			if !name.IsEverything() && (err != nil || again != name) || seen[name] || name.Covers() == "" {
				t.Fatalf("the name %q is read again as %q, or is there twice: %v", name, again, err)
			}
			seen[name] = true
		}
		if len(names) == 0 {
			t.Fatal("no name, and no error")
		}
		namesearch.NewSearcher(names)
	})
}
