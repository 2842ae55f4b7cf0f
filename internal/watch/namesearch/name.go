// Package namesearch searches certificates for the names that an owner watches.
//
// The proved library decides which names of a certificate a watched name covers (RFC 9525, section 6.3). This package
// parses the watched names. It also tries readings of a certificate's names that the library does not try. The place of
// such a match shows this.
package namesearch

import (
	"errors"
	"fmt"
	"net"
	"net/netip"
	"strings"

	"golang.org/x/net/idna"
)

// ErrName means that a watched name cannot match anything. The text of the error says what to write instead.
var ErrName = errors.New("watched name")

// The bounds of a domain name and of a label, in bytes (RFC 1035, section 2.3.4).
const (
	maxName  = 253
	maxLabel = 63
)

// Name is a watched name: a domain with all names below it, one exact name, or an IP address.
type Name struct {
	text    string     // in ctwatch's form: example.org, =www.example.org, 192.0.2.7, or a dot for everything
	domain  string     // in ASCII and lower case (RFC 5890), without a dot at its end; empty for an address
	letters string     // the domain with its Unicode letters; equal to domain if it has none
	exact   bool       // the name does not cover names below it
	address netip.Addr // only valid if the name is an address
}

// String returns the name in the form of a watch list, which ParseName reads.
func (n Name) String() string { return n.text }

// IsEverything reports whether every certificate matches. Only a watch list of certspotter can have such a name: a dot.
func (n Name) IsEverything() bool { return n.text == "." }

// IsExact reports whether the name is an address, or does not cover the names below it.
func (n Name) IsExact() bool { return n.exact }

// patterns returns the patterns for the library that match this name. A pattern with a dot in front covers the name and
// all names below it.
func (n Name) patterns() []string {
	prefix := "."
	switch {
	case n.IsEverything():
		return nil
	case n.address.IsValid():
		return []string{n.address.String()}
	case n.exact:
		prefix = ""
	}
	patterns := []string{prefix + n.domain}
	if n.letters != n.domain {
		// A common name may contain the Unicode letters.
		patterns = append(patterns, prefix+n.letters)
	}
	return patterns
}

// ParseName parses a watched name. "example.org" covers that name and all names below it. "=example.org" covers only
// that name. A leading dot is ignored. An address covers only that address. The error is nil, or wraps ErrName and says
// what to write.
func ParseName(text string) (Name, error) {
	trimmed := strings.TrimSpace(text)
	rest, exact := strings.CutPrefix(trimmed, "=")
	name, err := parse(strings.TrimPrefix(strings.TrimSpace(rest), "."), exact)
	if err != nil {
		return Name{}, fmt.Errorf("%w %.300q: %w", ErrName, text, err)
	}
	return name, nil
}

// parse parses a watched name without the characters "=" and "." in front of it.
func parse(text string, exact bool) (Name, error) {
	if err := checkName(text); err != nil {
		return Name{}, err
	}
	domain := ""
	address, err := netip.ParseAddr(text)
	if err != nil {
		if domain, err = toASCII(strings.TrimSuffix(text, ".")); err != nil {
			return Name{}, err
		}
		// The text may be an address with a dot at its end, or with other digits.
		address, err = netip.ParseAddr(domain)
	}
	if err == nil {
		return Name{text: address.String(), exact: true, address: address}, nil
	}
	name := Name{text: domain, domain: domain, letters: toLetters(domain), exact: exact}
	if exact {
		name.text = "=" + domain
	}
	return name, nil
}

// checkName returns nil if a text may be a domain or an address. Otherwise, its error says why not, and what to write
// instead.
func checkName(text string) error {
	below, isWildcard := strings.CutPrefix(text, "*.")
	host, _, _ := strings.Cut(text, "/")
	switch {
	case text == "":
		return errors.New("it is empty (write a domain, for example example.org)")
	case strings.Contains(text, "://"):
		_, after, _ := strings.Cut(text, "://")
		host, _, _ = strings.Cut(after, "/")
		return fmt.Errorf("it is a URL (write its host: %s)", withoutPort(host))
	case strings.Contains(text, "/"):
		return fmt.Errorf("it has a path (write its host: %s)", withoutPort(host))
	case strings.Contains(text, "@"):
		return fmt.Errorf("it is a mail address (write its domain: %s)", text[strings.LastIndexByte(text, '@')+1:])
	case isWildcard && !strings.ContainsAny(below, "*?"):
		return fmt.Errorf("it is a wildcard (write %s, which covers all names below it)", below)
	case strings.ContainsAny(text, "*?"):
		return errors.New("it has a wildcard (write a domain, which covers all names below it)")
	case strings.ContainsAny(text, " \t\r\n"):
		return errors.New("it has a space in it (write one name)")
	case withoutPort(text) != text:
		return fmt.Errorf("it has a port or brackets (write %s)", withoutPort(text))
	case strings.Contains(text, "%"):
		return errors.New("it has a zone or an escape (write the address or the domain without it)")
	}
	return nil
}

// withoutPort returns the host of "host:port" and of "[address]:port", and the text itself if it is neither.
func withoutPort(text string) string {
	if host, _, err := net.SplitHostPort(text); err == nil {
		return host
	}
	if strings.HasPrefix(text, "[") && strings.HasSuffix(text, "]") {
		return text[1 : len(text)-1]
	}
	return text
}

// toUnicode maps names with letters beyond ASCII (UTS 46, nontransitional).
var toUnicode = idna.New(idna.MapForLookup(), idna.BidiRule(), idna.Transitional(false))

// toASCII returns a domain in the form of DNS, in lower case.
func toASCII(text string) (string, error) {
	domain := strings.ToLower(text)
	if !isASCII(domain) {
		mapped, err := toUnicode.ToASCII(domain)
		if err != nil {
			return "", fmt.Errorf("its letters are not those of a domain: %v (write it as in DNS, with xn--)", err)
		}
		domain = mapped
	}
	if len(domain) > maxName {
		return "", fmt.Errorf("it has %d bytes, and a domain has at most %d (write a shorter one)", len(domain),
			maxName)
	}
	for _, label := range strings.Split(domain, ".") {
		if err := checkLabel(label); err != nil {
			return "", err
		}
	}
	return domain, nil
}

// checkLabel returns an error if a label cannot be part of a domain.
func checkLabel(label string) error {
	if label == "" {
		return errors.New("it has an empty label (write one dot between two labels)")
	}
	if len(label) > maxLabel {
		return fmt.Errorf("its label %.20s.. has %d bytes, and a label has at most %d", label, len(label), maxLabel)
	}
	for _, one := range label {
		isLetter := 'a' <= one && one <= 'z' || '0' <= one && one <= '9'
		if !isLetter && one != '-' && one != '_' {
			return fmt.Errorf("its character %q is in no domain (write letters, digits, hyphens and dots)", one)
		}
	}
	if label[0] == '-' || label[len(label)-1] == '-' {
		return fmt.Errorf("its label %s begins or ends with a hyphen", label)
	}
	return nil
}

// toLetters returns a domain with its Unicode letters, or unchanged if it has none.
func toLetters(domain string) string {
	if !strings.Contains(domain, "xn--") {
		return domain
	}
	letters, err := toUnicode.ToUnicode(domain)
	if err != nil {
		return domain
	}
	return letters
}

func isASCII(text string) bool {
	for _, one := range []byte(text) {
		if one >= 0x80 {
			return false
		}
	}
	return true
}

// Covers returns a text that says what the name covers.
func (n Name) Covers() string {
	switch {
	case n.IsEverything():
		return "every certificate"
	case n.address.IsValid():
		return "this address"
	case n.exact:
		return "this name, and wildcards for it"
	}
	return "this name, all names below it, and wildcards for them"
}
