package namesearch

import (
	"bytes"
	"net/netip"
	"slices"
	"strings"
	"unicode/utf8"

	"golang.org/x/text/encoding/charmap"
	"golang.org/x/text/encoding/unicode"
	"golang.org/x/text/encoding/unicode/utf32"

	"wagtenib/bindings/go/wagtenib"
)

// anyLabel is a label of a certificate that matches any label. Some CAs once hid labels in this way.
const anyLabel = "?"

// noLabel replaces a label whose letters have no form in DNS. It matches no label: DNS cannot have such a name. The
// letters of UTF-8, read as Latin-1, often are such a label.
const noLabel = "\ufffd"

// maxReading is the maximum number of bytes of a name for which readings are made. A longer name is not a host, and its
// readings could take long.
const maxReading = 4 << 10

// isPlain reports whether the library reads a name in the same way as this package, so that no readings are needed.
// This holds for nearly all names: an ASCII host name without special characters, a mail address at such a host, a URI
// without brackets, and an address.
func isPlain(name wagtenib.Name) bool {
	text := name.Bytes
	switch name.Kind {
	case wagtenib.BMPCommonName, wagtenib.UniversalCommonName:
		return false
	case wagtenib.IPAddress:
		return true
	case wagtenib.URI:
		return !bytes.ContainsAny(text, "[]*? \\\x00") && isASCII(string(text))
	case wagtenib.MailAddress:
		text = text[bytes.LastIndexByte(text, '@')+1:]
	}
	text, _ = bytes.CutPrefix(text, []byte("*."))
	return bytes.IndexFunc(text, isSpecial) < 0
}

// isSpecial reports whether a name with this character may have other readings.
func isSpecial(one rune) bool {
	isLetter := 'a' <= one && one <= 'z' || 'A' <= one && one <= 'Z' || '0' <= one && one <= '9'
	return !isLetter && one != '.' && one != '-' && one != '_'
}

// readings returns the hosts as which other programs may read a name of a certificate: with the letters of wide strings
// and of Latin-1, cut at a NUL, as a URL, and without a port or spaces. Each is in lower case, in the form of DNS.
func readings(name wagtenib.Name) []string {
	if len(name.Bytes) > maxReading {
		return nil
	}
	var hosts []string
	for _, text := range texts(name) {
		switch name.Kind {
		case wagtenib.MailAddress:
			text = text[strings.LastIndexByte(text, '@')+1:]
		case wagtenib.IPAddress:
			continue
		}
		for _, host := range hostsIn(text) {
			if reading := normal(host); reading != "" {
				hosts = append(hosts, reading)
			}
		}
	}
	return hosts
}

// Host returns the host of a name of a certificate, in lower case and in the form of DNS, or an address. It returns ""
// if the name has none.
func Host(name wagtenib.Name) string {
	if name.Kind == wagtenib.IPAddress {
		return Text(name)
	}
	if hosts := readings(name); len(hosts) > 0 {
		return hosts[len(hosts)-1]
	}
	return ""
}

// texts returns the text of a name in each encoding that it may have.
func texts(name wagtenib.Name) []string {
	switch name.Kind {
	case wagtenib.BMPCommonName:
		return decoded(unicode.UTF16(unicode.BigEndian, unicode.IgnoreBOM).NewDecoder().Bytes(name.Bytes))
	case wagtenib.UniversalCommonName:
		return decoded(utf32.UTF32(utf32.BigEndian, utf32.IgnoreBOM).NewDecoder().Bytes(name.Bytes))
	}
	if isASCII(string(name.Bytes)) {
		return []string{string(name.Bytes)}
	}
	found := decoded(charmap.ISO8859_1.NewDecoder().Bytes(name.Bytes))
	if utf8.Valid(name.Bytes) {
		found = append(found, string(name.Bytes))
	}
	return found
}

func decoded(text []byte, err error) []string {
	if err != nil {
		return nil
	}
	return []string{string(text)}
}

// hostsIn returns the hosts that a text may name: the host of the whole text, and of the part before a NUL.
func hostsIn(text string) []string {
	hosts := []string{hostIn(text)}
	if before, _, cut := strings.Cut(text, "\x00"); cut {
		hosts = append(hosts, hostIn(before))
	}
	return hosts
}

// hostIn returns the host in a text, which may be a URL or a host with a port, a path or spaces around it.
func hostIn(text string) string {
	text = strings.TrimSpace(text)
	if _, after, found := strings.Cut(text, "://"); found {
		text = after
		if at := strings.LastIndexByte(beforeAny(text, "/?#"), '@'); at >= 0 {
			text = text[at+1:]
		}
	}
	return strings.TrimSpace(withoutPort(beforeAny(text, "/#")))
}

// beforeAny returns the part of a text before the first of these characters.
func beforeAny(text, characters string) string {
	if end := strings.IndexAny(text, characters); end >= 0 {
		return text[:end]
	}
	return text
}

// normal returns a host in lower case and in the form of DNS. A label without such a form becomes noLabel.
func normal(host string) string {
	labels := strings.Split(strings.TrimSuffix(strings.ToLower(host), "."), ".")
	for i, label := range labels {
		if isASCII(label) {
			continue
		}
		if mapped, err := toUnicode.ToASCII(label); err == nil {
			labels[i] = mapped
		} else {
			labels[i] = noLabel
		}
	}
	return strings.Join(labels, ".")
}

// mayMatch reports whether a host may match a watched name. labels and watched are the labels of the host and of the
// watched name, which the caller splits once for many calls. A star may be anywhere in a label of the host, and a label
// may be anyLabel.
func mayMatch(host string, labels []string, name Name, watched []string) bool {
	if name.IsEverything() {
		return false
	}
	if name.address.IsValid() {
		address, err := netip.ParseAddr(host)
		return err == nil && address == name.address
	}
	if len(labels) < len(watched) || name.exact && len(labels) != len(watched) {
		return false
	}
	for i, label := range labels[len(labels)-len(watched):] {
		if label != anyLabel && !starMatches(label, watched[i]) {
			return false
		}
	}
	return true
}

// Hosts returns the texts of the names of a certificate that may match the watched name, each once and at most limit.
func (n Name) Hosts(names []wagtenib.Name, limit int) []string {
	var hosts []string
	for _, name := range names {
		if len(hosts) == limit {
			break
		}
		if !n.IsEverything() && !n.isIn(name) {
			continue
		}
		if text := Text(name); !slices.Contains(hosts, text) {
			hosts = append(hosts, text)
		}
	}
	return hosts
}

// isIn reports whether a name of a certificate may match the watched name.
func (n Name) isIn(name wagtenib.Name) bool {
	if name.Kind == wagtenib.IPAddress {
		address, ok := netip.AddrFromSlice(name.Bytes)
		return ok && address == n.address
	}
	if len(name.Bytes) > maxReading && !n.exact {
		// The last labels decide. A wide character has 2 or 4 bytes, and maxReading is a multiple of both.
		name.Bytes = name.Bytes[len(name.Bytes)-maxReading:]
	}
	hosts := readings(name)
	for _, text := range texts(name) {
		// The library does not cut off a path or a port.
		hosts = append(hosts, normal(text))
	}
	return slices.ContainsFunc(hosts, func(host string) bool {
		return mayMatch(host, strings.Split(host, "."), n, strings.Split(n.domain, "."))
	})
}

// starMatches reports whether a label matches a pattern in which each star matches any characters.
func starMatches(pattern, label string) bool {
	parts := strings.Split(pattern, "*")
	if len(parts) == 1 {
		return pattern == label
	}
	rest, found := strings.CutPrefix(label, parts[0])
	if !found {
		return false
	}
	for _, part := range parts[1 : len(parts)-1] {
		start := strings.Index(rest, part)
		if start < 0 {
			return false
		}
		rest = rest[start+len(part):]
	}
	return strings.HasSuffix(rest, parts[len(parts)-1])
}
