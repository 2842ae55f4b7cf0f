package namesearch_test

import (
	"crypto/sha256"
	"crypto/x509/pkix"
	"encoding/hex"
	"fmt"
	"slices"
	"strings"
	"testing"
	"unicode/utf16"

	"wagtenib/bindings/go/wagtenib"
	"wagtenib/internal/testkit"
	"wagtenib/internal/watch/namesearch"
)

// The string types of ASN.1 (X.680, section 8.4).
const (
	utf8String      = 12
	printableString = 19
	t61String       = 20
	ia5String       = 22
	universalString = 28
	bmpString       = 30
)

func bmp(text string) []byte {
	var wide []byte
	for _, unit := range utf16.Encode([]rune(text)) {
		wide = append(wide, byte(unit>>8), byte(unit))
	}
	return wide
}

func universal(text string) []byte {
	var wide []byte
	for _, one := range text {
		wide = append(wide, byte(one>>24), byte(one>>16), byte(one>>8), byte(one))
	}
	return wide
}

func dns(text string) []testkit.Name {
	return []testkit.Name{{Tag: testkit.DNS, Bytes: []byte(text)}}
}

func alt(tag int, value string) []testkit.Name {
	return []testkit.Name{{Tag: tag, Bytes: []byte(value)}}
}

// row describes a certificate, and the places where each watched name is found in it.
type row struct {
	what    string
	subject pkix.Name
	names   []testkit.Name
	domain  namesearch.Place // of example.org
	exact   namesearch.Place // of =www.example.org
	idn     namesearch.Place // of bücher.example
}

const (
	no      = namesearch.Place("")
	san     = namesearch.InAltName
	cn      = namesearch.InCommonName
	likeSAN = namesearch.LikeAltName
	likeCN  = namesearch.LikeCommon
)

// rows returns the rows of the comparison with certspotter (tests/names/beside.py). certspotter 0.16 reports each
// certificate that has a place here, except for mail addresses, URIs and IP addresses, which it does not read.
func rows() []row {
	common := func(tag int, value []byte) pkix.Name { return testkit.CommonName(tag, value) }
	return []row{
		{"host", pkix.Name{}, dns("www.example.org"), san, san, no},
		{"the name itself", pkix.Name{}, dns("example.org"), san, no, no},
		{"wildcard", pkix.Name{}, dns("*.example.org"), san, san, no},
		{"common name", common(utf8String, []byte("www.example.org")), nil, cn, cn, no},
		{"capitals", pkix.Name{}, dns("WWW.EXAMPLE.ORG"), san, san, no},
		{"dot at the end", pkix.Name{}, dns("example.org."), san, no, no},
		{"mail address", pkix.Name{}, alt(testkit.Mail, "admin@example.org"), san, no, no},
		{"URI", pkix.Name{}, alt(testkit.URI, "https://www.example.org/"), san, san, no},
		{"wildcard above", pkix.Name{}, dns("*.org"), san, no, no},
		{"IDN", pkix.Name{}, dns("xn--bcher-kva.example"), no, no, san},
		{"IDN in letters as common name", common(utf8String, []byte("bücher.example")), nil, no, no, cn},
		{"IDN in capitals", pkix.Name{}, dns("XN--BCHER-KVA.EXAMPLE"), no, no, san},
		{"BMPString", common(bmpString, bmp("www.example.org")), nil, cn, cn, no},
		{"UniversalString", common(universalString, universal("www.example.org")), nil, cn, cn, no},
		{"PrintableString", common(printableString, []byte("www.example.org")), nil, cn, cn, no},
		{"IA5String", common(ia5String, []byte("www.example.org")), nil, cn, cn, no},
		{"T61String", common(t61String, []byte("www.example.org")), nil, cn, cn, no},
		{"another host that ends in the same way", pkix.Name{}, dns("notexample.org"), no, no, no},
		{"another host that begins in the same way", pkix.Name{}, dns("example.org.evil.net"), no, no, no},
		{"another host that contains the name", pkix.Name{}, dns("www.example.organic.com"), no, no, no},
		{"organization", pkix.Name{Organization: []string{"Friends of example.org"}}, nil, no, no, no},
		{"other", pkix.Name{}, dns("other.net"), no, no, no},
		{"below the exact name", pkix.Name{}, dns("sub.www.example.org"), san, no, no},
		{"wildcard below", pkix.Name{}, dns("*.sub.example.org"), san, no, no},
		{"wildcard below the exact name", pkix.Name{}, dns("*.www.example.org"), san, no, no},
		{"two stars", pkix.Name{}, dns("*.*.example.org"), san, no, no},
		{"star in the middle", pkix.Name{}, dns("www.*.org"), likeSAN, likeSAN, no},
		{"star in a label", pkix.Name{}, dns("w*.example.org"), san, likeSAN, no},
		{"star for a part of another", pkix.Name{}, dns("*ple.org"), likeSAN, no, no},
		{"star in another host", pkix.Name{}, dns("a*.org"), no, no, no},
		{"a path in a label", pkix.Name{}, dns("a/b.example.org"), san, no, no},
		{"a port in a label", pkix.Name{}, dns("a:1.example.org"), san, no, no},
		{"IDN in letters", pkix.Name{}, dns("bücher.example"), no, no, san},
		{"wildcard over IDN in letters", pkix.Name{}, dns("*.bücher.example"), no, no, san},
		{"IDN in a BMPString", common(bmpString, bmp("bücher.example")), nil, no, no, likeCN},
		{"IDN in Latin-1", pkix.Name{}, dns("b\xfccher.example"), no, no, likeSAN},
		{"IDN in a UniversalString", common(universalString, universal("bücher.example")), nil, no, no, likeCN},
		{"hidden label", pkix.Name{}, dns("?.example.org"), san, likeSAN, no},
		{"hidden label of another host", pkix.Name{}, dns("?.example.net"), no, no, no},
		{"URL as host", pkix.Name{}, dns("https://www.example.org/"), likeSAN, likeSAN, no},
		{"host with port", pkix.Name{}, dns("www.example.org:443"), likeSAN, likeSAN, no},
		{"NUL", pkix.Name{}, dns("www.example.org\x00.evil.net"), likeSAN, likeSAN, no},
		{"NUL in another host", pkix.Name{}, dns("www.evil.net\x00.evil.com"), no, no, no},
		{"spaces around a common name", common(utf8String, []byte("  www.example.org ")), nil, likeCN, likeCN, no},
		{"user and host in a URI", pkix.Name{}, alt(testkit.URI, "https://example.org@evil.net/example.org"), no,
			no, no},
		{"empty name", pkix.Name{}, dns(""), no, no, no},
		{"only dots", pkix.Name{}, dns("..."), no, no, no},
	}
}

// TestFindsEachName: in the certificate and the precertificate of each row, the watched names are found at the places
// of the row, and nowhere else.
func TestFindsEachName(t *testing.T) {
	authority := testkit.NewAuthority("Test CA 1")
	watched := parseAll(t, "example.org", "=www.example.org", "bücher.example")
	searcher := namesearch.NewSearcher(watched)
	for _, row := range rows() {
		one := authority.IssueNames(row.subject, row.names...)
		for entryType, der := range map[wagtenib.EntryType][]byte{wagtenib.X509Entry: one.Certificate.Raw,
			wagtenib.PrecertEntry: one.TBS} {
			result, err := searcher.Search(entryType, der)
			if err != nil || result.Fault != nil {
				t.Fatalf("%s: %v %v", row.what, err, result.Fault)
			}
			got := map[namesearch.Name]namesearch.Place{}
			for _, match := range result.Matches {
				got[match.Name] = match.Place
				if hosts := match.Name.Hosts(result.Names, 20); len(hosts) != 1 {
					t.Errorf("%s, type %d: %q is in the names %q, and not in one", row.what, entryType, match.Name, hosts)
				}
			}
			for i, want := range []namesearch.Place{row.domain, row.exact, row.idn} {
				if got[watched[i]] != want {
					t.Errorf("%s, type %d: the place of %q is %q, and not %q", row.what, entryType, watched[i],
						got[watched[i]], want)
				}
			}
		}
	}
}

// TestFindsAddresses: an address is found in an iPAddress, in a URI (with and without brackets), and as a common name.
func TestFindsAddresses(t *testing.T) {
	authority := testkit.NewAuthority("Test CA 1")
	watched := parseAll(t, "192.0.2.7", "2001:db8::1")
	six := string([]byte{0x20, 0x01, 0x0d, 0xb8, 0, 0, 0, 0, 0, 0, 0, 0, 0, 0, 0, 1})
	for _, test := range []struct {
		what    string
		subject pkix.Name
		names   []testkit.Name
		found   []namesearch.Match
	}{
		{"four octets", pkix.Name{}, alt(testkit.Address, "\xc0\x00\x02\x07"), []namesearch.Match{{Name: watched[0],
			Place: san}}},
		{"sixteen octets", pkix.Name{}, alt(testkit.Address, six), []namesearch.Match{{Name: watched[1], Place: san}}},
		{"three octets", pkix.Name{}, alt(testkit.Address, "\xc0\x00\x02"), nil},
		{"a URI", pkix.Name{}, alt(testkit.URI, "https://192.0.2.7:8443/"), []namesearch.Match{{Name: watched[0],
			Place: san}}},
		{"a URI with brackets", pkix.Name{}, alt(testkit.URI, "https://[2001:DB8:0::1]:8443/x"),
			[]namesearch.Match{{Name: watched[1], Place: likeSAN}}},
		{"a common name", pkix.Name{CommonName: "192.0.2.7"}, nil, []namesearch.Match{{Name: watched[0], Place: cn}}},
		{"a longer address", pkix.Name{CommonName: "192.0.2.77"}, dns("1.192.0.2.7"), nil},
	} {
		one := authority.IssueNames(test.subject, test.names...)
		result, err := namesearch.NewSearcher(watched).Search(wagtenib.X509Entry, one.Certificate.Raw)
		if err != nil || result.Fault != nil || !slices.Equal(result.Matches, test.found) {
			t.Errorf("%s: %v %v %v", test.what, result.Matches, result.Fault, err)
		}
	}
}

// TestSearchesNoBytesOfReadableNames: a watched name that is only in the organization of a certificate whose names can
// be read is not found.
func TestSearchesNoBytesOfReadableNames(t *testing.T) {
	one := testkit.NewAuthority("Test CA 1").IssueNames(pkix.Name{Organization: []string{"Friends of EXAMPLE.org"}},
		dns("other.net")...)
	result, err := namesearch.NewSearcher(parseAll(t, "example.org")).Search(wagtenib.X509Entry, one.Certificate.Raw)
	if err != nil || result.Fault != nil || len(result.Matches) != 0 {
		t.Errorf("%+v %v", result, err)
	}
}

// TestReportsUnreadNames: the result for a certificate that is cut off has a fault, and its bytes are searched.
func TestReportsUnreadNames(t *testing.T) {
	one := testkit.NewAuthority("Test CA 1").Issue("www.example.org")
	watched := parseAll(t, "example.org", "absent.example")
	cut := one.Certificate.Raw[:len(one.Certificate.Raw)-1]
	result, err := namesearch.NewSearcher(watched).Search(wagtenib.X509Entry, cut)
	if err != nil || result.Fault == nil || result.Names != nil || !slices.Equal(result.Matches,
		[]namesearch.Match{{Name: watched[0], Place: namesearch.InBytes}}) {
		t.Errorf("%+v %v", result, err)
	}
}

// TestSearchesBytesForEachKindOfName: the bytes of a certificate that cannot be read are searched for an address, for
// an exact name, and for both spellings of a name with letters beyond ASCII.
func TestSearchesBytesForEachKindOfName(t *testing.T) {
	watched := parseAll(t, "192.0.2.7", "=www.example.org", "bücher.example", "absent.example")
	for text, want := range map[string][]namesearch.Match{
		"http://192.0.2.7/":     {{Name: watched[0], Place: namesearch.InBytes}},
		"WWW.Example.ORG":       {{Name: watched[1], Place: namesearch.InBytes}},
		"xn--BCHER-kva.example": {{Name: watched[2], Place: namesearch.InBytes}},
		"bücher.EXAMPLE":        {{Name: watched[2], Place: namesearch.InBytes}},
		"www.example.or":        nil,
		"":                      nil,
	} {
		result, err := namesearch.NewSearcher(watched).Search(wagtenib.X509Entry, []byte(text))
		if err != nil || result.Fault == nil || !slices.Equal(result.Matches, want) {
			t.Errorf("%q: %+v %v", text, result, err)
		}
	}
}

// TestFindsTheLastOfManyNames: all names of a certificate with 100,000 names are read.
func TestFindsTheLastOfManyNames(t *testing.T) {
	var hosts []string
	for i := range 100_000 {
		hosts = append(hosts, fmt.Sprintf("h%d.other.net", i))
	}
	one := testkit.NewAuthority("Test CA 1").Issue(append(hosts, "shop.example.org")...)
	watched := parseAll(t, "example.org")
	result, err := namesearch.NewSearcher(watched).Search(wagtenib.PrecertEntry, one.TBS)
	if err != nil || len(result.Matches) != 1 || len(result.Names) != len(hosts)+1 {
		t.Fatalf("%d matches, %d names, %v", len(result.Matches), len(result.Names), err)
	}
	if found := watched[0].Hosts(result.Names, 20); !slices.Equal(found, []string{"shop.example.org"}) {
		t.Errorf("%q", found)
	}
}

// TestShowsTheFirstHosts: Hosts returns the first 20 of 25 matching names with a limit of 20, and all with a larger
// limit.
func TestShowsTheFirstHosts(t *testing.T) {
	var hosts []string
	for i := range 25 {
		hosts = append(hosts, fmt.Sprintf("h%d.example.org", i))
	}
	one := testkit.NewAuthority("Test CA 1").Issue(append([]string{"other.net"}, hosts...)...)
	watched := parseAll(t, "example.org")
	result, err := namesearch.NewSearcher(watched).Search(wagtenib.X509Entry, one.Certificate.Raw)
	if err != nil || !slices.Equal(watched[0].Hosts(result.Names, 20), hosts[:20]) ||
		!slices.Equal(watched[0].Hosts(result.Names, 100), hosts) {
		t.Errorf("%q %v", watched[0].Hosts(result.Names, 20), err)
	}
}

// TestShowsTheHostOfALongName: Hosts returns a name that is longer than any host if the library finds it below a
// watched name. It does not return it for an exact name with which the long name only ends.
func TestShowsTheHostOfALongName(t *testing.T) {
	authority, watched := testkit.NewAuthority("Test CA 1"), parseAll(t, "example.org", "=www.example.org")
	long := strings.Repeat("a", 100_000)
	for what, one := range map[string]testkit.Issued{
		"a dNSName":         authority.IssueNames(pkix.Name{}, dns(long+".www.example.org")...),
		"a BMPString":       authority.IssueNames(testkit.CommonName(bmpString, bmp(long+".www.example.org"))),
		"a UniversalString": authority.IssueNames(testkit.CommonName(universalString, universal(long+".www.example.org"))),
	} {
		result, err := namesearch.NewSearcher(watched).Search(wagtenib.X509Entry, one.Certificate.Raw)
		if err != nil || len(result.Matches) != 1 || result.Matches[0].Name != watched[0] {
			t.Fatalf("%s: %v %v", what, result.Matches, err)
		}
		if hosts := watched[0].Hosts(result.Names, 20); len(hosts) != 1 || !strings.HasSuffix(hosts[0], "a.www.example.org") {
			t.Errorf("%s: %d hosts", what, len(hosts))
		}
		if hosts := watched[1].Hosts(result.Names, 20); len(hosts) != 0 {
			t.Errorf("%s: %d hosts of an exact name", what, len(hosts))
		}
	}
}

// TestOneIssuanceForBoth: a precertificate and its certificate are one issuance. Another certificate is another
// issuance, even with the same serial number and key.
func TestOneIssuanceForBoth(t *testing.T) {
	authority := testkit.NewAuthority("Test CA 1")
	one := authority.Issue("www.example.org")
	certificate, precertificate := namesearch.Issuance(wagtenib.X509Entry, one.Certificate.Raw),
		namesearch.Issuance(wagtenib.PrecertEntry, one.TBS)
	if certificate != precertificate {
		t.Error("a certificate and its precertificate are two issuances")
	}
	if certificate != sha256.Sum256(one.TBS) {
		t.Error("the issuance is not the hash of the entry's TBSCertificate (RFC 6962, section 3.2)")
	}
	// Another dNSName of the same length changes nothing else.
	changed := []byte(strings.Replace(string(one.Certificate.Raw), "www.example.org", "xxx.example.org", 1))
	if namesearch.Issuance(wagtenib.X509Entry, changed) == certificate {
		t.Error("a certificate for another name is the same issuance")
	}
	plain := testkit.NewAuthority("Test CA 1").Issue("www.example.org").Precertificate
	if namesearch.Issuance(wagtenib.X509Entry, plain.Raw) != sha256.Sum256(plain.RawTBSCertificate) {
		t.Error("without SCTs the issuance is not the hash of the TBSCertificate")
	}
	if namesearch.Issuance(wagtenib.X509Entry, []byte("x")) != sha256.Sum256([]byte("x")) {
		t.Error("the issuance of bytes that are not a certificate is not their hash")
	}
}

// TestReadsDetails: ReadDetails reads the same fields as crypto/x509.
func TestReadsDetails(t *testing.T) {
	one := testkit.NewAuthority("Test CA 1").IssueNames(pkix.Name{CommonName: "a, b+c", Organization: []string{"Ö"},
		Country: []string{"DE"}}, dns("a.example")...)
	key := sha256.Sum256(one.Certificate.RawSubjectPublicKeyInfo)
	for entryType, der := range map[wagtenib.EntryType][]byte{wagtenib.X509Entry: one.Certificate.Raw,
		wagtenib.PrecertEntry: one.TBS} {
		details := namesearch.ReadDetails(entryType, der)
		if details.Subject != one.Certificate.Subject.ToRDNSequence().String() ||
			details.Issuer != one.Certificate.Issuer.ToRDNSequence().String() {
			t.Errorf("type %d: subject %q, issuer %q", entryType, details.Subject, details.Issuer)
		}
		if details.SerialNumber != hex.EncodeToString(one.Certificate.SerialNumber.Bytes()) ||
			details.KeySHA256 != hex.EncodeToString(key[:]) {
			t.Errorf("type %d: serial number %s, key %s", entryType, details.SerialNumber, details.KeySHA256)
		}
		if !details.NotBefore.Equal(one.Certificate.NotBefore) || !details.NotAfter.Equal(one.Certificate.NotAfter) {
			t.Errorf("type %d: valid %v to %v", entryType, details.NotBefore, details.NotAfter)
		}
		if !slices.Equal(details.IssuerNames, []string{"An authority", "Test CA 1"}) {
			t.Errorf("type %d: issuer's names %q", entryType, details.IssuerNames)
		}
	}
}

func parseAll(t testing.TB, texts ...string) []namesearch.Name {
	t.Helper()
	var names []namesearch.Name
	for _, text := range texts {
		name, err := namesearch.ParseName(text)
		if err != nil {
			t.Fatal(err)
		}
		names = append(names, name)
	}
	return names
}

// BenchmarkSearch searches a certificate with three other names for 1,000 watched names.
func BenchmarkSearch(b *testing.B) {
	var watched []namesearch.Name
	for i := range 1000 {
		watched = append(watched, parseAll(b, fmt.Sprintf("h%d.example.org", i))...)
	}
	searcher := namesearch.NewSearcher(watched)
	one := testkit.NewAuthority("Test CA 1").Issue("www.other.net", "*.other.net", "other.example")
	for b.Loop() {
		if result, err := searcher.Search(wagtenib.X509Entry, one.Certificate.Raw); err != nil || len(result.Matches) > 0 {
			b.Fatal(result, err)
		}
	}
}

// FuzzSearch: Search, ReadDetails and Issuance do not fail for any bytes. A watched name that is found has a host,
// unless the result has a fault.
func FuzzSearch(f *testing.F) {
	authority := testkit.NewAuthority("Test CA 1")
	for _, row := range rows() {
		one := authority.IssueNames(row.subject, row.names...)
		f.Add(true, one.TBS)
		f.Add(false, one.Certificate.Raw)
	}
	searcher := namesearch.NewSearcher(parseAll(f, "example.org", "=www.example.org", "bücher.example", "192.0.2.7"))
	f.Fuzz(func(t *testing.T, isPrecertificate bool, der []byte) {
		entryType := wagtenib.X509Entry
		if isPrecertificate {
			entryType = wagtenib.PrecertEntry
		}
		result, err := searcher.Search(entryType, der)
		if err != nil {
			t.Fatal(err)
		}
		for _, match := range result.Matches {
			if result.Fault == nil && len(match.Name.Hosts(result.Names, 20)) == 0 {
				t.Errorf("%s is found at the place %s, but in none of the names %q", match.Name, match.Place, result.Names)
			}
		}
		namesearch.ReadDetails(entryType, der)
		if namesearch.Issuance(entryType, der) != namesearch.Issuance(entryType, slices.Clone(der)) {
			t.Error("one certificate has two issuances")
		}
	})
}

// TestDecomposedLettersAreOneName: a name in decomposed letters is found as the watched name with these letters, and as
// no other one. Its bytes, read as Latin-1, are no name of DNS.
func TestDecomposedLettersAreOneName(t *testing.T) {
	authority := testkit.NewAuthority("Test CA 1")
	watched := parseAll(t, "straße.example", "bücher.example", "=a.bücher.example", "=example.org")
	const decomposed = "bu\u0308cher.example"
	for what, test := range map[string]struct {
		name  string
		found []namesearch.Name
	}{
		"decomposed":                     {decomposed, watched[1:2]},
		"capitals":                       {strings.ToUpper(decomposed), watched[1:2]},
		"below":                          {"a." + decomposed, watched[1:3]},
		"letters that no name has":       {"\u0308\u0308.example", nil},
		"a label below that no name has": {"\u0308\u0308.bu\u0308cher.example", watched[1:2]},
		"bytes that are no letters":      {"b\x81\x82.example", nil},
		"a label that is hidden":         {"?.example", watched[:2]},
	} {
		one := authority.IssueNames(pkix.Name{}, dns(test.name)...)
		result, err := namesearch.NewSearcher(watched).Search(wagtenib.X509Entry, one.Certificate.Raw)
		if err != nil {
			t.Fatal(err)
		}
		var found []namesearch.Name
		for _, match := range result.Matches {
			found = append(found, match.Name)
		}
		if !slices.Equal(found, test.found) {
			t.Errorf("%s: %q is found as %q, and %q is expected", what, test.name, found, test.found)
		}
	}
}
