package chain

import (
	"bytes"
	"crypto/rsa"
	"crypto/x509"
	"crypto/x509/pkix"
	"encoding/asn1"
	"encoding/csv"
	"fmt"
	"math/big"
	"os"
	"path/filepath"
	"reflect"
	"strings"
	"testing"
)

// TestBounds: a chain with the maximum size is not refused for its size, and a chain with one byte or certificate more
// is.
func TestBounds(t *testing.T) {
	c := NewChecker(&Roots{}, Rules{}, byASN1{})
	chainOf := func(lengths ...int) (chain [][]byte) {
		for _, length := range lengths {
			chain = append(chain, make([]byte, length))
		}
		return chain
	}
	const rest = MaxBytes - 2*MaxCertificateBytes
	for _, test := range []struct {
		chain [][]byte
		why   Refusal
	}{
		{chainOf(MaxCertificateBytes), NoCertificate}, {chainOf(MaxCertificateBytes + 1), CertificateTooLong},
		{chainOf(MaxCertificateBytes, MaxCertificateBytes, rest), NoCertificate},
		{chainOf(MaxCertificateBytes, MaxCertificateBytes, rest+1), ChainTooLong},
		{chainOf(make([]int, MaxCertificates)...), NoCertificate},
		{chainOf(make([]int, MaxCertificates+1)...), ChainTooLong},
	} {
		if _, err := c.Certificate(test.chain); RefusalOf(err) != test.why {
			t.Errorf("%d certificates: %v, and not %s", len(test.chain), err, test.why)
		}
	}
	// A signature by an RSA key of the maximum size is checked. A key of one more bit is refused.
	for bits, why := range map[uint]Refusal{MaxKeyBits: BadSignature, MaxKeyBits + 1: KeyTooLong} {
		modulus := new(big.Int).Lsh(big.NewInt(1), bits-1)
		modulus.SetBit(modulus, 0, 1)
		key := newKey(t)
		issuer, err := x509.ParseCertificate(signedBy(t, authority("large"), authority("large"),
			&rsa.PublicKey{N: modulus, E: 65537}, key))
		if err != nil {
			t.Fatal(err)
		}
		below, err := readCertificate(signedBy(t, authority("below"), authority("large"), &key.PublicKey, key))
		if err != nil {
			t.Fatal(err)
		}
		if err := c.checkIssued(below, issuer); RefusalOf(err) != why {
			t.Errorf("a key of %d bits: %v, and not %s", bits, err, why)
		}
	}
}

// TestRootsOfOneName: if several roots have the same name, the root is found that issued a certificate.
func TestRootsOfOneName(t *testing.T) {
	var roots, leaves [][]byte
	for i := 0; i < 3; i++ {
		key := newKey(t)
		roots = append(roots, signedBy(t, authority("root"), authority("root"), &key.PublicKey, key))
		leaves = append(leaves, signedBy(t, authority("leaf"), authority("root"), &key.PublicKey, key))
	}
	parsed, err := ParseRoots(inPEM(roots...))
	if err != nil {
		t.Fatal(err)
	}
	c := NewChecker(parsed, Rules{}, byASN1{})
	for i, leaf := range leaves {
		entry, err := c.Certificate([][]byte{leaf})
		if err != nil || !reflect.DeepEqual(entry.Issuers, roots[i:i+1]) {
			t.Errorf("a leaf of root %d: %v", i, err)
		}
	}
	other := newKey(t)
	if _, err := c.Certificate([][]byte{signedBy(t, authority("leaf"), authority("root"), &other.PublicKey,
		other)}); RefusalOf(err) != UnknownRoot {
		t.Errorf("a leaf of no root: %v", err)
	}
}

// TestForgedIssuersAreNotRead: an issuer that no root signed is refused before crypto/x509 reads it. crypto/x509 would
// refuse this issuer, since one of its extensions occurs thousands of times.
func TestForgedIssuersAreNotRead(t *testing.T) {
	key, forger := newKey(t), newKey(t)
	root := signedBy(t, authority("root"), authority("root"), &key.PublicKey, key)
	roots, err := ParseRoots(inPEM(root))
	if err != nil {
		t.Fatal(err)
	}
	issuer := authority("forged")
	for range 8000 {
		issuer.ExtraExtensions = append(issuer.ExtraExtensions, pkix.Extension{Id: asn1.ObjectIdentifier{1, 2, 3}})
	}
	chain := [][]byte{signedBy(t, authority("leaf"), issuer, &forger.PublicKey, forger),
		signedBy(t, issuer, authority("root"), &forger.PublicKey, forger)}
	c := NewChecker(roots, Rules{}, byASN1{})
	if _, err := c.Certificate(chain); RefusalOf(err) != UnknownRoot {
		t.Errorf("an issuer that the root did not sign: %v, and not %s", err, UnknownRoot)
	}
	if made := testing.AllocsPerRun(3, func() { _, _ = c.Certificate(chain) }); made > 1000 {
		t.Errorf("a chain with a forged issuer takes %v allocations", made)
	}
}

// TestEmptySignature: a certificate whose signature has no bytes is refused.
func TestEmptySignature(t *testing.T) {
	key := newKey(t)
	root := signedBy(t, authority("root"), authority("root"), &key.PublicKey, key)
	parts, err := inside(signedBy(t, authority("leaf"), authority("root"), &key.PublicKey, key))
	if err != nil {
		t.Fatal(err)
	}
	bare, err := asn1.Marshal(struct {
		TBS, Algorithm asn1.RawValue
		Signature      asn1.BitString
	}{parts[0], parts[1], asn1.BitString{}})
	if err != nil {
		t.Fatal(err)
	}
	roots, err := ParseRoots(inPEM(root))
	if err != nil {
		t.Fatal(err)
	}
	c := NewChecker(roots, Rules{}, byASN1{})
	for _, chain := range [][][]byte{{bare}, {bare, root}} {
		if _, err := c.Certificate(chain); err == nil {
			t.Errorf("a chain of %d is accepted", len(chain))
		}
	}
}

// TestVersion2: an authority of version 2, which has no extension that says that it is one, is accepted only if it is a
// root.
func TestVersion2(t *testing.T) {
	key := newKey(t)
	template := authority("old")
	template.IsCA, template.BasicConstraintsValid = false, false
	old := resigned(t, signedBy(t, template, template, &key.PublicKey, key), key, func(tbs []byte) []byte {
		return bytes.Replace(tbs, []byte{0xa0, 3, 2, 1, 2}, []byte{0xa0, 3, 2, 1, 1}, 1)
	})
	parsed, err := x509.ParseCertificate(old)
	if err != nil || parsed.Version != 2 {
		t.Fatalf("%+v, %v", parsed, err)
	}
	leaf := signedBy(t, authority("leaf"), template, &key.PublicKey, key)
	roots, err := ParseRoots(inPEM(old))
	if err != nil {
		t.Fatal(err)
	}
	if _, err := NewChecker(roots, Rules{}, byASN1{}).Certificate([][]byte{leaf, old}); err != nil {
		t.Errorf("a root: %v", err)
	}
	if err := NewChecker(&Roots{}, Rules{}, byASN1{}).checkIssued(certificateOf(parsed),
		parsed); RefusalOf(err) != NotAnAuthority {
		t.Errorf("no root: %v", err)
	}
}

// TestReloadCounts: a reload counts new roots and removed roots separately.
func TestReloadCounts(t *testing.T) {
	var all [][]byte
	for i := 0; i < 4; i++ {
		key := newKey(t)
		all = append(all, signedBy(t, authority(fmt.Sprint(i)), authority(fmt.Sprint(i)), &key.PublicKey, key))
	}
	file := filepath.Join(t.TempDir(), "roots.pem")
	first, err := ParseRoots(inPEM(all[0]))
	if err != nil {
		t.Fatal(err)
	}
	c := NewChecker(first, Rules{}, byASN1{})
	for _, test := range []struct {
		roots         [][]byte
		added, remove int
	}{{all[:3], 2, 0}, {all[2:], 1, 2}, {all[2:], 0, 0}, {all[3:], 0, 1}} {
		if err := os.WriteFile(file, inPEM(test.roots...), 0o600); err != nil {
			t.Fatal(err)
		}
		if added, removed, err := c.Reload(RootFiles{Paths: []string{file}}); added != test.added ||
			removed != test.remove || err != nil {
			t.Errorf("%d roots: %d are new and %d were removed, %v", len(test.roots), added, removed, err)
		}
	}
	if err := os.WriteFile(file, []byte("damaged"), 0o600); err != nil {
		t.Fatal(err)
	}
	if added, removed, err := c.Reload(RootFiles{Paths: []string{file}}); added != 0 || removed != 0 || err == nil ||
		len(c.Roots().Certificates()) != 1 {
		t.Errorf("a damaged file: %d are new and %d were removed, %v", added, removed, err)
	}
}

// TestBoundsOfRoots: a file with the maximum number of bytes and a log with the maximum number of roots are accepted.
// One more byte or root is an error.
func TestBoundsOfRoots(t *testing.T) {
	key := newKey(t)
	root := signedBy(t, authority("root"), authority("root"), &key.PublicKey, key)
	text := inPEM(root)
	for more, right := range map[int]bool{0: true, 1: false} {
		long := append(text[:len(text):len(text)], bytes.Repeat([]byte("\n"), MaxRootBytes+more-len(text))...)
		file := filepath.Join(t.TempDir(), "roots.pem")
		if err := os.WriteFile(file, long, 0o600); err != nil {
			t.Fatal(err)
		}
		if _, err := (RootFiles{Paths: []string{file}}).Load(); (err == nil) != right {
			t.Errorf("a file of %d bytes: %v", len(long), err)
		}
		if right {
			continue
		}
		if _, err := ParseRoots(long); err == nil {
			t.Errorf("a text of %d bytes is read", len(long))
		}
	}
	roots := &Roots{byHash: map[[32]byte]bool{}, bySubject: map[string][]*x509.Certificate{},
		certificates: make([]*x509.Certificate, MaxRoots-1)}
	if err := roots.addOrLeaveOut(root, nil, LeftOut{}); err != nil {
		t.Errorf("the last root that is allowed: %v", err)
	}
	if err := roots.addOrLeaveOut(root, nil, LeftOut{}); err != nil {
		t.Errorf("the same root again: %v", err)
	}
	if err := roots.addOrLeaveOut(signedBy(t, authority("other"), authority("other"), &key.PublicKey, key), nil,
		LeftOut{}); err == nil {
		t.Error("one more root is accepted")
	}
}

// TestErrorsNameTheFile: if one of several files cannot be read completely, the error names it.
func TestErrorsNameTheFile(t *testing.T) {
	key := newKey(t)
	root := inPEM(signedBy(t, authority("root"), authority("root"), &key.PublicKey, key))
	folder := t.TempDir()
	put := fileWriter(t, folder)
	var table bytes.Buffer
	rows := csv.NewWriter(&table)
	rows.WriteAll([][]string{{"Name", "PEM Info"}, {"a root", "'" + string(root) + "'"}})
	right := put("root.pem", root)
	for what, test := range map[string]struct {
		files    RootFiles
		expected string
	}{
		"a table whose second row is short": {RootFiles{Paths: []string{put("short.csv",
			append(table.Bytes()[:table.Len():table.Len()], "a\n"...))}}, "short.csv"},
		"a folder that has none": {RootFiles{Paths: []string{right,
			filepath.Dir(put("bare/read.me", nil))}}, "bare has no file"},
		"a line that is no fingerprint": {RootFiles{Paths: []string{right},
			Without: put("without", []byte("# removed roots\n\n00ff\n"))}, "without, line 3"},
		"a line that is longer": {RootFiles{Paths: []string{right},
			Without: put("longer", []byte(strings.Repeat("00", 33)+"\n"))}, "longer, line 1"},
		"a folder instead of a list": {RootFiles{Paths: []string{right}, Without: folder}, "chains: roots:"},
		"a folder instead of a file in a folder": {RootFiles{Paths: []string{
			filepath.Dir(filepath.Dir(put("of/x.pem/y", nil)))}}, "x.pem"},
	} {
		if _, err := test.files.Load(); err == nil || !strings.Contains(err.Error(), test.expected) {
			t.Errorf("%s: %v", what, err)
		}
	}
}

// TestFinalIssuers: a TBSCertificate that a precertificate signing certificate signed gets the final issuer's name and
// key identifier. All other fields are unchanged. Bytes that are not a TBSCertificate are refused.
func TestFinalIssuers(t *testing.T) {
	const (
		version, number, algorithm = "\xa0\x03\x02\x01\x02", "\x02\x01\x07", "\x30\x02\x05\x00"
		name, other, validity      = "\x30\x02\x13\x00", "\x30\x02\x0c\x00", "\x30\x00"
		subject, key               = "\x30\x02\x14\x00", "\x30\x02\x03\x00"
		one, two                   = "\x81\x01\x00", "\x82\x01\x00"
		authorityKey, replaced     = "\x30\x0a\x06\x03\x55\x1d\x23\x04\x03\x30\x01\x02",
			"\x30\x09\x06\x03\x55\x1d\x23\x04\x02\x80\x01"
		item = "\x30\x07\x06\x01\x2a\x04\x02\x05\x00"
	)
	list := func(items ...string) string { return element(0xa3, element(0x30, items...)) }
	final := &finalIssuer{[]byte(other), []byte("\x80\x01")}
	for what, test := range map[string]struct{ before, after string }{
		"all fields": {element(0x30, version, number, algorithm, name, validity, subject, key, one, two,
			list(item, authorityKey, item)),
			element(0x30, version, number, algorithm, other, validity, subject, key, one, two,
				list(item, replaced, item))},
		"no version, no key identifier": {element(0x30, number, algorithm, name, validity, subject, key, list(item)),
			element(0x30, number, algorithm, other, validity, subject, key, list(item))},
		"only the second identifier": {element(0x30, version, number, algorithm, name, validity, subject, key,
			two, list(item)),
			element(0x30, version, number, algorithm, other, validity, subject, key, two, list(item))},
	} {
		if made, err := withFinalIssuer([]byte(test.before), final); err != nil || string(made) != test.after {
			t.Errorf("%s: %x, and not %x: %v", what, made, test.after, err)
		}
	}
	whole := element(0x30, version, number, algorithm, name, validity, subject, key, list(item))
	for what, wrong := range map[string]string{
		"a byte after it": whole + "\x00",
		"a field after the extensions": element(0x30, version, number, algorithm, name, validity, subject, key,
			list(item), "\x05\x00"),
		"a second list of extensions": element(0x30, version, number, algorithm, name, validity, subject, key,
			element(0xa3, element(0x30, item), element(0x30, item))),
		"no extensions": element(0x30, version, number, algorithm, name, validity, subject, key),
		"the unique identifiers in another order": element(0x30, version, number, algorithm, name, validity, subject,
			key, two, one, list(item)),
		"no number": element(0x30, version, algorithm, name, validity, subject,
			key, list(item)),
		"an extension that is a set": element(0x30, version, number, algorithm, name, validity, subject, key,
			list("\x31"+item[1:])),
		"an extension without a name": element(0x30, version, number, algorithm, name, validity, subject, key,
			list("\x30\x02\x05\x00")),
	} {
		if made, err := withFinalIssuer([]byte(wrong), final); made != nil || RefusalOf(err) != NoCertificate {
			t.Errorf("%s: %x, %v", what, made, err)
		}
	}
}
