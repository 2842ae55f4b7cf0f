package chain

import (
	"bytes"
	"crypto/ecdsa"
	"crypto/elliptic"
	"crypto/rand"
	"crypto/rsa"
	"crypto/x509"
	"crypto/x509/pkix"
	"fmt"
	"math/big"
	"os"
	"path/filepath"
	"reflect"
	"testing"
	"time"
	"wagtenib/internal/ct"
)

func TestAcceptsCertificates(t *testing.T) {
	a := opensslCertificates(t)
	c := NewChecker(a.roots(t, "root", "old-root"), Rules{}, byASN1{})
	for _, test := range []struct {
		what      string
		submitted []string
		issuers   []string
	}{
		{"a chain up to its root", []string{"leaf", "middle", "root"}, []string{"middle", "root"}},
		{"a chain whose root is left out", []string{"leaf", "middle"}, []string{"middle", "root"}},
		{"a certificate that the root issued", []string{"of-root"}, []string{"root"}},
		{"the certificate of an authority", []string{"middle"}, []string{"root"}},
		{"a root", []string{"root"}, nil},
		{"an RSA key", []string{"of-rsa", "rsa"}, []string{"rsa", "root"}},
		{"SHA-1", []string{"of-rsa-sha1", "rsa"}, []string{"rsa", "root"}},
		{"SHA-512", []string{"of-rsa-sha512", "rsa"}, []string{"rsa", "root"}},
		{"an Ed25519 key", []string{"of-ed25519", "ed25519"}, []string{"ed25519", "root"}},
		{"an expired certificate", []string{"expired", "middle"}, []string{"middle", "root"}},
		{"a certificate that is not valid yet", []string{"not-yet", "middle"}, []string{"middle", "root"}},
		{"an unknown critical extension", []string{"unknown-critical", "middle"}, []string{"middle", "root"}},
		{"a path longer than its issuer may have", []string{"of-below-shallow", "below-shallow", "shallow"},
			[]string{"below-shallow", "shallow", "root"}},
		{"a name that its issuer may not use", []string{"of-constrained", "constrained"},
			[]string{"constrained", "root"}},
		{"a root of version 1", []string{"of-old-root"}, []string{"old-root"}},
		{"400 names", []string{"long", "middle"}, []string{"middle", "root"}},
		{"a precertificate signing certificate", []string{"signing", "middle"}, []string{"middle", "root"}},
	} {
		entry, err := c.Certificate(a.chain(t, test.submitted...))
		if err != nil {
			t.Errorf("%s: %v", test.what, err)
			continue
		}
		want := &ct.Entry{Type: ct.X509Entry, Certificate: a.chain(t, test.submitted[0])[0],
			Issuers: a.chain(t, test.issuers...)}
		if len(want.Issuers) == 0 {
			want.Issuers = [][]byte{}
		}
		if !reflect.DeepEqual(entry, want) {
			t.Errorf("%s: another entry", test.what)
		}
	}
}

// refused is a chain, and why it is refused.
type refused struct {
	why      Refusal
	what     string
	chain    [][]byte
	precert  bool
	roots    string
	from, to string // the window
}

// damaged returns a certificate with another last byte of its signature.
func damaged(der []byte) []byte {
	copied := append([]byte{}, der...)
	copied[len(copied)-1] ^= 1
	return copied
}

// refusals returns chains that are refused, with at least one for each Refusal that Rules do not cause.

func refusals(t testing.TB, a *authorities) []refused {
	chain := func(names ...string) [][]byte { return a.chain(t, names...) }
	leaf, middle, root := chain("leaf")[0], chain("middle")[0], chain("root")[0]
	seventeen := make([][]byte, MaxCertificates+1)
	for i := range seventeen {
		seventeen[i] = root
	}
	longest := make([]byte, MaxCertificateBytes)
	large, ofLarge := ofALargeKey(t)
	return []refused{
		{why: EmptyChain, what: "none"},
		{why: EmptyChain, what: "none, of a precertificate", precert: true},
		{why: ChainTooLong, what: "too many", chain: seventeen},
		{why: ChainTooLong, what: "too many bytes", chain: [][]byte{longest, longest, longest}},
		{why: CertificateTooLong, what: "one too long", chain: [][]byte{append(longest, 0), root}},
		{why: NoCertificate, what: "no bytes", chain: [][]byte{{}}},
		{why: NoCertificate, what: "no DER", chain: [][]byte{[]byte("-----BEGIN CERTIFICATE-----"), root}},
		{why: NoCertificate, what: "cut off", chain: [][]byte{leaf[:len(leaf)-1], middle}},
		{why: NoCertificate, what: "a byte after it", chain: [][]byte{append(leaf[:len(leaf):len(leaf)], 0), middle}},
		{why: NoCertificate, what: "an issuer cut off", chain: [][]byte{leaf, middle[:100]}},
		{why: NotIssuedByNext, what: "another order", chain: chain("middle", "leaf")},
		{why: NotIssuedByNext, what: "a gap", chain: chain("leaf", "root")},
		{why: NotIssuedByNext, what: "one twice", chain: chain("leaf", "leaf", "middle")},
		{why: NotIssuedByNext, what: "another one after it", chain: chain("leaf", "middle", "root", "other")},
		{why: UnknownRoot, what: "another root", chain: chain("of-other")},
		{why: UnknownRoot, what: "another root, with it", chain: chain("of-other", "other")},
		{why: UnknownRoot, what: "a leaf without its issuers", chain: chain("leaf")},
		{why: UnknownRoot, what: "the root did not sign the last one", chain: [][]byte{leaf, damaged(middle)}},
		{why: UnknownRoot, what: "a damaged root", chain: [][]byte{leaf, middle, damaged(root)}},
		{why: UnknownRoot, what: "the root's name, and another key", chain: sameName(t, root)},
		{why: NotAnAuthority, what: "a leaf issued it", chain: chain("of-leaf", "leaf", "middle")},
		{why: NotAnAuthority, what: "an authority for revocations issued it",
			chain: chain("of-crl-signer", "crl-signer")},
		{why: NotAnAuthority, what: "one of version 1 issued it", chain: ofVersion1(t, a), roots: "root"},
		{why: KeyTooLong, what: "a large key", chain: [][]byte{ofLarge, large}, roots: "large"},
		{why: BadSignature, what: "a damaged one", chain: [][]byte{damaged(leaf), middle}},
		{why: BadSignature, what: "a damaged one in the middle", chain: [][]byte{leaf, damaged(middle), root}},
		{why: BadSignature, what: "MD5", chain: chain("of-rsa-md5", "rsa")},
		{why: BadSignature, what: "a damaged precertificate",
			chain: [][]byte{damaged(chain("precertificate")[0]), middle}, precert: true},
		{why: OutsideWindow, what: "at its end", chain: chain("leaf", "middle"), from: "2026-01-01T00:00:00Z",
			to: "2027-01-01T00:00:00Z"},
		{why: OutsideWindow, what: "before it", chain: chain("leaf", "middle"), from: "2027-01-01T00:00:01Z"},
		{why: OutsideWindow, what: "a precertificate", chain: chain("precertificate", "middle"), precert: true,
			to: "2027-01-01T00:00:00Z"},
		{why: IsPrecertificate, what: "a precertificate", chain: chain("precertificate", "middle")},
		{why: IsPrecertificate, what: "one with a poison that is not critical",
			chain: chain("poison-uncritical", "middle")},
		{why: NoPoison, what: "a certificate", chain: chain("leaf", "middle"), precert: true},
		{why: NoPoison, what: "a root", chain: chain("root"), precert: true},
		{why: BadPoison, what: "not critical", chain: chain("poison-uncritical", "middle"), precert: true},
		{why: BadPoison, what: "a number", chain: chain("poison-of-a-number", "middle"), precert: true},
		{why: NoFinalIssuer, what: "a signing certificate is the root", chain: chain("of-signing-root", "signing-root"),
			precert: true, roots: "signing-root"},
		{why: NoFinalIssuer, what: "the root is left out", chain: chain("of-signing-root"), precert: true,
			roots: "signing-root"},
		{why: NoFinalIssuer, what: "a root with the poison", chain: chain("precertificate"), precert: true,
			roots: "precertificate"},
		{why: NoAuthorityKey, what: "a signing certificate without a key identifier",
			chain: chain("signed-with-key", "signing-without-key", "middle"), precert: true},
	}
}

func TestChainsAreRefused(t *testing.T) {
	a := opensslCertificates(t)
	// TestRules tests these three refusals.
	reached := map[Refusal]bool{Expired: true, NotYetValid: true, NotForServers: true}
	for _, test := range refusals(t, a) {
		if test.roots == "" {
			test.roots = "root"
		}
		window := Window{timestamp(t, test.from), timestamp(t, test.to)}
		c := NewChecker(rootsNamed(t, a, test), Rules{Window: window}, byASN1{})
		call := c.Certificate
		if test.precert {
			call = c.Precertificate
		}
		entry, err := call(test.chain)
		if entry != nil || RefusalOf(err) != test.why {
			t.Errorf("%s (%s): %v, %v", test.why, test.what, entry != nil, err)
		}
		reached[test.why] = true
	}
	for _, refusal := range Refusals {
		if !reached[refusal] {
			t.Errorf("no chain is refused as %s", refusal)
		}
	}
	if len(reached) != len(Refusals) {
		t.Errorf("%d refusals are listed, and %d were tried", len(Refusals), len(reached))
	}
}

// rootsNamed returns the root for a refused chain: one of openssl's certificates, or the last certificate of the chain.
func rootsNamed(t testing.TB, a *authorities, test refused) *Roots {
	if test.roots != "large" {
		return a.roots(t, test.roots)
	}
	roots, err := ParseRoots(inPEM(test.chain[len(test.chain)-1]))
	if err != nil {
		t.Fatal(err)
	}
	return roots
}

func timestamp(t testing.TB, text string) time.Time {
	if text == "" {
		return time.Time{}
	}
	parsed, err := time.Parse(time.RFC3339, text)
	if err != nil {
		t.Fatal(err)
	}
	return parsed
}

// authority returns the template of an authority for crypto/x509.
func authority(name string) *x509.Certificate {
	return &x509.Certificate{
		SerialNumber: big.NewInt(1), Subject: pkix.Name{CommonName: name}, IsCA: true, BasicConstraintsValid: true,
		NotBefore: time.Unix(1767225600, 0), NotAfter: time.Unix(1798761600, 0),
	}
}

func newKey(t testing.TB) *ecdsa.PrivateKey {
	key, err := ecdsa.GenerateKey(elliptic.P256(), rand.Reader)
	if err != nil {
		t.Fatal(err)
	}
	return key
}

// signedBy returns a certificate in DER that crypto/x509 makes.
func signedBy(t testing.TB, template, parent *x509.Certificate, public any, key any) []byte {
	der, err := x509.CreateCertificate(rand.Reader, template, parent, public, key)
	if err != nil {
		t.Fatal(err)
	}
	return der
}

// ofALargeKey returns the certificate of an authority whose RSA key is too large, and a certificate with this authority
// as its issuer.
func ofALargeKey(t testing.TB) (large, leaf []byte) {
	modulus := new(big.Int).Lsh(big.NewInt(1), MaxKeyBits)
	modulus.SetBit(modulus, 0, 1)
	key, parent := newKey(t), authority("large")
	large = signedBy(t, authority("large"), parent, &rsa.PublicKey{N: modulus, E: 65537}, key)
	return large, signedBy(t, authority("of large"), parent, &key.PublicKey, key)
}

// sameName returns a chain that ends in a certificate with a root's name and another key.
func sameName(t testing.TB, root []byte) [][]byte {
	parsed, err := x509.ParseCertificate(root)
	if err != nil {
		t.Fatal(err)
	}
	key := newKey(t)
	template := authority("")
	template.RawSubject = parsed.RawSubject
	forged := signedBy(t, template, template, &key.PublicKey, key)
	return [][]byte{signedBy(t, authority("below"), template, &key.PublicKey, key), forged}
}

// ofVersion1 returns a chain in which an authority that is no root has a certificate of version 1.
func ofVersion1(t testing.TB, a *authorities) [][]byte {
	if _, err := a.openssl("x509", "-req", "-in", "leaf.csr", "-CA", "root.pem", "-CAkey", "root.key", "-set_serial",
		"5", "-out", "version-1.pem"); err != nil {
		t.Fatal(err)
	}
	if err := os.WriteFile(a.path("version-1.key"), read(t, a.path("leaf.key")), 0o600); err != nil {
		t.Fatal(err)
	}
	if err := a.make(made{name: "of-version-1", issuer: "version-1", section: "bare"}); err != nil {
		t.Fatal(err)
	}
	return a.chain(t, "of-version-1", "version-1")
}

func read(t testing.TB, path string) []byte {
	content, err := os.ReadFile(path)
	if err != nil {
		t.Fatal(err)
	}
	return content
}

// TestChainOfSixteen: a chain of MaxCertificates is accepted, and a chain of one more is refused.
func TestChainOfSixteen(t *testing.T) {
	key := newKey(t)
	parent := authority("0")
	chain := [][]byte{signedBy(t, parent, parent, &key.PublicKey, key)}
	roots, err := ParseRoots(inPEM(chain[0]))
	if err != nil {
		t.Fatal(err)
	}
	for i := 1; i < MaxCertificates+1; i++ {
		child := authority(fmt.Sprint(i))
		chain = append([][]byte{signedBy(t, child, parent, &key.PublicKey, key)}, chain...)
		parent = child
	}
	c := NewChecker(roots, Rules{}, byASN1{})
	if _, err := c.Certificate(chain); RefusalOf(err) != ChainTooLong {
		t.Errorf("17: %v", err)
	}
	for _, submitted := range [][][]byte{chain[:MaxCertificates], chain[1:]} {
		entry, err := c.Certificate(submitted)
		if err != nil {
			t.Fatal(err)
		}
		full := append([][]byte{entry.Certificate}, entry.Issuers...)
		if want := chain[MaxCertificates+1-len(full):]; !reflect.DeepEqual(full, want) {
			t.Errorf("an entry of %d certificates", len(full))
		}
	}
}

func TestWindow(t *testing.T) {
	a := opensslCertificates(t)
	roots, chain := a.roots(t, "root"), a.chain(t, "leaf", "middle")
	for _, test := range []struct {
		from, to   string
		isAccepted bool
	}{
		{"", "", true},
		{"2027-01-01T00:00:00Z", "2027-01-01T00:00:01Z", true},
		{"2027-01-01T00:00:00Z", "2027-01-01T00:00:00Z", false},
		{"2027-01-01T00:00:01Z", "", false},
		{"", "2027-01-01T00:00:00Z", false},
		{"", "2027-01-01T00:00:01Z", true},
	} {
		_, err := NewChecker(roots, Rules{Window: Window{timestamp(t, test.from), timestamp(t, test.to)}},
			byASN1{}).Certificate(chain)
		if (err == nil) != test.isAccepted || err != nil && RefusalOf(err) != OutsideWindow {
			t.Errorf("from %q to %q: %v", test.from, test.to, err)
		}
	}
}

func TestRoots(t *testing.T) {
	a := opensslCertificates(t)
	root, other := a.pem(t, "root"), a.pem(t, "other")
	text := bytes.Join([][]byte{[]byte("the roots\n"), root, []byte("\nonce more:\n"), root, other,
		[]byte("end\n")}, nil)
	roots, err := ParseRoots(text)
	if err != nil || !reflect.DeepEqual(roots.Certificates(), a.chain(t, "root", "other")) {
		t.Errorf("roots: %v", err)
	}
	for what, text := range map[string][]byte{
		"none":           {},
		"no PEM":         []byte("a text"),
		"a key":          append(root[:len(root):len(root)], read(t, a.path("root.key"))...),
		"no certificate": append(inPEM([]byte("nothing")), root...),
		"a block that cannot be read": append([]byte(
			"-----BEGIN CERTIFICATE-----\n*\n-----END CERTIFICATE-----\n"), root...),
		"a block cut off":       append(root[:len(root):len(root)], other[:200]...),
		"a block cut off first": append(append([]byte{}, other[:200]...), root...),
		"too long":              make([]byte, MaxRootBytes+1),
	} {
		if _, err := ParseRoots(text); err == nil {
			t.Errorf("%s: roots are read", what)
		}
	}
}

func TestReload(t *testing.T) {
	a := opensslCertificates(t)
	file := filepath.Join(t.TempDir(), "roots.pem")
	write := func(text []byte) {
		if err := os.WriteFile(file, text, 0o600); err != nil {
			t.Fatal(err)
		}
	}
	c := NewChecker(a.roots(t, "other"), Rules{}, byASN1{})
	chain := a.chain(t, "leaf", "middle")
	if _, err := c.Certificate(chain); RefusalOf(err) != UnknownRoot {
		t.Errorf("before: %v", err)
	}
	write(a.pem(t, "root"))
	if added, removed, err := c.Reload(RootFiles{Paths: []string{file}}); added != 1 || removed != 1 || err != nil {
		t.Errorf("%d are new and %d were removed: %v", added, removed, err)
	}
	write([]byte("damaged"))
	if _, _, err := c.Reload(RootFiles{Paths: []string{file}}); err == nil {
		t.Error("a damaged file is read")
	}
	if _, _, err := c.Reload(RootFiles{Paths: []string{file + ".absent"}}); err == nil {
		t.Error("an absent file is read")
	}
	if _, err := c.Certificate(chain); err != nil {
		t.Errorf("after: %v", err)
	}
	if got := c.Roots().Certificates(); !reflect.DeepEqual(got, a.chain(t, "root")) {
		t.Errorf("%d roots", len(got))
	}
}
