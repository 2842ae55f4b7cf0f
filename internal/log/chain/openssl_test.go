package chain

import (
	"bytes"
	"encoding/pem"
	"fmt"
	"os"
	"os/exec"
	"path/filepath"
	"strings"
	"sync"
	"testing"
)

// authorities holds certificates and their keys, which openssl made in a folder. The files of each are NAME.pem and
// NAME.key.
type authorities struct {
	folder string
}

// configuration is the configuration of openssl, with a section for each kind of certificate.
const configuration = `
[req]
distinguished_name = name
[name]
[ca]
default_ca = database
[database]
database = index.txt
serial = serial
new_certs_dir = .
policy = policy
unique_subject = no
default_md = sha256
preserve = yes
[policy]
commonName = supplied
organizationName = optional
[authority]
basicConstraints = critical,CA:true
keyUsage = critical,keyCertSign,cRLSign
subjectKeyIdentifier = hash
authorityKeyIdentifier = keyid
[shallow]
basicConstraints = critical,CA:true,pathlen:0
keyUsage = critical,keyCertSign
[constrained]
basicConstraints = critical,CA:true
nameConstraints = critical,permitted;DNS:other.example
[signing]
basicConstraints = critical,CA:true
keyUsage = critical,keyCertSign
extendedKeyUsage = 1.3.6.1.4.1.11129.2.4.4
subjectKeyIdentifier = hash
authorityKeyIdentifier = keyid
[signing_without_key]
basicConstraints = critical,CA:true
extendedKeyUsage = 1.3.6.1.4.1.11129.2.4.4
subjectKeyIdentifier = hash
authorityKeyIdentifier = none
[crl_signer]
basicConstraints = critical,CA:true
keyUsage = critical,cRLSign
[leaf]
basicConstraints = CA:false
subjectKeyIdentifier = hash
authorityKeyIdentifier = keyid
subjectAltName = DNS:example.org
[precertificate]
basicConstraints = CA:false
subjectKeyIdentifier = hash
1.3.6.1.4.1.11129.2.4.3 = critical,ASN1:NULL
authorityKeyIdentifier = keyid
subjectAltName = DNS:example.org
[bare]
subjectAltName = DNS:example.org
authorityKeyIdentifier = none
[precertificate_bare]
subjectAltName = DNS:example.org
authorityKeyIdentifier = none
1.3.6.1.4.1.11129.2.4.3 = critical,ASN1:NULL
[poison_alone]
1.3.6.1.4.1.11129.2.4.3 = critical,ASN1:NULL
subjectKeyIdentifier = none
authorityKeyIdentifier = none
[poison_uncritical]
1.3.6.1.4.1.11129.2.4.3 = ASN1:NULL
[poison_of_a_number]
1.3.6.1.4.1.11129.2.4.3 = critical,ASN1:INTEGER:5
[unknown_critical]
1.2.3.4.5 = critical,ASN1:UTF8:nobody knows it
[long]
subjectAltName = @names
[names]
`

func newAuthorities() (*authorities, error) {
	folder, err := os.MkdirTemp("", "chains-")
	if err != nil {
		return nil, err
	}
	a := &authorities{folder}
	var names strings.Builder
	for i := 0; i < 400; i++ {
		fmt.Fprintf(&names, "DNS.%d = a-long-name-of-number-%d.example.org\n", i, i)
	}
	return a, os.WriteFile(a.path("configuration"), []byte(configuration+names.String()), 0o600)
}

func (a *authorities) path(name string) string { return filepath.Join(a.folder, name) }

// openssl runs openssl in the folder, and returns its output.
func (a *authorities) openssl(arguments ...string) ([]byte, error) {
	command := exec.Command("openssl", arguments...)
	command.Dir = a.folder
	var stderr bytes.Buffer
	command.Stderr = &stderr
	output, err := command.Output()
	if err != nil {
		return nil, fmt.Errorf("openssl %s: %v: %s", strings.Join(arguments, " "), err, stderr.String())
	}
	return output, nil
}

// subject returns the name of a certificate, which has both kinds of strings.
func subject(name string) string { return "/O=Ein Hündchen/CN=" + name }

func (a *authorities) request(name, key string) error {
	arguments := append([]string{"req", "-new", "-utf8", "-config", "configuration", "-nodes", "-subj", subject(name),
		"-keyout", name + ".key", "-out", name + ".csr"}, "-newkey")
	_, err := a.openssl(append(arguments, strings.Fields(key)...)...)
	return err
}

const ellipticKey = "ec -pkeyopt ec_paramgen_curve:P-256"

// made holds how a certificate is made.
type made struct {
	name, issuer, section  string
	key, digest, from, to  string
	serial, ofTheRequestOf string
}

// make makes a certificate. Its issuer is the name of another certificate, or its own name.
func (a *authorities) make(m made) error {
	setDefault := func(value *string, other string) {
		if *value == "" {
			*value = other
		}
	}
	setDefault(&m.key, ellipticKey)
	setDefault(&m.digest, "sha256")
	setDefault(&m.from, "20260101000000Z")
	setDefault(&m.to, "20270101000000Z")
	setDefault(&m.serial, "1234567890ABCDEF")
	request := m.ofTheRequestOf
	if request == "" {
		request = m.name
		if err := a.request(m.name, m.key); err != nil {
			return err
		}
	}
	for name, text := range map[string]string{"index.txt": "", "index.txt.attr": "unique_subject = no\n",
		"serial": m.serial + "\n"} {
		if err := os.WriteFile(a.path(name), []byte(text), 0o600); err != nil {
			return err
		}
	}
	arguments := []string{"ca", "-batch", "-notext", "-utf8", "-config", "configuration", "-extensions", m.section,
		"-md", m.digest,
		"-startdate", m.from, "-enddate", m.to, "-in", request + ".csr", "-out", m.name + ".pem", "-keyfile",
		m.issuer + ".key"}
	if m.issuer == m.name {
		arguments = append(arguments, "-selfsign")
	} else {
		arguments = append(arguments, "-cert", m.issuer+".pem")
	}
	_, err := a.openssl(arguments...)
	return err
}

var (
	opensslMade *authorities
	opensslErr  error
	opensslOnce sync.Once
)

// everyCertificate holds the certificates of the tests, each after its issuer.
var everyCertificate = []made{
	{name: "root", issuer: "root", section: "authority", to: "20400101000000Z"},
	{name: "other", issuer: "other", section: "authority"},
	{name: "middle", issuer: "root", section: "authority"},
	{name: "rsa", issuer: "root", section: "authority", key: "rsa:2048"},
	{name: "ed25519", issuer: "root", section: "authority", key: "ed25519"},
	{name: "shallow", issuer: "root", section: "shallow"},
	{name: "below-shallow", issuer: "shallow", section: "authority"},
	{name: "constrained", issuer: "root", section: "constrained"},
	{name: "crl-signer", issuer: "root", section: "crl_signer"},
	{name: "leaf", issuer: "middle", section: "leaf"},
	{name: "of-root", issuer: "root", section: "leaf"},
	{name: "of-other", issuer: "other", section: "leaf"},
	{name: "of-leaf", issuer: "leaf", section: "leaf"},
	{name: "of-rsa", issuer: "rsa", section: "leaf", key: "rsa:2048"},
	{name: "of-rsa-sha1", issuer: "rsa", section: "leaf", digest: "sha1"},
	{name: "of-rsa-sha512", issuer: "rsa", section: "leaf", digest: "sha512"},
	{name: "of-rsa-md5", issuer: "rsa", section: "leaf", digest: "md5"},
	{name: "of-ed25519", issuer: "ed25519", section: "leaf", digest: "null"},
	{name: "of-below-shallow", issuer: "below-shallow", section: "leaf"},
	{name: "of-constrained", issuer: "constrained", section: "leaf"},
	{name: "of-crl-signer", issuer: "crl-signer", section: "leaf"},
	{name: "expired", issuer: "middle", section: "leaf", from: "20000101000000Z", to: "20010101000000Z"},
	{name: "not-yet", issuer: "middle", section: "leaf", from: "20480101000000Z", to: "20520101000000Z"},
	{name: "unknown-critical", issuer: "middle", section: "unknown_critical"},
	{name: "long", issuer: "middle", section: "long"},

	{name: "precertificate", issuer: "middle", section: "precertificate"},
	{name: "final", issuer: "middle", section: "leaf", ofTheRequestOf: "precertificate"},
	{name: "precertificate-of-rsa", issuer: "rsa", section: "precertificate", key: "rsa:2048"},
	{name: "final-of-rsa", issuer: "rsa", section: "leaf", ofTheRequestOf: "precertificate-of-rsa"},
	{name: "precertificate-of-root", issuer: "root", section: "precertificate"},
	{name: "final-of-root", issuer: "root", section: "leaf", ofTheRequestOf: "precertificate-of-root"},
	{name: "poison-alone", issuer: "middle", section: "poison_alone"},
	{name: "poison-uncritical", issuer: "middle", section: "poison_uncritical"},
	{name: "poison-of-a-number", issuer: "middle", section: "poison_of_a_number"},

	{name: "signing", issuer: "middle", section: "signing"},
	{name: "signed", issuer: "signing", section: "precertificate"},
	{name: "final-of-signed", issuer: "middle", section: "leaf", ofTheRequestOf: "signed"},
	{name: "signed-bare", issuer: "signing", section: "precertificate_bare"},
	{name: "final-of-signed-bare", issuer: "middle", section: "bare", ofTheRequestOf: "signed-bare"},
	{name: "signing-of-root", issuer: "root", section: "signing"},
	{name: "signed-of-root", issuer: "signing-of-root", section: "precertificate"},
	{name: "final-of-signed-of-root", issuer: "root", section: "leaf", ofTheRequestOf: "signed-of-root"},
	{name: "signing-without-key", issuer: "middle", section: "signing_without_key"},
	{name: "signed-with-key", issuer: "signing-without-key", section: "precertificate"},
	{name: "signing-root", issuer: "signing-root", section: "signing"},
	{name: "of-signing-root", issuer: "signing-root", section: "precertificate"},
}

// opensslCertificates returns the certificates that openssl makes once for all tests.
func opensslCertificates(t testing.TB) *authorities {
	t.Helper()
	if _, err := exec.LookPath("openssl"); err != nil {
		t.Skip("openssl is not installed")
	}
	opensslOnce.Do(func() {
		if opensslMade, opensslErr = newAuthorities(); opensslErr != nil {
			return
		}
		for _, m := range everyCertificate {
			if opensslErr = opensslMade.make(m); opensslErr != nil {
				return
			}
		}
		opensslErr = opensslMade.makeOldRoot()
	})
	if opensslErr != nil {
		t.Fatal(opensslErr)
	}
	return opensslMade
}

// makeOldRoot makes a root of version 1, and a certificate that it issued.
func (a *authorities) makeOldRoot() error {
	if err := a.request("old-root", ellipticKey); err != nil {
		return err
	}
	if _, err := a.openssl("x509", "-req", "-in", "old-root.csr", "-signkey", "old-root.key", "-days", "30", "-out",
		"old-root.pem"); err != nil {
		return err
	}
	return a.make(made{name: "of-old-root", issuer: "old-root", section: "bare"})
}

func TestMain(m *testing.M) {
	status := m.Run()
	if opensslMade != nil {
		os.RemoveAll(opensslMade.folder)
	}
	os.Exit(status)
}

// pem returns the content of a certificate's file.
func (a *authorities) pem(t testing.TB, name string) []byte {
	t.Helper()
	text, err := os.ReadFile(a.path(name + ".pem"))
	if err != nil {
		t.Fatal(err)
	}
	return text
}

// chain returns certificates in DER.
func (a *authorities) chain(t testing.TB, names ...string) (chain [][]byte) {
	t.Helper()
	for _, name := range names {
		block, _ := pem.Decode(a.pem(t, name))
		if block == nil {
			t.Fatalf("openssl made no PEM of %s", name)
			return nil
		}
		chain = append(chain, block.Bytes)
	}
	return chain
}

// roots returns these certificates as roots.
func (a *authorities) roots(t testing.TB, names ...string) *Roots {
	t.Helper()
	var text []byte
	for _, name := range names {
		text = append(text, a.pem(t, name)...)
	}
	roots, err := ParseRoots(text)
	if err != nil {
		t.Fatal(err)
	}
	return roots
}

// keyHash returns SHA-256 over a certificate's key. openssl extracts the key and computes the hash.
func (a *authorities) keyHash(t testing.TB, name string) string {
	t.Helper()
	key, err := a.openssl("x509", "-in", name+".pem", "-pubkey", "-noout")
	if err == nil {
		err = os.WriteFile(a.path("key.pem"), key, 0o600)
	}
	if err == nil {
		_, err = a.openssl("pkey", "-pubin", "-in", "key.pem", "-outform", "DER", "-out", "key.der")
	}
	hash, hashErr := a.openssl("dgst", "-sha256", "-r", "key.der")
	if err != nil || hashErr != nil {
		t.Fatal(err, hashErr)
	}
	return strings.Fields(string(hash))[0]
}

// tbs returns a certificate's TBSCertificate, which openssl cuts out.
func (a *authorities) tbs(t testing.TB, name string) []byte {
	t.Helper()
	listing, err := a.openssl("asn1parse", "-in", name+".pem")
	if err != nil {
		t.Fatal(err)
	}
	// The second line is that of the first value in the certificate: "    4:d=1  hl=4 l= 123 cons: SEQUENCE".
	offset := strings.TrimSpace(strings.SplitN(strings.Split(string(listing), "\n")[1], ":", 2)[0])
	if _, err := a.openssl("asn1parse", "-in", name+".pem", "-strparse", offset, "-noout", "-out",
		"tbs.der"); err != nil {
		t.Fatal(err)
	}
	tbs, err := os.ReadFile(a.path("tbs.der"))
	if err != nil {
		t.Fatal(err)
	}
	return tbs
}
