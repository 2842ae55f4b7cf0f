package chain

import (
	"bufio"
	"bytes"
	"encoding/base64"
	"encoding/hex"
	"encoding/json"
	"encoding/pem"
	"os"
	"reflect"
	"testing"
	"wagtenib/internal/ct"
)

func inPEM(certificates ...[]byte) (text []byte) {
	for _, der := range certificates {
		text = append(text, pem.EncodeToMemory(&pem.Block{Type: "CERTIFICATE", Bytes: der})...)
	}
	return text
}

// TestEntriesEqualFinalCertificates: openssl issues a precertificate and, with the same request, serial number and
// dates, the final certificate. The entry's TBSCertificate is that of the final certificate, which openssl cuts out.
func TestEntriesEqualFinalCertificates(t *testing.T) {
	a := opensslCertificates(t)
	c := NewChecker(a.roots(t, "root"), Rules{}, NewCutter())
	for _, test := range []struct {
		final, issuer      string
		submitted, issuers []string
	}{
		{"final", "middle", []string{"precertificate", "middle"}, []string{"middle", "root"}},
		{"final", "middle", []string{"precertificate", "middle", "root"}, []string{"middle", "root"}},
		{"final-of-rsa", "rsa", []string{"precertificate-of-rsa", "rsa"}, []string{"rsa", "root"}},
		{"final-of-root", "root", []string{"precertificate-of-root"}, []string{"root"}},
		{"final-of-signed", "middle", []string{"signed", "signing", "middle"}, []string{"signing", "middle", "root"}},
		{"final-of-signed-bare", "middle", []string{"signed-bare", "signing", "middle"},
			[]string{"signing", "middle", "root"}},
		{"final-of-signed-of-root", "root", []string{"signed-of-root", "signing-of-root"},
			[]string{"signing-of-root", "root"}},
	} {
		entry, err := c.Precertificate(a.chain(t, test.submitted...))
		if err != nil {
			t.Errorf("%s: %v", test.submitted, err)
			continue
		}
		if got, want := hex.EncodeToString(entry.IssuerKeyHash[:]), a.keyHash(t, test.issuer); got != want {
			t.Errorf("%s: the issuer's key hash is %s, and openssl has %s", test.submitted, got, want)
		}
		if want := a.tbs(t, test.final); !bytes.Equal(entry.TBSCertificate, want) {
			t.Errorf("%s: the TBSCertificate\n%x\nis not that of openssl\n%x", test.submitted,
				entry.TBSCertificate, want)
		}
		if entry.Type != ct.PrecertEntry || entry.Certificate != nil ||
			!bytes.Equal(entry.Precertificate, a.chain(t, test.submitted[0])[0]) {
			t.Errorf("%s: another entry", test.submitted)
		}
		if !reflect.DeepEqual(entry.Issuers, a.chain(t, test.issuers...)) {
			t.Errorf("%s: other issuers", test.submitted)
		}
	}
}

// TestReplacedValue: an extension gets another value, and is as critical as it was. RFC 5280, section 4.2.1.1, says
// that it must not be critical, but a log accepts certificates as they were issued.
func TestReplacedValue(t *testing.T) {
	for _, test := range []struct{ extension, value, want string }{
		{"300a0603551d230403300102", "8001ff", "300a0603551d2304038001ff"},
		{"300a0603551d230403300102", "", "30070603551d230400"},
		{"300d0603551d230101ff0403300102", "80", "300b0603551d230101ff040180"},
		{"300d0603551d230101ff0403300102", hex.EncodeToString(make([]byte, 128)), "3081" + "8b" +
			"0603551d230101ff048180" + hex.EncodeToString(make([]byte, 128))},
	} {
		extension, value := unhex(t, test.extension), unhex(t, test.value)
		got, err := withValue(extension, value)
		if err != nil || hex.EncodeToString(got) != test.want {
			t.Errorf("%s with %s: %x, %v", test.extension, test.value, got, err)
		}
	}
	for what, wrong := range map[string]string{
		"no sequence":            "0603551d23",
		"no value":               "30050603551d23",
		"a value that is no DER": "300a0603551d230404300102",
		"bytes after it":         "300c0603551d2304033001020500",
		"no boolean":             "300d0603551d230102ff0403300102",
	} {
		if got, err := withValue(unhex(t, wrong), []byte{1}); RefusalOf(err) != NoCertificate {
			t.Errorf("%s: %x, %v", what, got, err)
		}
	}
}

func unhex(t *testing.T, text string) []byte {
	t.Helper()
	bytes, err := hex.DecodeString(text)
	if err != nil {
		t.Fatal(err)
	}
	return bytes
}

// realPrecertificates returns the precertificates in examples/real-chains.jsonl, with the issuer's key hash and the
// TBSCertificate of each, which another program computed.
func realPrecertificates(t testing.TB) (found []real) {
	t.Helper()
	file, err := os.Open("../../../examples/real-chains.jsonl")
	if err != nil {
		t.Fatal(err)
	}
	defer file.Close()
	lines := bufio.NewScanner(file)
	lines.Buffer(nil, 1<<20)
	for lines.Scan() {
		var line real
		if json.Unmarshal(lines.Bytes(), &line) == nil && line.Op == "add-pre-chain" && len(line.Chain) == 2 {
			found = append(found, line)
		}
	}
	if err := lines.Err(); err != nil || len(found) == 0 {
		t.Fatalf("no real precertificate is found: %v", err)
	}
	return found
}

// real is a line of examples/real-chains.jsonl.
type real struct {
	Op    string
	Hash  string `json:"issuer_key_hash"`
	TBS   string `json:"tbs"`
	Chain [][]byte
}

func TestRealPrecertificates(t *testing.T) {
	cutter := NewCutter()
	for i, line := range realPrecertificates(t) {
		roots, err := ParseRoots(inPEM(line.Chain[1]))
		if err != nil {
			t.Fatal(err)
		}
		for _, chain := range [][][]byte{line.Chain, line.Chain[:1]} {
			entry, err := NewChecker(roots, Rules{}, cutter).Precertificate(chain)
			if err != nil {
				t.Errorf("number %d: %v", i, err)
				continue
			}
			hash, tbs := base64.StdEncoding.EncodeToString(entry.IssuerKeyHash[:]),
				base64.StdEncoding.EncodeToString(entry.TBSCertificate)
			if hash != line.Hash || tbs != line.TBS || !reflect.DeepEqual(entry.Issuers, line.Chain[1:]) {
				t.Errorf("number %d: another entry", i)
			}
		}
	}
}

func BenchmarkRealPrecertificate(b *testing.B) {
	line := realPrecertificates(b)[0]
	roots, err := ParseRoots(inPEM(line.Chain[1]))
	if err != nil {
		b.Fatal(err)
	}
	c := NewChecker(roots, Rules{}, NewCutter())
	for i := 0; i < b.N; i++ {
		if _, err := c.Precertificate(line.Chain); err != nil {
			b.Fatal(err)
		}
	}
}
