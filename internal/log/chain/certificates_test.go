package chain

import (
	"bytes"
	"crypto/ecdsa"
	"crypto/rand"
	"crypto/sha256"
	"crypto/x509"
	"crypto/x509/pkix"
	"encoding/asn1"
	"math/big"
	"reflect"
	"testing"
	"time"
	"wagtenib/internal/ct"
)

var oidAltNames = asn1.ObjectIdentifier{2, 5, 29, 17}

// altNames returns an extension subjectAltName with one GeneralName (RFC 5280, section 4.2.1.6), which has this tag and
// this content.
func altNames(tag byte, content string) pkix.Extension {
	name := append([]byte{tag, byte(len(content))}, content...)
	return pkix.Extension{Id: oidAltNames, Value: append([]byte{0x30, byte(len(name))}, name...)}
}

// resigned returns a copy of a certificate in DER whose TBSCertificate is changed, with a new signature by the key.
func resigned(t testing.TB, der []byte, key *ecdsa.PrivateKey, change func(tbs []byte) []byte) []byte {
	t.Helper()
	parts, err := inside(der)
	if err != nil || len(parts) != 3 {
		t.Fatalf("%d parts, %v", len(parts), err)
	}
	tbs := change(append([]byte{}, parts[0].FullBytes...))
	hash := sha256.Sum256(tbs)
	signature, err := ecdsa.SignASN1(rand.Reader, key, hash[:])
	if err != nil {
		t.Fatal(err)
	}
	made, err := asn1.Marshal(struct {
		TBS, Algorithm asn1.RawValue
		Signature      asn1.BitString
	}{asn1.RawValue{FullBytes: tbs}, parts[1], asn1.BitString{Bytes: signature, BitLength: 8 * len(signature)}})
	if err != nil {
		t.Fatal(err)
	}
	return made
}

// otherCurve replaces a key's curve by prime192v2 (ANSI X9.62), which has an identifier of the same length and which
// crypto/x509 does not know.
func otherCurve(t testing.TB) func([]byte) []byte {
	return func(tbs []byte) []byte {
		known := []byte{0x2a, 0x86, 0x48, 0xce, 0x3d, 0x03, 0x01, 0x07}
		if bytes.Count(tbs, known) != 1 {
			t.Fatal("not one key of P-256")
		}
		return bytes.Replace(tbs, known, []byte{0x2a, 0x86, 0x48, 0xce, 0x3d, 0x03, 0x01, 0x02}, 1)
	}
}

// TestAcceptsMisissued: certificates that crypto/x509 cannot read, and that an authority signed, are accepted
// unchanged.
func TestAcceptsMisissued(t *testing.T) {
	key := newKey(t)
	root := authority("root")
	roots, err := ParseRoots(inPEM(signedBy(t, root, root, &key.PublicKey, key)))
	if err != nil {
		t.Fatal(err)
	}
	c := NewChecker(roots, Rules{}, NewCutter())
	same := func(tbs []byte) []byte { return tbs }
	unknown := pkix.Extension{Id: asn1.ObjectIdentifier{1, 2, 3}, Value: []byte{5, 0}}
	poisonous := pkix.Extension{Id: oidPoison, Critical: true, Value: []byte{5, 0}}
	for _, test := range []struct {
		what       string
		extensions []pkix.Extension
		change     func([]byte) []byte
	}{
		{"a dNSName in UTF-8", []pkix.Extension{altNames(0x82, "bücher.example")}, same},
		{"an email address in UTF-8", []pkix.Extension{altNames(0x81, "a@bücher.example")}, same},
		{"an address of 5 octets", []pkix.Extension{altNames(0x87, "\x0a\x00\x00\x01\x05")}, same},
		{"an invalid URI", []pkix.Extension{altNames(0x86, "http://[::1")}, same},
		{"an extension that occurs twice", []pkix.Extension{unknown, unknown}, same},
		{"an unknown curve", nil, otherCurve(t)},
	} {
		template := &x509.Certificate{
			SerialNumber: big.NewInt(7), NotBefore: root.NotBefore, NotAfter: root.NotAfter,
			ExtraExtensions: test.extensions,
		}
		der := resigned(t, signedBy(t, template, root, &newKey(t).PublicKey, key), key, test.change)
		if _, err := x509.ParseCertificate(der); err == nil {
			t.Errorf("%s: crypto/x509 reads it", test.what)
		}
		entry, err := c.Certificate([][]byte{der})
		if want := (&ct.Entry{Type: ct.X509Entry, Certificate: der, Issuers: roots.Certificates()}); err != nil ||
			!reflect.DeepEqual(entry, want) {
			t.Errorf("%s: %v", test.what, err)
		}
		damaged := append([]byte{}, der...)
		damaged[len(damaged)-1] ^= 1
		if _, err := c.Certificate([][]byte{damaged}); RefusalOf(err) != UnknownRoot {
			t.Errorf("%s, damaged: %v", test.what, err)
		}
		if _, err := NewChecker(roots, Rules{Window: Window{To: template.NotAfter}},
			byASN1{}).Certificate([][]byte{der}); RefusalOf(err) != OutsideWindow {
			t.Errorf("%s, outside of the window: %v", test.what, err)
		}
		template.ExtraExtensions = append(append([]pkix.Extension{}, test.extensions...), poisonous)
		der = resigned(t, signedBy(t, template, root, &newKey(t).PublicKey, key), key, test.change)
		entry, err = c.Precertificate([][]byte{der})
		if err != nil {
			t.Errorf("%s, as a precertificate: %v", test.what, err)
			continue
		}
		parts, err := inside(der)
		if err != nil {
			t.Fatal(err)
		}
		want, _, err := cutByASN1(parts[0].FullBytes)
		if err != nil || !bytes.Equal(entry.TBSCertificate, want) || !bytes.Equal(entry.Precertificate, der) {
			t.Errorf("%s, as a precertificate: another entry, %v", test.what, err)
		}
	}
}

// TestOtherFormOfASignature: if the ECDSA signature (r, s) is valid, (r, n - s) is valid, too. It can be made from the
// certificate without the key. Certificates with both forms are accepted, and are two entries. The entries of the two
// forms of a precertificate differ only in the submitted bytes, since the log's leaf does not contain the signature.
func TestOtherFormOfASignature(t *testing.T) {
	key := newKey(t)
	root := authority("root")
	roots, err := ParseRoots(inPEM(signedBy(t, root, root, &key.PublicKey, key)))
	if err != nil {
		t.Fatal(err)
	}
	c := NewChecker(roots, Rules{}, NewCutter())
	rewritten := func(der []byte) []byte {
		t.Helper()
		var whole struct {
			TBS, Algorithm asn1.RawValue
			Signature      asn1.BitString
		}
		var pair struct{ R, S *big.Int }
		if _, err := asn1.Unmarshal(der, &whole); err != nil {
			t.Fatal(err)
		}
		if _, err := asn1.Unmarshal(whole.Signature.Bytes, &pair); err != nil {
			t.Fatal(err)
		}
		pair.S.Sub(key.Params().N, pair.S)
		other, err := asn1.Marshal(pair)
		if err != nil {
			t.Fatal(err)
		}
		whole.Signature = asn1.BitString{Bytes: other, BitLength: 8 * len(other)}
		made, err := asn1.Marshal(whole)
		if err != nil {
			t.Fatal(err)
		}
		return made
	}
	template := &x509.Certificate{SerialNumber: big.NewInt(7), NotBefore: root.NotBefore, NotAfter: root.NotAfter}
	first := signedBy(t, template, root, &newKey(t).PublicKey, key)
	second := rewritten(first)
	for what, der := range map[string][]byte{"as it was signed": first, "rewritten": second} {
		entry, err := c.Certificate([][]byte{der})
		if err != nil || !bytes.Equal(entry.Certificate, der) {
			t.Errorf("%s: %v", what, err)
		}
	}
	if bytes.Equal(first, second) || !bytes.Equal(rewritten(second), first) {
		t.Error("the rewritten signature is not another form of the same signature")
	}
	template.ExtraExtensions = []pkix.Extension{{Id: oidPoison, Critical: true, Value: []byte{5, 0}}}
	der := signedBy(t, template, root, &newKey(t).PublicKey, key)
	one, err := c.Precertificate([][]byte{der})
	if err != nil {
		t.Fatal(err)
	}
	two, err := c.Precertificate([][]byte{rewritten(der)})
	if err != nil {
		t.Fatal(err)
	}
	if !bytes.Equal(one.TBSCertificate, two.TBSCertificate) || one.IssuerKeyHash != two.IssuerKeyHash ||
		bytes.Equal(one.Precertificate, two.Precertificate) {
		t.Error("a precertificate and its other form have different entries")
	}
}

// TestReadAsByLibrary: readCertificate reads the same fields as crypto/x509.
func TestReadAsByLibrary(t *testing.T) {
	a := opensslCertificates(t)
	all := seeds(t)
	for _, name := range []string{"leaf", "precertificate", "root", "old-root", "of-rsa-sha1", "of-rsa-sha512",
		"of-rsa-md5", "of-ed25519", "ed25519", "long"} {
		all = append(all, a.chain(t, name)...)
	}
	for i, der := range all {
		want, err := x509.ParseCertificate(der)
		if err != nil {
			t.Fatal(err)
		}
		got, err := readCertificate(der)
		if err != nil {
			t.Errorf("certificate %d: %v", i, err)
			continue
		}
		library := certificateOf(want)
		if !got.notAfter.Equal(library.notAfter) {
			t.Errorf("certificate %d ends %v", i, got.notAfter)
		}
		got.notAfter, library.notAfter = time.Time{}, time.Time{}
		if len(got.extensions) != len(library.extensions) {
			t.Fatalf("certificate %d: %d extensions", i, len(got.extensions))
		}
		for j := range library.extensions {
			if !bytes.Equal(got.extensions[j].identifier, library.extensions[j].identifier) ||
				!bytes.Equal(got.extensions[j].value, library.extensions[j].value) {
				t.Errorf("certificate %d, extension %d", i, j)
			}
		}
		got.extensions, library.extensions = nil, nil
		if !reflect.DeepEqual(got, library) {
			t.Errorf("certificate %d: %v, and crypto/x509 reads %v", i, got, library)
		}
	}
}

// TestCommonAlgorithms: crypto/x509 reads the same algorithms as in the table commonAlgorithms. A signature must
// consist of whole bytes.
func TestCommonAlgorithms(t *testing.T) {
	for algorithm, known := range commonAlgorithms {
		if read, err := readAlgorithm([]byte(algorithm), []byte("\x03\x02\x00\x01")); err != nil || read != known {
			t.Errorf("%x: %v, %v instead of %v", algorithm, err, read, known)
		}
		var c certificate
		err := c.readSignature([]byte(algorithm), []byte("\x03\x03\x00\x01\x02"))
		if err != nil || c.algorithm != known || string(c.signature) != "\x01\x02" {
			t.Errorf("%v: %v, %x of %v", known, err, c.signature, c.algorithm)
		}
		for _, signature := range []string{"\x03\x02\x01\x02", "\x03\x00", "\x04\x02\x00\x01", "\x03\x03\x00\x01", ""} {
			if err := c.readSignature([]byte(algorithm), []byte(signature)); RefusalOf(err) != NoCertificate {
				t.Errorf("%v: the signature %x: %v", known, signature, err)
			}
		}
	}
}

// built holds the parts of a certificate, which tests may replace.
type built struct {
	fields    []string // of the TBSCertificate
	algorithm string
	signature string
	after     string // the bytes after the signature
}

// element returns an element of DER with a tag.
func element(tag byte, parts ...string) string {
	content := ""
	for _, part := range parts {
		content += part
	}
	if len(content) < 128 {
		return string([]byte{tag, byte(len(content))}) + content
	}
	if len(content) < 256 {
		return string([]byte{tag, 0x81, byte(len(content))}) + content
	}
	return string([]byte{tag, 0x82, byte(len(content) >> 8), byte(len(content))}) + content
}

func (b built) der() []byte {
	return []byte(element(0x30, element(0x30, b.fields...), b.algorithm, b.signature, b.after))
}

// TestRefusesWrongDER: a certificate is refused if any of the fields that are read is not valid DER.
func TestRefusesWrongDER(t *testing.T) {
	const (
		algorithm  = "\x30\x05\x06\x03\x2b\x65\x70"
		name       = "\x30\x00"
		timestamps = "\x17\x0d700101000000Z\x18\x0f20500101000000Z"
		signature  = "\x03\x02\x00\x01"
		number     = "\x02\x01\x01"
		version    = "\xa0\x03\x02\x01\x02"
		item       = "\x30\x08\x06\x02\x2a\x03\x04\x02\x05\x00"
	)
	validity, list := element(0x30, timestamps), element(0xa3, element(0x30, item))
	valid := func(change func(*built)) []byte {
		b := built{[]string{version, number, algorithm, name, validity, name, string(anyKey), list},
			algorithm, signature, ""}
		if change != nil {
			change(&b)
		}
		return b.der()
	}
	field := func(at int, text string) func(*built) { return func(b *built) { b.fields[at] = text } }
	read, err := readCertificate(valid(nil))
	if err != nil || !read.notAfter.Equal(time.Date(2050, 1, 1, 0, 0, 0, 0, time.UTC)) || len(read.extensions) != 1 ||
		read.algorithm != x509.PureEd25519 {
		t.Fatalf("a valid certificate: %v, %v", read, err)
	}
	for what, change := range map[string]func(*built){
		"no version, no extensions": func(b *built) { b.fields = b.fields[1:7] },
		"both unique identifiers":   field(7, "\x81\x01\x00\x82\x01\x00"+list),
		"a critical extension": field(7, element(0xa3, element(0x30,
			element(0x30, "\x06\x02\x2a\x03\x01\x01\xff\x04\x00")))),
	} {
		if _, err := readCertificate(valid(change)); err != nil {
			t.Errorf("%s: %v", what, err)
		}
	}
	for what, change := range map[string]func(*built){
		"bytes after the signature":       func(b *built) { b.after = "\x05\x00" },
		"another algorithm outside":       func(b *built) { b.algorithm = "\x30\x07\x06\x03\x2b\x65\x70\x05\x00" },
		"no bit string":                   func(b *built) { b.signature = "\x04\x02\x00\x01" },
		"a signature with unused bits":    func(b *built) { b.signature = "\x03\x02\x01\x02" },
		"a signature with 9 unused bits":  func(b *built) { b.signature = "\x03\x02\x09\x02" },
		"no serial number":                field(1, ""),
		"an issuer that is a set":         field(3, "\x31\x00"),
		"a validity of one timestamp":     field(4, element(0x30, timestamps[:15])),
		"a validity of three timestamps":  field(4, element(0x30, timestamps, timestamps[:15])),
		"an invalid timestamp":            field(4, element(0x30, "\x17\x0d701301000000Z", timestamps[15:])),
		"a timestamp of another type":     field(4, element(0x30, "\x13\x0d700101000000Z", timestamps[15:])),
		"a subject that is a set":         field(5, "\x31\x00"),
		"no key":                          field(6, ""),
		"a field after the extensions":    field(7, list+"\x05\x00"),
		"a list of extensions as a set":   field(7, element(0xa3, element(0x31, item))),
		"bytes after the extensions":      field(7, element(0xa3, element(0x30, item), "\x05\x00")),
		"an extension without a value":    field(7, element(0xa3, element(0x30, "\x30\x04\x06\x02\x2a\x03"))),
		"an extension with two values":    field(7, element(0xa3, element(0x30, element(0x30, item[2:], "\x04\x00")))),
		"an extension without a name":     field(7, element(0xa3, element(0x30, "\x30\x02\x04\x00"))),
		"an extension that is a set":      field(7, element(0xa3, element(0x30, "\x31"+item[1:]))),
		"a length that is padded":         field(4, "\x30\x81"+validity[1:]),
		"a key with an indefinite length": field(6, "\x30\x80\x00\x00"),
		"an algorithm that cannot be read": func(b *built) {
			b.fields[2], b.algorithm = "\x30\x02\x05\x00",
				"\x30\x02\x05\x00"
		},
		"no algorithm": func(b *built) { b.fields[2], b.algorithm = "", "" },
		"an extension's flag that is text": field(7, element(0xa3,
			element(0x30, element(0x30, "\x06\x02\x2a\x03\x0c\x00\x04\x00")))),
	} {
		if got, err := readCertificate(valid(change)); got != nil || RefusalOf(err) != NoCertificate {
			t.Errorf("%s: %v, %v", what, got != nil, err)
		}
	}
	whole := valid(nil)
	for cut := range whole {
		if _, err := readCertificate(whole[:cut]); RefusalOf(err) != NoCertificate {
			t.Errorf("its first %d bytes: %v", cut, err)
		}
	}
	if _, err := readCertificate(append(whole, 0)); RefusalOf(err) != NoCertificate {
		t.Errorf("a byte after it: %v", err)
	}
}
