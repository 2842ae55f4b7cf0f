package chain

import (
	"bytes"
	"crypto/x509"
	"crypto/x509/pkix"
	"encoding/asn1"
	"errors"
	"fmt"
	"testing"

	"wagtenib/bindings/go/wagtenib"
)

// poison is the only valid form of the poison extension: its OID, critical, and NULL in an OCTET STRING.
var poison = []byte{0x30, 0x13, 0x06, 0x0a, 0x2b, 0x06, 0x01, 0x04, 0x01, 0xd6, 0x79, 0x02, 0x04, 0x03, 0x01, 0x01,
	0xff, 0x04, 0x02, 0x05, 0x00}

// byASN1 is a cutter that uses encoding/asn1.
type byASN1 struct{}

func (byASN1) WithoutPoison(tbs []byte) ([]byte, error) {
	made, _, err := cutByASN1(tbs)
	return made, err
}

// listOf returns the fields of a TBSCertificate before its extensions, and the extensions.
func listOf(tbs []byte) (fields, extensions []asn1.RawValue, err error) {
	fields, err = inside(tbs)
	if err != nil || len(fields) == 0 {
		return nil, nil, fmt.Errorf("%w: %v", errUnread, err)
	}
	last := len(fields) - 1
	if fields[last].Class != asn1.ClassContextSpecific || fields[last].Tag != 3 {
		return nil, nil, wagtenib.ErrNoExtension
	}
	lists, err := values(fields[last].Bytes)
	if err == nil && len(lists) == 1 {
		extensions, err = values(lists[0].Bytes)
	}
	if err != nil || len(lists) != 1 {
		return nil, nil, fmt.Errorf("%w: %v", errUnread, err)
	}
	return fields[:last], extensions, nil
}

// cutByASN1 removes the poison extension. It returns the entry, and the place of the poison among the extensions.
func cutByASN1(tbs []byte) (made []byte, place int, err error) {
	fields, extensions, err := listOf(tbs)
	if err != nil {
		return nil, 0, err
	}
	var kept, cut []asn1.RawValue
	for i, whole := range extensions {
		var extension pkix.Extension
		if _, err := asn1.Unmarshal(whole.FullBytes, &extension); err == nil && extension.Id.Equal(oidPoison) {
			place, cut = i, append(cut, whole)
		} else {
			kept = append(kept, whole)
		}
	}
	switch {
	case len(cut) == 0:
		return nil, 0, wagtenib.ErrNoExtension
	case len(cut) > 1:
		return nil, 0, wagtenib.ErrSecondExtension
	case !bytes.Equal(cut[0].FullBytes, poison):
		return nil, 0, wagtenib.ErrBadPoison
	}
	if len(kept) > 0 {
		fields = append(fields, wrapped(asn1.ClassContextSpecific, 3,
			[]asn1.RawValue{wrapped(asn1.ClassUniversal, asn1.TagSequence, kept)}))
	}
	return wrapped(asn1.ClassUniversal, asn1.TagSequence, fields).FullBytes, place, nil
}

// fakeCutter is a cutter that always returns the same results.
type fakeCutter struct {
	entry []byte
	err   error
}

func (a fakeCutter) WithoutPoison([]byte) ([]byte, error) { return a.entry, a.err }

// TestCutters: a TBSCertificate that a cutter refuses is refused by name. An error of the cutter itself is returned.
func TestCutters(t *testing.T) {
	a := opensslCertificates(t)
	chain := a.chain(t, "precertificate", "middle")
	other := errors.New("another error")
	for _, test := range []struct {
		err  error
		want Refusal
	}{
		{wagtenib.ErrNoExtension, NoPoison}, {wagtenib.ErrSecondExtension, NoPoison},
		{wagtenib.ErrBadPoison, BadPoison},
		{fmt.Errorf("%w: trailing in tbs of the certificate", errUnread), NoCertificate},
		{wagtenib.ErrMemory, ""}, {other, ""},
	} {
		entry, err := NewChecker(a.roots(t, "root"), Rules{},
			fakeCutter{[]byte("an entry"), test.err}).Precertificate(chain)
		if entry != nil || RefusalOf(err) != test.want || test.want == "" && !errors.Is(err, test.err) {
			t.Errorf("%v: %v, %v", test.err, entry != nil, err)
		}
	}
	entry, err := NewChecker(a.roots(t, "root"), Rules{}, fakeCutter{entry: []byte("an entry")}).Precertificate(chain)
	if err != nil || string(entry.TBSCertificate) != "an entry" {
		t.Errorf("another entry: %v", err)
	}
}

// TestPoisonTwice: a TBSCertificate with two poison extensions is refused, by the proved function and by the cutter
// that uses encoding/asn1.
func TestPoisonTwice(t *testing.T) {
	cutters := []Cutter{NewCutter(), byASN1{}}
	for _, line := range realPrecertificates(t)[:1] {
		certificate, err := x509.ParseCertificate(line.Chain[0])
		if err != nil {
			t.Fatal(err)
		}
		tbs := certificate.RawTBSCertificate
		for _, cutter := range cutters {
			entry, err := cutter.WithoutPoison(tbs)
			if err != nil {
				t.Fatal(err)
			}
			again := poisoned(t, poisoned(t, entry, 0), 1)
			if _, err := cutter.WithoutPoison(again); !errors.Is(err, wagtenib.ErrSecondExtension) {
				t.Errorf("%T: two poison extensions: %v", cutter, err)
			}
			if _, err := cutter.WithoutPoison(entry); !errors.Is(err, wagtenib.ErrNoExtension) {
				t.Errorf("%T: no poison extension: %v", cutter, err)
			}
			if _, err := cutter.WithoutPoison(append(append([]byte{}, tbs...), 0)); !errors.Is(err, errUnread) {
				t.Errorf("%T: a byte after it: %v", cutter, err)
			}
		}
	}
}
