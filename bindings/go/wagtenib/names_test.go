package wagtenib_test

import (
	"bytes"
	"crypto/rand"
	"crypto/x509"
	"crypto/x509/pkix"
	"encoding/asn1"
	"errors"
	"math/big"
	"net"
	"net/url"
	"slices"
	"testing"
	"time"

	"wagtenib/bindings/go/wagtenib"
)

// issueNamed issues a certificate with these names by crypto/x509.
func (a *authority) issueNamed(t *testing.T, template *x509.Certificate) *x509.Certificate {
	t.Helper()
	template.SerialNumber, template.NotAfter = big.NewInt(9), time.Unix(1<<31, 0)
	made, err := x509.CreateCertificate(rand.Reader, template, a.root, &a.key.PublicKey, a.key)
	if err != nil {
		t.Fatal(err)
	}
	certificate, err := x509.ParseCertificate(made)
	if err != nil {
		t.Fatal(err)
	}
	return certificate
}

// named returns a certificate with a name of each kind that crypto/x509 writes.
func named(t *testing.T, a *authority) *x509.Certificate {
	t.Helper()
	page, err := url.Parse("https://user@host.example.net:8443/page?query")
	if err != nil {
		t.Fatal(err)
	}
	return a.issueNamed(t, &x509.Certificate{
		Subject:        pkix.Name{CommonName: "common.example.org", Organization: []string{"an organization"}},
		DNSNames:       []string{"www.example.org", "*.wild.example.org", "Mixed.Example.COM"},
		EmailAddresses: []string{"someone@mail.example.org"},
		IPAddresses:    []net.IP{net.IPv4(192, 0, 2, 1).To4(), net.ParseIP("2001:db8::1")},
		URIs:           []*url.URL{page},
	})
}

// TestNamesAreThoseOfX509 checks that crypto/x509 reads the same names of each kind, in the same order, from the
// certificate and from its TBSCertificate.
func TestNamesAreThoseOfX509(t *testing.T) {
	certificate := named(t, newAuthority(t))
	for entryType, data := range map[wagtenib.EntryType][]byte{wagtenib.X509Entry: certificate.Raw,
		wagtenib.PrecertEntry: certificate.RawTBSCertificate} {
		names, err := wagtenib.CertificateNames(entryType, data)
		if err != nil {
			t.Fatal(err)
		}
		found := map[wagtenib.NameKind][]string{}
		for _, name := range names {
			text := string(name.Bytes)
			if name.Kind == wagtenib.IPAddress {
				text = net.IP(name.Bytes).String()
			}
			found[name.Kind] = append(found[name.Kind], text)
		}
		addresses := []string{certificate.IPAddresses[0].String(), certificate.IPAddresses[1].String()}
		for kind, want := range map[wagtenib.NameKind][]string{
			wagtenib.CommonName: {certificate.Subject.CommonName}, wagtenib.DNSName: certificate.DNSNames,
			wagtenib.MailAddress: certificate.EmailAddresses,
			wagtenib.URI:         {certificate.URIs[0].String()}, wagtenib.IPAddress: addresses,
		} {
			if !slices.Equal(found[kind], want) {
				t.Errorf("entry type %d, kind %d: %q, and not %q", entryType, kind, found[kind], want)
			}
		}
		if names[0].Kind != wagtenib.CommonName || len(names) != 8 {
			t.Errorf("entry type %d: %d names, the first of kind %d", entryType, len(names), names[0].Kind)
		}
	}
}

// TestFindsHostsThatX509Verifies checks that a watched host is found in subjectAltName exactly if crypto/x509 accepts
// the certificate for it.
func TestFindsHostsThatX509Verifies(t *testing.T) {
	certificate := named(t, newAuthority(t))
	hosts := []string{"www.example.org", "WWW.example.org", "example.org", "a.wild.example.org", "a.b.wild.example.org",
		"wild.example.org", "mixed.example.com", "192.0.2.1", "2001:db8::1", "192.0.2.2", "other.example"}
	found, err := wagtenib.WatchedNames(wagtenib.X509Entry, certificate.Raw, wagtenib.NewWatchList(hosts))
	if err != nil {
		t.Fatal(err)
	}
	places := map[uint64]wagtenib.Place{}
	for _, one := range found {
		places[one.Position] = one.Place
	}
	for position, host := range hosts {
		if is, valid := places[uint64(position)] == wagtenib.InAltName, certificate.VerifyHostname(host) == nil; is != valid {
			t.Errorf("%s: found %v, valid %v", host, is, valid)
		}
	}
}

// TestFindsPlaces checks the place at which a watched name is found, also below a name with a dot in front, in a mail
// address, in a URI and in a common name.
func TestFindsPlaces(t *testing.T) {
	certificate := named(t, newAuthority(t))
	watched := []string{"absent.example", ".example.net", "mail.example.org", "host.example.net.", "common.example.org",
		"", ".org"}
	want := []wagtenib.Found{{Position: 1, Place: wagtenib.InAltName}, {Position: 2, Place: wagtenib.InAltName},
		{Position: 3, Place: wagtenib.InAltName},
		{Position: 4, Place: wagtenib.InCommonName}, {Position: 6, Place: wagtenib.InAltName}}
	found, err := wagtenib.WatchedNames(wagtenib.PrecertEntry, certificate.RawTBSCertificate,
		wagtenib.NewWatchList(watched))
	if err != nil || !slices.Equal(found, want) {
		t.Errorf("%v %v", found, err)
	}
}

// TestFindsNamesInBytes checks that a watched name is found in the bytes of a certificate that cannot be read, in an
// organization and across fields, whatever the case of its letters. The dot or the "*." in front and the dot at the end
// are not part of the searched text. The dot at the end is removed first, so "*." becomes the text "*".
func TestFindsNamesInBytes(t *testing.T) {
	certificate := named(t, newAuthority(t)).Raw
	cut := certificate[:len(certificate)-1]
	watched := []string{"absent.example", "An ORGANIZATION", ".mixed.example.com", "*.wild.example.org",
		"www.example.org.", "", "*.", "an organizatiom", "\x82\x0fwww"}
	want := []wagtenib.Found{{Position: 1, Place: wagtenib.InBytes}, {Position: 2, Place: wagtenib.InBytes},
		{Position: 3, Place: wagtenib.InBytes},
		{Position: 4, Place: wagtenib.InBytes}, {Position: 5, Place: wagtenib.InBytes},
		{Position: 6, Place: wagtenib.InBytes}, {Position: 8, Place: wagtenib.InBytes}}
	if _, err := wagtenib.CertificateNames(wagtenib.X509Entry, cut); !errors.Is(err, wagtenib.ErrDERTruncated) {
		t.Fatal(err)
	}
	found, err := wagtenib.NamesInBytes(cut, wagtenib.NewWatchList(watched))
	if err != nil || !slices.Equal(found, want) {
		t.Errorf("%v %v", found, err)
	}
	if found, err := wagtenib.NamesInBytes(nil, wagtenib.NewWatchList([]string{"a", "."})); err != nil ||
		len(found) != 1 || found[0].Position != 1 {
		t.Errorf("no bytes: %v %v", found, err)
	}
	if found, err := wagtenib.NamesInBytes(cut, wagtenib.NewWatchList(nil)); err != nil || len(found) != 0 {
		t.Errorf("no names: %v %v", found, err)
	}
}

// TestReadsWideCommonNames checks that a common name in a BMPString keeps its bytes.
func TestReadsWideCommonNames(t *testing.T) {
	wide := asn1.RawValue{Tag: asn1.TagBMPString, Bytes: []byte{0, 'w', 0, '.', 0x65, 0xe5}}
	commonName := pkix.AttributeTypeAndValue{Type: asn1.ObjectIdentifier{2, 5, 4, 3}, Value: wide}
	certificate := newAuthority(t).issueNamed(t,
		&x509.Certificate{Subject: pkix.Name{ExtraNames: []pkix.AttributeTypeAndValue{commonName}}})
	names, err := wagtenib.CertificateNames(wagtenib.X509Entry, certificate.Raw)
	if err != nil || len(names) != 1 || names[0].Kind != wagtenib.BMPCommonName ||
		!bytes.Equal(names[0].Bytes, wide.Bytes) {
		t.Errorf("%v %v", names, err)
	}
}

// TestRefusesNames checks the errors of names.
func TestRefusesNames(t *testing.T) {
	certificate := named(t, newAuthority(t)).Raw
	for _, test := range []struct {
		entryType wagtenib.EntryType
		data      []byte
		want      wagtenib.Code
		field     wagtenib.Field
	}{
		{wagtenib.X509Entry, certificate[:len(certificate)-1], wagtenib.ErrDERTruncated, 1},
		{wagtenib.PrecertEntry, certificate, wagtenib.ErrDEROtherTag, 6},
		{wagtenib.X509Entry, append(bytes.Clone(certificate), 0), wagtenib.ErrDERTrailing, 1},
		{2, certificate, wagtenib.ErrBadEntryType, 0},
	} {
		_, err := wagtenib.CertificateNames(test.entryType, test.data)
		_, other := wagtenib.WatchedNames(test.entryType, test.data, wagtenib.NewWatchList([]string{"example.org"}))
		var fault *wagtenib.CertificateError
		if !errors.Is(err, test.want) || !errors.Is(other, test.want) || errors.As(err, &fault) != (test.field != 0) ||
			fault != nil && fault.Field != test.field {
			t.Errorf("%v and %v, and not %v in %v", err, other, test.want, test.field)
		}
	}
}
