package chain

import (
	"crypto/x509"
	"crypto/x509/pkix"
	"encoding/asn1"
	"math/big"
	"testing"
	"time"
)

// TestRules: a certificate is refused with the Refusal of the rule that it breaks. crypto/x509 makes the certificates.
func TestRules(t *testing.T) {
	key := newKey(t)
	root := authority("root")
	roots, err := ParseRoots(inPEM(signedBy(t, root, root, &key.PublicKey, key)))
	if err != nil {
		t.Fatal(err)
	}
	usage := asn1.ObjectIdentifier{2, 5, 29, 37}
	encoded := func(value ...byte) func(*x509.Certificate) {
		return func(c *x509.Certificate) { c.ExtraExtensions = []pkix.Extension{{Id: usage, Value: value}} }
	}
	purposed := func(purposes ...x509.ExtKeyUsage) func(*x509.Certificate) {
		return func(c *x509.Certificate) { c.ExtKeyUsage = purposes }
	}
	lasts := func(from, to time.Duration) func(*x509.Certificate) {
		return func(c *x509.Certificate) { c.NotBefore, c.NotAfter = time.Now().Add(from), time.Now().Add(to) }
	}
	const year = 365 * 24 * time.Hour
	poison := pkix.Extension{Id: asn1.ObjectIdentifier{1, 3, 6, 1, 4, 1, 11129, 2, 4, 3}, Critical: true,
		Value: []byte{5, 0}}
	servers, current := Rules{ServerAuthentication: true}, Rules{RefuseExpired: true, RefuseNotYetValid: true}
	for what, test := range map[string]struct {
		rules  Rules
		change func(*x509.Certificate)
		want   Refusal
	}{
		"no key usage extension": {servers, func(*x509.Certificate) {}, ""},
		"servers":                {servers, purposed(x509.ExtKeyUsageServerAuth), ""},
		"clients and servers": {servers, purposed(x509.ExtKeyUsageClientAuth,
			x509.ExtKeyUsageServerAuth), ""},
		"any purpose":               {servers, purposed(x509.ExtKeyUsageAny), ""},
		"clients":                   {servers, purposed(x509.ExtKeyUsageClientAuth), NotForServers},
		"mail":                      {servers, purposed(x509.ExtKeyUsageEmailProtection), NotForServers},
		"code":                      {servers, purposed(x509.ExtKeyUsageCodeSigning), NotForServers},
		"mail, and no rule":         {Rules{}, purposed(x509.ExtKeyUsageEmailProtection), ""},
		"no purpose at all":         {servers, encoded(0x30, 0), NotForServers},
		"a purpose that is cut off": {servers, encoded(0x30, 4, 6, 3, 0x55, 0x1d), NotForServers},
		"bytes after the purposes": {servers, encoded(0x30, 6, 6, 4, 0x55, 0x1d, 0x25, 0, 5, 0),
			NotForServers},
		"any purpose, as it is encoded": {servers, encoded(0x30, 6, 6, 4, 0x55, 0x1d, 0x25, 0), ""},
		"expired":                       {current, lasts(-2*year, -year), Expired},
		"expired, and no rule":          {Rules{RefuseNotYetValid: true}, lasts(-2*year, -year), ""},
		"not yet valid":                 {current, lasts(year, 2*year), NotYetValid},
		"not yet valid, and no rule":    {Rules{RefuseExpired: true}, lasts(year, 2*year), ""},
		"valid":                         {current, lasts(-year, year), ""},
		"expired, and outside of a window": {Rules{RefuseExpired: true, Window: Window{From: time.Now()}},
			lasts(-2*year, -year), OutsideWindow},
		"expired, and for mail": {Rules{RefuseExpired: true, ServerAuthentication: true},
			func(c *x509.Certificate) {
				lasts(-2*year, -year)(c)
				purposed(
					x509.ExtKeyUsageEmailProtection)(c)
			}, Expired},
		"expired, of a log without a rule ": {servers, lasts(-2*year, -year), ""},
	} {
		template := &x509.Certificate{SerialNumber: big.NewInt(7), NotBefore: root.NotBefore, NotAfter: root.NotAfter}
		test.change(template)
		der := signedBy(t, template, root, &newKey(t).PublicKey, key)
		c := NewChecker(roots, test.rules, byASN1{})
		if _, err := c.Certificate([][]byte{der}); (err == nil) != (test.want == "") || err != nil &&
			RefusalOf(err) != test.want {
			t.Errorf("%s: %v, and %q is expected", what, err, test.want)
		}
		template.ExtraExtensions = append(template.ExtraExtensions, poison)
		if _, err := c.Precertificate([][]byte{signedBy(t, template, root, &newKey(t).PublicKey,
			key)}); (err == nil) != (test.want == "") || err != nil && RefusalOf(err) != test.want {
			t.Errorf("%s, as a precertificate: %v, and %q is expected", what, err, test.want)
		}
	}
}
