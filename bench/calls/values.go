package main

import (
	"crypto/ecdsa"
	"crypto/elliptic"
	"crypto/rand"
	"crypto/x509"
	"crypto/x509/pkix"
	"fmt"
	"math/big"
	"time"

	"golang.org/x/mod/sumdb/tlog"

	"wagtenib/bindings/go/wagtenib"
)

// leafHash returns the work to hash a leaf, by the library and by x/mod's tlog with crypto/sha256.
func leafHash() []work {
	leaf := make([]byte, length)
	return []work{
		{"hash of a leaf of 1,500 bytes", func() error { wagtenib.LeafHash(leaf); return nil }},
		{"hash of a leaf of 1,500 bytes/Go", func() error { tlog.RecordHash(leaf); return nil }},
	}
}

// certificates returns the work to read the names of a certificate, by the library and by crypto/x509, which also reads
// the other fields.
func certificates() []work {
	key, err := ecdsa.GenerateKey(elliptic.P256(), rand.Reader)
	stop(err)
	template := &x509.Certificate{SerialNumber: big.NewInt(1), NotAfter: time.Unix(1<<31, 0), Subject: pkix.Name{CommonName: "name0.example.org"}}
	for at := range 10 {
		template.DNSNames = append(template.DNSNames, fmt.Sprintf("name%d.example.org", at))
	}
	der, err := x509.CreateCertificate(rand.Reader, template, template, &key.PublicKey, key)
	stop(err)
	names, err := wagtenib.CertificateNames(wagtenib.X509Entry, der)
	stop(err)
	if len(names) != 1+len(template.DNSNames) {
		stop(fmt.Errorf("the certificate has %d names, and %d are found", 1+len(template.DNSNames), len(names)))
	}
	name := fmt.Sprintf("the %d names of a certificate", len(names))
	return []work{
		{name, func() error { _, err := wagtenib.CertificateNames(wagtenib.X509Entry, der); return err }},
		{name + "/Go", func() error { _, err := x509.ParseCertificate(der); return err }},
	}
}
