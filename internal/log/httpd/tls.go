package httpd

import (
	"crypto/tls"
	"fmt"
	"os"
	"sync/atomic"

	"wagtenib/internal/command/privatefile"
)

// Certificate is a certificate and key for TLS from two PEM files, which can be reloaded.
type Certificate struct {
	certificate, key string
	pair             atomic.Pointer[tls.Certificate]
}

// maxKeyFile is the maximum number of bytes that are read of a key's file.
const maxKeyFile = 64 << 10

// LoadCertificate reads the files. Only the owner of the key's file may read it.
func LoadCertificate(certificate, key string) (*Certificate, error) {
	c := &Certificate{certificate: certificate, key: key}
	return c, c.Reload()
}

// Reload reads the files again. After an error the previous ones stay in use.
func (c *Certificate) Reload() error {
	certificate, err := os.ReadFile(c.certificate)
	if err != nil {
		return fmt.Errorf("TLS certificate: %w", err)
	}
	key, err := privatefile.Read(c.key, "the key of a TLS certificate", maxKeyFile)
	if err != nil {
		return fmt.Errorf("TLS certificate: %w", err)
	}
	pair, err := tls.X509KeyPair(certificate, key)
	if err != nil {
		return fmt.Errorf("TLS certificate: %w", err)
	}
	c.pair.Store(&pair)
	return nil
}

// Config returns a configuration that uses the pair that was read last, with TLS 1.2 or later.
func (c *Certificate) Config() *tls.Config {
	return &tls.Config{
		MinVersion:     tls.VersionTLS12,
		GetCertificate: func(*tls.ClientHelloInfo) (*tls.Certificate, error) { return c.pair.Load(), nil },
	}
}
