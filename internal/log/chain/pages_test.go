package chain

import (
	"testing"

	"wagtenib/internal/testkit"
)

// TestPageSaysBounds: the bounds of chains in docs/SERVICE.md are those of the code.
func TestPageSaysBounds(t *testing.T) {
	testkit.Says(t, testkit.Page(t, "../../../docs/SERVICE.md"), map[string]bool{
		"A chain has at most 16 certificates.":              MaxCertificates == 16,
		"MD5, DSA and RSA keys of issuers above 8,192 bits": MaxKeyBits == 8192,
	})
}
