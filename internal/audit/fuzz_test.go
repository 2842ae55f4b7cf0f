package audit_test

import (
	"bytes"
	"testing"

	"wagtenib/internal/audit"
	"wagtenib/internal/testkit"
)

// The heads that SplitHeads returns are parts of the file, in their order, whatever the file contains.
func FuzzSplitHeads(f *testing.F) {
	log := testkit.NewLog("log.example/2027")
	log.PublishRoot(7, 1, [32]byte{})
	f.Add(log.Checkpoint())
	f.Add(bytes.Repeat(log.Checkpoint(), 3))
	f.Add([]byte("{}\n{}\n"))
	f.Add([]byte("\n\n— a b\n\n— c d"))
	f.Fuzz(func(t *testing.T, content []byte) {
		rest := content
		for _, head := range audit.SplitHeads(content) {
			offset := bytes.Index(rest, head)
			if offset < 0 {
				t.Fatalf("%q is not a part of the rest of the file, %q", head, rest)
			}
			rest = rest[offset+len(head):]
		}
	})
}

// No bytes crash the reading of certificates and of their timestamps. CertificateSCTs returns an error if there are no
// timestamps.
func FuzzCertificates(f *testing.F) {
	f.Add([]byte("certificate"))
	f.Add([]byte{0x30, 0x03, 0x30, 0x01, 0x00})
	f.Fuzz(func(t *testing.T, content []byte) {
		certificates, err := audit.Certificates(content)
		if err != nil {
			return
		}
		for _, certificate := range certificates {
			scts, err := audit.CertificateSCTs(certificate)
			if err == nil && len(scts) == 0 {
				t.Fatal("no timestamps, and no error")
			}
		}
	})
}
