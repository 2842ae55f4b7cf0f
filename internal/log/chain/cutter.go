package chain

import (
	"errors"
	"fmt"

	"wagtenib/bindings/go/wagtenib"
)

// errCut: an entry is not the one of the precertificate. The function that makes entries is proved to make only correct
// ones, so this is a fault of this process: of its machine, of its compiler, or of the call.
var errCut = errors.New("chains: not the entry of the precertificate")

// errUnread: a TBSCertificate is not valid DER. The error also wraps the wagtenib.CertificateError, which names the
// field.
var errUnread = errors.New("chains: the TBSCertificate cannot be read")

// CutFunction makes an entry, as wagtenib.PrecertificateEntry does.
type CutFunction func(tbs []byte) (entry []byte, err error)

// cutter removes the poison extension from precertificates. Its method may be called concurrently.
type cutter struct{ function CutFunction }

// NewCutter returns the cutter that calls the proved function.
func NewCutter() Cutter { return CutterOver(wagtenib.PrecertificateEntry) }

// CutterOver returns a cutter that calls another function than the proved one, for tests.
func CutterOver(function CutFunction) Cutter { return &cutter{function} }

// WithoutPoison returns the entry of the precertificate with this TBSCertificate: the TBSCertificate without the poison
// extension (RFC 6962, section 3.2). It compares the entry with the TBSCertificate.
func (c *cutter) WithoutPoison(tbs []byte) ([]byte, error) {
	entry, err := c.function(tbs)
	var unfit *wagtenib.CertificateError
	if errors.As(err, &unfit) && unfit.IsDER() {
		return nil, fmt.Errorf("%w: %w", errUnread, err)
	}
	if err != nil {
		return nil, fmt.Errorf("chains: %w", err)
	}
	if !isCut(tbs, entry) {
		return nil, fmt.Errorf("%w: an entry of %d bytes for a TBSCertificate of %d", errCut, len(entry), len(tbs))
	}
	return entry, nil
}
