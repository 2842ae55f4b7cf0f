package chain

import (
	"bytes"
	"encoding/hex"
	"errors"
	"strings"
	"testing"

	"wagtenib/bindings/go/wagtenib"
)

// tbsWith returns a TBSCertificate with empty fields and with these extensions (RFC 5280, section 4.1).
func tbsWith(t *testing.T, extensions string) []byte {
	t.Helper()
	wrapped := func(tag byte, content []byte) []byte { return append([]byte{tag, byte(len(content))}, content...) }
	list, err := hex.DecodeString(extensions)
	if err != nil || len(list) > 100 {
		t.Fatal(err)
	}
	fields := []byte{2, 1, 7, 0x30, 0, 0x30, 0, 0x30, 0, 0x30, 0, 0x30, 0}
	if len(list) > 0 {
		fields = append(fields, wrapped(0xa3, wrapped(0x30, list))...)
	}
	return wrapped(0x30, fields)
}

// TestPrecertificates: the proved function removes the poison.
func TestPrecertificates(t *testing.T) {
	c := NewCutter()
	const poison, number, other = "3013060a2b06010401d6790204030101ff04020500",
		"3013060a2b06010401d6790204030101ff04020201", "3009060355041d0402aabb"
	for extensions, want := range map[string]string{poison: "", poison + other: other, other + poison: other, other +
		poison + other: other + other} {
		entry, err := c.WithoutPoison(tbsWith(t, extensions))
		if err != nil || !bytes.Equal(entry, tbsWith(t, want)) {
			t.Errorf("%s: %x, %v", extensions, entry, err)
		}
	}
	for extensions, want := range map[string]error{"": wagtenib.ErrNoExtension, other: wagtenib.ErrNoExtension, poison +
		other + poison: wagtenib.ErrSecondExtension, number: wagtenib.ErrBadPoison, other[:len(other)-2]: errUnread} {
		if entry, err := c.WithoutPoison(tbsWith(t, extensions)); !errors.Is(err, want) {
			t.Errorf("%s: %x, %v", extensions, entry, err)
		}
	}
	_, err := c.WithoutPoison(append(tbsWith(t, poison), 0))
	if !errors.Is(err, errUnread) || !strings.Contains(err.Error(),
		"bytes follow the last element of DER (in tbsCertificate of the certificate)") {
		t.Error(err)
	}
}

// TestRefusesWrongEntries uses a function that returns wrong entries for a precertificate: the entry of another
// certificate, or one with another bit, without a byte, with another order of extensions, or with one extension more or
// less. None may be used.
func TestRefusesWrongEntries(t *testing.T) {
	t.Parallel()
	const poison, one, two = "3013060a2b06010401d6790204030101ff04020500", "3009060355041d0402aabb",
		"3009060355041e0402ccdd"
	tbs, right := tbsWith(t, one+poison+two), tbsWith(t, one+two)
	another := append([]byte{}, right...)
	another[4]++
	wrongs := [][]byte{tbs, another, tbsWith(t, two+one), tbsWith(t, one), tbsWith(t, one+two+two), tbsWith(t, ""),
		right[:len(right)-1], append(append([]byte{}, right...), 0), {0x30, 0}}
	for at := range right {
		changed := append([]byte{}, right...)
		changed[at] ^= 1
		wrongs = append(wrongs, changed)
	}
	for _, wrong := range wrongs {
		if isCut(tbs, wrong) {
			t.Errorf("%x is accepted as the entry of %x", wrong, tbs)
		}
	}
	// If a precertificate has no other extensions, its entry has no extensions and no list of them.
	if !isCut(tbs, right) || !isCut(tbsWith(t, poison), tbsWith(t, "")) ||
		isCut(tbsWith(t, poison+one+poison), tbsWith(t, one)) || isCut(right, right) {
		t.Error("a correct entry is refused, or a wrong one is accepted")
	}
	for _, test := range []struct {
		entry []byte
		right bool
	}{{right, true}, {another, false}, {nil, false}, {tbs[:1], false}} {
		if entry, err := cutterReturning(test.entry, nil).WithoutPoison(tbs); test.right != (err == nil) ||
			test.right != (entry != nil) || !test.right && !errors.Is(err, errCut) {
			t.Errorf("%x: %x, %v", test.entry, entry, err)
		}
	}
}

// cutterReturning returns a cutter over a function that returns the same results for every TBSCertificate.
func cutterReturning(entry []byte, err error) Cutter {
	return CutterOver(func([]byte) ([]byte, error) { return entry, err })
}

// TestRefusalsAreFound: for each error of the function, errors.Is finds its kind, and there is no entry.
func TestRefusalsAreFound(t *testing.T) {
	t.Parallel()
	tbs := tbsWith(t, "")
	unfit := func(code wagtenib.Code) error { return &wagtenib.CertificateError{Code: code, Field: 14} }
	for _, test := range []struct{ err, want error }{
		{unfit(wagtenib.ErrNoExtension), wagtenib.ErrNoExtension},
		{unfit(wagtenib.ErrSecondExtension), wagtenib.ErrSecondExtension},
		{unfit(wagtenib.ErrBadPoison), wagtenib.ErrBadPoison},
		{unfit(wagtenib.ErrDERTruncated), errUnread}, {unfit(wagtenib.ErrDERTrailing), errUnread},
		{wagtenib.ErrMemory, wagtenib.ErrMemory},
	} {
		if entry, err := cutterReturning(tbs, test.err).WithoutPoison(tbs); !errors.Is(err, test.want) ||
			!errors.Is(err, test.err) || entry != nil {
			t.Errorf("%v: %x, %v", test.err, entry, err)
		}
	}
}
