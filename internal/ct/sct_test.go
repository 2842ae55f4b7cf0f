package ct_test

import (
	"bytes"
	"encoding/hex"
	"encoding/json"
	"errors"
	"strings"
	"testing"

	"wagtenib/internal/ct"
)

// These are a timestamp in TLS, field by field (RFC 6962, section 3.2; RFC 5246, section 4.7), and as the answer to
// add-chain (RFC 6962, section 4.1).
const (
	sctInTLS  = "00" + keyHash + timestamp + extensions + "0403" + "0002" + "a1b2"
	sctInJSON = `{"sct_version":0,"id":"BwcHBwcHBwcHBwcHBwcHBwcHBwcHBwcHBwcHBwcHBwc=","timestamp":1700000000123,` +
		`"extensions":"AAAFAQIDBAU=","signature":"BAMAAqGy"}`
)

// TestCodesSCTs checks that a timestamp is read and written in both forms.
func TestCodesSCTs(t *testing.T) {
	for form, content := range map[string][]byte{"TLS": unhex(t, sctInTLS), "JSON": []byte(sctInJSON),
		"a list": unhex(t, "003b"+"0039"+sctInTLS)} {
		scts, err := ct.ReadSCTs(content)
		if err != nil || len(scts) != 1 {
			t.Fatalf("%s: %d timestamps, %v", form, len(scts), err)
		}
		sct := scts[0]
		index, ok := sct.Index()
		if sct.Timestamp != 1_700_000_000_123 || hex.EncodeToString(sct.LogID[:]) != keyHash || index != 0x0102030405 || !ok ||
			hex.EncodeToString(sct.Signature) != "04030002a1b2" {
			t.Errorf("%s is read as %+v with the index %d, %t", form, sct, index, ok)
		}
		if written := hex.EncodeToString(sct.Bytes()); written != sctInTLS {
			t.Errorf("%s is written as %s", form, written)
		}
		if written, err := json.Marshal(sct); err != nil || string(written) != sctInJSON {
			t.Errorf("%s is written as %s, %v", form, written, err)
		}
	}
	for what, other := range map[string]string{"another version": strings.Replace(sctInJSON, ":0,", ":1,", 1),
		"a short log ID":               strings.Replace(sctInJSON, "BwcHBwcH", "BwcH", 1),
		"a signature that is too long": strings.Replace(sctInJSON, "BAMAAqGy", "BAMAAqGyAA==", 1)} {
		if scts, err := ct.ReadSCTs([]byte(other)); !errors.Is(err, ct.ErrSCT) {
			t.Errorf("%s is read as %+v", what, scts)
		}
	}
}

// FuzzReadSCTs checks that ReadSCTs reads timestamps of any form completely or not at all. Each of them is the same when
// it is parsed again.
func FuzzReadSCTs(f *testing.F) {
	sct := unhex(f, sctInTLS)
	f.Add(sct)
	f.Add(append([]byte{0, byte(len(sct) + 2), 0, byte(len(sct))}, sct...))
	f.Add([]byte(`{"sct_version":0,"id":"AAAAAAAAAAAAAAAAAAAAAAAAAAAAAAAAAAAAAAAAAAA=",` +
		`"timestamp":1,"extensions":"","signature":"BAMAAA=="}`))
	f.Fuzz(func(t *testing.T, content []byte) {
		scts, err := ct.ReadSCTs(content)
		if err == nil && len(scts) == 0 {
			t.Fatal("no timestamps, and no error")
		}
		if err != nil {
			return
		}
		for _, sct := range scts {
			again, err := ct.ParseSCT(sct.Bytes())
			if err != nil || again.LogID != sct.LogID || again.Timestamp != sct.Timestamp ||
				!bytes.Equal(again.Extensions, sct.Extensions) || !bytes.Equal(again.Signature, sct.Signature) {
				t.Fatalf("%x is a different timestamp when it is parsed again: %v", sct.Bytes(), err)
			}
			if index, ok := sct.Index(); ok && index >= 1<<40 {
				t.Fatalf("the index %d has more than 40 bits", index)
			}
		}
	})
}
