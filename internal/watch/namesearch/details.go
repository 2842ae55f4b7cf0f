package namesearch

import (
	"crypto/sha256"
	"crypto/x509/pkix"
	"encoding/asn1"
	"encoding/hex"
	"errors"
	"net/netip"
	"time"

	"golang.org/x/crypto/cryptobyte"
	tags "golang.org/x/crypto/cryptobyte/asn1"

	"wagtenib/bindings/go/wagtenib"
)

// Details holds the fields of a certificate that an alert shows with its names (RFC 5280, section 4.1.2). A field that
// cannot be read is empty: a certificate with one damaged field must still be reported with all others.
type Details struct {
	Subject      string   // the distinguished name (RFC 4514)
	Issuer       string   // the distinguished name (RFC 4514)
	IssuerNames  []string // the issuer's organizations and common name
	SerialNumber string   // in hexadecimal digits
	NotBefore    time.Time
	NotAfter     time.Time
	KeySHA256    string // of the SubjectPublicKeyInfo, in hexadecimal digits
}

// ReadDetails reads the fields of a certificate, or of a TBSCertificate, in DER.
func ReadDetails(entryType wagtenib.EntryType, certificate []byte) Details {
	var details Details
	tbs := cryptobyte.String(certificate)
	if entryType == wagtenib.X509Entry && !tbs.ReadASN1(&tbs, tags.SEQUENCE) {
		return details
	}
	var fields, field cryptobyte.String
	if !tbs.ReadASN1(&fields, tags.SEQUENCE) {
		return details
	}
	fields.SkipOptionalASN1(tags.Tag(0).ContextSpecific().Constructed())
	if fields.ReadASN1(&field, tags.INTEGER) {
		details.SerialNumber = hex.EncodeToString(field)
	}
	fields.SkipASN1(tags.SEQUENCE)
	var whole cryptobyte.String
	if fields.ReadASN1Element(&whole, tags.SEQUENCE) {
		details.Issuer, details.IssuerNames = distinguished(whole)
	}
	if fields.ReadASN1(&field, tags.SEQUENCE) {
		details.NotBefore, details.NotAfter = readTime(&field), readTime(&field)
	}
	if fields.ReadASN1Element(&whole, tags.SEQUENCE) {
		details.Subject, _ = distinguished(whole)
	}
	if fields.ReadASN1Element(&whole, tags.SEQUENCE) {
		digest := sha256.Sum256(whole)
		details.KeySHA256 = hex.EncodeToString(digest[:])
	}
	return details
}

// distinguished returns a distinguished name as a text, and its common name and organizations.
func distinguished(der []byte) (text string, names []string) {
	var sequence pkix.RDNSequence
	if rest, err := asn1.Unmarshal(der, &sequence); err != nil || len(rest) > 0 {
		return "", nil
	}
	var name pkix.Name
	name.FillFromRDNSequence(&sequence)
	names = append(names, name.Organization...)
	if name.CommonName != "" {
		names = append(names, name.CommonName)
	}
	return sequence.String(), names
}

// readTime reads a UTCTime or GeneralizedTime. It returns the zero time if there is none.
func readTime(from *cryptobyte.String) (read time.Time) {
	utc, generalized := *from, *from
	var content cryptobyte.String
	var tag tags.Tag
	if !from.ReadAnyASN1(&content, &tag) {
		*from = nil
		return time.Time{}
	}
	if utc.ReadASN1UTCTime(&read) || generalized.ReadASN1GeneralizedTime(&read) {
		return read
	}
	return time.Time{}
}

// Text returns a name of a certificate as people read it: an address as text, and a wide string as its characters. The
// result may contain any character. A caller that shows it must make it safe.
func Text(name wagtenib.Name) string {
	if name.Kind == wagtenib.IPAddress {
		if address, ok := netip.AddrFromSlice(name.Bytes); ok {
			return address.String()
		}
		return hex.EncodeToString(name.Bytes)
	}
	found := texts(name)
	if len(found) == 0 {
		return string(name.Bytes)
	}
	return found[len(found)-1]
}

// Once separates the names of a certificate: once has the first name with each text, and repeated has the names that
// repeat a text, both in their order. A common name often repeats a name of subjectAltName.
func Once(names []wagtenib.Name) (once, repeated []wagtenib.Name) {
	seen := make(map[string]bool, len(names))
	for _, name := range names {
		text := Text(name)
		if seen[text] {
			repeated = append(repeated, name)
			continue
		}
		seen[text] = true
		once = append(once, name)
	}
	return once, repeated
}

// errIssuance means that bytes are not a certificate.
var errIssuance = errors.New("no certificate")

// Issuance returns what a precertificate and its certificate have in common: the SHA-256 hash of the TBSCertificate
// without the poison and without the list of SCTs (RFC 6962, sections 3.1 and 3.3).
//
// The hash covers everything that the CA certifies, so issuances with different names, keys or dates never have the
// same hash. The serial number with the issuer's key would be shorter, but a CA that uses a serial number twice could
// then hide a certificate.
func Issuance(entryType wagtenib.EntryType, certificate []byte) [32]byte {
	tbs, err := withoutSCTs(entryType, certificate)
	if err != nil {
		return sha256.Sum256(certificate)
	}
	return sha256.Sum256(tbs)
}

// tbsOffset is the position of the TBSCertificate in a MerkleTreeLeaf. Before it are a version, a leaf type, a
// timestamp, an entry type, the hash of the issuer's key, and the three bytes of its length (RFC 6962, section 3.4).
// emptyExtensions is the size of the empty extensions after it, which are only their length.
const (
	tbsOffset       = 1 + 1 + 8 + 2 + 32 + 3
	emptyExtensions = 2
)

// withoutSCTs returns the TBSCertificate of a certificate, without its list of SCTs. The library removes the list, as
// it does for the leaf that an SCT promises.
func withoutSCTs(entryType wagtenib.EntryType, certificate []byte) ([]byte, error) {
	whole := certificate
	if entryType == wagtenib.PrecertEntry {
		// PromisedLeaf needs a certificate. This one has an algorithm without content, and an empty signature.
		builder := cryptobyte.NewBuilder(nil)
		builder.AddASN1(tags.SEQUENCE, func(child *cryptobyte.Builder) {
			child.AddBytes(certificate)
			child.AddASN1(tags.SEQUENCE, func(*cryptobyte.Builder) {})
			child.AddASN1BitString(nil)
		})
		made, err := builder.Bytes()
		if err != nil {
			return nil, err
		}
		whole = made
	}
	// The TBSCertificate does not depend on the issuer's key, so the issuer may be any certificate with a key.
	leaf, err := wagtenib.PromisedLeaf(wagtenib.Promise{Certificate: whole, Issuer: whole})
	if err == nil {
		return leaf[tbsOffset : len(leaf)-emptyExtensions], nil
	}
	if !errors.Is(err, wagtenib.ErrNoExtension) {
		return nil, err
	}
	content := cryptobyte.String(whole)
	var tbs cryptobyte.String
	if !content.ReadASN1(&content, tags.SEQUENCE) || !content.ReadASN1Element(&tbs, tags.SEQUENCE) {
		return nil, errIssuance
	}
	return tbs, nil
}
