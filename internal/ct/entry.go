package ct

import "wagtenib/bindings/go/wagtenib"

// EntryType is the type of an entry (RFC 6962, section 3.1, LogEntryType).
type EntryType = wagtenib.EntryType

// The types of entries.
const (
	X509Entry    = wagtenib.X509Entry
	PrecertEntry = wagtenib.PrecertEntry
)

// Entry is an entry of a log before it has an index and a timestamp.
type Entry struct {
	Type EntryType
	// Certificate is the certificate of an X509Entry. It is nil for a PrecertEntry.
	Certificate []byte
	// IssuerKeyHash and TBSCertificate are set for a PrecertEntry. IssuerKeyHash is SHA-256 over the key of the final
	// certificate's issuer (its SubjectPublicKeyInfo in DER). TBSCertificate is that of the final certificate, without
	// the timestamps.
	IssuerKeyHash  [32]byte
	TBSCertificate []byte
	// Precertificate is the submitted precertificate of a PrecertEntry.
	Precertificate []byte
	// Issuers are the certificates after the first one in DER, each the issuer of the one before it. The last one is a
	// root of the log. There are none if the certificate is a root.
	Issuers [][]byte
}
