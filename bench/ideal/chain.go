package main

import (
	"bytes"
	"crypto/sha256"
	"crypto/x509"
	"crypto/x509/pkix"
	"encoding/asn1"
	"encoding/binary"
	"errors"
	"fmt"
	"path/filepath"
)

// entry is a submission that waits for a step.
type entry struct {
	id hash
	// signed is the entry type and the signed entry, and extra the bytes after the extensions in a data tile.
	signed, extra []byte
	place
	// placed is closed after place is known, and published after the step's checkpoint is on the disk.
	placed, published chan struct{}
}

// extensions returns the extension leaf_index (C2SP static-ct-api).
func (e *entry) extensions() []byte {
	return append([]byte{0, 0, 5}, binary.BigEndian.AppendUint64(nil, e.index)[3:]...)
}

// leaf returns the entry's MerkleTreeLeaf, which is what its timestamp signs (RFC 6962, sections 3.2 and 3.4).
func (e *entry) leaf() []byte {
	leaf := make([]byte, 2, 20+len(e.signed))
	leaf = append(binary.BigEndian.AppendUint64(leaf, e.timestamp), e.signed...)
	return vector(leaf, 2, e.extensions())
}

// vector appends content after its length, which has width bytes (RFC 5246, section 4.3).
func vector(to []byte, width int, content []byte) []byte {
	for i := width - 1; i >= 0; i-- {
		to = append(to, byte(len(content)>>(8*i)))
	}
	return append(to, content...)
}

// check verifies a chain up to a root, and returns its entry.
func (s *server) check(chain [][]byte, isPrecertificate bool) (*entry, error) {
	certificates, err := s.parse(chain)
	if err != nil {
		return nil, err
	}
	for i := range certificates[:len(certificates)-1] {
		if err := certificates[i].CheckSignatureFrom(certificates[i+1]); err != nil {
			return nil, err
		}
	}
	var fingerprints []byte
	for _, issuer := range certificates[1:] {
		fingerprint := sha256.Sum256(issuer.Raw)
		if _, isKnown := s.issuers.LoadOrStore(fingerprint, true); !isKnown {
			write(filepath.Join(s.folder, fmt.Sprintf("issuer/%x", fingerprint)), issuer.Raw)
		}
		fingerprints = append(fingerprints, fingerprint[:]...)
	}
	e := &entry{placed: make(chan struct{}), published: make(chan struct{})}
	if isPrecertificate {
		cut, err := withoutPoison(certificates[0].RawTBSCertificate)
		if err != nil {
			return nil, err
		}
		issuer := sha256.Sum256(certificates[1].RawSubjectPublicKeyInfo)
		e.signed = vector(append([]byte{0, 1}, issuer[:]...), 3, cut)
		e.extra = vector(nil, 3, certificates[0].Raw)
	} else {
		e.signed = vector([]byte{0, 0}, 3, certificates[0].Raw)
	}
	e.extra = vector(e.extra, 2, fingerprints)
	e.id = sha256.Sum256(e.signed)
	return e, nil
}

// parse parses a chain. Its last certificate must be an accepted root, which is added if the chain lacks it.
func (s *server) parse(chain [][]byte) ([]*x509.Certificate, error) {
	var certificates []*x509.Certificate
	for _, der := range chain {
		certificate, err := x509.ParseCertificate(der)
		if err != nil {
			return nil, err
		}
		certificates = append(certificates, certificate)
	}
	if len(certificates) == 0 {
		return nil, errors.New("the chain is empty")
	}
	last := certificates[len(certificates)-1]
	root := s.root(last)
	if root == nil {
		return nil, fmt.Errorf("no accepted root has the subject %s", last.Issuer)
	}
	if !bytes.Equal(root.Raw, last.Raw) {
		certificates = append(certificates, root)
	}
	return certificates, nil
}

// poison is the extension of a precertificate (RFC 6962, section 3.1).
var poison = asn1.ObjectIdentifier{1, 3, 6, 1, 4, 1, 11129, 2, 4, 3}

// tbsCertificate is a TBSCertificate (RFC 5280, section 4.1).
type tbsCertificate struct {
	Version                                   int `asn1:"optional,explicit,default:0,tag:0"`
	Serial                                    asn1.RawValue
	Algorithm, Issuer, Validity, Subject, Key asn1.RawValue
	Extensions                                []pkix.Extension `asn1:"optional,explicit,tag:3"`
}

// withoutPoison returns a precertificate's TBSCertificate without its poison.
func withoutPoison(der []byte) ([]byte, error) {
	var tbs tbsCertificate
	if _, err := asn1.Unmarshal(der, &tbs); err != nil {
		return nil, err
	}
	for i, extension := range tbs.Extensions {
		if extension.Id.Equal(poison) {
			tbs.Extensions = append(tbs.Extensions[:i], tbs.Extensions[i+1:]...)
			break
		}
	}
	return asn1.Marshal(tbs)
}
