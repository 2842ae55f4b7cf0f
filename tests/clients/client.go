// Command client submits certificates to a log over HTTP with Google's client library for Certificate Transparency
// logs, and checks the answers: the signature of each SCT and tree head, the audit path of each certificate, and that
// the log before the submissions is a beginning of the log after them.
//
//	client -key FILE BASE CERTIFICATE..
//
// BASE is the log's address with a slash at its end. Each CERTIFICATE is a DER file. FILE has the log's public key in
// PEM.
package main

import (
	"context"
	"crypto/sha256"
	"crypto/x509"
	"encoding/base64"
	"encoding/json"
	"encoding/pem"
	"flag"
	"fmt"
	"net/http"
	"net/url"
	"os"

	ct "github.com/google/certificate-transparency-go"
	"github.com/google/certificate-transparency-go/client"
	"github.com/google/certificate-transparency-go/jsonclient"
	"github.com/transparency-dev/merkle/proof"
	"github.com/transparency-dev/merkle/rfc6962"
)

// check ends the program with a message unless a condition is true.
func check(condition bool, message ...interface{}) {
	if !condition {
		fmt.Fprintln(os.Stderr, append([]interface{}{"client:"}, message...)...)
		os.Exit(1)
	}
}

// ok ends the program if there is an error.
func ok(err error) {
	check(err == nil, err)
}

// get reads the answer to a GET request into value.
func get(address string, value interface{}) {
	response, err := http.Get(address)
	ok(err)
	defer response.Body.Close()
	check(response.StatusCode == 200, address, response.Status)
	ok(json.NewDecoder(response.Body).Decode(value))
}

func digest(data []byte) []byte {
	sum := sha256.Sum256(data)
	return sum[:]
}

// checker checks one log.
type checker struct {
	base      string
	log       *client.LogClient
	signature *ct.SignatureVerifier
}

// open returns the checker of the log at base, whose key is in a file.
func open(base, file string) checker {
	text, err := os.ReadFile(file)
	ok(err)
	block, _ := pem.Decode(text)
	check(block != nil, file, "is not a key in PEM")
	key, err := x509.ParsePKIXPublicKey(block.Bytes)
	ok(err)
	signature, err := ct.NewSignatureVerifier(key)
	ok(err)
	log, err := client.New(base[:len(base)-1], nil, jsonclient.Options{PublicKeyDER: block.Bytes})
	ok(err)
	return checker{base, log, signature}
}

// head returns the log's tree head after verifying its signature, which must not be valid for another size.
func (c checker) head() *ct.SignedTreeHead {
	head, err := c.log.GetSTH(context.Background())
	ok(err)
	ok(c.signature.VerifySTHSignature(*head))
	other := *head
	other.TreeSize++
	check(c.signature.VerifySTHSignature(other) != nil, "a tree head's signature is valid for another size")
	return head
}

// submit submits a certificate, verifies the signature of its SCT, and returns its leaf.
func (c checker) submit(certificate []byte) []byte {
	timestamp, err := c.log.AddChain(context.Background(), []ct.ASN1Cert{{Data: certificate}})
	ok(err)
	entry := ct.LogEntry{Leaf: ct.MerkleTreeLeaf{TimestampedEntry: &ct.TimestampedEntry{
		EntryType: ct.X509LogEntryType, X509Entry: &ct.ASN1Cert{Data: certificate}, Extensions: timestamp.Extensions}}}
	ok(c.signature.VerifySCTSignature(*timestamp, entry))
	other := *timestamp
	other.Timestamp++
	check(c.signature.VerifySCTSignature(other, entry) != nil, "an SCT's signature is valid for another timestamp")
	// The signed bytes are those of the leaf: version 0, then 0 for the type of both (RFC 6962, sections 3.2 and 3.4).
	leaf, err := ct.SerializeSCTSignatureInput(*timestamp, entry)
	ok(err)
	return leaf
}

// include checks the audit path of a leaf to the head, and returns the leaf's index. The path must not lead to another
// root.
func (c checker) include(leaf []byte, head *ct.SignedTreeHead) uint64 {
	var answer struct {
		LeafIndex uint64   `json:"leaf_index"`
		AuditPath [][]byte `json:"audit_path"`
	}
	hash := digest(append([]byte{0}, leaf...))
	get(fmt.Sprintf("%sct/v1/get-proof-by-hash?hash=%s&tree_size=%d", c.base, url.QueryEscape(base64.StdEncoding.EncodeToString(hash)), head.TreeSize), &answer)
	index, size, root := answer.LeafIndex, head.TreeSize, head.SHA256RootHash
	ok(proof.VerifyInclusion(rfc6962.DefaultHasher, index, size, hash, answer.AuditPath, root[:]))
	root[0] ^= 1
	check(proof.VerifyInclusion(rfc6962.DefaultHasher, index, size, hash, answer.AuditPath, root[:]) != nil,
		"an audit path leads to another root")
	return index
}

// extends checks that the first head's tree is the beginning of the second one's.
func (c checker) extends(first, second *ct.SignedTreeHead) {
	var answer struct {
		Consistency [][]byte `json:"consistency"`
	}
	get(fmt.Sprintf("%sct/v1/get-sth-consistency?first=%d&second=%d", c.base, first.TreeSize, second.TreeSize), &answer)
	one, two := first.SHA256RootHash, second.SHA256RootHash
	ok(proof.VerifyConsistency(rfc6962.DefaultHasher, first.TreeSize, second.TreeSize, answer.Consistency, one[:], two[:]))
	one[0] ^= 1
	check(proof.VerifyConsistency(rfc6962.DefaultHasher, first.TreeSize, second.TreeSize, answer.Consistency, one[:],
		two[:]) != nil,
		"a consistency proof shows another root")
}

// read checks that the entry at this index is the certificate.
func (c checker) read(index uint64, certificate []byte) {
	entries, err := c.log.GetEntries(context.Background(), int64(index), int64(index))
	ok(err)
	check(len(entries) == 1, "there is not exactly one entry at index", index)
	check(string(entries[0].Leaf.TimestampedEntry.X509Entry.Data) == string(certificate),
		"another certificate at index", index)
}

func main() {
	file := flag.String("key", "", "the log's public key in PEM")
	flag.Parse()
	check(flag.NArg() > 1 && *file != "", "-key FILE BASE CERTIFICATE..")
	c := open(flag.Arg(0), *file)
	var certificates, leaves [][]byte
	before := c.head()
	for _, name := range flag.Args()[1:] {
		certificate, err := os.ReadFile(name)
		ok(err)
		certificates = append(certificates, certificate)
		leaves = append(leaves, c.submit(certificate))
	}
	head := c.head()
	for i, leaf := range leaves {
		c.read(c.include(leaf, head), certificates[i])
	}
	check(before.TreeSize > 0 && before.TreeSize < head.TreeSize, "the log did not grow from", before.TreeSize, "to",
		head.TreeSize)
	c.extends(before, head)
	fmt.Printf("Google's client library took %d timestamps and audit paths and the heads of %d and, from there, of %d entries.\n",
		len(leaves), before.TreeSize, head.TreeSize)
}
