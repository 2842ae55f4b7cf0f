package ct_test

import (
	"crypto"
	"crypto/ecdsa"
	"crypto/ed25519"
	"crypto/elliptic"
	"crypto/rand"
	"crypto/rsa"
	"crypto/sha256"
	"crypto/x509"
	"encoding/base64"
	"encoding/binary"
	"encoding/json"
	"errors"
	"strings"
	"testing"

	"golang.org/x/mod/sumdb/note"

	"wagtenib/internal/ct"
	"wagtenib/internal/testkit"
)

// signer holds a key, which may be of a kind that no log may have.
type signer struct {
	key       crypto.Signer
	algorithm byte // in a DigitallySigned (RFC 5246, section 7.4.1.4.1)
}

// signers returns a key of each kind that a log may have (RFC 6962, section 2.1.4), and of others.
func signers(t *testing.T) map[string]signer {
	t.Helper()
	small, smallErr := rsa.GenerateKey(rand.Reader, 1024)
	large, largeErr := rsa.GenerateKey(rand.Reader, 2048)
	p256, p256Err := ecdsa.GenerateKey(elliptic.P256(), rand.Reader)
	p384, p384Err := ecdsa.GenerateKey(elliptic.P384(), rand.Reader)
	_, edwards, edwardsErr := ed25519.GenerateKey(rand.Reader)
	if err := errors.Join(smallErr, largeErr, p256Err, p384Err, edwardsErr); err != nil {
		t.Fatal(err)
	}
	return map[string]signer{"RSA of 1024 bits": {small, 1}, "RSA": {large, 1}, "P-256": {p256, 3}, "P-384": {p384, 3},
		"Ed25519": {edwards, 7}}
}

func (s signer) public(t *testing.T) []byte {
	t.Helper()
	der, err := x509.MarshalPKIXPublicKey(s.key.Public())
	if err != nil {
		t.Fatal(err)
	}
	return der
}

// sign returns a DigitallySigned with SHA-256 over a message.
func (s signer) sign(t *testing.T, message []byte) []byte {
	t.Helper()
	digest, hash := sha256.Sum256(message), crypto.SHA256
	content := digest[:]
	if s.algorithm == 7 {
		content, hash = message, crypto.Hash(0)
	}
	signed, err := s.key.Sign(rand.Reader, content, hash)
	if err != nil {
		t.Fatal(err)
	}
	return append(binary.BigEndian.AppendUint16([]byte{4, s.algorithm}, uint16(len(signed))), signed...)
}

func TestVerifies(t *testing.T) {
	message := []byte("a message")
	for name, s := range signers(t) {
		expected := map[string]error{"RSA of 1024 bits": ct.ErrKey, "Ed25519": ct.ErrKey}[name]
		signed := s.sign(t, message)
		if err := ct.Verify(s.public(t), message, signed); !errors.Is(err, expected) {
			t.Errorf("%s: %v, and %v is expected", name, err, expected)
		}
		if expected != nil {
			continue
		}
		for at := range signed {
			changed := append([]byte(nil), signed...)
			changed[at] ^= 1
			if err := ct.Verify(s.public(t), message, changed); !errors.Is(err, ct.ErrSigner) {
				t.Errorf("%s with another byte %d: %v", name, at, err)
			}
			if err := ct.Verify(s.public(t), message, signed[:at]); !errors.Is(err, ct.ErrSigner) {
				t.Errorf("%s with %d bytes: %v", name, at, err)
			}
		}
		if err := ct.Verify(s.public(t), []byte("another"), signed); !errors.Is(err, ct.ErrSigner) {
			t.Errorf("%s over another message: %v", name, err)
		}
	}
	if err := ct.Verify([]byte("no key"), message, nil); !errors.Is(err, ct.ErrKey) {
		t.Errorf("no key: %v", err)
	}
}

// TestOpensCheckpoints: a checkpoint is accepted if the log's signature is among the lines, in any place, and refused
// without it.
func TestOpensCheckpoints(t *testing.T) {
	log := testkit.NewLog("log.example/2027")
	log.PublishRoot(7, 1234, [32]byte{9})
	own := string(log.Checkpoint())
	text, line, _ := strings.Cut(own, "\n\n")
	grease := "— log.example/2027 " + base64.StdEncoding.EncodeToString([]byte("grease and more")) + "\n"
	skey, _, err := note.GenerateKey(rand.Reader, "log.example/2027")
	if err != nil {
		t.Fatal(err)
	}
	other, err := note.NewSigner(skey)
	if err != nil {
		t.Fatal(err)
	}
	both, err := note.Sign(&note.Note{Text: text + "\n"}, other)
	if err != nil {
		t.Fatal(err)
	}
	_, edwards, _ := strings.Cut(string(both), "\n\n")
	for what, test := range map[string]struct {
		checkpoint string
		expected   error
	}{
		"unchanged":           {own, nil},
		"after others":        {text + "\n\n" + grease + edwards + line, nil},
		"before others":       {text + "\n\n" + line + edwards + grease, nil},
		"without the log's":   {text + "\n\n" + edwards + grease, ct.ErrSigner},
		"another size":        {strings.Replace(own, "\n7\n", "\n8\n", 1), ct.ErrSigner},
		"another origin":      {strings.Replace(own, "log.example", "log.other", 1), ct.ErrSigner},
		"extension lines":     {strings.Replace(own, "\n\n", "\nextension\n\n", 1), ct.ErrSigner},
		"a padded size":       {strings.Replace(own, "\n7\n", "\n07\n", 1), ct.ErrSigner},
		"no note":             {"<html>", ct.ErrForm},
		"nothing":             {"", ct.ErrForm},
		"a note of something": {"hello\n\n" + edwards, ct.ErrForm},
	} {
		head, err := ct.OpenCheckpoint([]byte(test.checkpoint), log.Origin, log.PublicKey())
		if !errors.Is(err, test.expected) {
			t.Errorf("%s: %v, and %v is expected", what, err, test.expected)
		}
		if err == nil && (head.TreeSize != 7 || head.Timestamp != 1234 || head.Root != [32]byte{9}) {
			t.Errorf("%s: the head is %+v", what, head)
		}
	}
}

// TestOpensSTHs: an answer to get-sth is accepted, and refused if a field has another value or is missing.
func TestOpensSTHs(t *testing.T) {
	s := signers(t)["RSA"]
	root := [32]byte{5}
	signed := s.sign(t, testkit.TreeHeadSignature(7, 1234, root))
	answer := func(size, timestamp uint64, root, signed []byte) []byte {
		content, err := json.Marshal(map[string]any{"tree_size": size, "timestamp": timestamp, "sha256_root_hash": root,
			"tree_head_signature": signed})
		if err != nil {
			t.Fatal(err)
		}
		return content
	}
	head, err := ct.OpenSTH(answer(7, 1234, root[:], signed), s.public(t))
	if err != nil || head.TreeSize != 7 || head.Timestamp != 1234 || head.Root != root {
		t.Errorf("%+v, %v", head, err)
	}
	for what, test := range map[string]struct {
		answer   []byte
		expected error
	}{
		"another size":      {answer(8, 1234, root[:], signed), ct.ErrSigner},
		"another timestamp": {answer(7, 1235, root[:], signed), ct.ErrSigner},
		"another root":      {answer(7, 1234, make([]byte, 32), signed), ct.ErrSigner},
		"half a root":       {answer(7, 1234, root[:16], signed), ct.ErrForm},
		"no signature":      {answer(7, 1234, root[:], nil), ct.ErrForm},
		"HTML":              {[]byte("<html>"), ct.ErrForm},
		"a negative size":   {[]byte(`{"tree_size":-1}`), ct.ErrForm},
		"a text for a size": {[]byte(`{"tree_size":"7"}`), ct.ErrForm},
	} {
		if _, err := ct.OpenSTH(test.answer, s.public(t)); !errors.Is(err, test.expected) {
			t.Errorf("%s: %v, and %v is expected", what, err, test.expected)
		}
	}
}
