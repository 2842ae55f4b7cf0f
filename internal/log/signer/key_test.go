package signer

import (
	"crypto/ecdsa"
	"crypto/x509"
	"encoding/pem"
	"errors"
	"os"
	"os/exec"
	"path/filepath"
	"testing"
)

// TestKeys uses openssl to make keys and to verify signatures.
func TestKeys(t *testing.T) {
	folder := t.TempDir()
	at := func(name string) string { return filepath.Join(folder, name) }
	openssl := func(arguments ...string) {
		t.Helper()
		if output, err := exec.Command("openssl", arguments...).CombinedOutput(); err != nil {
			t.Fatalf("%v: %s", err, output)
		}
	}
	openssl("ecparam", "-name", "prime256v1", "-genkey", "-out", at("sec1.pem"))
	openssl("genpkey", "-algorithm", "EC", "-pkeyopt", "ec_paramgen_curve:P-256", "-out", at("pkcs8.pem"))
	openssl("ecparam", "-name", "secp384r1", "-genkey", "-out", at("p384.pem"))
	openssl("genpkey", "-algorithm", "ed25519", "-out", at("ed25519.pem"))
	if err := os.WriteFile(at("none.pem"), []byte("no key"), 0o600); err != nil {
		t.Fatal(err)
	}
	message := []byte("the message")
	if err := os.WriteFile(at("message"), message, 0o600); err != nil {
		t.Fatal(err)
	}
	for _, name := range []string{"sec1.pem", "pkcs8.pem"} {
		s, err := OpenKey(at(name))
		if err != nil {
			t.Fatal(err)
		}
		signed, err := s.sign(message)
		if err != nil {
			t.Fatal(err)
		}
		if err := os.WriteFile(at("signature"), signed[4:], 0o600); err != nil {
			t.Fatal(err)
		}
		openssl("pkey", "-in", at(name), "-pubout", "-out", at("public.pem"))
		openssl("dgst", "-sha256", "-verify", at("public.pem"), "-signature", at("signature"), at("message"))
		if err := Check(s.Key(), message, signed); err != nil {
			t.Error(err)
		}
		for i := range signed {
			changed := append([]byte{}, signed...)
			changed[i] ^= 1
			if err := Check(s.Key(), message, changed); !errors.Is(err, ErrSignature) {
				t.Errorf("byte %d: %v", i, err)
			}
		}
		if err := Check(s.Key(), message[1:], signed); !errors.Is(err, ErrSignature) {
			t.Error(err)
		}
	}
	if err := os.Chmod(at("sec1.pem"), 0o640); err != nil {
		t.Fatal(err)
	}
	for _, name := range []string{"sec1.pem", "p384.pem", "ed25519.pem", "none.pem"} {
		if _, err := OpenKey(at(name)); !errors.Is(err, ErrKey) {
			t.Errorf("%s: %v", name, err)
		}
	}
	if _, err := OpenKey(at("nowhere.pem")); !errors.Is(err, os.ErrNotExist) {
		t.Error(err)
	}
	for _, name := range []string{"p384", "ed25519"} {
		openssl("pkey", "-in", at(name+".pem"), "-pubout", "-outform", "DER", "-out", at("public.der"))
		public, err := os.ReadFile(at("public.der"))
		if err != nil {
			t.Fatal(err)
		}
		if err := Check(public, message, nil); !errors.Is(err, ErrKey) {
			t.Errorf("a public key of %s: %v", name, err)
		}
	}
}

// pem returns the key as the content of a file.
func (k *Key) pem(t testing.TB) []byte {
	der, err := x509.MarshalECPrivateKey(k.private.(*ecdsa.PrivateKey))
	must(t, err)
	return pem.EncodeToMemory(&pem.Block{Type: "EC PRIVATE KEY", Bytes: der})
}
