package signer

import (
	"encoding/pem"
	"errors"
	"os"
	"os/exec"
	"path/filepath"
	"strings"
	"testing"

	"wagtenib/internal/testkit"
)

// TestToken: a key in a token makes signatures that openssl accepts. A key that does not exist is an error.
func TestToken(t *testing.T) {
	module, pin := testkit.Token(t)
	query := "?module-path=" + module + "&pin-source=file:" + pin
	// This must be done before any key is open, since a session that is logged in to a token needs no PIN.
	wrong := filepath.Join(t.TempDir(), "pin")
	if err := os.WriteFile(wrong, []byte("0000"), 0o600); err != nil {
		t.Fatal(err)
	}
	for what, uri := range map[string]string{
		"another key":    "pkcs11:token=log-token;object=other" + query,
		"another token":  "pkcs11:token=other;object=key" + query,
		"another module": "pkcs11:token=log-token;object=key?module-path=/nowhere.so&pin-source=" + pin,
		"another PIN":    "pkcs11:token=log-token;object=key?module-path=" + module + "&pin-source=" + wrong,
		"no PIN": "pkcs11:token=log-token;object=key?module-path=" + module + "&pin-source=" +
			wrong + ".absent",
		"of P-384": "pkcs11:token=log-token;object=large" + query,
	} {
		if _, err := OpenKey(uri); err == nil {
			t.Errorf("%s: it is accepted", what)
		}
	}
	message := []byte("the message")
	var public []byte
	for _, path := range []string{"pkcs11:token=log-token;object=key", "pkcs11:token=log-token;id=%01",
		"pkcs11:token=log-token;object=key;id=%01"} {
		key, err := OpenKey(path + query)
		if err != nil {
			t.Fatalf("%s: %v", path, err)
		}
		defer key.Close()
		signed, err := key.sign(message)
		if err != nil {
			t.Fatal(err)
		}
		if err := Check(key.Key(), message, signed); err != nil {
			t.Errorf("%s: %v", path, err)
		}
		if public != nil && string(public) != string(key.Key()) {
			t.Errorf("%s is another key", path)
		}
		public = key.Key()
		folder := t.TempDir()
		for name, text := range map[string][]byte{"message": message, "signature": signed[4:],
			"key.pem": pem.EncodeToMemory(&pem.Block{Type: "PUBLIC KEY", Bytes: public})} {
			if err := os.WriteFile(filepath.Join(folder, name), text, 0o600); err != nil {
				t.Fatal(err)
			}
		}
		command := exec.Command("openssl", "dgst", "-sha256", "-verify", "key.pem", "-signature",
			"signature", "message")
		command.Dir = folder
		if output, err := command.CombinedOutput(); err != nil {
			t.Errorf("%s: openssl: %s", path, output)
		}
	}
	if err := os.Chmod(pin, 0o644); err != nil {
		t.Fatal(err)
	}
	if _, err := OpenKey("pkcs11:token=log-token;object=key" + query); !errors.Is(err, ErrKey) {
		t.Errorf("a PIN that others may read: %v", err)
	}
}

// TestTokenIsReleased: a token can be named by its serial number. After the last key is closed, or was not found, no
// session is logged in to the token.
func TestTokenIsReleased(t *testing.T) {
	module, pin := testkit.Token(t)
	output, err := exec.Command("softhsm2-util", "--show-slots").CombinedOutput()
	must(t, err)
	_, serial, _ := strings.Cut(string(output), "Serial number:")
	serial = strings.TrimSpace(strings.SplitN(serial, "\n", 2)[0])
	wrong := filepath.Join(t.TempDir(), "pin")
	must(t, os.WriteFile(wrong, []byte("0000"), 0o600))
	uri := func(path, pin string) string {
		return "pkcs11:" + path + "?module-path=" + module + "&pin-source=file:" + pin
	}
	checkReleased := func(what string) {
		t.Helper()
		if key, err := OpenKey(uri("token=log-token;object=key", wrong)); err == nil {
			key.Close()
			t.Errorf("after %s a wrong PIN opens the token", what)
		}
	}
	checkReleased("nothing")
	for _, path := range []string{"token=log-token;object=key", "serial=" + serial + ";object=key",
		"token=log-token;serial=" + serial + ";object=key"} {
		key, err := OpenKey(uri(path, pin))
		if err != nil {
			t.Fatalf("%s: %v", path, err)
		}
		signed, err := key.sign([]byte("a message"))
		must(t, err)
		must(t, Check(key.Key(), []byte("a message"), signed))
		must(t, key.Close())
		checkReleased(path)
	}
	for _, path := range []string{"token=log-token;object=other", "token=log-token;object=large"} {
		if _, err := OpenKey(uri(path, pin)); !errors.Is(err, ErrKey) {
			t.Errorf("%s: %v", path, err)
		}
		checkReleased(path)
	}
	if _, err := OpenKey(uri("serial="+serial+"0;object=key", pin)); err == nil {
		t.Error("another serial number is accepted")
	}
}

// TestTokenURIs: a URI must have the required attributes, and no attribute twice.
func TestTokenURIs(t *testing.T) {
	parsed, err := parseToken("pkcs11:token=A%20token;serial=12;object=key;id=%00%01?" +
		"module-path=/m.so&pin-source=file:/pin")
	if err != nil || parsed.label != "A token" || parsed.serial != "12" || parsed.object != "key" ||
		string(parsed.id) != "\x00\x01" || parsed.module != "/m.so" || parsed.pinFile != "/pin" {
		t.Errorf("%v: %+v", err, parsed)
	}
	for _, uri := range []string{
		"pkcs11:", "pkcs11:token=a;object=k?module-path=/m", "pkcs11:token=a;object=k?pin-source=/p",
		"pkcs11:token=a?module-path=/m&pin-source=/p",
		"pkcs11:object=k?module-path=/m&pin-source=/p", "pkcs11:token=a;token=b;object=k?module-path=/m&pin-source=/p",
		"pkcs11:token=;object=k?module-path=/m&pin-source=/p",
		"pkcs11:token=%zz;object=k?module-path=/m&pin-source=/p",
		"pkcs11:token=a;object=k?module-path=/m&pin-source=/p&pin-value=1234",
		"pkcs11:token=a;object=k;colour=red?module-path=/m&pin-source=/p",
	} {
		if _, err := parseToken(uri); !errors.Is(err, ErrKey) {
			t.Errorf("%s: %v", uri, err)
		}
	}
}
