package testkit

import (
	"os"
	"os/exec"
	"path/filepath"
	"strings"
	"testing"
)

// Token makes a PKCS#11 token with the label log-token. It has a P-256 key with the label key and the id 01, and a P-384 key
// with the label large and the id 02. Token returns the path of the PKCS#11 module and the path of the file with the
// PIN. Processes that the test starts find the token, too. It needs softhsm2 and opensc: if one is not installed,
// the test is skipped.
func Token(t *testing.T) (module, pin string) {
	t.Helper()
	found, _ := filepath.Glob("/usr/lib/*/softhsm/libsofthsm2.so")
	found = append(found, "/usr/lib/softhsm/libsofthsm2.so")
	for _, path := range found {
		if _, err := os.Stat(path); err == nil {
			module = path
		}
	}
	for _, tool := range []string{"softhsm2-util", "pkcs11-tool"} {
		if _, err := exec.LookPath(tool); err != nil || module == "" {
			t.Skip("softhsm2 and opensc are not installed")
		}
	}
	folder := t.TempDir()
	conf := filepath.Join(folder, "conf")
	if err := os.WriteFile(conf, []byte("directories.tokendir = "+folder+"\n"), 0o600); err != nil {
		t.Fatal(err)
	}
	t.Setenv("SOFTHSM2_CONF", conf)
	pin = filepath.Join(folder, "pin")
	if err := os.WriteFile(pin, []byte("8765\n"), 0o600); err != nil {
		t.Fatal(err)
	}
	for _, line := range []string{
		"softhsm2-util --init-token --free --label log-token --so-pin 12345678 --pin 8765",
		"pkcs11-tool --module " + module +
			" --login --pin 8765 --keypairgen --key-type EC:prime256v1 --label key --id 01",
		"pkcs11-tool --module " + module +
			" --login --pin 8765 --keypairgen --key-type EC:secp384r1 --label large --id 02",
	} {
		command := strings.Fields(line)
		if output, err := exec.Command(command[0], command[1:]...).CombinedOutput(); err != nil {
			t.Fatalf("%s: %v: %s", line, err, output)
		}
	}
	return module, pin
}
