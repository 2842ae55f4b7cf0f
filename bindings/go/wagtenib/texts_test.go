package wagtenib_test

import (
	"bytes"
	"crypto/ecdsa"
	"crypto/elliptic"
	"crypto/rand"
	"crypto/sha256"
	"crypto/x509"
	"encoding/base64"
	"encoding/binary"
	"errors"
	"fmt"
	"os"
	"strings"
	"testing"

	"golang.org/x/mod/sumdb/note"

	"wagtenib/bindings/go/wagtenib"
)

// exampleCheckpoint is the example of C2SP tlog-checkpoint, and exampleTime that of tlog-cosignature.
const (
	exampleCheckpoint = "example.com/behind-the-sofa\n20852163\nCsUYapGGPo4dkMgIAUqom/Xajj7h2fB2MPA3j2jxq2I=\n"
	exampleTime       = 1679315147
)

// TestCheckpointsAreRead reads the example of the format and writes it again.
func TestCheckpointsAreRead(t *testing.T) {
	checkpoint, err := wagtenib.ReadCheckpoint(exampleCheckpoint)
	if err != nil || checkpoint.Origin != "example.com/behind-the-sofa" || checkpoint.TreeSize != 20852163 {
		t.Fatalf("%v %v", checkpoint, err)
	}
	if coded := base64.StdEncoding.EncodeToString(checkpoint.Root[:]); coded !=
		"CsUYapGGPo4dkMgIAUqom/Xajj7h2fB2MPA3j2jxq2I=" {
		t.Errorf("root %s", coded)
	}
	if text, err := wagtenib.CheckpointText(checkpoint); err != nil || text != exampleCheckpoint {
		t.Errorf("%q %v", text, err)
	}
}

// TestRefusesTexts checks the errors of bytes that are not an origin, a checkpoint or a text.
func TestRefusesTexts(t *testing.T) {
	for _, origin := range []string{"", "a\nb", "\xff"} {
		if _, err := wagtenib.CheckpointText(wagtenib.Checkpoint{Origin: origin}); !errors.Is(err, wagtenib.ErrOrigin) {
			t.Errorf("%q: %v", origin, err)
		}
	}
	for _, text := range []string{"", exampleCheckpoint[1:][:40], exampleCheckpoint + "an extension line\n",
		strings.Replace(exampleCheckpoint, "\n2", "\n02", 1)} {
		if _, err := wagtenib.ReadCheckpoint(text); !errors.Is(err, wagtenib.ErrNoCheckpoint) {
			t.Errorf("%q: %v", text, err)
		}
	}
	if _, err := wagtenib.CosignatureMessage(1, "\xff"); !errors.Is(err, wagtenib.ErrNotUTF8) {
		t.Error(err)
	}
}

// TestMessagesAreOfTheFormat checks that the message is the example of C2SP tlog-cosignature, and that it may be over
// extension lines.
func TestMessagesAreOfTheFormat(t *testing.T) {
	for _, text := range []string{exampleCheckpoint, exampleCheckpoint + "an extension line\n", ""} {
		want := fmt.Sprintf("cosignature/v1\ntime %d\n%s", exampleTime, text)
		if message, err := wagtenib.CosignatureMessage(exampleTime, text); err != nil || string(message) != want {
			t.Errorf("%q %v", message, err)
		}
	}
}

// TestKeysAreNumberedAsNotesDo compares the ID of a key with that of x/mod's note package, which generates the key.
func TestKeysAreNumberedAsNotesDo(t *testing.T) {
	_, verifierKey, err := note.GenerateKey(rand.Reader, "log.example/1")
	if err != nil {
		t.Fatal(err)
	}
	verifier, err := note.NewVerifier(verifierKey)
	if err != nil {
		t.Fatal(err)
	}
	coded := verifierKey[strings.LastIndex(verifierKey[:len("log.example/1+00000000+")], "+")+1:]
	key, err := base64.StdEncoding.DecodeString(coded)
	if err != nil {
		t.Fatal(err)
	}
	if id := wagtenib.NoteKeyID(verifier.Name(), key[0], key[1:]); binary.BigEndian.Uint32(id[:]) != verifier.KeyHash() {
		t.Errorf("%x, and not %x", id, verifier.KeyHash())
	}
}

// TestHeadsAndLogs checks that a TreeHeadSignature has the fields of RFC 6962, section 3.5, and that a LogID is the
// hash of the key that crypto/x509 writes.
func TestHeadsAndLogs(t *testing.T) {
	head := wagtenib.TreeHead{TreeSize: 1 << 40, Timestamp: 12345678901234, Root: sha256.Sum256([]byte("a root"))}
	want := binary.BigEndian.AppendUint64(binary.BigEndian.AppendUint64([]byte{0, 1}, head.Timestamp), head.TreeSize)
	if signed := wagtenib.TreeHeadSignature(head); !bytes.Equal(signed[:], append(want, head.Root[:]...)) {
		t.Errorf("%x", signed)
	}
	key, err := ecdsa.GenerateKey(elliptic.P256(), rand.Reader)
	if err != nil {
		t.Fatal(err)
	}
	der, err := x509.MarshalPKIXPublicKey(&key.PublicKey)
	if err != nil {
		t.Fatal(err)
	}
	if wagtenib.LogID(der) != sha256.Sum256(der) {
		t.Error("another LogID")
	}
}

// TestVersionsAgree checks that the library, its header and the file VERSION have the same version.
func TestVersionsAgree(t *testing.T) {
	text, err := os.ReadFile("../../../VERSION")
	if err != nil {
		t.Fatal(err)
	}
	version := wagtenib.Version()
	said := fmt.Sprintf("%d.%d.%d", version/1_000_000, version/1_000%1_000, version%1_000)
	if version != wagtenib.HeaderVersion || said != strings.TrimSpace(string(text)) {
		t.Errorf("library %d, header %d, VERSION %s", version, wagtenib.HeaderVersion, text)
	}
}
