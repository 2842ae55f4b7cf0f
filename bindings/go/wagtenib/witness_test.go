package wagtenib_test

import (
	"bytes"
	crand "crypto/rand"
	"crypto/sha256"
	"encoding/base64"
	"errors"
	"fmt"
	"math"
	"math/rand"
	"strings"
	"testing"

	"golang.org/x/mod/sumdb/note"
	"golang.org/x/mod/sumdb/tlog"

	"wagtenib/bindings/go/wagtenib"
)

const witnessed = "log.example/2026"

// checkpointOf returns the text of a checkpoint (C2SP tlog-checkpoint).
func checkpointOf(origin string, size uint64, root wagtenib.Hash) string {
	return fmt.Sprintf("%s\n%d\n%s\n", origin, size, base64.StdEncoding.EncodeToString(root[:]))
}

// messageOf returns the bytes that a cosignature signs (C2SP tlog-cosignature).
func messageOf(time uint64, text string) []byte {
	return fmt.Appendf(nil, "cosignature/v1\ntime %d\n%s", time, text)
}

// due returns the result that x/mod's tlog and this file expect of a request, over a tree and a time that were cosigned
// last.
func due(last wagtenib.WitnessedTree, size uint64, root wagtenib.Hash, old uint64, proof []wagtenib.Hash,
	time uint64) string {
	switch {
	case size < old:
		return "old above"
	case old != last.TreeSize:
		return "not last"
	case size == last.TreeSize && root != last.Root:
		return "fork"
	case size == last.TreeSize || last.TreeSize == 0:
		if len(proof) > 0 {
			return "proof not empty"
		}
	default:
		checked := make(tlog.TreeProof, len(proof))
		for i := range proof {
			checked[i] = tlog.Hash(proof[i])
		}
		if tlog.CheckTree(checked, int64(size), tlog.Hash(root), int64(last.TreeSize), tlog.Hash(last.Root)) != nil {
			return "proof"
		}
	}
	if time == 0 || time < last.Time {
		return "time"
	}
	return "cosigned"
}

// said returns the name of the error of a call, as due does.
func said(err error) string {
	var code wagtenib.Code
	if err == nil {
		return "cosigned"
	}
	if !errors.As(err, &code) {
		return err.Error()
	}
	names := map[wagtenib.Code]string{wagtenib.ErrOldAbove: "old above", wagtenib.ErrNotLast: "not last",
		wagtenib.ErrFork: "fork", wagtenib.ErrProofNotEmpty: "proof not empty",
		wagtenib.ErrTimeFalls: "time", wagtenib.ErrEmptyPath: "proof", wagtenib.ErrPathTooLong: "proof",
		wagtenib.ErrPathTooShort: "proof", wagtenib.ErrFirstMismatch: "proof",
		wagtenib.ErrRootMismatch: "proof"}
	if name, ok := names[code]; ok {
		return name
	}
	return err.Error()
}

func TestWitnessAgreesWithTlog(t *testing.T) {
	chance, log, fork := rand.New(rand.NewSource(1)), &madeLog{}, &madeLog{}
	for i := range 40 {
		log.append(t, []byte{byte(i)})
		fork.append(t, []byte{byte(i), byte(i / 17)})
	}
	last, state := wagtenib.WitnessedTree{Root: sha256.Sum256(nil)}, []byte(nil)
	came := map[string]int{}
	for range 4000 {
		of := []*madeLog{log, log, fork}[chance.Intn(3)]
		size := last.TreeSize + uint64(chance.Intn(4))
		if chance.Intn(5) == 0 || size > 40 {
			size = uint64(chance.Intn(41))
		}
		root, old, proof := of.root(t, size), last.TreeSize, of.proof(t, last.TreeSize, size)
		switch chance.Intn(12) {
		case 0:
			old = uint64(chance.Intn(41))
		case 1:
			proof = append(proof, wagtenib.Hash{})
		case 2:
			proof = proof[:len(proof)/2]
		case 3:
			root[chance.Intn(32)] ^= 1
		}
		time := last.Time + uint64(chance.Intn(3)) - uint64(chance.Intn(2))
		if chance.Intn(20) == 0 || time > math.MaxUint64-10 {
			time = 0
		}
		text := checkpointOf(witnessed, size, root)
		var message []byte
		var err error
		if state == nil {
			message, err = wagtenib.WitnessFirst(witnessed, text, old, proof, time)
		} else {
			message, err = wagtenib.WitnessCosign(state, text, old, proof, time)
		}
		want := due(last, size, root, old, proof, time)
		if said(err) != want {
			t.Fatalf("from %d to %d by %d hashes at %d after %d: %v, due %s", old, size, len(proof), time, last.Time, err, want)
		}
		came[want]++
		if err != nil {
			continue
		}
		if !bytes.Equal(message, messageOf(time, text)) {
			t.Fatalf("%q", message)
		}
		read, err := wagtenib.WitnessState(message, message)
		if next := (wagtenib.WitnessedTree{TreeSize: size, Time: time, Root: root}); err != nil || read != next {
			t.Fatalf("%q is read as %v: %v", message, read, err)
		}
		if state != nil {
			if _, err := wagtenib.WitnessState(state, message); err != nil {
				t.Fatalf("%q after %q: %v", message, state, err)
			}
			if _, err := wagtenib.WitnessState(message, state); (err == nil) != bytes.Equal(message, state) ||
				err != nil && !errors.Is(err, wagtenib.ErrStateRolledBack) {
				t.Fatalf("%q after %q: %v", state, message, err)
			}
		}
		last, state = read, message
		if size == 40 || chance.Intn(50) == 0 {
			last, state = wagtenib.WitnessedTree{Root: sha256.Sum256(nil)}, nil
		}
	}
	for _, name := range []string{"cosigned", "old above", "not last", "fork", "proof not empty", "proof", "time"} {
		if came[name] == 0 {
			t.Errorf("no request came to %q: %v", name, came)
		}
	}
}

func TestWitnessRefusesDamagedTexts(t *testing.T) {
	log := &madeLog{}
	log.append(t, []byte("a"))
	log.append(t, []byte("b"))
	text := checkpointOf(witnessed, 1, log.root(t, 1))
	state := messageOf(7, text)
	for name, wrong := range map[string]string{"nothing": "", "half a line": text[:9],
		"no last line end": text[:len(text)-1], "an extension line": text + "more\n",
		"carriage returns":  strings.ReplaceAll(text, "\n", "\r\n"),
		"a leading zero":    strings.Replace(text, "\n1\n", "\n01\n", 1),
		"a plus":            strings.Replace(text, "\n1\n", "\n+1\n", 1),
		"a size of 65 bits": strings.Replace(text, "\n1\n", "\n18446744073709551616\n", 1),
		"no origin":         text[len(witnessed):], "a short root": checkpointOf(witnessed, 1,
			wagtenib.Hash{})[:len(text)-5] + "\n", "no UTF-8": "\xff" + text, "a message": string(state)} {
		if _, err := wagtenib.WitnessCosign(state, wrong, 1, nil, 7); !errors.Is(err, wagtenib.ErrNoCheckpoint) {
			t.Errorf("%s: %v", name, err)
		}
		if _, err := wagtenib.WitnessFirst(witnessed, wrong, 0, nil, 7); !errors.Is(err, wagtenib.ErrNoCheckpoint) {
			t.Errorf("%s, as the first: %v", name, err)
		}
		damaged := messageOf(7, wrong)
		if _, err := wagtenib.WitnessCosign(damaged, text, 1, nil, 7); !errors.Is(err, wagtenib.ErrState) {
			t.Errorf("%s, in a state: %v", name, err)
		}
	}
	for name, wrong := range map[string][]byte{"nothing": nil, "the text": []byte(text),
		"a line end more":           append(bytes.Clone(state), '\n'),
		"another version":           bytes.Replace(state, []byte("v1"), []byte("v2"), 1),
		"the first line and a half": state[:20], "a time with a zero": bytes.Replace(state, []byte("time 7"),
			[]byte("time 07"), 1), "a time with a plus": bytes.Replace(state, []byte("time 7"), []byte("time +7"), 1),
		"a time of 65 bits": bytes.Replace(state, []byte("time 7"), []byte("time 18446744073709551616"), 1),
		"no time":           bytes.Replace(state, []byte("time 7"), []byte("time "), 1), "cut": state[:len(state)-1]} {
		if _, err := wagtenib.WitnessCosign(wrong, text, 1, nil, 7); !errors.Is(err, wagtenib.ErrState) {
			t.Errorf("%s: %v", name, err)
		}
		for _, pair := range [][2][]byte{{wrong, state}, {state, wrong}} {
			if _, err := wagtenib.WitnessState(pair[0], pair[1]); !errors.Is(err, wagtenib.ErrState) {
				t.Errorf("%s is read: %v", name, err)
			}
		}
	}
}

func TestWitnessKeepsOneLog(t *testing.T) {
	root := wagtenib.Hash(sha256.Sum256(nil))
	state, other := messageOf(7, checkpointOf(witnessed, 0, root)), checkpointOf("other.example", 0, root)
	if _, err := wagtenib.WitnessCosign(state, other, 9, []wagtenib.Hash{{}},
		0); !errors.Is(err, wagtenib.ErrOtherOrigin) {
		t.Error(err)
	}
	if _, err := wagtenib.WitnessFirst(witnessed, other, 9, []wagtenib.Hash{{}},
		0); !errors.Is(err, wagtenib.ErrOtherOrigin) {
		t.Error(err)
	}
	if _, err := wagtenib.WitnessState(state, messageOf(7, other)); !errors.Is(err, wagtenib.ErrStateRolledBack) {
		t.Error(err)
	}
	if _, err := wagtenib.WitnessState(state, messageOf(6, checkpointOf(witnessed, 0, root))); !errors.Is(err,
		wagtenib.ErrStateRolledBack) {
		t.Error(err)
	}
}

// TestWitnessMessageIsSigned checks that x/mod's note package accepts a note whose signature is over such a message.
func TestWitnessMessageIsSigned(t *testing.T) {
	root := wagtenib.Hash(sha256.Sum256(nil))
	text := checkpointOf(witnessed, 0, root)
	message, err := wagtenib.WitnessFirst(witnessed, text, 0, nil, math.MaxUint64)
	if err != nil || !bytes.Equal(message, messageOf(math.MaxUint64, text)) {
		t.Fatalf("%q: %v", message, err)
	}
	private, public, err := note.GenerateKey(crand.Reader, "w.example")
	if err != nil {
		t.Fatal(err)
	}
	by, err := note.NewSigner(private)
	if err != nil {
		t.Fatal(err)
	}
	of, err := note.NewVerifier(public)
	if err != nil {
		t.Fatal(err)
	}
	signature, err := by.Sign(message)
	if err != nil || !of.Verify(messageOf(math.MaxUint64, text), signature) || of.Verify([]byte(text), signature) {
		t.Errorf("the signature is not over the message: %v", err)
	}
}
