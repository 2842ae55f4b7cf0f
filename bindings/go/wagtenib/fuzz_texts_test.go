package wagtenib_test

import (
	"bytes"
	"encoding/base64"
	"encoding/binary"
	"encoding/hex"
	"errors"
	"fmt"
	"strconv"
	"strings"
	"testing"
	"unicode/utf8"

	"golang.org/x/crypto/cryptobyte"

	"wagtenib/bindings/go/wagtenib"
)

// These targets compare each call that reads bytes with a reader that this file implements from the standard.
// `cmd/build.sh fuzz` runs them on random bytes, and `go test` only on their seeds.

// leafRead reads a MerkleTreeLeaf by RFC 6962, section 3.4, and returns the first error from the left.
func leafRead(text []byte) (leaf wagtenib.Leaf, err error) {
	s := cryptobyte.String(text)
	var version, leafType uint8
	var entryType uint16
	var certificate, extensions cryptobyte.String
	switch {
	case !s.ReadUint8(&version):
		return leaf, wagtenib.ErrTruncated
	case version != 0:
		return leaf, wagtenib.ErrBadVersion
	case !s.ReadUint8(&leafType):
		return leaf, wagtenib.ErrTruncated
	case leafType != 0:
		return leaf, wagtenib.ErrBadLeafType
	case !s.ReadUint64(&leaf.Timestamp), !s.ReadUint16(&entryType):
		return leaf, wagtenib.ErrTruncated
	case entryType > 1:
		return leaf, wagtenib.ErrBadEntryType
	case entryType == 1 && !s.ReadBytes(&leaf.IssuerKeyHash, 32), !s.ReadUint24LengthPrefixed(&certificate):
		return leaf, wagtenib.ErrTruncated
	case len(certificate) == 0:
		return leaf, wagtenib.ErrEmptyVector
	case !s.ReadUint16LengthPrefixed(&extensions):
		return leaf, wagtenib.ErrTruncated
	case !s.Empty():
		return leaf, wagtenib.ErrTrailing
	}
	leaf.EntryType, leaf.Certificate, leaf.Extensions = wagtenib.EntryType(entryType), certificate, extensions
	return leaf, nil
}

func FuzzDecodeLeaf(f *testing.F) {
	f.Add([]byte(nil))
	f.Add(leafOf(7, 0, opaque(3, []byte("DER")), []byte("xy")))
	f.Add(leafOf(1<<64-1, 1, append(make([]byte, 32), opaque(3, []byte("TBS"))...), nil))
	f.Add(leafOf(5, 0, opaque(3, nil), nil))
	f.Add(append(leafOf(5, 0, opaque(3, []byte{9}), nil), 0))
	f.Fuzz(func(t *testing.T, text []byte) {
		want, due := leafRead(text)
		got, err := wagtenib.DecodeLeaf(text)
		if !errors.Is(err, due) {
			t.Fatalf("%x: %v, but %v is due", text, err, due)
		}
		if due != nil {
			if got.Timestamp != 0 || got.Certificate != nil || got.Extensions != nil || got.IssuerKeyHash != nil {
				t.Fatalf("%x: %v and %+v", text, err, got)
			}
			return
		}
		if got.Timestamp != want.Timestamp || got.EntryType != want.EntryType ||
			!bytes.Equal(got.Certificate, want.Certificate) || !bytes.Equal(got.Extensions, want.Extensions) ||
			!bytes.Equal(got.IssuerKeyHash, want.IssuerKeyHash) {
			t.Fatalf("%x: %+v, but %+v is due", text, got, want)
		}
		if again := leafOf(got.Timestamp, uint16(got.EntryType),
			append(bytes.Clone(got.IssuerKeyHash), opaque(3, got.Certificate)...), got.Extensions); !bytes.Equal(again, text) {
			t.Fatalf("%x is read, and its fields are %x", text, again)
		}
	})
}

// decimalRead returns the number in a decimal text without leading zeros.
func decimalRead(text string) (uint64, bool) {
	number, err := strconv.ParseUint(text, 10, 64)
	return number, err == nil && strconv.FormatUint(number, 10) == text
}

// checkpointRead reads the text of a checkpoint without extension lines (C2SP tlog-checkpoint).
func checkpointRead(text string) (origin string, tree wagtenib.WitnessedTree, ok bool) {
	lines := strings.Split(text, "\n")
	if len(lines) != 4 || lines[3] != "" || lines[0] == "" || !utf8.ValidString(text) {
		return "", tree, false
	}
	size, isNumber := decimalRead(lines[1])
	root, err := base64.StdEncoding.DecodeString(lines[2])
	if !isNumber || err != nil || len(root) != len(tree.Root) || base64.StdEncoding.EncodeToString(root) != lines[2] {
		return "", tree, false
	}
	return lines[0], wagtenib.WitnessedTree{TreeSize: size, Root: wagtenib.Hash(root)}, true
}

// messageRead reads the message of a cosignature (C2SP tlog-cosignature, "cosignature/v1").
func messageRead(message []byte) (origin string, tree wagtenib.WitnessedTree, ok bool) {
	version, rest, _ := strings.Cut(string(message), "\n")
	time, text, isCut := strings.Cut(rest, "\n")
	number, isTime := decimalRead(strings.TrimPrefix(time, "time "))
	origin, tree, ok = checkpointRead(text)
	tree.Time = number
	return origin, tree, ok && isCut && isTime && version == "cosignature/v1" && strings.HasPrefix(time, "time ")
}

// addTexts adds correct and damaged texts of checkpoints.
func addTexts(add func(text string)) {
	text := checkpointOf(witnessed, 12, wagtenib.Hash{7})
	add(text)
	add(checkpointOf("l\u00f6g", 1<<64-1, wagtenib.Hash{}))
	for _, wrong := range []string{"", text[1:], text + "more\n", text[:len(text)-1],
		strings.Replace(text, "12", "012", 1), strings.Replace(text, "12", "+12", 1), strings.Replace(text, "=", "", 1),
		"\xff" + text, strings.Replace(text, "12", "18446744073709551616", 1), strings.ReplaceAll(text, "\n", "\r\n"),
		strings.Replace(text, "AA=", "AB=", 1)} {
		add(wrong)
	}
}

func FuzzCheckpoint(f *testing.F) {
	addTexts(func(text string) { f.Add(text) })
	f.Fuzz(func(t *testing.T, text string) {
		origin, tree, ok := checkpointRead(text)
		if !ok {
			for _, name := range []string{witnessed, strings.Split(text, "\n")[0]} {
				if message, err := wagtenib.WitnessFirst(name, text, 0, nil, 7); !errors.Is(err, wagtenib.ErrNoCheckpoint) ||
					message != nil {
					t.Fatalf("%q: %q, %v", text, message, err)
				}
			}
			return
		}
		message, err := wagtenib.WitnessFirst(origin, text, 0, nil, 7)
		switch {
		case tree.TreeSize == 0 && tree.Root != wagtenib.SubtreesRoot(nil):
			if !errors.Is(err, wagtenib.ErrFork) {
				t.Fatalf("%q: %v", text, err)
			}
		case err != nil || !bytes.Equal(message, messageOf(7, text)):
			t.Fatalf("%q: %q, %v", text, message, err)
		}
		if _, err := wagtenib.WitnessFirst(origin+"x", text, 0, nil, 7); !errors.Is(err, wagtenib.ErrOtherOrigin) {
			t.Fatalf("%q: %v", text, err)
		}
	})
}

func FuzzWitnessState(f *testing.F) {
	state := messageOf(7, checkpointOf(witnessed, 12, wagtenib.Hash{7}))
	addTexts(func(text string) { f.Add(state, messageOf(8, text)) })
	for _, damaged := range []string{"time 7 ", "time 07", "time -7", "time 18446744073709551616", "7"} {
		f.Add(bytes.Replace(state, []byte("time 7"), []byte(damaged), 1), state)
	}
	f.Add(state, messageOf(6, checkpointOf(witnessed, 12, wagtenib.Hash{7})))
	f.Add(state, messageOf(8, checkpointOf(witnessed, 11, wagtenib.Hash{7})))
	f.Fuzz(func(t *testing.T, seen, state []byte) {
		seenOrigin, old, isSeen := messageRead(seen)
		origin, tree, isState := messageRead(state)
		var due error
		switch {
		case !isSeen || !isState:
			due, tree = wagtenib.ErrState, wagtenib.WitnessedTree{}
		case origin != seenOrigin || tree.Time < old.Time || tree.TreeSize < old.TreeSize ||
			tree.TreeSize == old.TreeSize && tree.Root != old.Root:
			due, tree = wagtenib.ErrStateRolledBack, wagtenib.WitnessedTree{}
		}
		if got, err := wagtenib.WitnessState(seen, state); !errors.Is(err, due) || got != tree {
			t.Fatalf("%q after %q: %+v, %v, but %v is due", state, seen, got, err, due)
		}
	})
}

// signedRead reads a TreeHeadSignature by RFC 6962, section 3.5.
func signedRead(state []byte) (head wagtenib.TreeHead, ok bool) {
	s := cryptobyte.String(state)
	var version, kind uint8
	var root []byte
	ok = s.ReadUint8(&version) && version == 0 && s.ReadUint8(&kind) && kind == 1 && s.ReadUint64(&head.Timestamp) &&
		s.ReadUint64(&head.TreeSize) && s.ReadBytes(&root, 32) && s.Empty()
	if !ok {
		return wagtenib.TreeHead{}, false
	}
	head.Root = wagtenib.Hash(root)
	return head, true
}

func FuzzGuardState(f *testing.F) {
	at := func(size, timestamp uint64) []byte {
		signed := signedBytes(wagtenib.TreeHead{TreeSize: size, Timestamp: timestamp, Root: wagtenib.Hash{1}})
		return signed[:]
	}
	for _, pair := range [][2][]byte{{nil, nil}, {at(3, 9), at(3, 9)}, {at(3, 9), at(3, 10)}, {at(3, 9), at(2, 10)},
		{at(3, 9), at(4, 9)}, {at(3, 9), at(3, 9)[:49]}, {append(at(3, 9), 0), at(4, 10)},
		{at(3, 9), append([]byte{1}, at(3, 9)[1:]...)}} {
		f.Add(pair[0], pair[1])
	}
	f.Fuzz(func(t *testing.T, seen, state []byte) {
		old, isSeen := signedRead(seen)
		head, isState := signedRead(state)
		var due error
		switch {
		case !isSeen || !isState:
			due, head = wagtenib.ErrState, wagtenib.TreeHead{}
		case head != old && (head.Timestamp <= old.Timestamp || head.TreeSize < old.TreeSize):
			due, head = wagtenib.ErrStateRolledBack, wagtenib.TreeHead{}
		}
		if got, err := wagtenib.GuardState(seen, state); !errors.Is(err, due) || got != head {
			t.Fatalf("%x after %x: %+v, %v, but %v is due", state, seen, got, err, due)
		}
	})
}

// tileName returns the name of a partial tile (C2SP tlog-tiles).
func tileName(level string, tile, width uint64) string {
	number := fmt.Sprintf("%03d", tile%1000)
	for tile /= 1000; tile > 0; tile /= 1000 {
		number = fmt.Sprintf("x%03d/%s", tile%1000, number)
	}
	return fmt.Sprintf("tile/%s/%s.p/%d", level, number, width)
}

// neededOf returns the names of the partial tiles of a tree, the lowest level first, and of its partial data tile.
func neededOf(size uint64) (names []string) {
	for level, hashes := 0, size; hashes > 0; level, hashes = level+1, hashes/256 {
		if hashes%256 > 0 {
			names = append(names, tileName(strconv.Itoa(level), hashes/256, hashes%256))
		}
	}
	if size%256 > 0 {
		names = append(names, tileName("data", size/256, size%256))
	}
	return names
}

func FuzzStepState(f *testing.F) {
	line := lineOf(70_000, 9, wagtenib.Hash{1})
	for _, state := range []string{"", line, line[1:], line + "\n", strings.ToUpper(line),
		"growth " + strings.ToUpper(line[7:]), lineOf(256, 9, wagtenib.Hash{1}), lineOf(1<<40, 1<<64-1, wagtenib.Hash{}),
		lineOf(1<<64-1, 0, wagtenib.Hash{}), lineOf(0, 0, wagtenib.Hash{})} {
		f.Add(state)
	}
	f.Fuzz(func(t *testing.T, state string) {
		digits, hasWord := strings.CutPrefix(state, "growth ")
		fields, err := hex.DecodeString(digits)
		names, got := wagtenib.StepNeeds(state)
		if !hasWord || err != nil || len(fields) != 144 || digits != strings.ToLower(digits) {
			if !errors.Is(got, wagtenib.ErrState) || names != nil {
				t.Fatalf("%q: %q, %v", state, names, got)
			}
			return
		}
		if want := neededOf(binary.BigEndian.Uint64(fields)); got != nil || fmt.Sprint(names) != fmt.Sprint(want) {
			t.Fatalf("%q: %q, %v, but %q is due", state, names, got, want)
		}
	})
}

// lockRead reads a lock's text by docs/NODE.md: the size, and the state.
func lockRead(text []byte) (size uint64, state wagtenib.NodeState, ok bool) {
	const line, before, behind = 295, len("\nnode "), len("\nsalt ") + 33
	if len(text) < line+before+behind {
		return 0, state, false
	}
	end := text[len(text)-behind:]
	digits := string(text[7:39]) + string(end[6:38])
	numbers, err := hex.DecodeString(digits)
	if err != nil || !bytes.HasPrefix(text, []byte("growth ")) || !bytes.HasPrefix(text[line:], []byte("\nnode ")) ||
		!bytes.HasPrefix(end, []byte("\nsalt ")) || end[38] != '\n' {
		return 0, state, false
	}
	at := func(i int) uint64 { return binary.BigEndian.Uint64(numbers[8*i:]) }
	state = wagtenib.NodeState{Timestamp: at(1), PreviousTimestamp: at(2), Salt: at(3)}
	if state.PreviousTimestamp >= state.Timestamp {
		state.PreviousTimestamp = 0
	}
	return at(0), state, true
}

func FuzzLockText(f *testing.F) {
	text, err := wagtenib.LockText([]byte(lineOf(3, 9, wagtenib.Hash{1})), []byte("https://node.example"), 7, 2)
	if err != nil {
		f.Fatal(err)
	}
	for _, seed := range [][]byte{nil, text, text[1:], append(bytes.Clone(text), '\n'),
		bytes.Replace(text, []byte("node "), []byte("nodf "), 1), bytes.ToUpper(text),
		bytes.Replace(text, []byte("https://node.example"), []byte("\n\nsalt "), 1)} {
		f.Add(seed)
	}
	f.Fuzz(func(t *testing.T, text []byte) {
		size, state, ok := lockRead(text)
		got, gotSize, err := wagtenib.LockState(text)
		if (err == nil) != ok || err != nil && !errors.Is(err, wagtenib.ErrLockText) || got != state || gotSize != size {
			t.Fatalf("%q: %+v, %d, %v, but %+v and %d are due", text, got, gotSize, err, state, size)
		}
		// The same parts are written as the same text, except for the case of the last digits.
		if ok {
			salt := text[len(text)-33 : len(text)-1]
			numbers, _ := hex.DecodeString(string(salt))
			again, err := wagtenib.LockText(text[:295], text[301:len(text)-39], binary.BigEndian.Uint64(numbers),
				binary.BigEndian.Uint64(numbers[8:]))
			want := append(append(bytes.Clone(text[:len(text)-33]), bytes.ToLower(salt)...), '\n')
			if err != nil || !bytes.Equal(again, want) {
				t.Fatalf("%q is written as %q, %v", text, again, err)
			}
		}
	})
}

func FuzzBatchName(f *testing.F) {
	name := wagtenib.BatchName(made)
	for _, seed := range []string{"", name, name[1:], name + "0", strings.ToUpper(name),
		"staging/" + strings.Repeat("F", 48), "staging/" + strings.Repeat("-", 48)} {
		f.Add(seed)
	}
	f.Fuzz(func(t *testing.T, name string) {
		digits, hasFolder := strings.CutPrefix(name, "staging/")
		numbers, err := hex.DecodeString(digits)
		state, got := wagtenib.BatchState([]byte(name))
		if !hasFolder || err != nil || len(numbers) != 24 || digits != strings.ToLower(digits) {
			if !errors.Is(got, wagtenib.ErrBatchName) || state != (wagtenib.NodeState{}) {
				t.Fatalf("%q: %+v, %v", name, state, got)
			}
			return
		}
		at := func(i int) uint64 { return binary.BigEndian.Uint64(numbers[8*i:]) }
		if want := (wagtenib.NodeState{Timestamp: at(0), PreviousTimestamp: at(1), Salt: at(2)}); got != nil ||
			state != want || wagtenib.BatchName(state) != name {
			t.Fatalf("%q: %+v, %v, but %+v is due", name, state, got, want)
		}
	})
}
