package signer

import (
	"bytes"
	"context"
	"encoding/json"
	"errors"
	"os"
	"os/exec"
	"path/filepath"
	"strings"
	"testing"

	"wagtenib/bindings/go/wagtenib"
	"wagtenib/internal/blob"
	"wagtenib/internal/ct"
)

// TestReadsOnlyItsTexts: the text of each state is read back, and no text that differs from it in a byte is read.
func TestReadsOnlyItsTexts(t *testing.T) {
	t.Parallel()
	heads := []*ct.TreeHead{nil, {}, {TreeSize: 1, Timestamp: 1, Root: [32]byte{62, 63}},
		{TreeSize: 1<<64 - 1, Timestamp: 1<<64 - 1, Root: [32]byte{31: 255}},
		{TreeSize: 1 << 53, Timestamp: 1<<53 + 1, Root: [32]byte{9, 8, 7}}}
	for _, head := range heads {
		text := textOf(head)
		state, err := ReadState(text)
		must(t, err)
		if last := state.Last(); state.Text() != text || (last == nil) != (head == nil) || last != nil &&
			(*last != *head || !bytes.Equal(state.Signed(), messageOf(*head))) {
			t.Errorf("%s is read as %+v", text, state)
		}
		if head == nil && len(state.Signed()) != 0 {
			t.Errorf("before the first head %x is signed", state.Signed())
		}
		for i := range text {
			for _, other := range []string{text[:i] + text[i+1:], text[:i] + " " + text[i:],
				text[:i] + string(text[i]^1) + text[i+1:]} {
				if state, err := ReadState(other); err == nil && state.Text() != other || err != nil &&
					!errors.Is(err, ErrState) {
					t.Errorf("%s is read as %s, %v", other, state.Text(), err)
				}
			}
		}
	}
	whole := textOf(heads[3])
	for _, text := range []string{"", "\n", "null", "{}", `{"guard":1}`, `{"guard":1,"last":{}}`, whole + "\n", whole +
		whole, none + "{", strings.ToUpper(whole), strings.Replace(whole, `"guard":1,`, "", 1),
		strings.Replace(whole, "18446744073709551615", "18446744073709551616", 1),
		strings.Replace(whole, "18446744073709551615", "1e3", 1), strings.Replace(whole, "P8=", "", 1),
		strings.Replace(whole, "=", "", 1),
		`{"guard":1,"last":null,"last":null}`, strings.Replace(whole, `}}`, `},"guard":1}`, 1),
		strings.Replace(whole, "A", "\\u0041", 1), "\ufeff" + whole} {
		if state, err := ReadState(text); !errors.Is(err, ErrState) {
			t.Errorf("%q is read as %s, %v", text, state.Text(), err)
		}
	}
}

// TestRefusesRolledBackReading compares readings of a state with earlier ones.
func TestRefusesRolledBackReading(t *testing.T) {
	t.Parallel()
	state := func(head *ct.TreeHead) State {
		state, err := ReadState(textOf(head))
		must(t, err)
		return state
	}
	for i, test := range []struct {
		seen, now *ct.TreeHead
		isBack    bool
	}{
		{nil, nil, false}, {nil, &ct.TreeHead{TreeSize: 5, Timestamp: 50, Root: [32]byte{1}}, false}, {&ct.TreeHead{TreeSize: 5, Timestamp: 50, Root: [32]byte{1}}, nil, true},
		{&ct.TreeHead{TreeSize: 0, Timestamp: 0, Root: [32]byte{}}, nil, true},
		{&ct.TreeHead{TreeSize: 5, Timestamp: 50, Root: [32]byte{1}}, &ct.TreeHead{TreeSize: 5, Timestamp: 50, Root: [32]byte{1}}, false},
		{&ct.TreeHead{TreeSize: 5, Timestamp: 50, Root: [32]byte{1}}, &ct.TreeHead{TreeSize: 5, Timestamp: 50, Root: [32]byte{2}}, true},
		{&ct.TreeHead{TreeSize: 5, Timestamp: 50, Root: [32]byte{1}}, &ct.TreeHead{TreeSize: 5, Timestamp: 51, Root: [32]byte{1}}, false},
		{&ct.TreeHead{TreeSize: 5, Timestamp: 50, Root: [32]byte{1}}, &ct.TreeHead{TreeSize: 6, Timestamp: 51, Root: [32]byte{2}}, false},
		{&ct.TreeHead{TreeSize: 5, Timestamp: 50, Root: [32]byte{1}}, &ct.TreeHead{TreeSize: 6, Timestamp: 50, Root: [32]byte{2}}, true},
		{&ct.TreeHead{TreeSize: 5, Timestamp: 50, Root: [32]byte{1}}, &ct.TreeHead{TreeSize: 4, Timestamp: 60, Root: [32]byte{2}}, true},
	} {
		if err := state(test.now).CheckSince(state(test.seen)); (err != nil) != test.isBack || err != nil &&
			!errors.Is(err, ErrState) {
			t.Errorf("%d: %v", i, err)
		}
	}
}

// TestFirstHead: before the first head with leaves, the lock gets the head of the empty tree, which is not signed. A
// head of no leaves can be the first only if its root is that of the empty tree. A log that has a head cannot begin
// again.
func TestFirstHead(t *testing.T) {
	t.Parallel()
	ctx, l := limited(t), listOf(t, 9, 9)
	g := guardedIn(t, newKey(t), t.TempDir())
	wrong := l.head(t, 0, 100)
	wrong.Root[0] ^= 1
	signed, err := g.SignHead(ctx, wrong, nil)
	if wantRefusal(t, "not-first", err); signed != nil || lockText(t, g) != none {
		t.Errorf("a wrong empty head: %s", lockText(t, g))
	}
	// The head of the empty tree cannot be earlier than the timestamp 0.
	signed, err = g.SignHead(ctx, l.head(t, 5, 0), nil)
	if wantRefusal(t, "timestamp-not-later", err); signed != nil {
		t.Error("a head of the year 1970 is signed")
	}
	g = guardedIn(t, newKey(t), t.TempDir())
	var texts []string
	g.test.phase = func(string) { texts = append(texts, lockText(t, g)) }
	head, empty := l.head(t, 5, 100), l.head(t, 0, 99)
	signed, err = g.SignHead(ctx, head, nil)
	must(t, err)
	must(t, CheckHead(g.Key(), head, signed))
	if expected := []string{textOf(&empty), textOf(&empty), textOf(&head)}; strings.Join(texts,
		"\n") != strings.Join(expected, "\n") {
		t.Errorf("the lock had %q, and not %q", texts, expected)
	}
	for _, text := range []string{textOf(&empty), textOf(&head)} {
		state, err := ReadState(text)
		must(t, err)
		if next, err := state.Begin(head); !errors.Is(err, ErrState) || next.Text() != "" || state.MustBegin(head) {
			t.Errorf("after %s the log begins again with %s, %v", text, next.Text(), err)
		}
	}
	state, err := ReadState(none)
	must(t, err)
	if next, err := state.After(head, nil, 1<<63); next.Text() != "" {
		t.Errorf("a head with leaves is the first: %s", next.Text())
	} else {
		wantRefusal(t, "not-first", err)
	}
}

// TestKilledAfterTheEmptyHead kills (-9) a signer after the head of the empty tree is in its lock, and before the first
// head with leaves is. The next signer continues from there.
func TestKilledAfterTheEmptyHead(t *testing.T) {
	t.Parallel()
	program, err := os.Executable()
	must(t, err)
	folder, key := t.TempDir(), newKey(t)
	must(t, os.WriteFile(filepath.Join(folder, "key.pem"), key.pem(t), 0o600))
	run := func(phase string) (output []byte, err error) {
		task, err := json.Marshal(child{Folder: folder, Phase: phase, On: 1})
		must(t, err)
		command := exec.Command(program)
		command.Env = append(os.Environ(), childTask+"="+string(task))
		return command.Output()
	}
	if output, err := run("begun"); err == nil || !strings.Contains(err.Error(), "killed") || len(output) != 0 {
		t.Fatalf("%v, %s", err, output)
	}
	state, err := ReadState(strings.TrimSuffix(string(readText(t, folder)), "\n"))
	must(t, err)
	if last := state.Last(); last == nil || last.TreeSize != 0 {
		t.Errorf("the lock has %s", state.Text())
	}
	if output, err := run(""); err != nil || len(output) == 0 {
		t.Errorf("%v, %s", err, output)
	}
}

func readText(t *testing.T, folder string) []byte {
	t.Helper()
	text, err := os.ReadFile(filepath.Join(folder, "guard", "text"))
	must(t, err)
	return text
}

// TestDamagedLock: a lock whose text is damaged or empty never counts as a lock before the first head, at a start or
// while a signer runs. Nothing is signed, and the text stays the same.
func TestDamagedLock(t *testing.T) {
	t.Parallel()
	ctx, l, fork := limited(t), listOf(t, 9, 9), listOf(t, 9, 0)
	for _, damaged := range []string{"", "\n", " ", "{", "null", "{}", `{"guard":1}`, `{"guard":1,"last":{}}`,
		`{"guard":1,"last":null} `, "\x00"} {
		folder := t.TempDir()
		g := guardedIn(t, newKey(t), folder)
		_, err := g.SignHead(ctx, l.head(t, 5, 100), nil)
		must(t, err)
		must(t, blob.KeepFile(filepath.Join(folder, "guard", "text"), []byte(damaged)))
		if last, err := g.Last(ctx); !errors.Is(err, ErrState) || last != nil {
			t.Errorf("%q: the last head is %+v, %v", damaged, last, err)
		}
		for _, create := range []bool{false, true} {
			if _, err := NewGuarded(ctx, newKey(t), Guard{State: lock(t, folder), Create: create}); !errors.Is(
				err, ErrState) {
				t.Errorf("%q: a signer starts, %v", damaged, err)
			}
		}
		for _, list := range []*list{l, fork} {
			if signed, err := g.SignHead(ctx, list.head(t, 9, 101), list.proof(t, 5, 9)); !errors.Is(err, ErrState) ||
				signed != nil {
				t.Errorf("%q: a head: %v", damaged, err)
			}
		}
		if signed, err := g.SignTimestamps(ctx, []Receipt{l.receipt(t, 1, 5)}); !errors.Is(err, ErrState) ||
			signed != nil {
			t.Errorf("%q: a timestamp: %v", damaged, err)
		}
		if text := readText(t, folder); string(text) != damaged {
			t.Errorf("%q: the text is %q", damaged, text)
		}
	}
}

// TestRefusalChangesNothing: a head or a timestamp that the guard refuses is not signed, and the lock's text stays the
// same.
func TestRefusalChangesNothing(t *testing.T) {
	t.Parallel()
	ctx, l, fork := limited(t), listOf(t, 9, 9), listOf(t, 9, 3)
	g := guardedIn(t, newKey(t), t.TempDir())
	_, err := g.SignHead(ctx, l.head(t, 5, 100), nil)
	must(t, err)
	before := lockText(t, g)
	for fault, test := range map[string]struct {
		head  ct.TreeHead
		proof [][32]byte
	}{
		"root-mismatch":  {fork.head(t, 9, 101), l.proof(t, 5, 9)},
		"first-mismatch": {l.head(t, 9, 101), fork.proof(t, 5, 9)},
		"empty-path":     {l.head(t, 9, 101), nil},
		"path-too-short": {l.head(t, 9, 101), l.proof(t, 5, 9)[:3]},
		"path-too-long":  {l.head(t, 9, 101), append(l.proof(t, 5, 9), [32]byte{})},
	} {
		signed, err := g.SignHead(ctx, test.head, test.proof)
		var refusal Refusal
		if !errors.As(err, &refusal) || refusal != (Refusal{"inconsistent", fault}) || signed != nil ||
			lockText(t, g) != before {
			t.Errorf("%s: %v, and the lock has %s", fault, err, lockText(t, g))
		}
	}
	receipt := l.receipt(t, 1, 5)
	for fault, test := range map[string]Receipt{
		"no-leaf truncated":     {receipt.Leaf[:4], 1, receipt.Path},
		"no-leaf bad-version":   {append([]byte{1}, receipt.Leaf[1:]...), 1, receipt.Path},
		"no-leaf bad-leaf-type": {append([]byte{0, 1}, receipt.Leaf[2:]...), 1, receipt.Path},
		"no-leaf trailing":      {append(bytes.Clone(receipt.Leaf), 0), 1, receipt.Path},
		"no-leaf empty-vector":  {leaf(""), 1, receipt.Path},
		"no-leaf bad-entry-type": {append(append(bytes.Clone(receipt.Leaf[:10]), 0, 9), receipt.Leaf[12:]...),
			1, receipt.Path},
		"not-there index-out-of-range": {receipt.Leaf, 5, receipt.Path},
		"not-there path-too-long":      {receipt.Leaf, 1, append(l.receipt(t, 1, 5).Path, [32]byte{})},
		"not-there path-too-short":     {receipt.Leaf, 1, receipt.Path[:1]},
		"not-there root-mismatch":      {receipt.Leaf, 0, receipt.Path},
	} {
		signed, err := g.SignTimestamps(ctx, []Receipt{receipt, test})
		var refusal Refusal
		if !errors.As(err, &refusal) || refusal.Name+" "+refusal.Fault != fault || signed != nil ||
			lockText(t, g) != before {
			t.Errorf("%s: %v, and the lock has %s", fault, err, lockText(t, g))
		}
	}
}

// TestAnswersOfTheGuard: the error for an answer of the guard has the kind of the answer's code. It is a Refusal only
// if the answer is a refusal.
func TestAnswersOfTheGuard(t *testing.T) {
	t.Parallel()
	for code, kind := range map[wagtenib.Code]error{wagtenib.ErrState: ErrState, wagtenib.ErrTimestampTooFar: TooFar,
		wagtenib.ErrFork: Refusal{Name: "fork"}, wagtenib.ErrMemory: wagtenib.ErrMemory, 4000: wagtenib.Code(4000)} {
		if err := headRefusal(code); !errors.Is(err, kind) ||
			errors.Is(err, ErrRefused) != errors.As(kind, &Refusal{}) {
			t.Errorf("%v: %v", code, err)
		}
	}
	for code, kind := range map[wagtenib.Code]error{wagtenib.ErrState: ErrState,
		wagtenib.ErrLaterLeaf: Refusal{Name: "later-leaf"}, wagtenib.ErrNotFirst: wagtenib.ErrNotFirst} {
		if err := receiptRefusal(code); !errors.Is(err, kind) ||
			errors.Is(err, ErrRefused) != errors.As(kind, &Refusal{}) {
			t.Errorf("%v: %v", code, err)
		}
	}
	if headRefusal(nil) != nil || receiptRefusal(nil) != nil {
		t.Error("an approval is a refusal")
	}
}

// TestTimestampsEndBetween: after a caller's context has ended, no more of its timestamps are judged or signed.
func TestTimestampsEndBetween(t *testing.T) {
	t.Parallel()
	l, judged := listOf(t, 4, 4), 0
	ctx, leave := context.WithCancel(limited(t))
	defer leave()
	g := guardedIn(t, newKey(t), t.TempDir())
	_, err := g.SignHead(ctx, l.head(t, 4, 100), nil)
	must(t, err)
	g.test.phase = func(name string) {
		if judged++; name != "receipt" || judged == 2 {
			leave()
		}
	}
	signed, err := g.SignTimestamps(ctx, []Receipt{l.receipt(t, 0, 4), l.receipt(t, 1, 4), l.receipt(t, 2, 4)})
	if wantError(t, err, context.Canceled); signed != nil || judged != 2 {
		t.Errorf("%d were signed, and the guard judged %d", len(signed), judged)
	}
}
