package decider

import (
	"errors"
	"fmt"
	"strings"
	"testing"

	"wagtenib/bindings/go/wagtenib"
	"wagtenib/internal/ct"
	"wagtenib/internal/testkit"
)

var must = testkit.Must

// line is a state's, of so many entries at a moment.
func line(size, timestamp uint64) string {
	return fmt.Sprintf("growth %016x%016x%s", size, timestamp, strings.Repeat("0", 256))
}

func textOf(size, timestamp, before, salt uint64) string {
	return fmt.Sprintf("%s\nnode -\nsalt %016x%016x\n", line(size, timestamp), before, salt)
}

// TestWay goes all the way of a node that has a step made, with what each command is about.
func TestWay(t *testing.T) {
	t.Parallel()
	c := New()
	seen, new := Held{Text: textOf(3, 7, 5, 1), Timestamp: 7, Size: 3},
		Held{Text: textOf(4, 9, 7, 2), Timestamp: 9, Size: 4}
	seen.Batch, new.Batch = "staging/000000000000000700000000000000050000000000000001",
		"staging/000000000000000900000000000000070000000000000002"
	objects := []string{"tile/0/000.p/4 aa", "tile/data/000.p/4 bb"}
	command := Begin()
	for _, step := range []struct {
		outcome *Outcome
		want    Command
	}{
		{LockRead(seen.Text), Command{Do: Look, Seen: seen}},
		{Published(), Command{Do: Step, Seen: seen}},
		{BatchListed("staging/000000000000000800000000000000070000000000000001"), Command{Do: Step, Seen: seen}},
		{BatchListed("staging/000000000000000600000000000000040000000000000001"),
			Command{Do: Delete, Seen: seen, Batch: "staging/000000000000000600000000000000040000000000000001"}},
		{Done(), Command{Do: Step, Seen: seen}},
		{StepMade(line(4, 7), "-", 2, objects), Command{Do: Step, Seen: seen}},
		{StepMade(line(4, 9), "-", 2, objects), Command{Do: Stage, Seen: seen, New: new, Objects: objects}},
		{Done(), Command{Do: Swap, Seen: seen, New: new, Objects: objects}},
		{Done(), Command{Do: Put, New: new, Objects: objects}},
		{Done(), Command{Do: Place, New: new}},
		{Done(), Command{Do: Head, New: new}},
		{Done(), Command{Do: Answer, New: new}},
		{Done(), Command{Do: Read}},
		{LockRead(seen.Text), Command{Do: Look, Seen: seen}},
		{BatchRead(nil), Command{Do: Put, New: seen, Objects: []string{}}},
		{Lost(), Command{Do: Read}},
	} {
		next, err := c.Next(command, step.outcome)
		must(t, err)
		command = next
		got := *next
		got.node = step.want.node
		if fmt.Sprintf("%q", got) != fmt.Sprintf("%q", step.want) {
			t.Fatalf("after %+v comes %+v, and expected was %+v", step.outcome, got, step.want)
		}
	}
}

// TestRefusals: a text that is not a lock's text, a name that is not a staged batch's, and an invalid line are refused.
func TestRefusals(t *testing.T) {
	t.Parallel()
	c := New()
	look, err := c.Next(Begin(), LockRead(textOf(3, 7, 5, 1)))
	must(t, err)
	step, err := c.Next(look, Published())
	must(t, err)
	for _, err := range []error{
		second(c.Next(Begin(), LockRead("a text"))), second(c.Next(step, BatchListed("staging/0"))),
		second(c.Next(step, StepMade(strings.Repeat("x", 100_000), "-", 1, nil))),
	} {
		if !errors.Is(err, ErrRefused) {
			t.Error(err)
		}
	}
}

func second(_ *Command, err error) error { return err }

// TestStarts: a node continues from what it finds. If something is newer than the lock's head, it is refused by
// name.
func TestStarts(t *testing.T) {
	t.Parallel()
	c := New()
	root, other := [32]byte{}, [32]byte{1}
	rooted := func(size, timestamp uint64, root [32]byte) *ct.TreeHead {
		return &ct.TreeHead{TreeSize: size, Timestamp: timestamp, Root: root}
	}
	at := func(size, timestamp uint64) *ct.TreeHead { return rooted(size, timestamp, root) }
	text := textOf(3, 7, 5, 1)
	for _, it := range []struct {
		lock  string
		found wagtenib.NodeFound
		want  string
	}{
		{text, wagtenib.NodeFound{}, "goes"},
		{text, wagtenib.NodeFound{Guarded: true}, "goes"},
		{text, wagtenib.NodeFound{HasObject: true, Creates: true}, "goes"},
		{text, wagtenib.NodeFound{Seen: rooted(3, 7, root), Signed: rooted(3, 7, root), Guarded: true, Published: at(3, 7),
			Listed: at(3, 7)}, "goes"},
		{text, wagtenib.NodeFound{Seen: rooted(3, 6, other), Signed: rooted(2, 6, other), Guarded: true,
			Published: at(2, 6), Listed: at(2, 6)}, "goes"},
		{text, wagtenib.NodeFound{Seen: rooted(3, 7, other)}, "behind-seen"},
		{text, wagtenib.NodeFound{Seen: rooted(2, 7, root)}, "behind-seen"},
		{text, wagtenib.NodeFound{Seen: rooted(4, 6, root)}, "behind-seen"},
		{text, wagtenib.NodeFound{Signed: rooted(3, 7, other), Guarded: true}, "two-roots"},
		{text, wagtenib.NodeFound{Signed: rooted(3, 8, root), Guarded: true}, "behind-guard"},
		{text, wagtenib.NodeFound{Listed: at(1, 1), Guarded: true}, "guard-behind"},
		{text, wagtenib.NodeFound{Signed: rooted(1, 1, root), Listed: at(1, 2), Guarded: true}, "guard-behind"},
		{text, wagtenib.NodeFound{Listed: at(3, 8)}, "behind-listed"},
		{text, wagtenib.NodeFound{Published: at(4, 7)}, "behind-published"},
		{text, wagtenib.NodeFound{Listed: rooted(3, 7, other)}, "behind-listed"},
		{text, wagtenib.NodeFound{Published: rooted(3, 7, other)}, "behind-published"},
		{"", wagtenib.NodeFound{Creates: true}, "creates"},
		{"", wagtenib.NodeFound{Creates: true, Guarded: true}, "creates"},
		{"", wagtenib.NodeFound{}, "gone"},
		{"", wagtenib.NodeFound{Creates: true, HasObject: true}, "gone"},
		{"", wagtenib.NodeFound{Creates: true, Seen: rooted(0, 1, root)}, "gone"},
		{"", wagtenib.NodeFound{Creates: true, Signed: rooted(0, 1, root), Guarded: true}, "gone"},
		{"", wagtenib.NodeFound{Creates: true, Published: at(0, 1)}, "gone"},
		{"", wagtenib.NodeFound{Creates: true, Listed: at(0, 1)}, "gone"},
	} {
		creates, err := c.Start(Found{Lock: it.lock, NodeFound: it.found})
		got := "goes"
		var refusal Refusal
		switch {
		case errors.As(err, &refusal):
			got = string(refusal)
		case err != nil:
			got = err.Error()
		case creates:
			got = "creates"
		}
		if got != it.want {
			t.Errorf("%+v: %s, and expected was %s", it.found, got, it.want)
		}
	}
	for _, text := range []string{"a text", strings.Repeat("x", 100_000)} {
		if _, err := c.Start(Found{Lock: text}); !errors.Is(err, ErrRefused) {
			t.Error(err)
		}
	}
}

// TestOtherCommands has a function return a command of another state or with another number of objects than the node
// has, and one that does not exist.
func TestOtherCommands(t *testing.T) {
	t.Parallel()
	made := wagtenib.NodeState{Timestamp: 9, PreviousTimestamp: 7, Salt: 3}
	for what, other := range map[string]func(*wagtenib.NodeCommand){
		"another state that was read": func(c *wagtenib.NodeCommand) { c.Seen.Salt++ },
		"another state that was made": func(c *wagtenib.NodeCommand) { c.Next = made },
		"another number of objects":   func(c *wagtenib.NodeCommand) { c.Objects++ },
		"a command that there is not": func(c *wagtenib.NodeCommand) { c.Kind = 10 },
	} {
		right, lies := New(), Over(func(command wagtenib.NodeCommand,
			outcome wagtenib.NodeOutcome) (wagtenib.NodeCommand, error) {
			next, err := wagtenib.NodeNext(command, outcome)
			other(&next)
			return next, err
		})
		command := Begin()
		for _, outcome := range []*Outcome{LockRead(textOf(3, 7, 5, 1)), Published()} {
			next, err := right.Next(command, outcome)
			must(t, err)
			command = next
		}
		stepped := StepMade(line(4, 9), "-", 2, []string{"tile/0/000.p/4 aa"})
		if next, err := lies.Next(command, stepped); !errors.Is(err, ErrReply) || next != nil {
			t.Errorf("%s: %+v, %v", what, next, err)
		}
		if next, err := right.Next(command, stepped); err != nil || next.Do != Stage {
			t.Errorf("%s: %+v, %v", what, next, err)
		}
	}
	fails := Over(func(wagtenib.NodeCommand, wagtenib.NodeOutcome) (wagtenib.NodeCommand, error) {
		return wagtenib.NodeCommand{}, wagtenib.ErrCommand
	})
	if command, err := fails.Next(Begin(), Lost()); !errors.Is(err, wagtenib.ErrCommand) || command != nil {
		t.Errorf("%+v, %v", command, err)
	}
}
