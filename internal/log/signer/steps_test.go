package signer

import (
	"fmt"
	"testing"

	"golang.org/x/mod/sumdb/tlog"
)

// step returns the step that added the leaves from the index first, and led to a tree of this size. It computes the
// root of each subtree before the step with x/mod, as the root of a separate tree.
func (l *list) step(t testing.TB, first, size int) Step {
	step := Step{First: uint64(first), Leaves: l.leaves[first:size]}
	for from, width := 0, 1<<62; from < first; width /= 2 {
		if from+width > first {
			continue
		}
		subtree := &list{}
		for _, leaf := range l.leaves[from : from+width] {
			subtree.put(t, leaf)
		}
		root, err := tlog.TreeHash(int64(width), subtree)
		must(t, err)
		step.Subtrees, from = append(step.Subtrees, root), from+width
	}
	return step
}

// TestSteps asks for the timestamps of whole steps. They are all signed if the step led to the last head. Otherwise
// none of them is signed.
func TestSteps(t *testing.T) {
	t.Parallel()
	inBothProcesses(t, func(t *testing.T, s Signer, key *Key) {
		ctx, right, fork := limited(t), listOf(t, 300, 300), listOf(t, 300, 3)
		_, err := s.SignStep(ctx, right.step(t, 0, 1))
		wantRefusal(t, "no-head", err)
		_, err = s.SignHead(ctx, right.head(t, 290, 10), nil)
		must(t, err)
		for _, first := range []int{0, 1, 2, 3, 127, 255, 256, 257, 289} {
			signatures, err := s.SignStep(ctx, right.step(t, first, 290))
			must(t, err)
			if len(signatures) != 290-first {
				t.Fatalf("%d signatures from %d", len(signatures), first)
			}
			for i, signed := range signatures {
				must(t, Check(key.Key(), right.leaves[first+i], signed))
			}
		}
		for what, wrong := range map[string]func(*Step){
			"no leaf":                   func(s *Step) { s.Leaves = nil },
			"the last leaf is missing":  func(s *Step) { s.Leaves = s.Leaves[:len(s.Leaves)-1] },
			"the first leaf is missing": func(s *Step) { s.Leaves = s.Leaves[1:] },
			"one leaf too many":         func(s *Step) { s.Leaves = right.leaves[260:291] },
			"another index":             func(s *Step) { s.First++ },
			"two leaves are exchanged": func(s *Step) {
				s.Leaves = append([][]byte{s.Leaves[1], s.Leaves[0]}, s.Leaves[2:]...)
			},
			"a leaf of a fork":               func(s *Step) { s.Leaves = append([][]byte{fork.leaves[260]}, s.Leaves[1:]...) },
			"a step of a fork":               func(s *Step) { *s = fork.step(t, 260, 290) },
			"the step of a later head":       func(s *Step) { *s = right.step(t, 260, 300) },
			"no subtrees":                    func(s *Step) { s.Subtrees = nil },
			"one subtree too many":           func(s *Step) { s.Subtrees = append(s.Subtrees, s.Subtrees[0]) },
			"subtrees in another order":      func(s *Step) { s.Subtrees[0], s.Subtrees[1] = s.Subtrees[1], s.Subtrees[0] },
			"a subtree with another content": func(s *Step) { s.Subtrees[1][0]++ },
		} {
			step := right.step(t, 260, 290)
			wrong(&step)
			signatures, err := s.SignStep(ctx, step)
			if wantRefusal(t, "not-there", err); len(signatures) != 0 {
				t.Errorf("%s: %d were signed", what, len(signatures))
			}
		}
	})
}

// TestStepsWithAWrongLeaf asks for steps with a leaf that is later than their head, a leaf that names another leaf's
// index, or bytes that are no leaf. Nothing of such a step is signed.
func TestStepsWithAWrongLeaf(t *testing.T) {
	t.Parallel()
	later := leaf("later")
	later[9] = 11
	for name, wrong := range map[string][]byte{"": leafNaming("fourth", 3), "later-leaf": later,
		"other-index": leafNaming("fourth", 4), "no-leaf": []byte("nothing")} {
		inBothProcesses(t, func(t *testing.T, s Signer, key *Key) {
			ctx, l := limited(t), &list{}
			for i := range 6 {
				if i == 3 {
					l.put(t, wrong)
				} else {
					l.add(t, fmt.Sprint(i))
				}
			}
			_, err := s.SignHead(ctx, l.head(t, 6, 10), nil)
			must(t, err)
			signatures, err := s.SignStep(ctx, l.step(t, 2, 6))
			if name == "" {
				must(t, err)
				return
			}
			if wantRefusal(t, name, err); len(signatures) != 0 {
				t.Errorf("%s: %d were signed", name, len(signatures))
			}
		})
	}
}
