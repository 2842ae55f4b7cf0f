package signer

import (
	"context"
	"encoding/json"
	"errors"
	"fmt"
	mathrand "math/rand"
	"os"
	"os/exec"
	"path/filepath"
	"strings"
	"testing"

	"wagtenib/internal/blob"
	"wagtenib/internal/ct"
)

// childTask is the environment variable with the task of a child process, in JSON.
const childTask = "SIGNER_CHILD"

// child signs heads of a list and of forks, and prints each signed head as a line. It is killed (-9) at a phase.
type child struct {
	Folder, Phase string
	On            int
	Seed          int64
}

func TestMain(m *testing.M) {
	if task := os.Getenv(childTask); task != "" {
		if err := runChild(task); err != nil {
			fmt.Fprintln(os.Stderr, err)
			os.Exit(1)
		}
		os.Exit(0)
	}
	os.Exit(m.Run())
}

func runChild(task string) error {
	var c child
	if err := json.Unmarshal([]byte(task), &c); err != nil {
		return err
	}
	t := &testing.T{}
	ctx := context.Background()
	key, err := OpenKey(filepath.Join(c.Folder, "key.pem"))
	if err != nil {
		return err
	}
	state, err := blob.OpenFile(filepath.Join(c.Folder, "guard"))
	if err != nil {
		return err
	}
	g, err := NewGuarded(ctx, key, Guard{State: state, Create: true})
	if err != nil {
		return err
	}
	phases := 0
	g.test.phase = func(name string) {
		if name == c.Phase {
			if phases++; phases == c.On {
				self, _ := os.FindProcess(os.Getpid())
				self.Kill()
				select {}
			}
		}
	}
	lists := []*list{listOf(t, 64, 64), listOf(t, 64, 0), listOf(t, 64, 20)}
	random := mathrand.New(mathrand.NewSource(c.Seed))
	for try := 0; try < 60; try++ {
		last, err := g.Last(ctx)
		if err != nil {
			return err
		}
		size, from, timestamp := 1, 0, uint64(1)
		if last != nil {
			from, timestamp = int(last.TreeSize), last.Timestamp+uint64(random.Intn(2))
			size = from + random.Intn(4)
		}
		if size > 64 {
			return nil
		}
		l := lists[random.Intn(len(lists))]
		head := l.head(t, size, timestamp)
		signed, err := g.SignHead(ctx, head, l.proof(t, from, size))
		if err == nil {
			line, _ := json.Marshal(map[string]any{"head": ct.NewHeadJSON(&head), "signed": signed})
			fmt.Printf("%s\n", line)
		} else if !errors.Is(err, ErrRefused) {
			return err
		}
	}
	return nil
}

// TestSignsOneListDespiteKills asks a signer for heads of three lists. It kills the signer (-9) before and after its
// state is stored, and starts it again each time. All signed heads belong to one list.
func TestSignsOneListDespiteKills(t *testing.T) {
	t.Parallel()
	program, err := os.Executable()
	must(t, err)
	for _, phase := range []string{"approved", "stored"} {
		phase := phase
		t.Run(phase, func(t *testing.T) {
			t.Parallel()
			folder, key := t.TempDir(), newKey(t)
			must(t, os.WriteFile(filepath.Join(folder, "key.pem"), key.pem(t), 0o600))
			lists := []*list{listOf(t, 64, 64), listOf(t, 64, 0), listOf(t, 64, 20)}
			type signedHead struct {
				Head   *ct.HeadJSON
				Signed []byte
			}
			var all []signedHead
			killed := 0
			for run := 0; run < 8; run++ {
				task, err := json.Marshal(child{Folder: folder, Phase: phase, On: 1 + run%3, Seed: int64(run)})
				must(t, err)
				command := exec.Command(program)
				command.Env = append(os.Environ(), childTask+"="+string(task))
				command.Stderr = os.Stderr
				output, err := command.Output()
				if err != nil && strings.Contains(err.Error(), "killed") {
					killed++
				} else if err != nil {
					t.Fatal(err)
				}
				for _, line := range strings.Split(strings.TrimSpace(string(output)), "\n") {
					var one signedHead
					if json.Unmarshal([]byte(line), &one) == nil && one.Head != nil {
						all = append(all, one)
					}
				}
			}
			if killed < 5 || len(all) < 5 {
				t.Fatalf("%d were killed, and %d heads signed", killed, len(all))
			}
			fits := make([]bool, len(lists))
			for i, l := range lists {
				fits[i] = true
				for _, one := range all {
					head, err := one.Head.Head()
					must(t, err)
					must(t, CheckHead(key.Key(), *head, one.Signed))
					fits[i] = fits[i] && l.head(t, int(head.TreeSize), head.Timestamp) == *head
				}
			}
			if !fits[0] && !fits[1] && !fits[2] {
				t.Errorf("the %d signed heads do not all belong to one list", len(all))
			}
		})
	}
}
