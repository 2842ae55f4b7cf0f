package witness

import (
	"bufio"
	"context"
	"crypto/x509"
	"encoding/hex"
	"encoding/pem"
	"errors"
	"fmt"
	"io"
	"math/rand"
	"net"
	"net/http"
	"os"
	"os/exec"
	"path/filepath"
	"strings"
	"sync"
	"syscall"
	"testing"
	"time"

	"golang.org/x/mod/sumdb/note"

	"wagtenib/internal/blob"
	"wagtenib/internal/testkit"
)

// lockKinds returns the kinds of locks that can have a witness's states. Each function returns an address for a folder
// and a name that no other test uses. The engines are those that tests/engines.sh started. Without it, only files are
// tested.
func lockKinds() map[string]func(folder, name string) string {
	all := map[string]func(folder, name string) string{"file": func(folder,
		_ string) string {
		return "file:" + folder
	}}
	for kind, members := range map[string]string{"etcd": os.Getenv("STORES_ETCD"),
		"three members of etcd": os.Getenv("STORES_MEMBERS")} {
		if members := members; members != "" {
			all[kind] = func(_, name string) string { return "etcd://" + members + "/" + name }
		}
	}
	settings := map[string]string{}
	for _, setting := range strings.Fields(os.Getenv("STORES_POSTGRES")) {
		key, value, _ := strings.Cut(setting, "=")
		settings[key] = value
	}
	if len(settings) > 0 {
		all["postgres"] = func(_, name string) string {
			return fmt.Sprintf("postgres://%s@%s:%s/%s?sslmode=%s&log=%s", settings["user"], settings["host"],
				settings["port"],
				settings["dbname"], settings["sslmode"], name)
		}
	}
	return all
}

// onEachLock runs a test on every available kind of lock. Each call of newAddress returns the address of a new lock.
func onEachLock(t *testing.T, test func(t *testing.T, newAddress func() string)) {
	for kind, address := range lockKinds() {
		address := address
		t.Run(kind, func(t *testing.T) {
			t.Parallel()
			test(t, func() string { return address(t.TempDir(), "witness-"+hex.EncodeToString(newKey(t)[:8])) })
		})
	}
}

func lockAt(t testing.TB, address string) blob.Lock {
	r, err := blob.LockOf(limited(t), address, origin)
	must(t, err)
	t.Cleanup(func() { r.Close() })
	return r
}

// forkRequests returns requests to cosign two heads of one size that fork: the first ones are for a witness that
// cosigned nothing, and the second ones for a witness that already cosigned that head.
func forkRequests(t testing.TB, by signing) (first, again [2][]byte) {
	for i, of := range []*leaves{leavesOf(t, "a", "b", "c", "d", "e"), leavesOf(t, "a", "b", "c", "x", "y")} {
		signed := by.sign(checkpoint(origin, 5, of.root(t, 5)))
		first[i], again[i] = request(0, nil, signed), request(5, nil, signed)
	}
	return first, again
}

// forkCounts counts the cosignatures of two heads that fork.
type forkCounts struct {
	mu     sync.Mutex
	counts [2]int
}

func (c *forkCounts) add(head int) {
	c.mu.Lock()
	c.counts[head]++
	c.mu.Unlock()
}

// checkOnlyOne checks that exactly one of the heads was cosigned.
func (c *forkCounts) checkOnlyOne(t testing.TB, round int) {
	t.Helper()
	c.mu.Lock()
	defer c.mu.Unlock()
	if (c.counts[0] > 0) == (c.counts[1] > 0) {
		t.Errorf("round %d: one head is cosigned %d times, the other %d", round, c.counts[0], c.counts[1])
	}
}

// TestRace asks two witnesses with one key over one lock at once for two heads that fork, and checks that only one of
// the heads is cosigned.
func TestRace(t *testing.T) {
	onEachLock(t, func(t *testing.T, newAddress func() string) {
		by, key := headKey(t, origin), newKey(t)
		first, again := forkRequests(t, by)
		for round := 0; round < 10; round++ {
			at := newAddress()
			witnesses := []*Server{witnessOver(t, lockAt(t, at), key, by),
				witnessOver(t, lockAt(t, at), key, by)}
			var all sync.WaitGroup
			var cosigned forkCounts
			ask := func(s *Server, head int, body []byte) {
				w := post(t, s, body)
				if w.Code == 200 {
					cosigned.add(head)
				} else if w.Code != 409 && w.Body.String() != "busy\n" {
					t.Errorf("%d %s", w.Code, w.Body)
				}
			}
			for i := 0; i < 16; i++ {
				all.Add(1)
				go func(i int) {
					defer all.Done()
					ask(witnesses[i/2%2], i%2, first[i%2])
				}(i)
			}
			all.Wait()
			for i := 0; i < 4; i++ {
				ask(witnesses[i/2], i%2, again[i%2])
			}
			cosigned.checkOnlyOne(t, round)
		}
	})
}

// killPhase is the environment variable with the phase at which a child process of TestKills kills itself.
const killPhase = "WITNESS_TEST_KILLED_AT"

// TestKills kills a witness (-9) between its decision, the swap and the signature. If the state was stored, a fork of
// it is never cosigned afterwards. If it was not stored, a fork may be cosigned.
func TestKills(t *testing.T) {
	by, one, other := plainKey(t, origin), leavesOf(t, "a", "b", "c"), leavesOf(t, "x", "y", "z")
	body := func(of *leaves) []byte { return request(0, nil, by.sign(checkpoint(origin, 3, of.root(t, 3)))) }
	if at := os.Getenv(killPhase); at != "" {
		beKilled(t, at)
		return
	}
	onEachLock(t, func(t *testing.T, newAddress func() string) {
		for phase, fork := range map[string]int{"decided": 200, "kept": 409} {
			folder, at := t.TempDir(), newAddress()
			s := witnessOver(t, lockAt(t, at), newKey(t), by)
			must(t, os.WriteFile(filepath.Join(folder, "body"), body(one), 0o600))
			must(t, os.WriteFile(filepath.Join(folder, "key"), []byte(by.text), 0o600))
			child := exec.Command(os.Args[0], "-test.run", "^TestKills$")
			child.Env = append(os.Environ(), killPhase+"="+phase, "WITNESS_TEST_FOLDER="+folder,
				"WITNESS_TEST_STATE="+at)
			out, err := child.CombinedOutput()
			var ended *exec.ExitError
			if !errors.As(err, &ended) || ended.Sys().(syscall.WaitStatus).Signal() != syscall.SIGKILL ||
				strings.Contains(string(out), "— ") {
				t.Fatalf("%s: %v %s", phase, err, out)
			}
			if w := post(t, s, body(other)); w.Code != fork {
				t.Errorf("%s: a fork after it: %d %s", phase, w.Code, w.Body)
			}
			if w := post(t, s, request(3, nil, by.sign(checkpoint(origin, 3, one.root(t, 3))))); fork == 409 &&
				w.Code != 200 {
				t.Errorf("%s: the head itself after it: %d %s", phase, w.Code, w.Body)
			}
		}
	})
}

// beKilled answers the request in the folder, and kills this process at a phase.
func beKilled(t *testing.T, at string) {
	folder := os.Getenv("WITNESS_TEST_FOLDER")
	body, err := os.ReadFile(filepath.Join(folder, "body"))
	must(t, err)
	kill := func(phase string) func() {
		return func() {
			if phase == at {
				_ = syscall.Kill(os.Getpid(), syscall.SIGKILL)
				select {}
			}
		}
	}
	state := swappedState{lockAt(t, os.Getenv("WITNESS_TEST_STATE")), kill("decided"), kill("kept")}
	s := witnessOver(t, state, newKey(t), signing{key: keyIn(t, folder)})
	fmt.Println(post(t, s, body).Body)
}

// keyIn reads a log's key that a test stored for its child process.
func keyIn(t *testing.T, folder string) note.Verifier {
	text, err := os.ReadFile(filepath.Join(folder, "key"))
	must(t, err)
	key, err := LogKey(origin, string(text))
	must(t, err)
	return key
}

// witnessProcess is a child process that serves a witness over HTTP.
type witnessProcess struct {
	url  string
	kill func()
}

const servedState = "WITNESS_TEST_SERVES_AT"

// startWitness starts a witness process over a state. The folder has its key and the log's key.
func startWitness(t testing.TB, folder, state string) witnessProcess {
	child := exec.Command(os.Args[0], "-test.run", "^TestKilledAnywhere$")
	child.Env = append(os.Environ(), servedState+"="+state, "WITNESS_TEST_FOLDER="+folder)
	child.Stderr = os.Stderr
	out, err := child.StdoutPipe()
	must(t, err)
	must(t, child.Start())
	kill := func() {
		_ = child.Process.Kill()
		_ = child.Wait()
	}
	t.Cleanup(kill)
	url, err := bufio.NewReader(out).ReadString('\n')
	must(t, err)
	return witnessProcess{strings.TrimSpace(url), kill}
}

// runWitness runs in the child process: it serves a witness until the process is killed.
func runWitness(t *testing.T, state string) {
	folder := os.Getenv("WITNESS_TEST_FOLDER")
	text, err := os.ReadFile(filepath.Join(folder, "key.pem"))
	must(t, err)
	key, err := ReadKey(text)
	must(t, err)
	s := witnessOver(t, lockAt(t, state), key, signing{key: keyIn(t, folder)})
	listener, err := net.Listen("tcp", "127.0.0.1:0")
	must(t, err)
	fmt.Printf("http://%s\n", listener.Addr())
	must(t, http.Serve(listener, s))
}

// TestKilledAnywhere runs two processes of one witness over one lock. They are asked at once for two heads that fork,
// while one of them is killed (-9) at a random time and replaced. In each round only one of the heads is ever cosigned.
func TestKilledAnywhere(t *testing.T) {
	if state := os.Getenv(servedState); state != "" {
		runWitness(t, state)
		return
	}
	by, folder := plainKey(t, origin), t.TempDir()
	der, err := x509.MarshalPKCS8PrivateKey(newKey(t))
	must(t, err)
	must(t, os.WriteFile(filepath.Join(folder, "key.pem"), pem.EncodeToMemory(&pem.Block{Type: "PRIVATE KEY",
		Bytes: der}), 0o600))
	must(t, os.WriteFile(filepath.Join(folder, "key"), []byte(by.text), 0o600))
	first, again := forkRequests(t, by)
	onEachLock(t, func(t *testing.T, newAddress func() string) {
		for round := 0; round < 6; round++ {
			killedSomewhere(t, round, folder, newAddress(), first, again)
		}
	})
}

func killedSomewhere(t *testing.T, round int, folder, state string, first, again [2][]byte) {
	processes := []witnessProcess{startWitness(t, folder, state), startWitness(t, folder, state)}
	var cosigned forkCounts
	ask := func(of witnessProcess, head int, body []byte) int {
		answer, err := http.Post(of.url+"/add-checkpoint", "", strings.NewReader(string(body)))
		if err != nil {
			return 0
		}
		defer answer.Body.Close()
		if text, err := io.ReadAll(answer.Body); answer.StatusCode == 200 && err == nil &&
			strings.HasPrefix(string(text), "— ") {
			cosigned.add(head)
		}
		return answer.StatusCode
	}
	var all sync.WaitGroup
	for i := 0; i < 12; i++ {
		all.Add(1)
		go func(i int) {
			defer all.Done()
			ask(processes[i/2%2], i%2, first[i%2])
		}(i)
	}
	time.Sleep(time.Duration(rand.Int63n(int64(100 * time.Millisecond))))
	processes[0].kill()
	all.Wait()
	processes[0] = startWitness(t, folder, state)
	for ctx := limited(t); ; {
		// After a kill there may be no stored state yet.
		statuses := []int{ask(processes[0], 0, first[0]), ask(processes[1], 1, first[1])}
		for _, of := range processes {
			for head := range again {
				statuses = append(statuses, ask(of, head, again[head]))
			}
		}
		if cosigned.counts[0]+cosigned.counts[1] > 0 {
			break
		}
		if ctx.Err() != nil {
			t.Fatalf("nothing is cosigned: %v", statuses)
		}
	}
	cosigned.checkOnlyOne(t, round)
}

// TestEngineDies kills (-9) an engine, and starts it again, while a witness is asked for a log's heads and for forks of
// them. All that it cosigned is of one list, and the log grows further.
func TestEngineDies(t *testing.T) {
	again := strings.Fields(os.Getenv("STORES_AGAIN"))
	for kind, process := range map[string]string{"etcd": "etcd", "postgres": "postgres"} {
		address, isAvailable := lockKinds()[kind]
		if !isAvailable || len(again) == 0 {
			continue
		}
		t.Run(kind, func(t *testing.T) {
			engineDies(t, address("", "witness-"+hex.EncodeToString(newKey(t)[:8])),
				append(again[1:len(again):len(again)], process), again[0])
		})
	}
}

func engineDies(t *testing.T, address string, arguments []string, command string) {
	by := headKey(t, origin)
	s := witnessOver(t, lockAt(t, address), newKey(t), by)
	ctx, cancel := context.WithTimeout(context.Background(), testkit.Longest)
	defer cancel()
	killed := make(chan error, 1)
	go func() {
		var err error
		for kill := 0; kill < 2 && err == nil; kill++ {
			time.Sleep(time.Second)
			if out, failed := exec.CommandContext(ctx, command, arguments...).CombinedOutput(); failed != nil {
				err = fmt.Errorf("%w: %s", failed, out)
			}
		}
		killed <- err
	}()
	texts, last, more := []string{"0"}, int64(0), 5
	for ended := false; !ended || more > 0; {
		select {
		case err := <-killed:
			must(t, err)
			ended = true
		default:
		}
		if ctx.Err() != nil {
			t.Fatalf("not finished in time: %d entries are cosigned", last)
		}
		size := int64(len(texts))
		one := leavesOf(t, texts...)
		other := leavesOf(t, append(append([]string{}, texts[:len(texts)-1]...), "fork")...)
		proof := func(of *leaves) [][32]byte {
			if last == 0 {
				return nil
			}
			return of.proof(t, last, size)
		}
		w := post(t, s, request(last, proof(one), by.sign(checkpoint(origin, size, one.root(t, size)))))
		switch {
		case w.Code == 200 || w.Code == 409 && w.Body.String() == fmt.Sprintf("%d\n", size):
			// Status 409 means that the head was stored, and the response was lost.
			if f := post(t, s, request(last, proof(other),
				by.sign(checkpoint(origin, size, other.root(t, size))))); f.Code != 409 && f.Code != 503 {
				t.Errorf("a fork of %d entries: %d %s", size, f.Code, f.Body)
			}
			last, texts = size, append(texts, fmt.Sprint(size))
			if ended {
				more--
			}
		case w.Code != 503:
			t.Fatalf("%d entries: %d %s", size, w.Code, w.Body)
		}
	}
	t.Logf("%d heads were cosigned", last)
}
