package sim

import (
	"bytes"
	"context"
	"crypto/ed25519"
	"crypto/sha256"
	"encoding/base64"
	"encoding/binary"
	"errors"
	"fmt"
	"net/http"
	"strings"

	"golang.org/x/mod/sumdb/note"

	"wagtenib/bindings/go/wagtenib"
	"wagtenib/internal/ct"
	"wagtenib/internal/log/node"
	"wagtenib/internal/witness"
)

// Witnesses holds the number of a log's witnesses, and how many of them must cosign.
type Witnesses struct {
	Count   int
	Quorums witness.Quorums
}

// observer is a simulated witness, with a key and the messages that it cosigned. It uses the proved decision.
type observer struct {
	cosigner
	w *world
	// messages holds the messages that it cosigned and that no rollback removed. rolled is set if it was rolled back.
	messages [][]byte
	rolled   bool
	// says is the number of wrong answers that it gives from now on, and which selects the kind of wrong answer.
	says, which int
}

// cosigner holds a witness's key, and the stand-in that signs instead of it. It is the same in all histories.
type cosigner struct {
	name     string
	key      ed25519.PublicKey
	verifier note.Verifier
	standIn
}

var cosigners = func() (all []cosigner) {
	for i := range 3 {
		seed := sha256.Sum256([]byte{byte(i)})
		key := ed25519.NewKeyFromSeed(seed[:]).Public().(ed25519.PublicKey)
		c := cosigner{name: fmt.Sprintf("witness%d", i+1), key: key, standIn: standIn(key)}
		real := witness.OfCosigner(c.name, key)
		c.verifier = verifier{real, func(text, signature []byte) bool {
			return len(signature) == 8+ed25519.SignatureSize &&
				c.isSigned(witness.Message(binary.BigEndian.Uint64(signature), string(text)), signature[8:])
		}}
		all = append(all, c)
	}
	return all
}()

// newObservers adds the witnesses of the plan to the world.
func (w *world) newObservers() {
	for i := range w.plan.Witnesses.Count {
		w.observers = append(w.observers, &observer{w: w, cosigner: cosigners[i]})
	}
}

// witnesses returns the witnesses that a machine's node asks.
func (m *machine) witnesses() node.Witnesses {
	all := node.Witnesses{Quorums: m.w.plan.Witnesses.Quorums}
	for _, o := range m.w.observers {
		all.All = append(all.All, asked{o, m})
	}
	return all
}

// asked implements a witness for a machine's node.
type asked struct {
	*observer
	m *machine
}

func (a asked) Verifier() note.Verifier { return a.verifier }

func (a asked) AddCheckpoint(ctx context.Context, body []byte) (status int, answer string, err error) {
	what := "add "
	if r, err := witness.ParseRequest(body); err == nil {
		what += fmt.Sprintf("from %d: %s", r.Old, strings.Join(strings.SplitN(r.Text, "\n", 3)[1:2], ""))
	}
	err = a.m.call(ctx, a.name, what, false, func() error {
		status, answer = a.answers(body)
		if status != http.StatusOK {
			a.w.log(a.name, "answers", fmt.Sprintf("%d %.60q", status, answer), "")
		}
		return nil
	})
	return status, answer, err
}

// answers answers a request as a witness does (C2SP tlog-witness): it checks the log's signature, asks the proved
// decision, stores the message, and cosigns it.
func (o *observer) answers(body []byte) (status int, answer string) {
	r, err := witness.ParseRequest(body)
	if err != nil {
		return http.StatusBadRequest, err.Error()
	}
	if o.says > 0 {
		o.says--
		return o.wrong(r)
	}
	head, err := readNote(string(r.Note))
	if err != nil {
		return http.StatusForbidden, err.Error()
	}
	seconds := uint64(epoch.Add(o.w.now).Unix())
	var message []byte
	if len(o.messages) == 0 {
		message, err = wagtenib.WitnessFirst(Origin, r.Text, r.Old, r.Proof, seconds)
	} else {
		message, err = wagtenib.WitnessCosign(o.last(), r.Text, r.Old, r.Proof, seconds)
	}
	switch {
	case errors.Is(err, wagtenib.ErrNotLast) || errors.Is(err, wagtenib.ErrFork):
		return http.StatusConflict, fmt.Sprintf("%d\n", o.size())
	case errors.Is(err, wagtenib.ErrNoCheckpoint) || errors.Is(err, wagtenib.ErrOldAbove):
		return http.StatusBadRequest, err.Error()
	case errors.Is(err, wagtenib.ErrTimeFalls) || errors.Is(err, wagtenib.ErrMemory):
		return http.StatusServiceUnavailable, err.Error()
	case err != nil:
		return http.StatusUnprocessableEntity, err.Error()
	}
	o.w.judge.cosigns(o, head)
	o.messages = append(o.messages, message)
	return http.StatusOK, o.line(message, seconds)
}

// last returns the message that was cosigned last, or nil.
func (o *observer) last() []byte {
	if len(o.messages) == 0 {
		return nil
	}
	return o.messages[len(o.messages)-1]
}

// size returns the size of the tree that was cosigned last.
func (o *observer) size() uint64 {
	if tree, err := wagtenib.WitnessState(o.last(), o.last()); err == nil {
		return tree.TreeSize
	}
	return 0
}

// wrong returns an answer that no correct witness gives: a size that it never saw, no size, or a cosignature of another
// message.
func (o *observer) wrong(r witness.Request) (status int, answer string) {
	switch o.which % 3 {
	case 0:
		return http.StatusConflict, fmt.Sprintf("%d\n", o.size()+3)
	case 1:
		return http.StatusConflict, "many\n"
	}
	return http.StatusOK, o.line([]byte("another message"), 1)
}

// line returns the signature line of a cosignature (C2SP tlog-cosignature).
func (o *observer) line(message []byte, seconds uint64) string {
	blob := binary.BigEndian.AppendUint32(nil, o.verifier.KeyHash())
	blob = append(binary.BigEndian.AppendUint64(blob, seconds), o.sign(message)...)
	return "— " + o.name + " " + base64.StdEncoding.EncodeToString(blob) + "\n"
}

// rollBack rolls a witness back, and reports whether it had cosigned more.
func (o *observer) rollBack(by int) bool {
	if len(o.messages) == 0 {
		return false
	}
	o.messages = o.messages[:max(0, len(o.messages)-by)]
	o.rolled = true
	return true
}

// mayRoll reports whether one more witness may be rolled back in this history. If all witnesses are rolled back with
// the log, none of them shows this.
func (w *world) mayRoll() bool {
	rolled := 0
	for _, o := range w.observers {
		if o.rolled {
			rolled++
		}
	}
	return rolled < w.plan.Witnesses.Quorums.Faults
}

// cosigns judges a checkpoint that a witness cosigns. It must be a head of the list, unless the witness was rolled
// back, or the machine that signed it cannot know the list's newest head.
func (j *judge) cosigns(by *observer, head ct.TreeHead) {
	j.stats.Cosigned++
	if !by.rolled && !j.w.excuses.theirs[head] {
		j.isLists(head, fmt.Sprintf("%s cosigns a head of %d entries at %d ms, which", by.name, head.TreeSize,
			head.Timestamp), "a cosigned head is the list's")
	}
}

// witnessed judges whether enough witnesses cosigned a note.
func (j *judge) witnessed(name, signed string) {
	least := j.w.plan.Witnesses.Quorums.Publish
	if j.w.plan.Witnesses.Count == 0 {
		return
	}
	text, lines, _ := strings.Cut(signed, "\n\n")
	by := map[string]bool{}
	for _, line := range strings.Split(lines, "\n") {
		for _, o := range j.w.observers {
			if o.isLine(text+"\n", line) {
				by[o.name] = true
			}
		}
	}
	if len(by) < least {
		j.breaks("a head has its cosignatures", "%s has those of %d witnesses, and %d are needed", name, len(by), least)
	}
}

// isLine reports whether a line is this witness's cosignature of a text.
func (o *observer) isLine(text, line string) bool {
	blob, err := base64.StdEncoding.DecodeString(strings.TrimPrefix(line, "— "+o.name+" "))
	if err != nil || len(blob) != 4+8+ed25519.SignatureSize {
		return false
	}
	id := sha256.Sum256(append([]byte(o.name+"\n\x04"), o.key...))
	message := fmt.Sprintf("cosignature/v1\ntime %d\n%s", binary.BigEndian.Uint64(blob[4:12]), text)
	return bytes.Equal(blob[:4], id[:4]) && o.isSigned([]byte(message), blob[12:])
}
