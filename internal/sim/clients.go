package sim

import (
	"crypto/sha256"
	"errors"
	"fmt"
	"time"

	"wagtenib/bindings/go/wagtenib"
	"wagtenib/internal/ct"
	"wagtenib/internal/log/node"
)

// certificateOf returns the certificate with a number. The simulation does not parse it, so it may be any bytes.
func certificateOf(number int) []byte { return fmt.Appendf(nil, "certificate %d", number) }

// identityOf returns the identity of the entry with a number: the SHA-256 hash of the type and the certificate.
func identityOf(number int) [32]byte {
	return sha256.Sum256(append([]byte{0, 0}, certificateOf(number)...))
}

// requestWithin is the maximum time for which a client waits for an answer. tries is the maximum number of times that
// it submits one entry.
const (
	requestWithin = 20 * time.Second
	tries         = 3
)

var errUnreachable = errors.New("sim: the node does not run")

// submit submits a number to a machine for a client. It returns after the node has answered or was killed, or the
// client has given up.
func (w *world) submit(m *machine, number int) error {
	p, n := m.process, m.node
	if p == nil || p.dead || n == nil {
		return errUnreachable
	}
	var err error
	answered, guard := false, w.stores.guard
	w.spawn(p, func() {
		err = w.serve(m, n, number)
		answered = true
	})
	if !w.wait(requestWithin, func() bool { return answered || p.dead }) {
		return fmt.Errorf("sim: no answer in %v", requestWithin)
	}
	if !answered {
		return errUnreachable
	}
	w.judge.alarms(m, err, guard == w.stores.guard)
	return err
}

// serve handles a submission as an HTTP handler does: it looks up the entry, and lets it wait for a step if the log
// does not have it.
func (w *world) serve(m *machine, n *node.Node, number int) error {
	ctx, cancel := within(w.background(), requestWithin)
	defer cancel()
	request := n.Request(wagtenib.Submission{Certificate: certificateOf(number)})
	for range 4 {
		place, err := request.Lookup(ctx)
		if err != nil {
			return err
		}
		if place != nil {
			w.judge.stats.Repeats++
			w.answers(m, number, *place)
			return nil
		}
		ticket, err := request.Enqueue()
		if err != nil {
			return err
		}
		if !w.wait(ctx.left(), func() bool { return isClosed(ticket.Done()) }) {
			return fmt.Errorf("sim: the ticket has no answer: %w", ctx.Err())
		}
		answer := ticket.Answer()
		if answer.Err != nil {
			return answer.Err
		}
		if !answer.Known {
			w.answers(m, number, answer.SCT)
			return nil
		}
	}
	return fmt.Errorf("sim: entry %d is known and is not found", number)
}

// answers logs and judges the answer to a client.
func (w *world) answers(m *machine, number int, sct ct.SCT) {
	index, _ := sct.Index()
	w.log("client", fmt.Sprintf("entry %d", number), fmt.Sprintf("%s answers %d at %d ms", m.name, index,
		sct.Timestamp), "")
	w.judge.answered(m, number, index, sct.Timestamp, sct.Signature)
}

func isClosed(done <-chan struct{}) bool {
	select {
	case <-done:
		return true
	default:
		return false
	}
}

// client submits its numbers. It submits each number up to `tries` times, until it is answered.
func (w *world) client(c Client, done func()) {
	defer done()
	w.wait(c.Begins, nil)
	at := c.Machine
	if c.Burst {
		left := len(c.Numbers)
		for _, number := range c.Numbers {
			w.spawn(nil, func() {
				_ = w.submit(w.machines[at], number)
				left--
			})
		}
		w.wait(forever, func() bool { return left == 0 })
		return
	}
	for _, number := range c.Numbers {
		for range tries {
			err := w.submit(w.machines[at], number)
			if err == nil {
				break
			}
			w.log("client", fmt.Sprintf("entry %d", number), fmt.Sprintf("%s: %v", w.machines[at].name, err), "")
			at = w.random.Intn(len(w.machines))
			w.wait(time.Duration(w.random.Intn(2000))*time.Millisecond, nil)
		}
	}
}
