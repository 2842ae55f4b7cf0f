package httpd

import (
	"cmp"
	"container/list"
	"context"
	"fmt"
	"net"
	"net/http"
	"net/netip"
	"sync"
	"sync/atomic"

	"wagtenib/internal/blob"
	"wagtenib/internal/log"
)

// budget counts bytes up to a bound.
type budget struct {
	max  int64
	used atomic.Int64
}

func (b *budget) take(bytes int64) bool {
	if b.used.Add(bytes) > b.max {
		b.used.Add(-bytes)
		return false
	}
	return true
}

func (b *budget) give(bytes int64) { b.used.Add(-bytes) }

// held counts the bytes of objects that one request has read and not yet answered. They count in the budget of all
// requests and among the bytes of its client. A nil held counts nothing.
type held struct {
	all      *budget
	byClient *counts
	client   netip.Addr
	bytes    int64
}

// heldKey is the key of the held in the context of a request.
type heldKey struct{}

func heldIn(ctx context.Context) *held {
	h, _ := ctx.Value(heldKey{}).(*held)
	return h
}

// change adds so many bytes to those that are held, or returns an error if there is no room. A number below 0 gives
// bytes back.
func (h *held) change(bytes int64) error {
	if h == nil {
		return nil
	}
	if bytes <= 0 {
		h.all.give(-bytes)
		h.byClient.giveSome(h.client, int(-bytes))
	} else if !h.byClient.takeSome(h.client, int(bytes)) {
		return refusal{status: http.StatusTooManyRequests, name: "too-many-bytes", after: 1}
	} else if !h.all.take(bytes) {
		h.byClient.giveSome(h.client, int(bytes))
		return fmt.Errorf("%w: answers have %d bytes", log.ErrBusy, h.all.used.Load())
	}
	h.bytes += bytes
	return nil
}

// giveAll gives back all bytes that are held.
func (h *held) giveAll() { _ = h.change(-h.bytes) }

// Submitter is a client with a bound of its own. All addresses of its prefix together may have Max connections at once,
// or behind a proxy, Max requests at once.
type Submitter struct {
	Prefix netip.Prefix
	Max    int
}

// counts counts by address, up to a bound for each. All IPv6 addresses of one /64 count together, because one customer
// has them. All addresses of one submitter count together.
type counts struct {
	max        int
	submitters []Submitter
	mutex      sync.Mutex
	byGroup    map[netip.Prefix]int
}

func (c *counts) take(address netip.Addr) bool { return c.takeSome(address, 1) }

func (c *counts) takeSome(address netip.Addr, some int) bool {
	group, bound := c.groupOf(address)
	c.mutex.Lock()
	defer c.mutex.Unlock()
	if c.byGroup[group]+some > bound {
		return false
	}
	if c.byGroup == nil {
		c.byGroup = map[netip.Prefix]int{}
	}
	c.byGroup[group] += some
	return true
}

func (c *counts) give(address netip.Addr) { c.giveSome(address, 1) }

func (c *counts) giveSome(address netip.Addr, some int) {
	if some == 0 {
		return
	}
	group, _ := c.groupOf(address)
	c.mutex.Lock()
	defer c.mutex.Unlock()
	if c.byGroup[group] -= some; c.byGroup[group] <= 0 {
		delete(c.byGroup, group)
	}
}

// groupOf returns the group of addresses with which an address counts, and the bound of that group.
func (c *counts) groupOf(address netip.Addr) (group netip.Prefix, bound int) {
	if of, is := submitterOf(address, c.submitters); is {
		return of.Prefix, of.Max
	}
	return groupOf(address), c.max
}

// groupOf returns the addresses that share the bounds of an address. The zero address has a group of its own.
func groupOf(address netip.Addr) netip.Prefix {
	bits := address.BitLen()
	if address.Is6() {
		bits = 64
	}
	return netip.PrefixFrom(address.WithZone(""), bits).Masked()
}

// submitterOf returns the submitter with this address. If several prefixes contain it, the longest prefix decides.
func submitterOf(address netip.Addr, submitters []Submitter) (found Submitter, isFound bool) {
	for _, submitter := range submitters {
		if submitter.Prefix.Contains(address) && (!isFound || submitter.Prefix.Bits() > found.Prefix.Bits()) {
			found, isFound = submitter, true
		}
	}
	return found, isFound
}

// addressOf returns the address of an address and port, or the zero address if the text has another form.
func addressOf(text string) netip.Addr {
	pair, err := netip.ParseAddrPort(text)
	if err != nil {
		return netip.Addr{}
	}
	return pair.Addr().Unmap().WithZone("")
}

// connections counts the open connections of clients, and holds those that may be closed if there are too many.
type connections struct {
	open      atomic.Int64
	byAddress counts
	mutex     sync.Mutex
	// idle has the connections without a request, the longest idle one first. halves has those from which a body is
	// being read, the one with the oldest read first.
	idle, halves ordered
}

// ordered holds connections in the order in which they were added.
type ordered struct {
	list     list.List
	elements map[*open]*list.Element
}

func (l *ordered) add(connection *open) {
	if l.elements == nil {
		l.elements = map[*open]*list.Element{}
	}
	l.elements[connection] = l.list.PushBack(connection)
}

func (l *ordered) remove(connection *open) {
	if at, there := l.elements[connection]; there {
		l.list.Remove(at)
		delete(l.elements, connection)
	}
}

// first returns the connection that was added first, or nil.
func (l *ordered) first() *open {
	if first := l.list.Front(); first != nil {
		return first.Value.(*open)
	}
	return nil
}

// setIdle notes whether a connection has no request.
func (c *connections) setIdle(connection *open, idle bool) { c.note(&c.idle, connection, idle) }

// setReading notes whether a body is being read from a connection.
func (c *connections) setReading(connection *open, reading bool) {
	c.note(&c.halves, connection, reading)
}

func (c *connections) note(in *ordered, connection *open, is bool) {
	c.mutex.Lock()
	defer c.mutex.Unlock()
	in.remove(connection)
	if is && !connection.isClosed {
		in.add(connection)
	}
}

// leave notes that a connection is closed.
func (c *connections) leave(connection *open) {
	c.mutex.Lock()
	defer c.mutex.Unlock()
	c.idle.remove(connection)
	c.halves.remove(connection)
	connection.isClosed = true
}

// closeOne closes the connection that is idle for the longest. If none is idle, it closes the one whose body is being
// read for the longest, because the body of an honest client comes at once. It reports whether it closed one. The mutex
// is held until the connection is closed, so that no request on it is accepted in between.
func (c *connections) closeOne() bool {
	c.mutex.Lock()
	connection := cmp.Or(c.idle.first(), c.halves.first())
	if connection == nil {
		c.mutex.Unlock()
		return false
	}
	c.idle.remove(connection)
	c.halves.remove(connection)
	_ = connection.Conn.Close()
	c.mutex.Unlock()
	connection.Close()
	return true
}

// uses counts what clients use at the same time, each against its bound.
type uses struct {
	connections connections
	requests    counts
	// waiting counts the bytes of submissions, and answers those of objects for responses. waitingByClient and
	// answersByClient count the same bytes for each client, and proofsByClient proofs.
	waiting, answers                 budget
	waitingByClient, answersByClient counts
	proofsByClient                   counts
	// checks holds an element for each chain that is being checked, and packs for each answer that is being compressed.
	checks, packs chan struct{}
	rates         map[cost]*rates
}

func usesOf(limits Limits) uses {
	return uses{
		connections:     connections{byAddress: counts{max: limits.ConnectionsByAddress, submitters: limits.Submitters}},
		requests:        counts{max: limits.ConnectionsByAddress, submitters: limits.Submitters},
		waiting:         budget{max: limits.WaitingBytes},
		waitingByClient: counts{max: byAddress(limits.WaitingBytes, MaxBody)},
		answers:         budget{max: limits.AnswerBytes},
		answersByClient: counts{max: byAddress(limits.AnswerBytes, blob.MaxObject+likelyEntries)},
		proofsByClient:  counts{max: limits.ProofsByAddress},
		checks:          make(chan struct{}, limits.Checks),
		packs:           make(chan struct{}, limits.Checks),
		rates:           map[cost]*rates{aSubmission: newRates(limits.SubmissionRate), aRead: newRates(limits.ReadRate)},
	}
}

// bounded is a listener that closes connections above the bounds of a front. Connections of a proxy have only the bound
// for all clients together.
type bounded struct {
	net.Listener
	front *Front
}

func (l bounded) Accept() (net.Conn, error) {
	for {
		connection, err := l.Listener.Accept()
		if err != nil {
			return nil, err
		}
		if taken := l.front.takeConnection(connection); taken != nil {
			return taken, nil
		}
		connection.Close()
	}
}

func (f *Front) takeConnection(connection net.Conn) net.Conn {
	address := addressOf(connection.RemoteAddr().String())
	counted := !f.isProxy(address)
	if counted && !f.uses.connections.byAddress.take(address) {
		f.metrics.refused.WithLabelValues("address").Inc()
		return nil
	}
	for f.uses.connections.open.Add(1) > int64(f.limits.Connections) {
		f.uses.connections.open.Add(-1)
		if !f.uses.connections.closeOne() {
			if counted {
				f.uses.connections.byAddress.give(address)
			}
			f.metrics.refused.WithLabelValues("all").Inc()
			return nil
		}
		f.metrics.closedIdle.Inc()
	}
	taken := &open{Conn: connection, isClient: true}
	taken.closed = func() {
		f.uses.connections.leave(taken)
		f.uses.connections.open.Add(-1)
		if counted {
			f.uses.connections.byAddress.give(address)
		}
	}
	f.uses.connections.setIdle(taken, true)
	return taken
}

// open is a connection that is counted until it is closed. It calls closed once.
type open struct {
	net.Conn
	once   sync.Once
	closed func()
	// isClient is true if it is a client's, and so may be closed to make room. isClosed is true after it was closed.
	isClient, isClosed bool
}

// Close frees the slot before it closes the connection. So a client that sees the end of its connection and opens
// another one at once is not refused.
func (o *open) Close() error {
	o.once.Do(o.closed)
	return o.Conn.Close()
}

// limitedListener is a listener that closes a connection at once if all slots of its channel are taken.
type limitedListener struct {
	net.Listener
	slots chan struct{}
}

func (l limitedListener) Accept() (net.Conn, error) {
	for {
		connection, err := l.Listener.Accept()
		if err != nil {
			return nil, err
		}
		select {
		case l.slots <- struct{}{}:
			return &open{Conn: connection, closed: func() { <-l.slots }}, nil
		default:
			connection.Close()
		}
	}
}
