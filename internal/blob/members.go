package blob

import (
	"context"
	"errors"
	"sync"
	"time"

	"go.etcd.io/etcd/api/v3/v3rpc/rpctypes"
	"go.etcd.io/etcd/client/v3"
)

// A member of etcd that its peers cannot reach receives calls, but does not answer them until its peers can reach it
// again. So a call waits for one member for maxCallTime, and is then made at the next member. The last of maxCalls has
// all the time that the caller's context leaves, because the cluster may be complete but slow.
const (
	maxCallTime = 1500 * time.Millisecond
	maxCalls    = 5
)

const (
	// maxStatusTime is how long a member has to answer whether it knows a leader. minCheckInterval is the minimum time
	// between two checks of all members.
	maxStatusTime    = 750 * time.Millisecond
	minCheckInterval = time.Second
	// leftOutFor is the minimum time for which a member that knew no leader gets no calls.
	leftOutFor = 10 * time.Second
)

// members is a client that calls only those members of a cluster that know a leader. If none of them does, it calls
// all.
type members struct {
	*clientv3.Client
	all        []string
	leftOutFor time.Duration

	mu sync.Mutex
	// lastCheck is the time of the last check of the members. hasLeftOut says whether it left some of them out.
	lastCheck  time.Time
	hasLeftOut bool
}

func newMembers(client *clientv3.Client) *members {
	return &members{Client: client, all: client.Endpoints(), leftOutFor: leftOutFor}
}

// isDenied reports whether an error of etcd says that a write was not done, and cannot be done at another member.
func isDenied(err error) bool {
	var reported rpctypes.EtcdError
	return errors.As(err, &reported) && (reported == rpctypes.ErrNoSpace || reported == rpctypes.ErrRequestTooLarge ||
		reported == rpctypes.ErrTooManyOps)
}

// atMembers repeats a call until a member answers, maxCalls were made, or the context ends. The call must be one that
// may be made more than once.
func atMembers[T any](ctx context.Context, m *members, call func(context.Context) (T, error)) (answer T, err error) {
	m.takeBack()
	var earlier error
	for calls := 1; ; calls++ {
		one, cancel := ctx, func() {}
		if calls < maxCalls {
			one, cancel = context.WithTimeout(ctx, maxCallTime)
		}
		answer, err = call(one)
		cancel()
		if isDenied(err) && earlier != nil {
			// An earlier call may have been done, so the denial must not be returned.
			return answer, earlier
		}
		if err == nil || ctx.Err() != nil || calls == maxCalls || isDenied(err) {
			return answer, err
		}
		earlier = err
		m.leaveOut()
	}
}

// commit commits a transaction as atMembers makes calls. The transaction must be one that may be committed more than
// once.
func (m *members) commit(ctx context.Context, build func(clientv3.Txn) clientv3.Txn) (*clientv3.TxnResponse, error) {
	return atMembers(ctx, m, func(ctx context.Context) (*clientv3.TxnResponse, error) {
		return build(m.Txn(ctx)).Commit()
	})
}

// leaveOut checks, after a failed call, which members must be left out.
func (m *members) leaveOut() {
	m.mu.Lock()
	defer m.mu.Unlock()
	if time.Since(m.lastCheck) >= minCheckInterval {
		m.check()
	}
}

// takeBack checks, in parallel with the calls, whether members that were left out can be called again.
func (m *members) takeBack() {
	if !m.mu.TryLock() {
		return
	}
	if !m.hasLeftOut || time.Since(m.lastCheck) < m.leftOutFor {
		m.mu.Unlock()
		return
	}
	go func() {
		defer m.mu.Unlock()
		m.check()
	}()
}

// check asks each member whether it knows a leader, and lets the client call only those that do. The caller must hold
// the mutex.
func (m *members) check() {
	knows := make([]bool, len(m.all))
	var asked sync.WaitGroup
	for i := range m.all {
		asked.Add(1)
		go func(i int) {
			defer asked.Done()
			ctx, cancel := context.WithTimeout(m.Ctx(), maxStatusTime)
			defer cancel()
			status, err := m.Status(ctx, m.all[i])
			knows[i] = err == nil && status.Leader != 0
		}(i)
	}
	asked.Wait()
	var withLeader []string
	for i, endpoint := range m.all {
		if knows[i] {
			withLeader = append(withLeader, endpoint)
		}
	}
	if len(withLeader) == 0 {
		withLeader = m.all
	}
	m.lastCheck, m.hasLeftOut = time.Now(), len(withLeader) < len(m.all)
	if m.Ctx().Err() == nil {
		m.SetEndpoints(withLeader...)
	}
}
