package blob

import (
	"context"
	"errors"
	"net"
	"sync/atomic"
	"testing"
	"time"

	"go.etcd.io/etcd/api/v3/etcdserverpb"
	"go.etcd.io/etcd/api/v3/mvccpb"
	"go.etcd.io/etcd/api/v3/v3rpc/rpctypes"
	"go.etcd.io/etcd/client/v3"
	"google.golang.org/grpc"
)

// member stands in for a member of etcd. It returns a text for each key, and accepts each transaction. A member that is
// partitioned from its peers knows no leader, and never answers the calls that it receives.
type member struct {
	etcdserverpb.KVServer
	etcdserverpb.MaintenanceServer
	address         string
	partitioned     atomic.Bool
	calls, statuses atomic.Uint64
}

func newMember(t *testing.T, partitioned bool) *member {
	t.Helper()
	listener, err := net.Listen("tcp", "127.0.0.1:0")
	must(t, err)
	m := &member{address: listener.Addr().String()}
	m.partitioned.Store(partitioned)
	server := grpc.NewServer()
	etcdserverpb.RegisterKVServer(server, m)
	etcdserverpb.RegisterMaintenanceServer(server, m)
	go server.Serve(listener)
	t.Cleanup(server.Stop)
	return m
}

func (m *member) Status(context.Context, *etcdserverpb.StatusRequest) (*etcdserverpb.StatusResponse, error) {
	m.statuses.Add(1)
	if m.partitioned.Load() {
		return &etcdserverpb.StatusResponse{Errors: []string{"etcdserver: no leader"}}, nil
	}
	return &etcdserverpb.StatusResponse{Leader: 1}, nil
}

// call waits until the context ends if the member is partitioned.
func (m *member) call(ctx context.Context) error {
	m.calls.Add(1)
	if m.partitioned.Load() {
		<-ctx.Done()
	}
	return ctx.Err()
}

func (m *member) Range(ctx context.Context, asked *etcdserverpb.RangeRequest) (*etcdserverpb.RangeResponse, error) {
	if err := m.call(ctx); err != nil {
		return nil, err
	}
	return &etcdserverpb.RangeResponse{Kvs: []*mvccpb.KeyValue{{Key: asked.Key, Value: []byte("text")}}, Count: 1}, nil
}

func (m *member) Txn(ctx context.Context, _ *etcdserverpb.TxnRequest) (*etcdserverpb.TxnResponse, error) {
	if err := m.call(ctx); err != nil {
		return nil, err
	}
	return &etcdserverpb.TxnResponse{Succeeded: true}, nil
}

// TestPartitionedMember: a partitioned member delays no call for longer than maxCallTime, is left out after the first
// call, and is called again after it knows a leader.
func TestPartitionedMember(t *testing.T) {
	whole, partitioned := newMember(t, false), newMember(t, true)
	opened, err := OpenEtcd(Etcd{clientv3.Config{Endpoints: []string{partitioned.address, whole.address}}, "log"})
	must(t, err)
	defer opened.Close()
	lock := opened.(*inEtcd)
	lock.client.leftOutFor = time.Hour
	// The client connects to both members in the background. If the other member answers too late that it knows a
	// leader, no member is left out yet. So the test reads until both have happened.
	for partitioned.calls.Load() == 0 || len(lock.client.Endpoints()) != 1 {
		if text, err := lock.Read(limited(t)); err != nil || text != "text" {
			t.Fatalf("read: %q, %v", text, err)
		}
	}
	before := partitioned.calls.Load()
	for i := 0; i < 10; i++ {
		if text, err := lock.Read(limited(t)); err != nil || text != "text" {
			t.Fatalf("read: %q, %v", text, err)
		}
		must(t, lock.Swap(limited(t), "text", "other"))
	}
	if calls := partitioned.calls.Load(); calls > before {
		t.Errorf("a member without a leader was called %d times more", calls-before)
	}
	partitioned.partitioned.Store(false)
	lock.client.mu.Lock()
	lock.client.leftOutFor = 0
	lock.client.mu.Unlock()
	for ctx := limited(t); partitioned.calls.Load() == before; {
		if _, err := lock.Read(ctx); err != nil {
			t.Fatalf("a member that knows a leader again is not called: %v", err)
		}
	}
}

// TestPartitionedMembers: if no member knows a leader, all are called.
func TestPartitionedMembers(t *testing.T) {
	one, other := newMember(t, true), newMember(t, true)
	opened, err := OpenEtcd(Etcd{clientv3.Config{Endpoints: []string{one.address, other.address}}, "log"})
	must(t, err)
	defer opened.Close()
	read := make(chan error, 1)
	go func() {
		_, err := opened.Read(limited(t))
		read <- err
	}()
	for one.statuses.Load() == 0 || other.statuses.Load() == 0 {
		time.Sleep(time.Millisecond)
	}
	one.partitioned.Store(false)
	other.partitioned.Store(false)
	must(t, <-read)
	if all := len(opened.(*inEtcd).client.Endpoints()); all != 2 {
		t.Errorf("%d of 2 members are called", all)
	}
}

// TestRepeatsNoDeniedCall: a call that etcd refuses is not repeated. After a call with an unknown outcome the error
// does not claim that nothing was done.
func TestRepeatsNoDeniedCall(t *testing.T) {
	at := newMember(t, false)
	opened, err := OpenEtcd(Etcd{clientv3.Config{Endpoints: []string{at.address}}, "log"})
	must(t, err)
	defer opened.Close()
	lost := errors.New("the connection is lost")
	for _, errs := range [][]error{{rpctypes.ErrNoSpace}, {lost, rpctypes.ErrNoSpace},
		{lost, lost, rpctypes.ErrTooManyOps}} {
		calls := 0
		_, err = atMembers(limited(t), opened.(*inEtcd).client, func(context.Context) (int, error) {
			calls++
			return 0, errs[calls-1]
		})
		if err != errs[0] || calls != len(errs) {
			t.Errorf("%v: %v after %d calls", errs, err, calls)
		}
	}
}
