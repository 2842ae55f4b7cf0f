package blob

import (
	"context"
	"fmt"
	"time"

	"go.etcd.io/etcd/client/v3"
	"go.uber.org/zap"
)

// Etcd holds the endpoints of a cluster, and the prefix of a log's keys in it. TLS settings and user names are in the
// client's own Config.
type Etcd struct {
	Config clientv3.Config
	Prefix string
}

// open makes a client. Only the first call of the client shows whether a member answers.
func (at Etcd) open() (*members, error) {
	if at.Prefix == "" {
		return nil, fmt.Errorf("%w: the prefix in etcd", ErrEmpty)
	}
	config := at.Config
	if config.DialTimeout == 0 {
		config.DialTimeout = 5 * time.Second
	}
	// The client drops a member that has stopped answering.
	if config.DialKeepAliveTime == 0 {
		config.DialKeepAliveTime, config.DialKeepAliveTimeout = 5*time.Second, 5*time.Second
	}
	// The calls report what the client would log.
	if config.LogConfig == nil {
		quiet := zap.NewProductionConfig()
		quiet.Level = zap.NewAtomicLevelAt(zap.ErrorLevel)
		config.LogConfig = &quiet
	}
	client, err := clientv3.New(config)
	if err != nil {
		return nil, fmt.Errorf("stores: etcd: %w", err)
	}
	return newMembers(client), nil
}

// inEtcd keeps the lock in two keys: the text, and the size and the timestamp of the published head.
//
// The cluster must promise that transactions and reads are linearizable, and that what a majority acknowledged
// persists. Reads are linearizable unless the client asks for a serializable one, and none here does. For writes to
// persist, members must keep their data folders and must not run with --unsafe-no-fsync. A restore from a backup rolls
// the lock back, so it must not be done while a log uses the cluster. Old revisions must be compacted
// (--auto-compaction-retention): each swap and each raise leaves one, nobody reads them, and they fill the cluster's
// quota.
type inEtcd struct {
	client     *members
	text, head string
}

// OpenEtcd opens the lock below a prefix.
func OpenEtcd(at Etcd) (Lock, error) {
	client, err := at.open()
	if err != nil {
		return nil, err
	}
	return &inEtcd{client, at.Prefix + "/text", at.Prefix + "/head"}, nil
}

// isAbsent returns the condition that a key does not exist.
func isAbsent(key string) clientv3.Cmp { return clientv3.Compare(clientv3.Version(key), "=", 0) }

// inOrder returns a number as a text of 20 digits, so that texts have the order of the numbers.
func inOrder(number uint64) string { return fmt.Sprintf("%020d", number) }

// etcdWriteError wraps the error of a write. It is ErrUnknown, since the write may have been done, unless etcd reports
// that it was not.
func etcdWriteError(what string, err error) error {
	if isDenied(err) {
		return fmt.Errorf("stores: etcd: %s: %w", what, err)
	}
	return fmt.Errorf("%w: etcd: %s: %v", ErrUnknown, what, err)
}

func (e *inEtcd) Create(ctx context.Context, text string) error {
	if err := checkText(text); err != nil {
		return err
	}
	answer, err := e.client.Txn(ctx).If(isAbsent(e.text), isAbsent(e.head)).
		Then(clientv3.OpPut(e.text, text), clientv3.OpPut(e.head, headInOrder(Published{}))).Commit()
	if err != nil {
		return etcdWriteError("create", err)
	}
	if !answer.Succeeded {
		return ErrExists
	}
	return nil
}

func (e *inEtcd) get(ctx context.Context, key string) (string, error) {
	answer, err := atMembers(ctx, e.client, func(ctx context.Context) (*clientv3.GetResponse, error) {
		return e.client.Get(ctx, key)
	})
	if err != nil {
		return "", fmt.Errorf("stores: etcd: read: %w", err)
	}
	if len(answer.Kvs) == 0 {
		return "", ErrAbsent
	}
	return string(answer.Kvs[0].Value), nil
}

func (e *inEtcd) Read(ctx context.Context) (string, error) { return e.get(ctx, e.text) }

func (e *inEtcd) Swap(ctx context.Context, old, new string) error {
	if err := checkText(old, new); err != nil {
		return err
	}
	// If the key does not exist, each comparison with its value is false.
	answer, err := e.client.commit(ctx, func(swap clientv3.Txn) clientv3.Txn {
		return swap.If(clientv3.Compare(clientv3.Value(e.text), "=", old)).Then(clientv3.OpPut(e.text, new)).Else(
			clientv3.OpGet(e.text))
	})
	if err != nil {
		return etcdWriteError("swap", err)
	}
	if answer.Succeeded {
		return nil
	}
	current := answer.Responses[0].GetResponseRange().Kvs
	switch {
	case len(current) == 0:
		return ErrAbsent
	case string(current[0].Value) == new:
		return nil
	}
	return ErrLost
}

// headInOrder returns a size and a timestamp as a text, so that texts have the order of the heads.
func headInOrder(p Published) string { return inOrder(p.Size) + "-" + inOrder(p.Timestamp) }

// headFormInOrder is the format of the text that headInOrder returns.
const headFormInOrder = "%020d-%020d"

// Published implements Lock.
func (e *inEtcd) Published(ctx context.Context) (published Published, err error) {
	head, err := e.get(ctx, e.head)
	if err != nil {
		return published, err
	}
	if n, err := fmt.Sscanf(head, headFormInOrder, &published.Size, &published.Timestamp); n != 2 || err != nil {
		return Published{}, fmt.Errorf("stores: etcd: %s has %.60q instead of the published head", e.head, head)
	}
	return published, nil
}

// Raise implements Lock.
func (e *inEtcd) Raise(ctx context.Context, published Published) error {
	if err := checkNumbers(published.Size, published.Timestamp); err != nil {
		return err
	}
	head := headInOrder(published)
	answer, err := e.client.commit(ctx, func(txn clientv3.Txn) clientv3.Txn {
		// The outer transaction distinguishes a missing key from a head that is not older. Both fail the comparison.
		raise := clientv3.OpTxn([]clientv3.Cmp{clientv3.Compare(clientv3.Value(e.head), "<", head)},
			[]clientv3.Op{clientv3.OpPut(e.head, head)}, nil)
		return txn.If(isAbsent(e.head)).Else(raise)
	})
	if err != nil {
		return etcdWriteError("raise", err)
	}
	if answer.Succeeded {
		return ErrAbsent
	}
	return nil
}

func (e *inEtcd) Close() error { return e.client.Close() }
