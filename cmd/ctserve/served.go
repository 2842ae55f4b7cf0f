package main

import (
	"context"
	"errors"
	"fmt"
	"io/fs"
	"os"
	"path/filepath"
	"strings"
	"time"

	"wagtenib/internal/blob"
	"wagtenib/internal/log/chain"
	lognode "wagtenib/internal/log/node"
	"wagtenib/internal/log/service"
	"wagtenib/internal/tiles"
)

// shared has the stores that all nodes of a log share, and the functions that close them.
type shared struct {
	service.Stores
	calls   *blob.Calls
	closers []func() error
}

// close closes the stores, the last one that was opened first.
func (s *shared) close() {
	for i := len(s.closers) - 1; i >= 0; i-- {
		// The log has ended before, and what it stored is on the disk, so an error changes nothing.
		_ = s.closers[i]()
	}
	s.closers = nil
}

// indexAt opens the index at an address. Tests replace it, so that nodes share an index in a test's memory.
var indexAt = blob.IndexAt

// earlierIndex is the file in a log's folder in which earlier versions of ctserve kept the index, in SQLite.
const earlierIndex = "places"

// checkEarlierIndex returns node.ErrIndex if there is only the index of an earlier version of ctserve.
func checkEarlierIndex(n node) error {
	path, isFolder := strings.CutPrefix(n.index, "leveldb:")
	earlier := filepath.Join(n.folder, earlierIndex)
	if _, err := os.Stat(earlier); !isFolder || err != nil {
		return nil
	}
	if _, err := os.Stat(path); !errors.Is(err, fs.ErrNotExist) {
		return nil
	}
	return fmt.Errorf("%w: an earlier ctserve kept it in SQLite, in %s, and %s is missing "+
		"(run ctserve index, which builds it from the tiles; then delete %s)", lognode.ErrIndex, earlier, path, earlier)
}

// openStores opens the stores of a log.
func openStores(ctx context.Context, n node) (s *shared, err error) {
	s = &shared{calls: &blob.Calls{}}
	defer func() {
		if err != nil {
			s.close()
		}
	}()
	objects, current, err := openObjects(ctx, n)
	if err != nil {
		return s, err
	}
	s.Objects, s.closers = s.calls.Objects(objects), append(s.closers, objects.Close)
	if current != nil {
		s.Current = s.calls.Current(current)
	}
	lock, err := blob.LockAt(ctx, n.lock)
	if err != nil {
		return s, err
	}
	s.Lock, s.closers = s.calls.Lock(lock), append(s.closers, lock.Close)
	index, err := indexAt(ctx, n.index)
	if err != nil {
		return s, err
	}
	s.Index, s.closers = s.calls.Index(index), append(s.closers, index.Close)
	return s, nil
}

// openObjects opens the store of objects. If the log is read from the store itself, it also returns the store of the
// checkpoint.
func openObjects(ctx context.Context, n node) (blob.Objects, blob.Current, error) {
	if n.isPublic {
		return blob.OpenPublic(ctx, n.store)
	}
	objects, err := blob.ObjectsAt(ctx, n.store)
	return objects, nil, err
}

// checkStores returns an error if the log is not to be created and its objects are missing, or if there is only the
// index of an earlier version.
func checkStores(n node) error {
	if !n.create {
		// A start must not make a missing folder again, because another running node would write into it.
		if err := blob.CheckObjectsExist(n.store); err != nil {
			return err
		}
	}
	return checkEarlierIndex(n)
}

// folderMode is the mode of a log's new folder. A web server that reads the objects needs the folder's group, in which
// is no other right (docs/INCIDENTS.md).
const folderMode = 0o750

// openNode opens a log, and begins to serve it.
func openNode(ctx context.Context, n node) (of *opened, err error) {
	if n.makesFolder {
		if err := blob.MakeFolder(n.folder, folderMode); err != nil {
			return nil, err
		}
	}
	if err := blob.MakeFolder(filepath.Dir(n.latestHead), 0o755); err != nil {
		return nil, err
	}
	client, err := askSigner(ctx, n)
	if err != nil {
		return nil, err
	}
	s := &shared{}
	closeAll := func() {
		s.close()
		// The log has ended, so an error of the signer changes nothing.
		_ = client.Close()
	}
	defer func() {
		if err != nil {
			closeAll()
		}
	}()
	if err := checkStores(n); err != nil {
		return nil, err
	}
	if s, err = openStores(ctx, n); err != nil {
		return nil, err
	}
	config := n.config(s.Stores)
	config.Signer = client
	of = &opened{cutter: chain.NewCutter(), key: client.Key(), calls: s.calls}
	if s.Current != nil {
		of.putEntry = func(ctx context.Context, entry []byte) error {
			return blob.SetCurrent(ctx, s.Objects, s.Current, "log.v3.json", entry)
		}
	}
	if of.secured, err = n.peers.secure(); err != nil {
		return nil, err
	}
	log, err := service.Open(ctx, config)
	if err != nil {
		return nil, err
	}
	of.log, of.proofs, of.close = log, tiles.NewProver(log.Object, n.maxProofs), closeAll
	if of.secured != nil {
		forwarder := log.Forward(of.secured.dials)
		of.forward, of.nodes = forwarder, log.OfNodes
		of.close = func() {
			forwarder.Close()
			closeAll()
		}
	}
	return of, nil
}

// defaultInterval is the minimum time between two heads if stores are on other machines, or if the log has witnesses.
// Otherwise it is localInterval.
const defaultInterval, localInterval = 50 * time.Millisecond, 5 * time.Millisecond

// config returns the configuration of a log over its stores.
func (n *node) config(of service.Stores) service.Config {
	interval := n.interval
	if interval == 0 {
		if interval = localInterval; n.hasRemoteStore() || len(n.witnesses) > 0 {
			interval = defaultInterval
		}
	}
	return service.Config{
		Origin: n.origin, Address: n.peers.address, Create: n.create, Stores: of, Witnesses: n.witnesses,
		Quorums: n.quorums,
		Pace: service.Pace{Interval: interval, Refresh: n.refresh, MaxWritten: n.maxWritten, MaxBatch: n.maxBatch,
			MaxQueue: n.maxQueue},
		Keep: service.Keep{Heads: n.keepHeads, Tiles: n.keepTiles, Interval: n.scrubInterval, Reread: n.scrubPeriod},
		Machine: service.MachineConfig{
			Files:       service.Files{LatestHead: n.latestHead, NamedDay: n.namedDay},
			ClockBounds: service.ClockBounds{MaxSkew: n.maxSkew, Synchronized: n.synchronized},
		},
	}
}
