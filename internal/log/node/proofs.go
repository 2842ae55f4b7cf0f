package node

import (
	"context"
	"errors"
	"fmt"
	"math/bits"

	"golang.org/x/mod/sumdb/tlog"

	"wagtenib/bindings/go/wagtenib"
	"wagtenib/internal/blob"
	"wagtenib/internal/ct"
	"wagtenib/internal/log/node/step"
	"wagtenib/internal/log/signer"
	"wagtenib/internal/tiles"
)

// stored reads an object out of the store. One that is missing is ErrDamaged.
func (n *Node) stored(ctx context.Context, name string) ([]byte, error) {
	return tiles.Stored(func(ctx context.Context, name string) ([]byte, error) {
		return n.config.Stores.Objects.Get(ctx, name, blob.MaxObject)
	})(ctx, name)
}

// reading reads an object out of a step's, the edge or the store.
func (l *Loop) reading(objects []step.Object) tiles.Reader {
	return func(ctx context.Context, name string) ([]byte, error) {
		for i := range objects {
			if objects[i].Name == name {
				return objects[i].Content, nil
			}
		}
		if content, ok := l.edge[name]; ok {
			return content, nil
		}
		return l.stored(ctx, name)
	}
}

// consistency returns a consistency proof from a size to a head's (RFC 6962, section 2.1.2).
func (n *Node) consistency(ctx context.Context, first uint64, head ct.TreeHead,
	read tiles.Reader) (proof [][32]byte, err error) {
	if first == 0 {
		return nil, nil
	}
	err = tiles.Prove(ctx, head, read, func(hashes tlog.HashReader) error {
		proof = nil
		made, err := tlog.ProveTree(int64(head.TreeSize), int64(first), hashes)
		for _, hash := range made {
			proof = append(proof, hash)
		}
		return err
	})
	return proof, err
}

// paths returns the audit paths of entries in a head's tree (RFC 6962, section 2.1.1).
func paths(ctx context.Context, indexes []uint64, head ct.TreeHead, read tiles.Reader) (all [][][32]byte, err error) {
	err = tiles.Prove(ctx, head, read, func(hashes tlog.HashReader) error {
		all = nil
		for _, index := range indexes {
			made, err := tlog.ProveRecord(int64(head.TreeSize), int64(index), hashes)
			if err != nil {
				return err
			}
			path := make([][32]byte, len(made))
			for i := range made {
				path[i] = made[i]
			}
			all = append(all, path)
		}
		return nil
	})
	return all, err
}

// signTimestamps has the timestamps of receipts signed. Those of a whole step are signed over its head at once. If they
// are not, or if the signer's last head is another one, they are signed one by one.
func (n *Node) signTimestamps(ctx context.Context, receipts []wagtenib.Receipt, head ct.TreeHead,
	read tiles.Reader) ([][]byte, error) {
	if leaves := leavesTo(head.TreeSize, receipts); leaves != nil {
		signatures, err := n.signStep(ctx, receipts, leaves, head, read)
		if err == nil || !errors.Is(err, signer.ErrRefused) && !errors.Is(err, signer.ErrMoved) {
			return signatures, err
		}
	}
	return n.signSingly(ctx, receipts, head, read)
}

// leavesTo returns the leaves of receipts in order, each once, if they are those of a tree from the first one to its
// end, and nil otherwise. The same entry may be in a batch twice.
func leavesTo(size uint64, receipts []wagtenib.Receipt) (leaves [][]byte) {
	first := receipts[0].LeafIndex
	for _, r := range receipts {
		switch known := uint64(len(leaves)); {
		case r.LeafIndex == first+known:
			leaves = append(leaves, r.Signed)
		case r.LeafIndex < first || r.LeafIndex > first+known:
			return nil
		}
	}
	if first+uint64(len(leaves)) != size {
		return nil
	}
	return leaves
}

// signStep has the timestamps of a step signed, whose head is the signer's last one.
func (n *Node) signStep(ctx context.Context, receipts []wagtenib.Receipt, leaves [][]byte, head ct.TreeHead,
	read tiles.Reader) ([][]byte, error) {
	first := receipts[0].LeafIndex
	subtrees, err := subtreesOf(ctx, first, head, read)
	if err != nil {
		return nil, err
	}
	signed, err := n.config.Signer.SignStep(ctx, signer.Step{First: first, Subtrees: subtrees, Leaves: leaves})
	if err != nil {
		return nil, fmt.Errorf("node: timestamps: %w", err)
	}
	signatures := make([][]byte, len(receipts))
	for i, r := range receipts {
		signatures[i] = signed[r.LeafIndex-first]
	}
	return signatures, nil
}

// subtreesOf returns the roots of the perfect subtrees of the first leaves of a head's tree, largest first.
func subtreesOf(ctx context.Context, first uint64, head ct.TreeHead, read tiles.Reader) (roots [][32]byte, err error) {
	var indexes []int64
	for level := bits.Len64(first) - 1; level >= 0; level-- {
		if number := first >> level; number%2 == 1 {
			indexes = append(indexes, tlog.StoredHashIndex(level, int64(number-1)))
		}
	}
	err = tiles.Prove(ctx, head, read, func(hashes tlog.HashReader) error {
		found, err := hashes.ReadHashes(indexes)
		roots = make([][32]byte, len(found))
		for i := range found {
			roots[i] = found[i]
		}
		return err
	})
	return roots, err
}

// signSingly has timestamps signed with their paths in the tree of the signer's last head. A head is the first one that
// is tried as the last. If the signer refuses it, it may know only an older one that this node had it approve, while
// another node's signer went on. So it is asked which its last one is, which it then reads.
func (n *Node) signSingly(ctx context.Context, receipts []wagtenib.Receipt, head ct.TreeHead,
	read tiles.Reader) ([][]byte, error) {
	for try := 0; ; try++ {
		last := &head
		if try > 0 {
			var err error
			if last, err = n.config.Signer.Last(ctx); err != nil {
				return nil, fmt.Errorf("node: the signer: %w", err)
			}
		}
		asked, indexes := make([]signer.Receipt, len(receipts)), make([]uint64, len(receipts))
		for i, r := range receipts {
			if last == nil || r.LeafIndex >= last.TreeSize {
				return nil, fmt.Errorf("node: entry %d is not in the signer's last head: %w", r.LeafIndex,
					signer.ErrRefused)
			}
			asked[i], indexes[i] = signer.Receipt{Leaf: r.Signed, Index: r.LeafIndex}, r.LeafIndex
		}
		proofs, err := paths(ctx, indexes, *last, read)
		if err != nil {
			return nil, err
		}
		for i := range asked {
			asked[i].Path = proofs[i]
		}
		signatures, err := n.config.Signer.SignTimestamps(ctx, asked)
		if err == nil {
			return signatures, nil
		}
		isOlder := try == 0 && errors.Is(err, signer.ErrRefused)
		if try+1 == maxAsked || !isOlder && !n.moved(ctx, last, err) {
			return nil, fmt.Errorf("node: timestamps: %w", err)
		}
	}
}
